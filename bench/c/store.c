// The store by hand in C, by the rules of docs/RULES.md: what the same job costs a C programmer who pays for the same promises. Every
// call tests the whole record (refusal 2), and Begin, Commit and Abort clear a transaction's marks whole, whatever buffer is lent. The
// harness holds it to the twin, call by call, before it times it.
//
// A standing is two numbers, so that 0 and 0 is Untouched: `offset` is one more than the offset that it carries, or 0; `advance` is two
// more than the advance that it carries, 1 where it is Known, or 0.
#include <emmintrin.h>
#include <stddef.h>
#include <stdint.h>
#include <string.h>

enum { FILES = 8, DESCRIPTORS = 16, TRANSACTIONS = 8, RECORDS = 64, SPAN = 4096, BUFFER = 32768, MINUTES = 1440, STEP = 8 };
enum { KNOWN = 1, WAITING = 2 };

typedef uint8_t u8;
typedef uint16_t u16;
typedef uint64_t u64;
typedef unsigned set;  // a bit for each member

// A write: its descriptor, 16 more while it waits for its place; where it lies, at a place or behind the committed offset; its length.
typedef struct {
    u16 descriptor, place, length;
} Record;

// What is asked of a transaction's flags and counters stands side by side for all eight.
typedef struct {
    u16 offset[TRANSACTIONS][DESCRIPTORS], advance[TRANSACTIONS][DESCRIPTORS];
    u16 open[TRANSACTIONS], stale[TRANSACTIONS], dirty[TRANSACTIONS], lengths_sighted[TRANSACTIONS];
    u16 records[TRANSACTIONS], bytes[TRANSACTIONS];
    u16 file[DESCRIPTORS], committed[DESCRIPTORS], length[FILES], start[FILES], end[FILES];
    u16 found[DESCRIPTORS], found_length[FILES], held, held_records, held_bytes;
    Record log[TRANSACTIONS][RECORDS], landed[RECORDS];
} Store;

typedef struct {
    Store *store;
    u8 *files, *logs, *marks, *undo;
    size_t files_length, logs_length, marks_length, undo_length;
} Lent;

// An answer's number, or a refusal's from REFUSED on.
typedef unsigned answer;
enum { DONE = 0, REFUSED = 0x10000 };

// The numbers of the table of refusals in docs/GUIDE.md.
enum refusal {
    BUFFER_LENGTH = 1, RECORD_RANGE, NO_SUCH_TRANSACTION, NOT_OPEN, ALREADY_OPEN, NO_SUCH_TARGET, READER_TOO_SHORT, SEEK_PAST_END,
    WRITE_PAST_END, RECORDS_FULL, LOG_FULL, APPEND_PAST_END, STALE, NO_SUCH_FILE, NO_PLACE_YET, LIST_TOO_LONG, STALE_READER = 18,
    FILE_CLOSED = 21, NO_SUCH_MINUTE, STILL_OPEN, NO_GRANT
};

#define REFUSE(number) return REFUSED + (number)
#define PASS(test)                          \
    do {                                    \
        enum refusal refusal = test;        \
        if (refusal) REFUSE(refusal);       \
    } while (0)

// ---- refusals 1 to 6

static inline __m128i eight(const u16 *numbers) { return _mm_loadu_si128((const __m128i *)numbers); }

// Not 0 where one of eight numbers is above `most`.
static inline __m128i above(const u16 *numbers, u16 most) { return _mm_subs_epu16(eight(numbers), _mm_set1_epi16((short)most)); }

static inline __m128i either(__m128i a, __m128i b) { return _mm_or_si128(a, b); }

// The same of sixteen numbers.
static inline __m128i above16(const u16 *numbers, u16 most) { return either(above(numbers, most), above(numbers + 8, most)); }

static inline int is_zero(__m128i x) { return _mm_movemask_epi8(_mm_cmpeq_epi8(x, _mm_setzero_si128())) == 0xffff; }

static inline int tables_in_range(const Store *s) {
    __m128i bad = either(above16(s->file, FILES - 1), above16(s->committed, SPAN));
    bad = either(bad, either(above(s->length, SPAN), either(above(s->start, MINUTES - 1), above(s->end, MINUTES - 1))));
    __m128i open = _mm_cmpeq_epi16(eight(s->open), _mm_set1_epi16(1));
    bad = either(bad, _mm_and_si128(open, either(above(s->records, RECORDS), above(s->bytes, SPAN))));
    for (int t = 0; t < TRANSACTIONS; t++)
        if (s->open[t] == 1) bad = either(bad, either(above16(s->offset[t], SPAN + 1), above16(s->advance[t], SPAN + WAITING)));
    if (s->held == 1) bad = either(bad, either(above16(s->found, SPAN), above(s->found_length, SPAN)));
    return is_zero(bad);
}

// A write with a place ends in its file, one without within its descriptor's advance, and all have so many bytes together. The signs of
// `room` are tested once: it is negative where a write has too little.
static inline int log_in_range(const Store *s, int t) {
    unsigned descriptors = 0, sum = 0;
    int room = 0;
    for (const Record *r = s->log[t], *last = r + s->records[t]; r < last; r++) {
        unsigned d = r->descriptor;
        int limit = d < DESCRIPTORS ? SPAN + WAITING : s->advance[t][d % DESCRIPTORS];
        descriptors |= d;
        room |= limit - WAITING - r->place - r->length;
        sum += r->length;
    }
    return descriptors < 2 * DESCRIPTORS && room >= 0 && sum == s->bytes[t];
}

static inline int held_in_range(const Store *s) {
    if (s->held_records > RECORDS || s->held_bytes > SPAN) return 0;
    unsigned descriptors = 0, sum = 0;
    int room = 0;
    for (const Record *r = s->landed, *last = r + s->held_records; r < last; r++) {
        descriptors |= r->descriptor;
        room |= SPAN - r->place - r->length;
        sum += r->length;
    }
    return descriptors < DESCRIPTORS && room >= 0 && sum == s->held_bytes;
}

static __attribute__((noinline)) enum refusal check(const Lent *l) {
    const Store *s = l->store;
    if (l->files_length != BUFFER || l->logs_length != BUFFER || l->marks_length != BUFFER || l->undo_length != SPAN) return BUFFER_LENGTH;
    if (!tables_in_range(s)) return RECORD_RANGE;
    for (int t = 0; t < TRANSACTIONS; t++)
        if (s->open[t] == 1 && !log_in_range(s, t)) return RECORD_RANGE;
    return s->held == 1 && !held_in_range(s) ? RECORD_RANGE : 0;
}

static inline enum refusal check_open(const Lent *l, size_t t) {
    enum refusal refusal = check(l);
    if (refusal) return refusal;
    if (t >= TRANSACTIONS) return NO_SUCH_TRANSACTION;
    return l->store->open[t] == 1 ? 0 : NOT_OPEN;
}

static inline enum refusal check_descriptor(const Lent *l, size_t t, size_t d) {
    enum refusal refusal = check_open(l, t);
    return refusal ? refusal : d >= DESCRIPTORS ? NO_SUCH_TARGET : 0;
}

static inline enum refusal check_look(const Lent *l, size_t t, size_t d) {
    enum refusal refusal = check_descriptor(l, t, d);
    return refusal ? refusal : l->store->stale[t] == 1 ? STALE_READER : 0;
}

// ---- Fresh, Begin, Abort, windows

static inline void reset(Lent *l, size_t t, int open) {
    Store *s = l->store;
    memset(s->offset[t], 0, sizeof s->offset[t]);
    memset(s->advance[t], 0, sizeof s->advance[t]);
    s->open[t] = open;
    s->stale[t] = s->dirty[t] = s->lengths_sighted[t] = s->records[t] = s->bytes[t] = 0;
    memset(l->marks + SPAN * t, 0, SPAN);
}

static answer fresh(Lent *l, const u8 *numbers, size_t count) {
    Store *s = l->store;
    if (l->files_length != BUFFER || l->logs_length != BUFFER || l->marks_length != BUFFER || l->undo_length != SPAN) REFUSE(BUFFER_LENGTH);
    if (count != DESCRIPTORS) REFUSE(BUFFER_LENGTH);
    for (int d = 0; d < DESCRIPTORS; d++)
        if (numbers[d] >= FILES) REFUSE(NO_SUCH_FILE);
    memset(s, 0, sizeof *s);
    for (int d = 0; d < DESCRIPTORS; d++) s->file[d] = numbers[d];
    memset(l->files, 0, BUFFER);
    memset(l->marks, 0, BUFFER);
    return DONE;
}

static inline answer begin(Lent *l, size_t t) {
    PASS(check(l));
    if (t >= TRANSACTIONS) REFUSE(NO_SUCH_TRANSACTION);
    if (l->store->open[t] == 1) REFUSE(ALREADY_OPEN);
    reset(l, t, 1);
    return DONE;
}

static inline answer drop(Lent *l, size_t t) {
    PASS(check_open(l, t));
    reset(l, t, 0);
    return DONE;
}

static inline answer set_window(Lent *l, size_t f, size_t start, size_t end) {
    PASS(check(l));
    if (f >= FILES) REFUSE(NO_SUCH_TARGET);
    if (start >= MINUTES || end >= MINUTES) REFUSE(NO_SUCH_MINUTE);
    l->store->start[f] = start;
    l->store->end[f] = end;
    return DONE;
}

// ---- Seek and Write

static inline answer seek(Lent *l, size_t t, size_t d, size_t to) {
    PASS(check_descriptor(l, t, d));
    if (to > SPAN) REFUSE(SEEK_PAST_END);
    l->store->offset[t][d] = to + 1;
    l->store->dirty[t] |= 1 << d;
    return DONE;
}

static inline answer write_bytes(Lent *l, size_t t, size_t d, const u8 *bytes, size_t n) {
    PASS(check_descriptor(l, t, d));
    Store *s = l->store;
    unsigned offset = s->offset[t][d], advance = s->advance[t][d], append = offset == 0 && advance != KNOWN;
    unsigned place = append ? (advance ? advance - WAITING : 0) : (offset ? offset - 1 : 0);
    unsigned count = s->records[t], used = s->bytes[t];
    if (n > SPAN - place) REFUSE(WRITE_PAST_END);
    if (count >= RECORDS) REFUSE(RECORDS_FULL);
    if (n > SPAN - used) REFUSE(LOG_FULL);
    memcpy(l->logs + SPAN * t + used, bytes, n);
    s->log[t][count] = (Record){append ? d + DESCRIPTORS : d, place, n};
    s->records[t] = count + 1;
    s->bytes[t] = used + n;
    s->dirty[t] |= 1 << d;
    if (append) s->advance[t][d] = place + n + WAITING;
    else s->offset[t][d] = place + n + 1;
    return DONE;
}

// ---- GetFilePointer and Read

// Settles the chosen descriptors, all or none.
static int settle(Store *s, size_t t, set chosen) {
    for (set left = chosen; left; left &= left - 1) {
        int d = __builtin_ctz(left);
        unsigned advance = s->advance[t][d];
        if (advance >= WAITING && s->committed[d] + advance - WAITING > SPAN) return 0;
    }
    for (Record *r = s->log[t], *last = r + s->records[t]; r < last; r++) {
        if (r->descriptor < DESCRIPTORS || !(chosen >> (r->descriptor - DESCRIPTORS) & 1)) continue;
        r->descriptor -= DESCRIPTORS;
        r->place += s->committed[r->descriptor];
    }
    for (set left = chosen; left; left &= left - 1) {
        int d = __builtin_ctz(left);
        unsigned advance = s->advance[t][d];
        if (!s->offset[t][d]) s->offset[t][d] = s->committed[d] + (advance >= WAITING ? advance - WAITING : 0) + 1;
        s->advance[t][d] = KNOWN;
    }
    return 1;
}

static inline unsigned offset_of(const Store *s, size_t t, size_t d) { return s->offset[t][d] ? s->offset[t][d] - 1 : 0; }

static inline answer get_file_pointer(Lent *l, size_t t, size_t d) {
    PASS(check_look(l, t, d));
    Store *s = l->store;
    if (!s->offset[t][d] && s->advance[t][d] != KNOWN && !settle(s, t, 1u << d)) REFUSE(APPEND_PAST_END);
    return offset_of(s, t, d);
}

// The octets of marks that a stretch of the files touches: all bits between the first and the last, and which of these two.
typedef struct {
    size_t first, last;
    u8 first_bits, last_bits;
} Stretch;

static inline Stretch stretch(size_t from, size_t n) {
    size_t end = from + n - 1;
    return (Stretch){from / 8, end / 8, 0xff << from % 8, 0xff >> (7 - end % 8)};
}

static inline void mark(u8 *marks, size_t from, size_t n) {
    Stretch x = stretch(from, n);
    if (x.first == x.last) {
        marks[x.first] |= x.first_bits & x.last_bits;
        return;
    }
    marks[x.first] |= x.first_bits;
    memset(marks + x.first + 1, 0xff, x.last - x.first - 1);
    marks[x.last] |= x.last_bits;
}

// The descriptors of the file with waiting writes, and d if it is Untouched.
static inline set settled_by_read(const Store *s, size_t t, size_t d) {
    __m128i file = _mm_set1_epi16((short)s->file[d]), known = _mm_set1_epi16(KNOWN);
    __m128i low = _mm_and_si128(_mm_cmpeq_epi16(eight(s->file), file), _mm_cmpgt_epi16(eight(s->advance[t]), known));
    __m128i high = _mm_and_si128(_mm_cmpeq_epi16(eight(s->file + 8), file), _mm_cmpgt_epi16(eight(s->advance[t] + 8), known));
    set untouched = !s->offset[t][d] && !s->advance[t][d];
    return (set)_mm_movemask_epi8(_mm_packs_epi16(low, high)) | untouched << d;
}

static inline int is_on(const Store *s, const Record *r, unsigned f) { return r->length && s->file[r->descriptor] == f; }

// The transaction's own length of a file none of whose writes waits.
static inline unsigned length_of(const Store *s, size_t t, unsigned f) {
    unsigned length = s->length[f];
    for (const Record *r = s->log[t], *last = r + s->records[t]; r < last; r++) {
        if (r->descriptor >= DESCRIPTORS || !is_on(s, r, f)) continue;
        if ((unsigned)r->place + r->length > length) length = r->place + r->length;
    }
    return length;
}

// Copies from `place` on what the newest own write there supplies, or the file, and answers how many bytes.
static inline unsigned copy_run(Lent *l, size_t t, unsigned f, unsigned place, unsigned n, u8 *out) {
    const Store *s = l->store;
    unsigned data = s->bytes[t];
    for (unsigned k = s->records[t]; k-- > 0;) {
        const Record *r = &s->log[t][k];
        data -= r->length;
        if (r->descriptor >= DESCRIPTORS || !is_on(s, r, f)) continue;
        unsigned end = r->place + r->length;
        if (r->place > place) {
            if (r->place - place < n) n = r->place - place;
        } else if (place < end) {
            if (end - place < n) n = end - place;
            memcpy(out, l->logs + SPAN * t + data + (place - r->place), n);
            return n;
        }
    }
    mark(l->marks + SPAN * t, SPAN * f + place, n);
    memcpy(out, l->files + SPAN * f + place, n);
    return n;
}

static inline answer read_bytes(Lent *l, size_t t, size_t d, size_t n, u8 *reader, size_t room) {
    PASS(check_look(l, t, d));
    if (n > room) REFUSE(READER_TOO_SHORT);
    Store *s = l->store;
    set chosen = settled_by_read(s, t, d);
    if (chosen && !settle(s, t, chosen)) REFUSE(APPEND_PAST_END);
    unsigned f = s->file[d], place = offset_of(s, t, d), length = length_of(s, t, f);
    unsigned given = length > place ? length - place : 0;
    if (given > n) given = n;
    for (unsigned i = 0; i < given;) i += copy_run(l, t, f, place + i, given - i, reader + i);
    s->offset[t][d] = place + given + 1;
    s->dirty[t] |= 1 << d;
    if (given < n) s->lengths_sighted[t] |= 1 << f;
    return given;
}

// ---- Places

typedef struct {
    unsigned from, to;
} Part;

// The parts of a file that the transaction's writes cover, by ascending start. Answers how many, or -1 where one waits.
static inline int parts_of(const Store *s, size_t t, unsigned f, Part *parts) {
    int count = 0;
    for (const Record *r = s->log[t], *last = r + s->records[t]; r < last; r++) {
        if (s->file[r->descriptor % DESCRIPTORS] != f) continue;
        if (r->descriptor >= DESCRIPTORS) return -1;
        if (!r->length) continue;
        int i = count++;
        for (; i > 0 && parts[i - 1].from > r->place; i--) parts[i] = parts[i - 1];
        parts[i] = (Part){r->place, r->place + r->length};
    }
    return count;
}

// Joins those that touch or overlap, and answers how many are left.
static inline int joined(Part *parts, int count) {
    int kept = 0;
    for (int i = 0; i < count; i++) {
        if (!kept || parts[i].from > parts[kept - 1].to) parts[kept++] = parts[i];
        else if (parts[i].to > parts[kept - 1].to) parts[kept - 1].to = parts[i].to;
    }
    return kept;
}

static inline answer places(Lent *l, size_t t, size_t f, u8 *out, size_t room) {
    PASS(check_open(l, t));
    if (f >= FILES) REFUSE(NO_SUCH_TARGET);
    Part parts[RECORDS];
    int count = parts_of(l->store, t, f, parts);
    if (count < 0) REFUSE(NO_PLACE_YET);
    count = joined(parts, count);
    if (room < 4 * (size_t)count) REFUSE(LIST_TOO_LONG);
    for (int i = 0; i < count; i++, out += 4) {
        unsigned from = parts[i].from, n = parts[i].to - from;
        out[0] = from >> 8, out[1] = from, out[2] = n >> 8, out[3] = n;
    }
    return count;
}

// ---- Commit

static inline int is_open_at(const Store *s, unsigned f, unsigned minute) {
    unsigned begun = s->start[f] <= minute, before_end = minute < s->end[f];
    return s->start[f] < s->end[f] ? begun & before_end : s->start[f] == s->end[f] || (begun | before_end);
}

static inline int windows_pass(const Store *s, size_t t, unsigned minute) {
    for (const Record *r = s->log[t], *last = r + s->records[t]; r < last; r++)
        if (r->length && !is_open_at(s, s->file[r->descriptor % DESCRIPTORS], minute)) return 0;
    return 1;
}

// Every advance that waits fits behind its committed offset. An offset and 1 or 0 always do.
static inline int advances_fit(const Store *s, size_t t) {
    __m128i most = _mm_set1_epi16(SPAN + WAITING);
    __m128i low = _mm_subs_epu16(_mm_add_epi16(eight(s->advance[t]), eight(s->committed)), most);
    __m128i high = _mm_subs_epu16(_mm_add_epi16(eight(s->advance[t] + 8), eight(s->committed + 8)), most);
    return is_zero(either(low, high));
}

// The other transactions that are open and not stale.
static inline set watched_by(const Store *s, size_t t) {
    set watched = 0;
    for (unsigned u = 0; u < TRANSACTIONS; u++) watched |= (set)(u != t && s->open[u] == 1 && s->stale[u] != 1) << u;
    return watched;
}

static inline int has_mark(const u8 *marks, Stretch x) {
    if (x.first == x.last) return (marks[x.first] & x.first_bits & x.last_bits) != 0;
    u8 any = (marks[x.first] & x.first_bits) | (marks[x.last] & x.last_bits);
    for (size_t i = x.first + 1; i < x.last && !any; i++) any |= marks[i];
    return any != 0;
}

// Which of the watched have sighted a byte of n from `from` on.
static inline set sighters(const Lent *l, set watched, size_t from, size_t n) {
    Stretch x = stretch(from, n);
    set found = 0;
    for (set left = watched; left; left &= left - 1) {
        unsigned u = __builtin_ctz(left);
        if (has_mark(l->marks + SPAN * u, x)) found |= 1u << u;
    }
    return found;
}

// What a commit has set, and who of the watched has sighted it.
typedef struct {
    set watched, found, raised;
} Landing;

// Lands the writes in order, keeps the bytes on which each lands, and raises lengths.
static inline void land(Lent *l, size_t t, Landing *landing) {
    Store *s = l->store;
    unsigned done = 0, count = s->records[t];
    for (unsigned k = 0; k < count; k++) {
        Record r = s->log[t][k];
        unsigned d = r.descriptor % DESCRIPTORS, f = s->file[d], n = r.length;
        unsigned place = r.place + (r.descriptor >= DESCRIPTORS ? s->committed[d] : 0);
        u8 *there = l->files + SPAN * f + place;
        s->landed[k] = (Record){d, place, n};
        if (!n) continue;
        memcpy(l->undo + done, there, n);
        memcpy(there, l->logs + SPAN * t + done, n);
        done += n;
        if (place + n > s->length[f]) {
            s->length[f] = place + n;
            landing->raised |= 1u << f;
        }
        landing->found |= sighters(l, landing->watched & ~landing->found, SPAN * f + place, n);
    }
    s->held = 1;
    s->held_records = count;
    s->held_bytes = s->bytes[t];
}

// Sets the offsets of what is dirty.
static inline void set_offsets(Store *s, size_t t, Landing *landing) {
    for (set left = s->dirty[t]; left; left &= left - 1) {
        unsigned d = __builtin_ctz(left), offset = s->offset[t][d], advance = s->advance[t][d];
        if (!offset && !advance) continue;
        if (offset || advance == KNOWN) s->committed[d] = offset ? offset - 1 : 0;
        else s->committed[d] += advance - WAITING;
        for (set others = landing->watched & ~landing->found; others; others &= others - 1) {
            unsigned u = __builtin_ctz(others);
            if (s->advance[u][d] == KNOWN) landing->found |= 1u << u;
        }
    }
}

static inline answer commit(Lent *l, size_t t, size_t minute) {
    PASS(check_open(l, t));
    Store *s = l->store;
    if (minute >= MINUTES) REFUSE(NO_SUCH_MINUTE);
    if (s->stale[t] == 1) {
        reset(l, t, 0);
        REFUSE(STALE);
    }
    if (!windows_pass(s, t, minute)) REFUSE(FILE_CLOSED);
    if (!advances_fit(s, t)) REFUSE(APPEND_PAST_END);
    memcpy(s->found, s->committed, sizeof s->found);
    memcpy(s->found_length, s->length, sizeof s->found_length);
    Landing landing = {watched_by(s, t), 0, 0};
    land(l, t, &landing);
    set_offsets(s, t, &landing);
    for (set left = landing.raised ? landing.watched : 0; left; left &= left - 1) {
        unsigned u = __builtin_ctz(left);
        if (s->lengths_sighted[u] & landing.raised) landing.found |= 1u << u;
    }
    reset(l, t, 0);
    for (set left = landing.found; left; left &= left - 1) s->stale[__builtin_ctz(left)] = 1;
    return landing.found;
}

static inline answer take_back(Lent *l) {
    PASS(check(l));
    Store *s = l->store;
    for (int t = 0; t < TRANSACTIONS; t++)
        if (s->open[t] == 1) REFUSE(STILL_OPEN);
    if (s->held != 1) REFUSE(NO_GRANT);
    unsigned done = s->held_bytes;
    for (unsigned k = s->held_records; k-- > 0;) {
        Record r = s->landed[k];
        done -= r.length;
        memcpy(l->files + SPAN * s->file[r.descriptor] + r.place, l->undo + done, r.length);
    }
    memcpy(s->committed, s->found, sizeof s->found);
    memcpy(s->length, s->found_length, sizeof s->found_length);
    s->held = 0;
    return DONE;
}

// ---- scripts, as in crates/bench_calls

enum kind { FRESH, BEGIN, SEEK, WRITE, POINTER, READ, COMMIT, ABORT, TAKE_BACK, PLACES, SET_WINDOW };

typedef struct {
    const u8 *data;
    size_t data_length;
    u8 *reader;
    size_t reader_length;
} Sides;

// The call of a step. A kind above the last is an Abort.
static inline answer call(Lent *l, const u8 *step, const Sides *sides) {
    size_t t = step[1], d = step[2], n = step[4] + 256 * step[5], from = step[6] + 256 * step[7];
    int named = from <= sides->data_length && n <= sides->data_length - from;
    const u8 *bytes = named ? sides->data + from : sides->data;
    size_t length = named ? n : sides->data_length;
    switch ((enum kind)step[0]) {
    case FRESH: return fresh(l, bytes, length);
    case BEGIN: return begin(l, t);
    case SEEK: return seek(l, t, d, n);
    case WRITE: return write_bytes(l, t, d, bytes, length);
    case POINTER: return get_file_pointer(l, t, d);
    case READ: return read_bytes(l, t, d, n, sides->reader, sides->reader_length);
    case COMMIT: return commit(l, t, n);
    case TAKE_BACK: return take_back(l);
    case PLACES: return places(l, t, d, sides->reader, sides->reader_length);
    case SET_WINDOW: return set_window(l, d, n, from);
    default: return drop(l, t);
    }
}

// An outcome as one octet: by the kind of call, or 10 more than a refusal's number.
static inline u8 code(answer a, u8 kind) {
    static const u8 codes[256] = {[POINTER] = 1, [READ] = 2, [COMMIT] = 3, [PLACES] = 4};
    return a >= REFUSED ? 10 + (a - REFUSED) : codes[kind];
}

// Runs a script so many rounds, and answers the sum of the numbers that the calls answered.
u64 c_store_run(u16 *kept, u8 *files, size_t files_length, u8 *logs, size_t logs_length, u8 *marks, size_t marks_length, u8 *undo,
                size_t undo_length, const u8 *script, size_t script_length, const u8 *data, size_t data_length, u8 *reader,
                size_t reader_length, u8 *said, size_t said_length, size_t rounds) {
    Lent lent = {(Store *)kept, files, logs, marks, undo, files_length, logs_length, marks_length, undo_length};
    Sides sides = {data, data_length, reader, reader_length};
    u64 sum = 0;
    for (size_t round = 0; round < rounds; round++) {
        const u8 *step = script;
        for (size_t i = 0; i < script_length / STEP; i++, step += STEP) {
            answer a = call(&lent, step, &sides);
            if (a < REFUSED) sum += a;
            if (i < said_length) said[i] = code(a, step[0]);
        }
    }
    return sum;
}

// How many numbers of 16 bits the record takes.
size_t c_store_numbers(void) { return sizeof(Store) / sizeof(u16); }

// The sixteen committed offsets and behind them the eight lengths.
void c_store_committed(const u16 *kept, u16 *out) {
    const Store *s = (const Store *)kept;
    memcpy(out, s->committed, sizeof s->committed);
    memcpy(out + DESCRIPTORS, s->length, sizeof s->length);
}
