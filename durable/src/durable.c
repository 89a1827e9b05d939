/* Saves what is committed in a store, as ten parts in a database. What is committed is decided by
 * luzhanem_save, which is proved; this file moves the bytes of its image, whose form is docs/IMAGE.md. */
#include "engine.h"
#include "luzhanem_durable.h"
#include <inttypes.h>
#include <pthread.h>
#include <sched.h>
#include <stdbool.h>
#include <stdio.h>
#include <stdlib.h>
#include <string.h>
#include <time.h>
#include <unistd.h>
#include <zlib.h>

#define SQL_OF(name, sql) [name] = sql,
const char *const luzhanem_sql_[STATEMENT_COUNT] = { STATEMENTS(SQL_OF) };

#define FORMAT "1" /* of the tables: ten parts of an image of format 1 */
enum { HOLDER = 32, TRIES = 3, PATIENCE = 100000 /* ns */ };

/* Where things are in the bytes of an image. */
enum {
    LENGTHS = 33,     /* the committed length of each file, ... */
    CAN_UNDO = 57,    /* ... 1 where the last grant can be undone, ... */
    GRANT_BYTES = 59, /* ... and how many bytes its writes have: numbers, counted from 0 */
    NUMBERS_BYTES = 552,
    FILES_AT = NUMBERS_BYTES,
    OLD_BYTES_AT = FILES_AT + LUZHANEM_FILES * LUZHANEM_FILE_BYTES
};
_Static_assert(sizeof(luzhanem_image) == OLD_BYTES_AT + LUZHANEM_LOG_BYTES, "an image of format 1");

typedef union image {
    luzhanem_image whole;
    uint8_t bytes[sizeof(luzhanem_image)];
} image;

struct luzhanem_durable {
    const struct engine *engine;
    void *db; /* NULL: not connected, as after a failed save */
    char *where, *channel;
    int how;
    char holder[HOLDER + 1];
    luzhanem_store *store;
    luzhanem_durable_lock lock;
    /* Below: of the one thread that saves. */
    image images[2], *now, *saved; /* what is to be saved, and what the database has, where `known` */
    uint32_t sums[PARTS];          /* of `saved` */
    bool known, fenced;
    int64_t generation; /* of the channel, where `known` */
    /* Below: under the mutex. See luzhanem_durable_sync. */
    pthread_mutex_t mutex;
    pthread_cond_t ended;
    bool busy;
    uint64_t drawn, tried, safe;
    uint64_t expected; /* the ticket up to which the next save waits for others */
    int64_t took;      /* how long the last save took, in ns */
    int answer;        /* of the last save, with its words */
    char why[WHY];
};

/* ---- answers */

static _Thread_local char error[WHY + 128];

/* Leaves a sentence for luzhanem_durable_error, on one line. */
static int failed(int answer, const char *why) {
    snprintf(error, sizeof error, "%s%s%s", luzhanem_durable_strerror(answer), why && *why ? ": " : "",
             why ? why : "");
    for (char *c = error; *c; c++)
        if (*c == '\n' || *c == '\r' || *c == '\t') *c = c[1] ? ' ' : 0;
    return answer;
}

const char *luzhanem_durable_error(void) { return error; }

const char *luzhanem_durable_strerror(int answer) {
    switch (answer) {
#define SENTENCE(number, name, text) \
    case -number: return text;
        LUZHANEM_DURABLE_ANSWERS(SENTENCE)
    default: return luzhanem_strerror(answer);
    }
}

const char *luzhanem_durable_errname(int answer) {
    switch (answer) {
#define NAME(number, name, text) \
    case -number: return #name;
        LUZHANEM_DURABLE_ANSWERS(NAME)
    default: return luzhanem_errname(answer);
    }
}

/* ---- parts of an image */

static size_t number_at(const image *i, int k) {
    return (size_t)i->bytes[2 * k] | (size_t)i->bytes[2 * k + 1] << 8;
}

static size_t room_of(int p) { return p == NUMBERS ? NUMBERS_BYTES : LUZHANEM_FILE_BYTES; }

static uint8_t *bytes_of(image *i, int p) {
    return i->bytes + (p == NUMBERS ? 0 : p == OLD_BYTES ? OLD_BYTES_AT : FILES_AT + LUZHANEM_FILE_BYTES * p);
}

static bool all_zero(const uint8_t *bytes, size_t n) {
    return n == 0 || (bytes[0] == 0 && memcmp(bytes, bytes + 1, n - 1) == 0);
}

/* What the numbers say of a part: how many bytes it has. */
static size_t length_of(const image *i, int p) {
    if (p == NUMBERS) return NUMBERS_BYTES;
    if (p == OLD_BYTES) return number_at(i, CAN_UNDO) == 1 ? number_at(i, GRANT_BYTES) : 0;
    return number_at(i, LENGTHS + p);
}

/* How many bytes of a part say something. Past the length of a file all is 0 in every store that calls have
 * made; in one that is not so the part goes on to its last byte that is not 0. Loading fills up with 0. */
static size_t size_of(image *i, int p) {
    const uint8_t *bytes = bytes_of(i, p);
    size_t length = length_of(i, p), n = LUZHANEM_FILE_BYTES;
    if (p >= OLD_BYTES || length > n || all_zero(bytes + length, n - length)) return length;
    while (bytes[n - 1] == 0) n--;
    return n;
}

/* CRC-32 of a part's number and bytes. The part with the numbers is the last, and its sum goes over the sums
 * of the others too: parts of two different saves do not pass for one. */
static uint32_t sum_of(int p, const uint8_t *bytes, size_t n, const uint32_t sums[PARTS]) {
    uint8_t low[4] = { (uint8_t)p };
    uLong sum = crc32(crc32(0, Z_NULL, 0), low, 1);
    for (int k = 0; p == NUMBERS && k < NUMBERS; k++) {
        for (int b = 0; b < 4; b++) low[b] = (uint8_t)(sums[k] >> 8 * b);
        sum = crc32(sum, low, 4);
    }
    return (uint32_t)(n ? crc32(sum, bytes, (uInt)n) : sum);
}

/* ---- a save */

/* Brings both sides of the copy into the caches before the lock is taken. */
static void warm(luzhanem_durable *d) {
    memset(d->now, 0, sizeof *d->now);
#ifdef __GNUC__
    for (size_t i = 0; i < sizeof *d->store; i += 64) __builtin_prefetch((const char *)d->store + i);
#endif
}

/* The image of the store as it is. Old bytes that the last grant did not use say nothing, and become 0. */
static int take_image(luzhanem_durable *d) {
    warm(d);
    if (d->lock.take) d->lock.take(d->lock.context);
    int r = luzhanem_save(d->store, &d->now->whole);
    if (d->lock.give) d->lock.give(d->lock.context);
    if (r < 0) return r;
    size_t used = length_of(d->now, OLD_BYTES);
    memset(bytes_of(d->now, OLD_BYTES) + used, 0, room_of(OLD_BYTES) - used);
    return 0;
}

/* Whether the database has this part as it is in the image. A part may grow by zeros. */
static bool has(luzhanem_durable *d, int p) {
    return d->known && length_of(d->now, p) == length_of(d->saved, p) &&
           memcmp(bytes_of(d->now, p), bytes_of(d->saved, p), room_of(p)) == 0;
}

/* The parts that the database does not have, and in `sums` those of all. */
static void differing(luzhanem_durable *d, struct save *save, uint32_t sums[PARTS]) {
    save->channel = d->channel, save->holder = d->holder, save->generation = d->generation, save->count = 0;
    for (int p = 0; p < PARTS; p++) {
        sums[p] = d->sums[p];
        if (has(d, p) && (p != NUMBERS || save->count == 0)) continue;
        const uint8_t *bytes = bytes_of(d->now, p);
        size_t n = size_of(d->now, p);
        sums[p] = sum_of(p, bytes, n, sums);
        save->parts[save->count++] = (struct part){ p, bytes, n, sums[p] };
    }
}

/* The database has the image. */
static void note(luzhanem_durable *d, const uint32_t sums[PARTS], int64_t generation) {
    image *other = d->saved;
    d->saved = d->now, d->now = other;
    memcpy(d->sums, sums, sizeof d->sums);
    d->known = true;
    d->generation = generation;
}

static int run(luzhanem_durable *d, enum statement what, const char *a, const char *b, const char *c,
               char why[WHY]) {
    struct value v[PARAMETERS] = { { a, NULL, 0 }, { b, NULL, 0 }, { c, NULL, 0 } };
    return d->engine->run(d->db, what, v, NULL, NULL, why);
}

static int drop(luzhanem_durable *d) {
    int r = d->db ? d->engine->disconnect(d->db) : 0;
    d->db = NULL;
    d->known = false;
    return r;
}

struct looked {
    int64_t format, generation;
    char holder[HOLDER + 1];
};

static void looked_row(void *at, int64_t format, const void *holder, size_t n, int64_t generation) {
    struct looked *k = at;
    k->format = format, k->generation = generation;
    snprintf(k->holder, sizeof k->holder, "%.*s", (int)(n < HOLDER ? n : HOLDER),
             holder ? (const char *)holder : "");
}

/* The channel's row: 1, or 0 where there is none, or -1. */
static int look(luzhanem_durable *d, struct looked *k, char why[WHY]) {
    struct value v[PARAMETERS] = { { d->channel, NULL, 0 } };
    return d->engine->run(d->db, LOOK, v, looked_row, k, why);
}

/* Connects where that is needed, and finds the channel ours and its generation. */
static int ready(luzhanem_durable *d, char why[WHY]) {
    struct looked k = { 0 };
    if (d->db && d->known) return 0;
    if (!d->db) d->db = d->engine->connect(d->where, d->how & ~LUZHANEM_DURABLE_CREATE, why);
    int r = d->db ? look(d, &k, why) : -1;
    if (r < 0) return LUZHANEM_DURABLE_E_NOT_SAVED;
    if (r != 1 || strcmp(k.holder, d->holder) != 0) return LUZHANEM_DURABLE_E_FENCED;
    d->generation = k.generation;
    return 0;
}

/* Saves the image. An answer that was lost leaves it open what the database has, so after a failure nothing
 * is known of it: the next save looks at the channel's generation and writes every part. A save that was
 * given up can then end only before the next one, which finds another generation and looks again, or never:
 * it finds another generation itself. */
static int save_image(luzhanem_durable *d, char why[WHY]) {
    struct save save;
    uint32_t sums[PARTS];
    for (int i = 0; i < TRIES; i++) {
        int r = ready(d, why);
        if (r < 0) return r;
        differing(d, &save, sums);
        r = d->engine->save(d->db, &save, why);
        if (r < 0) return LUZHANEM_DURABLE_E_NOT_SAVED;
        if (r > 0) return note(d, sums, d->generation + 1), 0;
        d->known = false;
    }
    snprintf(why, WHY, "the channel's generation changes all the time");
    return LUZHANEM_DURABLE_E_NOT_SAVED;
}

static int save(luzhanem_durable *d, char why[WHY]) {
    if (d->fenced) return LUZHANEM_DURABLE_E_FENCED;
    int r = take_image(d);
    if (r < 0) return r;
    r = save_image(d, why);
    if (r < 0) drop(d);
    d->fenced = r == LUZHANEM_DURABLE_E_FENCED;
    return r;
}

static int64_t clock_ns(void) {
    struct timespec t;
    clock_gettime(CLOCK_MONOTONIC, &t);
    return (int64_t)t.tv_sec * 1000000000 + t.tv_nsec;
}

/* Group commit: the threads that the last save set free come back, each with its next commit. Waits until as
 * many tickets are drawn as that save covered: for PATIENCE, or a quarter of the time that the save took if
 * that is less, and longer while tickets come. A thread that is alone does not wait. */
static void gather(luzhanem_durable *d) {
    if (d->drawn >= d->expected) return;
    int64_t until = clock_ns() + (d->took / 4 < PATIENCE ? d->took / 4 : PATIENCE);
    for (uint64_t before = 0; d->drawn < d->expected && (d->drawn != before || clock_ns() < until);) {
        before = d->drawn;
        pthread_mutex_unlock(&d->mutex);
        sched_yield();
        pthread_mutex_lock(&d->mutex);
    }
}

/* Makes a save for all tickets drawn so far, under the mutex but for the save itself. */
static void save_all(luzhanem_durable *d) {
    char why[WHY] = "";
    d->busy = true;
    gather(d);
    uint64_t covered = d->drawn;
    pthread_mutex_unlock(&d->mutex);
    int64_t began = clock_ns();
    int r = save(d, why);
    int64_t took = clock_ns() - began;
    pthread_mutex_lock(&d->mutex);
    d->busy = false;
    d->expected = d->drawn + (covered - d->tried);
    d->took = took;
    d->tried = covered;
    if (r == 0) d->safe = covered;
    d->answer = r;
    memcpy(d->why, why, WHY);
}

/* Each sync draws a ticket, after its caller's commit. The thread that finds no save under way makes one.
 * `covered`, the last ticket drawn so far, is read before the image is taken, so the image has the commits of
 * all tickets up to it; tickets that are drawn later wait for the next save. `busy` lets one save run at a
 * time, so no older image is written after a newer one. `tried` and `safe` are the last tickets covered by a
 * save that ended, and by one that succeeded; both grow. A thread leaves when `tried` has reached its ticket:
 * with 0 where `safe` has too, and otherwise with the last save's answer, since no save that covered the
 * ticket succeeded. Who made a save wakes the others when it has left the mutex, so that they find it free.
 * They may find another save under way by then, which ends in a wake-up too. */
int luzhanem_durable_sync(luzhanem_durable *d) {
    if (!d) return failed(LUZHANEM_DURABLE_E_BAD_ARGUMENT, NULL);
    pthread_mutex_lock(&d->mutex);
    uint64_t mine = ++d->drawn;
    while (d->tried < mine && d->busy) pthread_cond_wait(&d->ended, &d->mutex);
    bool saves = d->tried < mine;
    if (saves) save_all(d);
    int r = d->safe >= mine ? 0 : failed(d->answer, d->why);
    pthread_mutex_unlock(&d->mutex);
    if (saves) pthread_cond_broadcast(&d->ended);
    return r;
}

/* ---- what is read */

struct reading {
    image *to;
    uint32_t sums[PARTS];
    size_t sizes[PARTS];
    int next; /* parts come in order */
    bool other;
};

static void part_row(void *at, int64_t p, const void *bytes, size_t n, int64_t sum) {
    struct reading *k = at;
    if (k->other || p != k->next || p >= PARTS || n > room_of((int)p) ||
        sum != sum_of((int)p, bytes, n, k->sums)) {
        k->other = true;
        return;
    }
    if (n) memcpy(bytes_of(k->to, (int)p), bytes, n);
    k->sums[p] = (uint32_t)sum;
    k->sizes[p] = n;
    k->next++;
}

/* Reads the parts to the image `now`, and judges them: number, checksum, size. */
static int get_parts(luzhanem_durable *d, uint32_t sums[PARTS], char why[WHY]) {
    struct reading k = { .to = d->now };
    struct value v[PARAMETERS] = { { d->channel, NULL, 0 } };
    memset(d->now, 0, sizeof *d->now);
    if (d->engine->run(d->db, GET, v, part_row, &k, why) < 0)
        return failed(LUZHANEM_DURABLE_E_UNREACHABLE, why);
    if (k.other || k.next != PARTS)
        return failed(LUZHANEM_DURABLE_E_DAMAGED,
                      k.other ? "a part is not as it was written" : "a part is missing");
    for (int p = 0; p < PARTS; p++)
        if (k.sizes[p] != size_of(d->now, p))
            return failed(LUZHANEM_DURABLE_E_DAMAGED, "a part has another size");
    memcpy(sums, k.sums, sizeof k.sums);
    return 0;
}

/* The store becomes the image, where that is one: the store itself judges its ranges, and is left where it
 * refuses. */
static int deliver(const image *from, luzhanem_store *s) {
    int r = luzhanem_load(s, &from->whole);
    return r < 0 ? failed(r, "the channel's numbers") : 0;
}

/* ---- opening */

static const struct engine *engine_of(const char *url) {
    static const struct engine *const engines[] = {
#ifdef LUZHANEM_DURABLE_SQLITE
        &luzhanem_sqlite_,
#endif
#ifdef LUZHANEM_DURABLE_POSTGRESQL
        &luzhanem_postgresql_,
#endif
        NULL
    };
    for (int i = 0; engines[i]; i++)
        if (strncmp(url, engines[i]->prefix, strlen(engines[i]->prefix)) == 0) return engines[i];
    return NULL;
}

static luzhanem_durable *handle(const struct engine *engine, const char *url, const char *channel, int how) {
    luzhanem_durable *d = calloc(1, sizeof *d);
    uint8_t random[HOLDER / 2];
    if (!d) return NULL;
    pthread_mutex_init(&d->mutex, NULL);
    pthread_cond_init(&d->ended, NULL);
    d->engine = engine, d->how = how;
    d->now = &d->images[0], d->saved = &d->images[1];
    d->where = strdup(url + engine->skip), d->channel = strdup(channel);
    if (!d->where || !d->channel || getentropy(random, sizeof random) != 0)
        return luzhanem_durable_close(d), NULL;
    for (size_t i = 0; i < sizeof random; i++) snprintf(d->holder + 2 * i, 3, "%02x", random[i]);
    return d;
}

/* A handle that is connected. */
static int prepare(luzhanem_durable **out, const char *url, const char *channel, int how) {
    char why[WHY] = "";
    *out = NULL;
    if (!url || !channel || !*channel || strlen(channel) > LUZHANEM_DURABLE_NAME_BYTES)
        return failed(LUZHANEM_DURABLE_E_BAD_ARGUMENT, "a URL, and a name of 1 to 200 bytes");
    const struct engine *engine = engine_of(url);
    if (!engine)
        return failed(LUZHANEM_DURABLE_E_BAD_ARGUMENT,
                      "neither sqlite:PATH nor postgresql://.., or built without it");
    luzhanem_durable *d = handle(engine, url, channel, how);
    if (!d) return failed(LUZHANEM_DURABLE_E_NO_MEMORY, NULL);
    d->db = engine->connect(d->where, how, why);
    if (d->db) return *out = d, 0;
    luzhanem_durable_close(d);
    return failed(LUZHANEM_DURABLE_E_UNREACHABLE, why);
}

/* Begins a transaction in which the channel is ours, if it is there: 1, or 0, or an answer below 0. From then
 * on no save of the former holder succeeds. */
static int seize(luzhanem_durable *d, char why[WHY]) {
    bool create = d->how & LUZHANEM_DURABLE_CREATE;
    int r = run(d, create ? BEGIN_MAKE : BEGIN_WRITE, NULL, NULL, NULL, why);
    if (r >= 0 && create) r = run(d, MAKE_CHANNELS, NULL, NULL, NULL, why);
    if (r >= 0 && create) r = run(d, MAKE_PARTS, NULL, NULL, NULL, why);
    if (r >= 0) r = run(d, TAKE, d->holder, d->channel, NULL, why);
    if (r < 0) return failed(LUZHANEM_DURABLE_E_UNREACHABLE, why);
    return r == 0 && !create ? failed(LUZHANEM_DURABLE_E_NO_CHANNEL, d->channel) : r;
}

/* Makes the channel from the store. */
static int make_channel(luzhanem_durable *d, uint32_t sums[PARTS], char why[WHY]) {
    struct save save;
    int r = take_image(d);
    if (r < 0) return failed(r, "the store of a new channel");
    differing(d, &save, sums);
    r = run(d, MAKE, d->channel, FORMAT, d->holder, why);
    for (int i = 0; i < save.count && r == 1; i++) {
        char number[8], sum[24];
        snprintf(number, sizeof number, "%d", save.parts[i].number);
        snprintf(sum, sizeof sum, "%" PRId64, save.parts[i].checksum);
        struct value v[PARAMETERS] = { { d->channel, NULL, 0 },
                                       { number, NULL, 0 },
                                       { NULL, save.parts[i].bytes, save.parts[i].n },
                                       { sum, NULL, 0 } };
        r = d->engine->run(d->db, PUT, v, NULL, NULL, why);
    }
    d->generation = 1;
    return r == 1 ? 0 : failed(LUZHANEM_DURABLE_E_UNREACHABLE, why);
}

/* Reads the channel to the image. */
static int read_channel(luzhanem_durable *d, uint32_t sums[PARTS], char why[WHY]) {
    struct looked k = { 0 };
    int r = look(d, &k, why);
    if (r < 0) return failed(LUZHANEM_DURABLE_E_UNREACHABLE, why);
    if (r == 0) return failed(LUZHANEM_DURABLE_E_NO_CHANNEL, d->channel);
    if (k.format != strtol(FORMAT, NULL, 10)) return failed(LUZHANEM_DURABLE_E_FORMAT, NULL);
    d->generation = k.generation;
    return get_parts(d, sums, why);
}

/* The answer to open's COMMIT did not come, and it may have been made. Then the channel has our holder and
 * the generation that we gave it, and nobody has saved since. A save of no part finds out, and waits for the
 * disk as every save does. */
static int confirm(luzhanem_durable *d) {
    struct save save = { .channel = d->channel, .holder = d->holder, .generation = d->generation };
    char why[WHY] = "";
    drop(d);
    d->db = d->engine->connect(d->where, d->how & ~LUZHANEM_DURABLE_CREATE, why);
    if (!d->db || d->engine->save(d->db, &save, why) <= 0) return -1;
    d->generation++;
    return 0;
}

/* In one transaction the channel becomes ours, and the image what it has. A store in memory of its own judges
 * it before the COMMIT. */
static int take_over(luzhanem_durable *d, luzhanem_store *s) {
    uint32_t sums[PARTS];
    char why[WHY] = "";
    int there = seize(d, why);
    if (there < 0) return there;
    int r = there ? read_channel(d, sums, why) : make_channel(d, sums, why);
    if (r < 0) return r;
    luzhanem_store *judge = there ? malloc(sizeof *judge) : NULL;
    if (there && !judge) return failed(LUZHANEM_DURABLE_E_NO_MEMORY, NULL);
    r = there ? deliver(d->now, judge) : 0;
    free(judge);
    if (r < 0) return r;
    if (run(d, COMMIT, NULL, NULL, NULL, why) < 0 && confirm(d) < 0)
        return failed(LUZHANEM_DURABLE_E_UNREACHABLE, why);
    note(d, sums, d->generation);
    return there ? deliver(d->saved, s) : 0;
}

int luzhanem_durable_open(luzhanem_durable **out, const char *url, const char *channel, int how,
                          luzhanem_store *s, const luzhanem_durable_lock *lock) {
    luzhanem_durable *d;
    if (!out) return failed(LUZHANEM_DURABLE_E_BAD_ARGUMENT, NULL);
    *out = NULL;
    if (!s || (how & ~7)) return failed(LUZHANEM_DURABLE_E_BAD_ARGUMENT, NULL);
    int r = prepare(&d, url, channel, how);
    if (r < 0) return r;
    d->store = s;
    r = take_over(d, s);
    if (r < 0) return luzhanem_durable_close(d), r;
    if (lock) d->lock = *lock;
    *out = d;
    return 0;
}

void luzhanem_durable_close(luzhanem_durable *d) {
    if (!d) return;
    drop(d);
    pthread_cond_destroy(&d->ended);
    pthread_mutex_destroy(&d->mutex);
    free(d->where);
    free(d->channel);
    free(d);
}

/* ---- looks from outside */

int luzhanem_durable_load(const char *url, const char *channel, luzhanem_store *s, int64_t *generation) {
    luzhanem_durable *d;
    uint32_t sums[PARTS];
    char why[WHY] = "";
    if (!s) return failed(LUZHANEM_DURABLE_E_BAD_ARGUMENT, NULL);
    int r = prepare(&d, url, channel, -1);
    if (r < 0) return r;
    r = run(d, BEGIN_READ, NULL, NULL, NULL, why) < 0 ? failed(LUZHANEM_DURABLE_E_UNREACHABLE, why)
                                                      : read_channel(d, sums, why);
    if (drop(d) < 0 && r == 0)
        r = failed(LUZHANEM_DURABLE_E_UNREACHABLE, "the file changed while it was read");
    if (r == 0) r = deliver(d->now, s);
    if (r == 0 && generation) *generation = d->generation;
    luzhanem_durable_close(d);
    return r;
}

struct listing {
    luzhanem_durable_visit *visit;
    void *context;
};

static void list_row(void *at, int64_t format, const void *name, size_t n, int64_t generation) {
    struct listing *k = at;
    char text[LUZHANEM_DURABLE_NAME_BYTES + 1];
    (void)format;
    snprintf(text, sizeof text, "%.*s", (int)(n < sizeof text ? n : sizeof text - 1),
             name ? (const char *)name : "");
    if (k->visit) k->visit(k->context, text, generation);
}

int luzhanem_durable_list(const char *url, luzhanem_durable_visit *visit, void *context) {
    luzhanem_durable *d;
    struct listing k = { visit, context };
    struct value v[PARAMETERS] = { { NULL, NULL, 0 } };
    char why[WHY] = "";
    int r = prepare(&d, url, "-", -1);
    if (r < 0) return r;
    r = d->engine->run(d->db, LIST, v, list_row, &k, why);
    if (r < 0) r = failed(LUZHANEM_DURABLE_E_UNREACHABLE, why);
    luzhanem_durable_close(d);
    return r;
}
