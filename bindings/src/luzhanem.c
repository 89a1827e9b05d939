/* The calls of luzhanem.h: each hands the parts of the store to the proved function. Nothing here is proved, so
 * nothing here decides but this: NULL where something is wanted, or another size, is LUZHANEM_E_BUFFER_LENGTH. */
#include "parts.h"

#include <string.h>

_Static_assert(sizeof(luzhanem_store) == LUZHANEM_BLOCK_BYTES + 2, "no padding in a store");
_Static_assert(offsetof(luzhanem_store, unused_) == LUZHANEM_BLOCK_BYTES, "its front is a saved block");
_Static_assert(offsetof(luzhanem_store, unused_) - offsetof(luzhanem_store, files_) == 3 * 32768 + 4096,
               "the buffers lie one behind the other");
_Static_assert(sizeof(luzhanem_image) == 2 * 276 + 32768 + 4096, "no padding in an image");
_Static_assert(sizeof(luzhanem_scripts) == 521 * sizeof(size_t), "no padding in scripts");
_Static_assert(sizeof(luzhanem_place) == 4 && sizeof(luzhanem_order) == 12, "no padding in places and orders");
_Static_assert(sizeof(int) == 4 && sizeof(size_t) == 8, "the widths of the proved functions");

u8 luzhanem_nowhere_[1];

int luzhanem_fresh(luzhanem_store *s, size_t size, const uint8_t *file_of) {
    static const u8 by_eight[16] = { 0, 1, 2, 3, 4, 5, 6, 7, 0, 1, 2, 3, 4, 5, 6, 7 };
    WANTED(s && size == sizeof *s);
    return luzhanem_parts_fresh(OF(s), file_of ? file_of : by_eight, 16);
}

int luzhanem_begin(luzhanem_store *s, size_t t) {
    WANTED(s);
    return luzhanem_parts_begin(OF(s), t);
}

int luzhanem_abort(luzhanem_store *s, size_t t) {
    WANTED(s);
    return luzhanem_parts_abort(OF(s), t);
}

int luzhanem_seek(luzhanem_store *s, size_t t, size_t d, size_t offset) {
    WANTED(s);
    return luzhanem_parts_seek(s->record_, t, d, offset, BUFFERS(s));
}

int luzhanem_write(luzhanem_store *s, size_t t, size_t d, const void *bytes, size_t n) {
    WANTED(s);
    BYTES(bytes, n);
    return luzhanem_parts_write(OF(s), t, d, bytes, n);
}

int luzhanem_get_file_pointer(luzhanem_store *s, size_t t, size_t d) {
    WANTED(s);
    return luzhanem_parts_get_file_pointer(s->record_, t, d, BUFFERS(s));
}

int luzhanem_read(luzhanem_store *s, size_t t, size_t d, void *out, size_t n) {
    WANTED(s);
    BYTES(out, n);
    return luzhanem_parts_read(OF(s), t, d, n, out, n);
}

int luzhanem_commit(luzhanem_store *s, size_t t, size_t minute) {
    WANTED(s);
    return luzhanem_parts_commit(OF(s), t, minute);
}

/* The proved function lists numbers of 16 bits, high byte first, in a buffer for at most 64 places. */
int luzhanem_places(const luzhanem_store *s, size_t t, size_t f, luzhanem_place *out, size_t room) {
    u8 pairs[4 * LUZHANEM_WRITES];
    int r;
    WANTED(s && (out || !room));
    r = luzhanem_parts_places(OF(s), t, f, pairs, 4 * (room < LUZHANEM_WRITES ? room : LUZHANEM_WRITES));
    for (int i = 0; i < r; i++) {
        out[i].offset = (u16)(256 * pairs[4 * i] + pairs[4 * i + 1]);
        out[i].length = (u16)(256 * pairs[4 * i + 2] + pairs[4 * i + 3]);
    }
    return r;
}

int luzhanem_set_window(luzhanem_store *s, size_t f, size_t start, size_t end) {
    WANTED(s);
    return luzhanem_parts_set_window(OF(s), f, start, end);
}

int luzhanem_undo(luzhanem_store *s) {
    WANTED(s);
    return luzhanem_parts_undo(OF(s));
}

/* The proved function writes ends and commits when it refuses too, so it gets places of its own. */
int luzhanem_dispatch(luzhanem_store *s, const luzhanem_scripts *scripts, const void *data, size_t data_bytes,
                      void *reader, size_t reader_bytes, size_t minute, int ended[LUZHANEM_SCRIPTS]) {
    u8 ends[LUZHANEM_SCRIPTS];
    size_t commits = 0;
    int r;
    WANTED(s && scripts);
    BYTES(data, data_bytes);
    BYTES(reader, reader_bytes);
    r = luzhanem_parts_dispatch(OF(s), &scripts->calls[0][0].kind, data, data_bytes, reader, reader_bytes,
                                minute, ends, &commits);
    if (r < 0) return r;
    for (int k = 0; ended && k < LUZHANEM_SCRIPTS; k++) ended[k] = ends[k] == 255 ? 0 : -(int)ends[k];
    return (int)commits;
}

int luzhanem_best_order(const luzhanem_store *s, const uint8_t *transactions, size_t n, size_t minute,
                        size_t budget, luzhanem_order *out) {
    u8 order[8];
    u16 gap_and_tried[2];
    int r;
    WANTED(s && out);
    BYTES(transactions, n);
    r = luzhanem_parts_best_order(OF(s), transactions, n, minute, budget, order, gap_and_tried);
    if (r < 0) return r;
    memcpy(out->order, order, sizeof order);
    out->gap = gap_and_tried[0];
    out->tried = gap_and_tried[1];
    return r;
}

int luzhanem_offset(const luzhanem_store *s, size_t d) {
    WANTED(s);
    return luzhanem_parts_offset(s->record_, d);
}

int luzhanem_file_of(const luzhanem_store *s, size_t d) {
    WANTED(s);
    return luzhanem_parts_file_of(s->record_, d);
}

int luzhanem_length(const luzhanem_store *s, size_t f) {
    WANTED(s);
    return luzhanem_parts_length(s->record_, f);
}

int luzhanem_state(const luzhanem_store *s, size_t t) {
    WANTED(s);
    return luzhanem_parts_state(s->record_, t);
}

const uint8_t *luzhanem_file(const luzhanem_store *s, size_t f) {
    return s && f < LUZHANEM_FILES ? s->files_ + (size_t)LUZHANEM_FILE_BYTES * f : NULL;
}

int luzhanem_check(const luzhanem_store *s) {
    WANTED(s);
    return luzhanem_parts_check(OF(s));
}

int luzhanem_save(const luzhanem_store *s, luzhanem_image *out) {
    WANTED(s && out);
    return luzhanem_parts_save(OF(s), out->numbers_, out->files_, out->undo_);
}

int luzhanem_load(luzhanem_store *s, const luzhanem_image *image) {
    WANTED(s && image);
    return luzhanem_parts_load(OF(s), image->numbers_, image->files_, image->undo_);
}

size_t luzhanem_size(void) { return sizeof(luzhanem_store); }
int luzhanem_layout(void) { return luzhanem_parts_layout(); }
const char *luzhanem_version(void) { return LUZHANEM_VERSION; }

#define NAME(number, name, text) [number] = #name,
#define TEXT(number, name, text) [number] = text,
static const char *const names[] = { "OK", LUZHANEM_REFUSALS(NAME) };
static const char *const texts[] = { "done", LUZHANEM_REFUSALS(TEXT) };
enum { KNOWN = sizeof names / sizeof *names };

const char *luzhanem_errname(int answer) {
    return answer >= 0 ? names[0] : answer > -KNOWN ? names[-answer] : "UNKNOWN";
}

const char *luzhanem_strerror(int answer) {
    return answer >= 0 ? texts[0] : answer > -KNOWN ? texts[-answer] : "no such refusal";
}
