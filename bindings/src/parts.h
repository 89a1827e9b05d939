/* The proved functions, exported by the crates c_calls, c_scripts, c_images, c_lines and c_replay: each takes the
 * parts of a store. Nothing proves that these declarations agree with the crates; the tests link and call every one. */
#ifndef LUZHANEM_PARTS_H
#define LUZHANEM_PARTS_H

#include "luzhanem.h"

typedef uint16_t u16;
typedef uint8_t u8;

/* Record, files, logs, marks, undo. */
#define PARTS u16 *, u8 *, u8 *, u8 *, u8 *
#define CONST_PARTS const u16 *, const u8 *, const u8 *, const u8 *, const u8 *
#define OF(s) (s)->record_, (s)->files_, (s)->logs_, (s)->marks_, (s)->undo_

/* The four buffers as one array. Seek and GetFilePointer take them so, and their numbers before them: in the registers
 * in which luzhanem_seek has them, so that it ends in a jump. */
#define BUFFERS(s) ((u8 *)(s) + offsetof(luzhanem_store, files_))

/* Refuses the call unless the condition holds. */
#define WANTED(condition) \
    if (!(condition)) return LUZHANEM_E_BUFFER_LENGTH

/* Refuses NULL for n bytes, and gives no bytes an address, which the proved functions want. */
#define BYTES(p, n) \
    WANTED((p) || !(n)); \
    if (!(p)) p = luzhanem_nowhere_
extern u8 luzhanem_nowhere_[1];

/* c_calls */
int luzhanem_parts_fresh(PARTS, const u8 *file_of, size_t n);
int luzhanem_parts_begin(PARTS, size_t t);
int luzhanem_parts_abort(PARTS, size_t t);
int luzhanem_parts_seek(u16 *, size_t t, size_t d, size_t offset, const u8 *buffers);
int luzhanem_parts_write(PARTS, size_t t, size_t d, const u8 *bytes, size_t n);
int luzhanem_parts_get_file_pointer(u16 *, size_t t, size_t d, const u8 *buffers);
int luzhanem_parts_read(PARTS, size_t t, size_t d, size_t n, u8 *reader, size_t room);
int luzhanem_parts_places(CONST_PARTS, size_t t, size_t f, u8 *out, size_t room);
int luzhanem_parts_commit(PARTS, size_t t, size_t minute);
int luzhanem_parts_set_window(PARTS, size_t f, size_t start, size_t end);
int luzhanem_parts_undo(PARTS);
int luzhanem_parts_best_order(CONST_PARTS, const u8 *list, size_t n, size_t minute, size_t budget, u8 *order,
                              u16 *gap_and_tried);
int luzhanem_parts_offset(const u16 *, size_t d);
int luzhanem_parts_length(const u16 *, size_t f);
int luzhanem_parts_file_of(const u16 *, size_t d);
int luzhanem_parts_state(const u16 *, size_t t);

/* c_scripts; an end is 0 committed, 255 not run, else the refusal's number. */
int luzhanem_parts_dispatch(PARTS, const size_t *scripts, const u8 *data, size_t n, u8 *reader, size_t room,
                            size_t minute, u8 *ended, size_t *commits);

/* c_images */
int luzhanem_parts_save(CONST_PARTS, u8 *numbers, u8 *files, u8 *undo);
int luzhanem_parts_load(PARTS, const u8 *numbers, const u8 *files, const u8 *undo);
int luzhanem_parts_check(CONST_PARTS);
int luzhanem_parts_layout(void);

/* c_lines; each puts a line with its end into LUZHANEM_LINE_BYTES and answers its length. */
size_t luzhanem_parts_line_fresh(u8 *out, const u8 *file_of, size_t n);
size_t luzhanem_parts_line_begin(u8 *out, size_t t);
size_t luzhanem_parts_line_abort(u8 *out, size_t t);
size_t luzhanem_parts_line_seek(u8 *out, size_t t, size_t d, size_t offset);
size_t luzhanem_parts_line_write(u8 *out, size_t t, size_t d, const u8 *bytes, size_t n);
size_t luzhanem_parts_line_get_file_pointer(u8 *out, size_t t, size_t d);
size_t luzhanem_parts_line_read(u8 *out, size_t t, size_t d, size_t n, size_t room);
size_t luzhanem_parts_line_places(u8 *out, size_t t, size_t f, size_t room);
size_t luzhanem_parts_line_commit(u8 *out, size_t t, size_t minute);
size_t luzhanem_parts_line_set_window(u8 *out, size_t f, size_t start, size_t end);
size_t luzhanem_parts_line_undo(u8 *out);
size_t luzhanem_parts_line_best_order(u8 *out, const u8 *list, size_t n, size_t minute, size_t budget);
/* An answer comes as its lower 16 bits: 32,768 and more is a refusal. */
size_t luzhanem_parts_line_done(u8 *out, u16 answer);
size_t luzhanem_parts_line_number(u8 *out, u16 answer);
size_t luzhanem_parts_line_given(u8 *out, u16 answer, const u8 *bytes, size_t n);
size_t luzhanem_parts_line_pairs(u8 *out, u16 answer, const u8 *pairs, size_t n);
size_t luzhanem_parts_line_ordered(u8 *out, u16 answer, u16 gap, u16 tried, const u8 *order, size_t n);

/* c_replay */
int luzhanem_parts_replay_line(PARTS, const u8 *line, size_t n);

#endif
