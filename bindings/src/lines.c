/* Lines of a log of calls: each function hands its arguments to the proved printer, the last one to the proved
 * reader. Nothing here is proved. */
#include "parts.h"

#define OUT ((u8 *)out)
#define ROOM WANTED(out && room >= LUZHANEM_LINE_BYTES)

/* Fresh without a list is recorded with the list it stands for. */
int luzhanem_line_fresh(char *out, size_t room, const uint8_t *file_of) {
    static const u8 by_eight[16] = { 0, 1, 2, 3, 4, 5, 6, 7, 0, 1, 2, 3, 4, 5, 6, 7 };
    ROOM;
    return (int)luzhanem_parts_line_fresh(OUT, file_of ? file_of : by_eight, 16);
}

int luzhanem_line_begin(char *out, size_t room, size_t t) {
    ROOM;
    return (int)luzhanem_parts_line_begin(OUT, t);
}

int luzhanem_line_abort(char *out, size_t room, size_t t) {
    ROOM;
    return (int)luzhanem_parts_line_abort(OUT, t);
}

int luzhanem_line_seek(char *out, size_t room, size_t t, size_t d, size_t offset) {
    ROOM;
    return (int)luzhanem_parts_line_seek(OUT, t, d, offset);
}

int luzhanem_line_write(char *out, size_t room, size_t t, size_t d, const void *bytes, size_t n) {
    ROOM;
    BYTES(bytes, n);
    return (int)luzhanem_parts_line_write(OUT, t, d, bytes, n);
}

int luzhanem_line_get_file_pointer(char *out, size_t room, size_t t, size_t d) {
    ROOM;
    return (int)luzhanem_parts_line_get_file_pointer(OUT, t, d);
}

int luzhanem_line_read(char *out, size_t room, size_t t, size_t d, size_t n) {
    ROOM;
    return (int)luzhanem_parts_line_read(OUT, t, d, n, n);
}

int luzhanem_line_commit(char *out, size_t room, size_t t, size_t minute) {
    ROOM;
    return (int)luzhanem_parts_line_commit(OUT, t, minute);
}

/* Room for more than 64 places is recorded as for 64: luzhanem_places asks so. */
static size_t pairs_room(size_t places_room) {
    return 4 * (places_room < LUZHANEM_WRITES ? places_room : LUZHANEM_WRITES);
}

int luzhanem_line_places(char *out, size_t room, size_t t, size_t f, size_t places_room) {
    ROOM;
    return (int)luzhanem_parts_line_places(OUT, t, f, pairs_room(places_room));
}

int luzhanem_line_set_window(char *out, size_t room, size_t f, size_t start, size_t end) {
    ROOM;
    return (int)luzhanem_parts_line_set_window(OUT, f, start, end);
}

int luzhanem_line_undo(char *out, size_t room) {
    ROOM;
    return (int)luzhanem_parts_line_undo(OUT);
}

int luzhanem_line_best_order(char *out, size_t room, const uint8_t *transactions, size_t n, size_t minute,
                             size_t budget) {
    ROOM;
    BYTES(transactions, n);
    return (int)luzhanem_parts_line_best_order(OUT, transactions, n, minute, budget);
}

int luzhanem_line_done(char *out, size_t room, int answer) {
    ROOM;
    return (int)luzhanem_parts_line_done(OUT, (u16)answer);
}

int luzhanem_line_number(char *out, size_t room, int answer) {
    ROOM;
    return (int)luzhanem_parts_line_number(OUT, (u16)answer);
}

int luzhanem_line_given(char *out, size_t room, int answer, const void *bytes, size_t n) {
    ROOM;
    BYTES(bytes, n);
    return (int)luzhanem_parts_line_given(OUT, (u16)answer, bytes, n);
}

int luzhanem_line_listed(char *out, size_t room, int answer, const luzhanem_place *places, size_t places_room) {
    u8 pairs[4 * LUZHANEM_WRITES] = { 0 };
    ROOM;
    WANTED(places || !places_room);
    for (int i = 0; i < answer && i < LUZHANEM_WRITES && (size_t)i < places_room; i++) {
        pairs[4 * i] = (u8)(places[i].offset >> 8), pairs[4 * i + 1] = (u8)places[i].offset;
        pairs[4 * i + 2] = (u8)(places[i].length >> 8), pairs[4 * i + 3] = (u8)places[i].length;
    }
    return (int)luzhanem_parts_line_pairs(OUT, (u16)answer, pairs, pairs_room(places_room));
}

int luzhanem_line_ordered(char *out, size_t room, int answer, const luzhanem_order *order, size_t n) {
    ROOM;
    WANTED(order);
    return (int)luzhanem_parts_line_ordered(OUT, (u16)answer, order->gap, order->tried, order->order,
                                            n < 8 ? n : 8);
}

int luzhanem_replay_line(luzhanem_store *s, const char *line, size_t n) {
    const u8 *bytes = (const u8 *)line;
    WANTED(s);
    BYTES(bytes, n);
    return luzhanem_parts_replay_line(OF(s), bytes, n);
}
