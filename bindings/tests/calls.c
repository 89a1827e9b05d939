/* What each call answers and where it puts it, once: results, places, an order, scripts, windows, undo. */
#include "check.h"

#include <string.h>

static luzhanem_store s;

static void reads_and_places(void) {
    char bytes[8] = "........";
    luzhanem_place at[3] = { { 7, 7 }, { 7, 7 }, { 7, 7 } };
    IS(luzhanem_fresh(&s, sizeof s, NULL), 0);
    IS(luzhanem_begin(&s, 2), 0);
    IS(luzhanem_seek(&s, 2, 1, 300), 0);
    IS(luzhanem_write(&s, 2, 1, "hello", 5), 0);
    IS(luzhanem_seek(&s, 2, 9, 1000), 0); /* descriptor 9 has file 1 too */
    IS(luzhanem_write(&s, 2, 9, "world", 5), 0);
    IS(luzhanem_get_file_pointer(&s, 2, 1), 305);
    IS(luzhanem_places(&s, 2, 1, at, 3), 2);
    HOLDS(at[0].offset == 300 && at[0].length == 5 && at[1].offset == 1000 && at[1].length == 5 && at[2].offset == 7);
    IS(luzhanem_places(&s, 2, 1, at, 1), LUZHANEM_E_LIST_TOO_LONG);
    IS(luzhanem_places(&s, 2, 1, at, SIZE_MAX), 2);
    IS(luzhanem_seek(&s, 2, 1, 301), 0);
    IS(luzhanem_read(&s, 2, 1, bytes, 4), 4);
    HOLDS(!memcmp(bytes, "ello....", 8));
    IS(luzhanem_length(&s, 1), 0);
    IS(luzhanem_commit(&s, 2, 1439), 0);
    IS(luzhanem_length(&s, 1), 1005);
    IS(luzhanem_offset(&s, 9), 1005);
    HOLDS(luzhanem_file(&s, 1) == luzhanem_file(&s, 0) + 4096 && !memcmp(luzhanem_file(&s, 1) + 300, "hello", 5));
}

static void windows_and_undo(void) {
    IS(luzhanem_fresh(&s, sizeof s, NULL), 0);
    IS(luzhanem_set_window(&s, 1, 480, 1320), 0);
    IS(luzhanem_begin(&s, 0), 0);
    IS(luzhanem_write(&s, 0, 1, "x", 1), 0);
    IS(luzhanem_commit(&s, 0, 479), LUZHANEM_E_FILE_CLOSED);
    IS(luzhanem_commit(&s, 0, 1320), LUZHANEM_E_FILE_CLOSED);
    IS(luzhanem_state(&s, 0), 1);
    IS(luzhanem_commit(&s, 0, 480), 0);
    IS(luzhanem_state(&s, 0), 0);
    IS(luzhanem_length(&s, 1), 1);
    IS(luzhanem_undo(&s), 0);
    IS(luzhanem_length(&s, 1), 0);
}

/* 0 has read what 1 and 2 set: it goes first. The first order tried is the given one. */
static void orders(void) {
    luzhanem_order o = { { 9, 9, 9, 9, 9, 9, 9, 9 }, 9, 9 };
    char byte;
    IS(luzhanem_fresh(&s, sizeof s, NULL), 0);
    for (size_t t = 0; t < 3; t++) IS(luzhanem_begin(&s, t), 0);
    IS(luzhanem_read(&s, 0, 0, &byte, 1), 0);
    for (size_t t = 1; t < 3; t++) IS(luzhanem_seek(&s, t, t, 0), 0);
    IS(luzhanem_seek(&s, 1, 8, 0), 0);
    IS(luzhanem_write(&s, 1, 8, "x", 1), 0);
    IS(luzhanem_best_order(&s, (const uint8_t *)"\1\2\0", 3, 0, 1, &o), 2);
    HOLDS(o.order[0] == 1 && o.order[1] == 2 && o.order[2] == 0 && o.order[3] == 0 && o.gap == 1 && o.tried == 1);
    IS(luzhanem_best_order(&s, (const uint8_t *)"\1\2\0", 3, 0, LUZHANEM_BUDGET, &o), 3);
    HOLDS(o.order[2] == 1 || o.order[1] == 1);
    HOLDS(o.order[0] != 1 && o.gap == 0 && o.tried == 6);
    IS(luzhanem_commit(&s, 1, 0), 1 << 0);
    IS(luzhanem_state(&s, 0), 2);
}

static void scripts(void) {
    static const luzhanem_scripts q = { { { { LUZHANEM_WRITE, 0, 2, 3 } },
                                          { { LUZHANEM_GET_FILE_POINTER, 0, 0, 0 }, { LUZHANEM_WRITE, 0, 0, 2 } },
                                          { { LUZHANEM_SEEK, 0, 1, 0 }, { LUZHANEM_READ, 0, 0, 2 } } },
                                        { 1, 2, 2 }, 3 };
    char reader[4] = "....";
    int ended[8] = { 1, 1, 1, 1, 1, 1, 1, 1 };
    IS(luzhanem_fresh(&s, sizeof s, NULL), 0);
    IS(luzhanem_dispatch(&s, &q, "ABcde", 5, reader, 4, 0, ended), 5); /* 3 in the first round, 2 in the second */
    for (int k = 0; k < 8; k++) IS(ended[k], 0);
    HOLDS(luzhanem_length(&s, 0) == 5 && !memcmp(luzhanem_file(&s, 0), "cdeAB", 5));
    HOLDS(!memcmp(reader, "de..", 4));
}

int main(void) {
    reads_and_places();
    windows_and_undo();
    orders();
    scripts();
    return finish();
}
