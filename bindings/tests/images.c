/* Saving and loading: an image holds what is committed, and a loaded store answers as the saved one would with
 * every transaction aborted. */
#include "check.h"

#include <string.h>

static luzhanem_store saved, loaded, before;
static luzhanem_image image, again;
static uint8_t bytes[64];

/* One call, the same on both stores: the answers and what is committed are the same. */
static int same_call(luzhanem_store *a, luzhanem_store *b) {
    static uint8_t out[2][64];
    static luzhanem_place at[2][64];
    const size_t t = drawn(8), d = drawn(16), n = drawn(64), f = drawn(8), minute = drawn(1440);
    const size_t offset = drawn(8) ? drawn(600) : drawn(4200), end = drawn(2) ? minute : drawn(1440);
    memset(out, 0, sizeof out), memset(at, 0, sizeof at);
    for (size_t i = 0; i < sizeof bytes; i++) bytes[i] = (uint8_t)drawn(256);
#define BOTH(call, ...) (luzhanem_##call(a, __VA_ARGS__) == luzhanem_##call(b, __VA_ARGS__))
    switch (drawn(12)) {
    case 0: case 1: return BOTH(begin, t);
    case 2: return BOTH(seek, t, d, offset);
    case 3: case 4: return BOTH(write, t, d, bytes, n);
    case 5: return BOTH(get_file_pointer, t, d);
    case 6:
        if (luzhanem_read(a, t, d, out[0], n) != luzhanem_read(b, t, d, out[1], n)) return 0;
        return !memcmp(out[0], out[1], 64);
    case 7: case 8: return BOTH(commit, t, minute);
    case 9:
        if (luzhanem_places(a, t, f, at[0], 64) != luzhanem_places(b, t, f, at[1], 64)) return 0;
        return !memcmp(at[0], at[1], sizeof at[0]);
    case 10: return drawn(4) ? BOTH(abort, t) : BOTH(set_window, f, minute, end);
    default: return luzhanem_undo(a) == luzhanem_undo(b);
    }
}

static int same_committed(const luzhanem_store *a, const luzhanem_store *b) {
    for (size_t d = 0; d < 16; d++)
        if (luzhanem_offset(a, d) != luzhanem_offset(b, d)) return 0;
    for (size_t d = 0; d < 16; d++)
        if (luzhanem_file_of(a, d) != luzhanem_file_of(b, d)) return 0;
    for (size_t f = 0; f < 8; f++)
        if (luzhanem_length(a, f) != luzhanem_length(b, f)) return 0;
    return !memcmp(luzhanem_file(a, 0), luzhanem_file(b, 0), 32768);
}

/* Stores of random calls, saved at any moment. */
static void saved_and_loaded(void) {
    static const uint8_t file_of[16] = { 7, 1, 2, 3, 4, 5, 6, 0, 7, 0, 0, 0, 1, 1, 1, 1 };
    int open = 0, undone = 0;
    IS(luzhanem_fresh(&saved, sizeof saved, file_of), 0);
    IS(luzhanem_fresh(&loaded, sizeof loaded, NULL), 0);
    for (int round = 0; round < 300; round++) {
        int same = 1;
        for (int i = 0; i < 60; i++) same_call(&saved, &saved);
        memcpy(&before, &saved, sizeof saved);
        IS(luzhanem_save(&saved, &image), 0);
        HOLDS(!memcmp(&before, &saved, sizeof saved));
        for (size_t t = 0; t < 8; t++) open += luzhanem_state(&saved, t) > 0;
        for (int i = 0; i < 40; i++) same_call(&loaded, &loaded); /* whatever it held */
        IS(luzhanem_load(&loaded, &image), 0);
        IS(luzhanem_check(&loaded), 0);
        HOLDS(same_committed(&saved, &loaded));
        for (size_t t = 0; t < 8; t++) IS(luzhanem_state(&loaded, t), 0);
        memset(&again, 7, sizeof again);
        IS(luzhanem_save(&loaded, &again), 0);
        HOLDS(!memcmp(&image, &again, sizeof image));
        for (size_t t = 0; t < 8; t++)
            if (luzhanem_state(&before, t)) luzhanem_abort(&before, t);
        if (round % 3 == 0) {
            const int r = luzhanem_undo(&before);
            IS(luzhanem_undo(&loaded), r);
            undone += r == 0;
        }
        for (int i = 0; i < 400 && same; i++) same = same_call(&before, &loaded);
        HOLDS(same);
        HOLDS(same_committed(&before, &loaded));
    }
    HOLDS(open > 300 && undone > 30);
}

/* The format: docs/IMAGE.md. */
static void bytes_of_an_image(void) {
    IS(luzhanem_fresh(&saved, sizeof saved, NULL), 0);
    IS(luzhanem_begin(&saved, 0), 0);
    IS(luzhanem_seek(&saved, 0, 2, 300), 0);
    IS(luzhanem_write(&saved, 0, 2, "hello", 5), 0);
    IS(luzhanem_commit(&saved, 0, 0), 0);
    IS(luzhanem_set_window(&saved, 3, 480, 1320), 0);
    IS(luzhanem_save(&saved, &image), 0);
#define NUMBER(i) (image.numbers_[2 * (i)] + 256 * image.numbers_[2 * (i) + 1])
    IS((int)sizeof image, 37416);
    IS(NUMBER(0), 1);            /* the format */
    IS(NUMBER(1 + 9), 1);        /* the file of descriptor 9 */
    IS(NUMBER(17 + 2), 305);     /* its committed offset */
    IS(NUMBER(33 + 2), 305);     /* the length of file 2 */
    IS(NUMBER(41 + 3), 480);     /* the window of file 3 */
    IS(NUMBER(49 + 3), 1320);
    IS(NUMBER(57), 1);           /* the last commit can be undone */
    IS(NUMBER(58), 1);           /* it has one write, ... */
    IS(NUMBER(59), 5);           /* ... of 5 bytes */
    IS(NUMBER(84), 2);           /* through descriptor 2, ... */
    IS(NUMBER(148), 300);        /* ... at offset 300, ... */
    IS(NUMBER(212), 5);          /* ... of length 5 */
    IS(NUMBER(85), 0);
    HOLDS(!memcmp(image.files_ + 2 * 4096 + 300, "hello", 5));
    HOLDS(!memcmp(image.undo_, "\0\0\0\0\0", 5));
}

/* A number out of its range is refused with 2, another format with 1; the store is left. */
static void damaged_images(void) {
    static const struct { int at, value; } bad[] = {
        { 1, 8 }, { 16, 65535 }, { 17, 4097 }, { 33, 4097 }, { 41, 1440 }, { 49, 1440 }, { 57, 2 }, { 58, 65 },
    };
    int refused = 0, taken = 0;
    memcpy(&before, &saved, sizeof saved);
    for (size_t i = 0; i < sizeof bad / sizeof *bad; i++) {
        again = image;
        again.numbers_[2 * bad[i].at] = (uint8_t)bad[i].value;
        again.numbers_[2 * bad[i].at + 1] = (uint8_t)(bad[i].value >> 8);
        IS(luzhanem_load(&saved, &again), LUZHANEM_E_RECORD_RANGE);
    }
    for (int format = 0; format < 300; format++) {
        again = image;
        again.numbers_[0] = (uint8_t)format, again.numbers_[1] = (uint8_t)(format >> 8);
        if (format != 1) IS(luzhanem_load(&saved, &again), LUZHANEM_E_BUFFER_LENGTH);
    }
    HOLDS(!memcmp(&before, &saved, sizeof saved));
    for (int i = 0; i < 20000; i++) {
        int r;
        again = image;
        for (int k = 0; k < 1 + i % 3; k++) {
            const uint64_t at = 1 + drawn(275), value = drawn(2) ? drawn(5000) : drawn(65536);
            again.numbers_[2 * at] = (uint8_t)value, again.numbers_[2 * at + 1] = (uint8_t)(value >> 8);
        }
        r = luzhanem_load(&saved, &again);
        if (r == 0) {
            taken++;
            IS(luzhanem_check(&saved), 0); /* whatever is loaded is a store */
            memcpy(&saved, &before, sizeof saved);
        } else {
            refused++;
            IS(r, LUZHANEM_E_RECORD_RANGE);
            HOLDS(!memcmp(&before, &saved, sizeof saved));
        }
    }
    HOLDS(refused > 2000 && taken > 100);
}

/* A store with windows set, a grant that can be undone, and transactions left open, one of them stale. */
static void make_some(luzhanem_store *s) {
    static const uint8_t file_of[16] = { 7, 1, 2, 3, 4, 5, 6, 0, 7, 0, 2, 0, 1, 1, 3, 5 };
    uint8_t out[8];
    IS(luzhanem_fresh(s, sizeof *s, file_of), 0);
    IS(luzhanem_set_window(s, 3, 480, 1320), 0);
    IS(luzhanem_set_window(s, 5, 1380, 60), 0);
    IS(luzhanem_begin(s, 0), 0);
    IS(luzhanem_write(s, 0, 2, "first line\n", 11), 0);
    IS(luzhanem_seek(s, 0, 3, 4090), 0);
    IS(luzhanem_write(s, 0, 3, "at end", 6), 0);
    IS(luzhanem_commit(s, 0, 600), 0);
    IS(luzhanem_begin(s, 3), 0);
    IS(luzhanem_read(s, 3, 10, out, 5), 5);
    IS(luzhanem_begin(s, 1), 0);
    IS(luzhanem_seek(s, 1, 10, 6), 0);
    IS(luzhanem_write(s, 1, 10, "LINE, and more\n", 15), 0);
    IS(luzhanem_seek(s, 1, 10, 0), 0);
    IS(luzhanem_write(s, 1, 10, "F", 1), 0);
    IS(luzhanem_write(s, 1, 15, "night\n", 6), 0);
    IS(luzhanem_commit(s, 1, 1439), 8);
    IS(luzhanem_begin(s, 2), 0);
    IS(luzhanem_seek(s, 2, 4, 40), 0);
    IS(luzhanem_write(s, 2, 6, "waiting", 7), 0);
    IS(luzhanem_write(s, 2, 7, "moved", 5), 0);
    IS(luzhanem_seek(s, 2, 7, 300), 0);
    IS(luzhanem_get_file_pointer(s, 2, 2), 11);
    IS(luzhanem_begin(s, 7), 0);
}

/* Its image as the library of layout 1 (2,323 numbers in the record) saved it: the numbers and the bytes that are
 * not 0. An image knows no layout, so it is read as before and saved as the same bytes. */
static const struct { int at, value; } older_numbers[] = {
    { 0, 1 }, { 1, 7 }, { 2, 1 }, { 3, 2 }, { 4, 3 }, { 5, 4 }, { 6, 5 }, { 7, 6 }, { 9, 7 }, { 11, 2 }, { 13, 1 },
    { 14, 1 }, { 15, 3 }, { 16, 5 }, { 19, 11 }, { 20, 4096 }, { 27, 1 }, { 32, 6 }, { 35, 21 }, { 36, 4096 },
    { 38, 6 }, { 44, 480 }, { 46, 1380 }, { 52, 1320 }, { 54, 60 }, { 57, 1 }, { 58, 3 }, { 59, 22 }, { 62, 11 },
    { 63, 4096 }, { 78, 11 }, { 79, 4096 }, { 84, 10 }, { 85, 10 }, { 86, 15 }, { 148, 6 }, { 212, 15 }, { 213, 1 },
    { 214, 6 },
};
static const struct { int at; const char *text; } older_bytes[] = {
    { 8744, "First LINE, and more\n" }, { 16930, "at end" }, { 21032, "night\n" }, { 33320, "line\n" }, { 33335, "f" },
};

static void image_of_an_older_layout(void) {
    static luzhanem_image older;
    uint8_t *const to = (uint8_t *)&older;
    for (size_t i = 0; i < sizeof older_numbers / sizeof *older_numbers; i++) {
        to[2 * older_numbers[i].at] = (uint8_t)older_numbers[i].value;
        to[2 * older_numbers[i].at + 1] = (uint8_t)(older_numbers[i].value >> 8);
    }
    for (size_t i = 0; i < sizeof older_bytes / sizeof *older_bytes; i++)
        memcpy(to + older_bytes[i].at, older_bytes[i].text, strlen(older_bytes[i].text));
    memset(&saved, 0, sizeof saved); /* fresh leaves the old bytes of an earlier grant */
    make_some(&saved);
    IS(luzhanem_save(&saved, &image), 0);
    HOLDS(!memcmp(&image, &older, sizeof older));
    IS(luzhanem_fresh(&loaded, sizeof loaded, NULL), 0);
    IS(luzhanem_load(&loaded, &older), 0);
    IS(luzhanem_check(&loaded), 0);
    HOLDS(same_committed(&saved, &loaded));
    memset(&again, 7, sizeof again);
    IS(luzhanem_save(&loaded, &again), 0);
    HOLDS(!memcmp(&again, &older, sizeof older));
    for (size_t t = 0; t < 8; t++)
        if (luzhanem_state(&saved, t)) IS(luzhanem_abort(&saved, t), 0);
    IS(luzhanem_undo(&saved), 0);
    IS(luzhanem_undo(&loaded), 0);
    HOLDS(same_committed(&saved, &loaded));
    HOLDS(!memcmp(luzhanem_file(&loaded, 2), "first line\n", 12));
}

int main(void) {
    IS(luzhanem_layout(), 2);
    saved_and_loaded();
    bytes_of_an_image();
    damaged_images();
    image_of_an_older_layout();
    return finish();
}
