/* What the test programs share: a line for each check, and stores that are compared by their images. */
#ifndef CHECK_H
#define CHECK_H

#include "luzhanem_durable.h"
#include <stdbool.h>
#include <stdio.h>
#include <stdlib.h>
#include <string.h>

static int wrong;

/* Prints "ok NAME" or "not ok NAME: WORDS". */
static inline void check(bool good, const char *name, const char *words) {
    wrong += !good;
    printf("%s %s%s%s\n", good ? "ok" : "not ok", name, good || !words || !*words ? "" : ": ",
           good || !words ? "" : words);
    fflush(stdout);
}

static inline void must(int r, const char *what) {
    if (r < 0)
        fprintf(stderr, "%s: %d %s\n", what, r, r < -100 ? luzhanem_durable_error() : luzhanem_strerror(r)),
            exit(3);
}

/* Whether two stores have the same committed values and the same grant to undo. Old bytes that the grant did
 * not use, and all of them where there is none to undo, say nothing. */
static inline bool same(const luzhanem_store *x, const luzhanem_store *y) {
    enum { FILES_END = 552 + 32768, CAN_UNDO = 2 * 57, GRANT_BYTES = 2 * 59 };
    static luzhanem_image images[2];
    const uint8_t *a = (const uint8_t *)&images[0], *b = (const uint8_t *)&images[1];
    if (luzhanem_save(x, &images[0]) < 0 || luzhanem_save(y, &images[1]) < 0) return false;
    size_t used = a[CAN_UNDO] ? (size_t)a[GRANT_BYTES] + 256u * a[GRANT_BYTES + 1] : 0;
    return memcmp(a, b, FILES_END + used) == 0;
}

/* Commits a number at the front of a file. */
static inline void write_at(luzhanem_store *s, size_t file, uint32_t v) {
    must(luzhanem_begin(s, 0), "begin");
    must(luzhanem_seek(s, 0, file, 0), "seek");
    must(luzhanem_write(s, 0, file, &v, 4), "write");
    must(luzhanem_commit(s, 0, 0), "commit");
}

static inline uint32_t at(const luzhanem_store *s, size_t file) {
    uint32_t v;
    memcpy(&v, luzhanem_file(s, file), 4);
    return v;
}

static inline const char *url_in(const char *folder, const char *name) {
    static char text[2][700];
    static int turn;
    turn = !turn;
    snprintf(text[turn], sizeof text[turn], "sqlite:%s/%s", folder, name);
    return text[turn];
}

#endif
