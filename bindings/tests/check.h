/* Counts what holds; `finish` prints 'N passed, M failed' and gives the status of the program. */
#ifndef CHECK_H
#define CHECK_H

#include "luzhanem.h"

#include <stdint.h>
#include <stdio.h>

static int passed, failed;

#define IS(call, want)                                                                              \
    do {                                                                                            \
        const int answer_ = (call), want_ = (want);                                                 \
        if (answer_ == want_) passed++;                                                             \
        else {                                                                                      \
            failed++;                                                                               \
            printf("%s:%d: %s: %d (%s), not %d (%s)\n", __FILE__, __LINE__, #call, answer_,         \
                   luzhanem_errname(answer_), want_, luzhanem_errname(want_));                      \
        }                                                                                           \
    } while (0)
#define HOLDS(condition) IS(!!(condition), 1)

static int finish(void) {
    printf("%d passed, %d failed\n", passed, failed);
    return failed != 0;
}

/* Numbers drawn at random, the same in every run (xorshift). */
static uint64_t seed = 88172645463325252u;
static inline uint64_t drawn(uint64_t below) {
    seed ^= seed << 13, seed ^= seed >> 7, seed ^= seed << 17;
    return (seed >> 8) % below;
}

#endif
