/* The stack that each call takes: a thread whose stack is painted before, and how far the paint is gone after. */
#include "check.h"

#include <pthread.h>
#include <stdlib.h>
#include <string.h>

enum { STACK = 256 << 10, PAINT = 0xA7 };

static luzhanem_store s;
static luzhanem_image image;
static luzhanem_scripts q;
static char line[LUZHANEM_LINE_BYTES];
static uint8_t bytes[4096];
static luzhanem_place place[64];
static luzhanem_order order;

static void nothing(void) {}

static void calls(void) {
    luzhanem_fresh(&s, sizeof s, NULL);
    for (size_t t = 0; t < 8; t++) {
        luzhanem_begin(&s, t);
        for (size_t d = 0; d < 8; d++) luzhanem_write(&s, t, d, bytes, 60);
        luzhanem_seek(&s, t, t, 0);
        luzhanem_read(&s, t, t, bytes, sizeof bytes);
        luzhanem_get_file_pointer(&s, t, 15);
        luzhanem_places(&s, t, t, place, 64);
    }
    for (size_t t = 0; t < 8; t++) luzhanem_commit(&s, t, 0), luzhanem_abort(&s, t);
    luzhanem_set_window(&s, 0, 0, 0);
    luzhanem_undo(&s);
    luzhanem_check(&s);
    luzhanem_save(&s, &image);
}

static void best_order(void) {
    if (luzhanem_best_order(&s, (const uint8_t *)"\0\1\2\3\4\5\6\7", 8, 0, LUZHANEM_BUDGET, &order) < 1) exit(1);
}

static void dispatch(void) {
    if (luzhanem_dispatch(&s, &q, bytes, 100, bytes + 100, 1000, 0, NULL) < 8) exit(1);
}

static void load(void) {
    if (luzhanem_save(&s, &image) || luzhanem_load(&s, &image)) exit(1);
}

static void lines(void) {
    luzhanem_line_fresh(line, sizeof line, NULL);
    luzhanem_line_write(line, sizeof line, 0, 0, bytes, sizeof bytes);
    luzhanem_line_given(line, sizeof line, 4096, bytes, sizeof bytes);
    luzhanem_line_listed(line, sizeof line, 64, place, 64);
    luzhanem_line_read(line, sizeof line, SIZE_MAX, SIZE_MAX, SIZE_MAX);
}

static void replay_line(void) {
    static const char *const log[] = { "F0 1 2 3 4 5 6 7 0 1 2 3 4 5 6 7", "B0", "W0 0 hello", "X0 0 68690a", "P0 0",
                                       "S0 0 0", "R0 0 4096", "L0 0 64", "O0 10 0", "C0 0", "H0 1 2", "U", "#" };
    for (size_t i = 0; i < sizeof log / sizeof *log; i++)
        if (luzhanem_replay_line(&s, log[i], strlen(log[i])) == LUZHANEM_E_BAD_LINE) exit(1);
    memset(line, '0', sizeof line);
    memcpy(line, "X0 0 ", 5);
    luzhanem_replay_line(&s, line, 5 + 2 * 4096);
}

static void *started(void *arg) {
    (*(void (**)(void))arg)();
    return NULL;
}

/* The bytes of a painted stack that the thread changed. */
static long depth(void (*f)(void)) {
    static _Alignas(4096) unsigned char stack[STACK];
    pthread_attr_t attributes;
    pthread_t thread;
    long i = 0;
    memset(stack, PAINT, STACK);
    pthread_attr_init(&attributes);
    pthread_attr_setstack(&attributes, stack, STACK);
    if (pthread_create(&thread, &attributes, started, &f) || pthread_join(thread, NULL)) exit(1);
    pthread_attr_destroy(&attributes);
    while (i < STACK && stack[i] == PAINT) i++;
    return STACK - i;
}

/* What the calls of f take on top of a thread that makes none. */
static void holds(const char *name, void (*f)(void), long most) {
    long bare, taken;
    f(); /* binds what is bound at a first call */
    bare = depth(nothing);
    taken = depth(f) - bare;
    printf("%-16s %6ld bytes of at most %ld\n", name, taken, most);
    HOLDS(taken > 0 && taken <= most);
}

/* Eight open transactions that can be ordered, or eight scripts of sixteen calls. */
static void prepare(void) {
    luzhanem_fresh(&s, sizeof s, NULL);
    for (size_t t = 0; t < 8; t++) luzhanem_begin(&s, t), luzhanem_get_file_pointer(&s, t, 0);
    q.count = 8;
    for (int k = 0; k < 8; k++) {
        q.counts[k] = 16;
        for (int i = 0; i < 16; i++) q.calls[k][i] = (luzhanem_script_call){ (size_t)(k + i) % 4, 0, 0, 40 };
    }
}

int main(void) {
    holds("calls", calls, 1536);
    prepare();
    holds("best_order", best_order, 1024);
    for (size_t t = 0; t < 8; t++) luzhanem_abort(&s, t);
    holds("dispatch", dispatch, 20 * 1024);
    holds("load", load, 16 * 1024);
    holds("lines", lines, 1500);
    holds("replay_line", replay_line, 8 * 1024);
    return finish();
}
