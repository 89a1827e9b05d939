/* A day of eight tasks under one lock, recorded as a log of calls.
 *
 *     day BLOCK LOG     starts recording on a store in use, with a transaction open: the block, then the log;
 *                       `replay BLOCK <LOG` makes the day again and compares every answer
 *     day time          the day recorded to memory beside the day not recorded, both by one thread: the target is 1.3,
 *                       and it takes 1.28 to 1.39 where nothing else runs; fails above 2, since other programs beside it
 *                       cost the recorded day more (1.69 was seen)
 */
#include "luzhanem.h"

#include <pthread.h>
#include <stdio.h>
#include <stdlib.h>
#include <string.h>
#include <time.h>

enum { ROUNDS = 2000, TAPE = 64 << 20 };

static luzhanem_store s;
static pthread_mutex_t mutex = PTHREAD_MUTEX_INITIALIZER;
static char *tape; /* NULL: not recorded */
static size_t used;
static long commits, refusals, stale;
static int pauses; /* sleeps after some calls, so that the tasks interleave */
static pthread_barrier_t start;

/* Sleeps after each seventh call of a task. */
static void pause_some(void) {
    static _Thread_local int calls;
    if (++calls % 7 == 0) nanosleep(&(struct timespec){ 0, 1000 }, NULL);
}

/* Every call is made, and its two lines put down, under the lock. */
#define LINE(what, ...) \
    if (tape) used += (size_t)luzhanem_line_##what(tape + used, TAPE - used, __VA_ARGS__)
#define RECORDED(call, line, answer)   \
    do {                               \
        int r;                         \
        pthread_mutex_lock(&mutex);    \
        line;                          \
        r = (call);                    \
        answer;                        \
        refusals += r < 0;             \
        stale += r == LUZHANEM_E_STALE; \
        pthread_mutex_unlock(&mutex);  \
        if (pauses) pause_some();      \
        return r;                      \
    } while (0)

static int begin(size_t t) { RECORDED(luzhanem_begin(&s, t), LINE(begin, t), LINE(done, r)); }
static int abort_(size_t t) { RECORDED(luzhanem_abort(&s, t), LINE(abort, t), LINE(done, r)); }
static int seek(size_t t, size_t d, size_t at) {
    RECORDED(luzhanem_seek(&s, t, d, at), LINE(seek, t, d, at), LINE(done, r));
}
static int write_(size_t t, size_t d, const void *p, size_t n) {
    RECORDED(luzhanem_write(&s, t, d, p, n), LINE(write, t, d, p, n), LINE(done, r));
}
static int pointer(size_t t, size_t d) {
    RECORDED(luzhanem_get_file_pointer(&s, t, d), LINE(get_file_pointer, t, d), LINE(number, r));
}
static int read_(size_t t, size_t d, void *p, size_t n) {
    RECORDED(luzhanem_read(&s, t, d, p, n), LINE(read, t, d, n), LINE(given, r, p, n));
}
static int commit(size_t t, size_t minute) {
    RECORDED(luzhanem_commit(&s, t, minute), LINE(commit, t, minute), LINE(number, r); commits += r >= 0);
}
static int places(size_t t, size_t f, luzhanem_place *p, size_t n) {
    RECORDED(luzhanem_places(&s, t, f, p, n), LINE(places, t, f, n), LINE(listed, r, p, n));
}
static int window(size_t f, size_t start, size_t end) {
    RECORDED(luzhanem_set_window(&s, f, start, end), LINE(set_window, f, start, end), LINE(done, r));
}
static int undo(void) {
    RECORDED(luzhanem_undo(&s), if (tape) used += (size_t)luzhanem_line_undo(tape + used, TAPE - used), LINE(done, r));
}
static int best(const uint8_t *list, size_t n, size_t minute, luzhanem_order *o) {
    RECORDED(luzhanem_best_order(&s, list, n, minute, 100, o), LINE(best_order, list, n, minute, 100),
             LINE(ordered, r, o, n));
}

/* A logger: appends an as-run line; when the log is full, starts it anew. */
static void log_clip(size_t t, int i) {
    char text[40];
    const int n = snprintf(text, sizeof text, "%02d:%02d:%02d clip %05d\n", i / 3600, i / 60 % 60, i % 60, i);
    begin(t);
    write_(t, t % 2, text, (size_t)n);
    if (commit(t, 842) != LUZHANEM_E_APPEND_PAST_END) return;
    abort_(t);
    begin(t);
    seek(t, t % 2, 0);
    commit(t, 842);
}

/* Adds 1 to a counter, until it is not stale. */
static void count(size_t t) {
    uint8_t four[4] = { 0 };
    do {
        begin(t);
        seek(t, 3, 0);
        read_(t, 3, four, sizeof four);
        four[0]++;
        seek(t, 3, 0);
        write_(t, 3, four, sizeof four);
    } while (commit(t, 842) == LUZHANEM_E_STALE);
}

/* Shows a caption. */
static void show(size_t t) {
    char text[64] = "";
    begin(t);
    seek(t, 4, 0);
    read_(t, 4, text, sizeof text);
    pointer(t, 4);
    commit(t, 842);
}

/* Changes a caption, and looks where that will land. */
static void edit(size_t t, int i) {
    static const char text[] = "\x1fGood evening, and welcome to the news at nine o'clock.";
    luzhanem_place at[8];
    begin(t);
    seek(t, 4, (size_t)i % 8);
    write_(t, 4, text, sizeof text - 1);
    places(t, 4, at, 8);
    commit(t, 842);
}

/* Changes the playlist of a file that is closed at times. */
static void schedule(size_t t, int i) {
    uint8_t self = (uint8_t)t;
    luzhanem_order o;
    begin(t);
    pointer(t, 5);
    if (write_(t, 5, "next: film, then weather; ", 26) < 0) seek(t, 5, 0);
    best(&self, 1, 842, &o);
    if (i % 50 == 0) window(5, i % 100 ? 900 : 0, i % 100 ? 1000 : 0);
    if (commit(t, 842) == LUZHANEM_E_FILE_CLOSED) abort_(t);
}

/* Reads a part of the log back, and aborts. */
static void look(size_t t, int i) {
    uint8_t bytes[200];
    begin(t);
    seek(t, 0, (size_t)i % 4096);
    read_(t, 0, bytes, sizeof bytes);
    if (i % 100 == 0) undo();
    abort_(t);
}

static void work(size_t t, int i) {
    if (t < 3) log_clip(t, i);
    else if (t == 3) count(t);
    else if (t == 4) show(t);
    else if (t == 5) edit(t, i);
    else if (t == 6) schedule(t, i);
    else look(t, i);
}

static void *task(void *arg) {
    const size_t t = (size_t)arg;
    pthread_barrier_wait(&start);
    for (int i = 0; i < ROUNDS; i++) work(t, i);
    return NULL;
}

static void put(void *context, const char *line, size_t n) {
    (void)context;
    memcpy(tape + used, line, n);
    used += n;
}

/* Scripts, when the tasks are done; a recorded dispatcher puts its own lines down. */
static void evening(void) {
    static luzhanem_recorder recorder = { put, NULL, { 0 } };
    static luzhanem_scripts q = { { { { LUZHANEM_WRITE, 0, 0, 12 } }, { { LUZHANEM_WRITE, 0, 12, 14 } },
                                    { { LUZHANEM_GET_FILE_POINTER, 0, 0, 0 }, { LUZHANEM_WRITE, 0, 26, 11 } },
                                    { { LUZHANEM_SEEK, 3, 0, 0 }, { LUZHANEM_READ, 3, 0, 4 } } },
                                  { 1, 1, 2, 2 }, 4 };
    static const char text[] = "14:04 promo\n14:05 weather\n14:06 film\n";
    uint8_t reader[4];
    for (int i = 0; i < 50; i++) {
        begin(0), seek(0, 0, 0), commit(0, 842);
        if (tape) luzhanem_dispatch_recorded(&s, &q, text, sizeof text - 1, reader, 4, 842, NULL, &recorder);
        else luzhanem_dispatch(&s, &q, text, sizeof text - 1, reader, 4, 842, NULL);
        undo();
    }
}

static void day(void) {
    pthread_t tasks[8];
    commits = refusals = stale = 0;
    pthread_barrier_init(&start, NULL, 8);
    for (size_t t = 0; t < 8; t++) pthread_create(&tasks[t], NULL, task, (void *)t);
    for (size_t t = 0; t < 8; t++) pthread_join(tasks[t], NULL);
    pthread_barrier_destroy(&start);
    evening();
}

/* The tasks in turn, by one thread: what is timed is the recording, and not threads that wait for each other. */
static void day_alone(void) {
    commits = refusals = stale = 0;
    for (int i = 0; i < ROUNDS; i++)
        for (size_t t = 0; t < 8; t++) work(t, i);
    evening();
}

static int save(const char *name, const void *bytes, size_t n) {
    FILE *f = fopen(name, "wb");
    const int ok = f && fwrite(bytes, 1, n, f) == n;
    if (f && fclose(f)) return 1;
    return !ok;
}

/* Seconds of processor time of a day that starts on a fresh store; recorded to memory, or not. */
static double seconds(char *to) {
    struct timespec a, b;
    luzhanem_fresh(&s, sizeof s, NULL);
    tape = to, used = 0;
    clock_gettime(CLOCK_PROCESS_CPUTIME_ID, &a);
    day_alone();
    clock_gettime(CLOCK_PROCESS_CPUTIME_ID, &b);
    return (double)(b.tv_sec - a.tv_sec) + 1e-9 * (double)(b.tv_nsec - a.tv_nsec);
}

/* Least of 15 days each, in turn; of more, up to 150, where others disturb them. */
static int timed(char *memory) {
    const double most = 2;
    double plain = 1e9, recorded = 1e9;
    for (int i = 0; i < 15 || (i < 150 && recorded > 1.3 * plain); i++) {
        const double a = seconds(NULL), b = seconds(memory);
        if (a < plain) plain = a;
        if (b < recorded) recorded = b;
    }
    printf("a day of %ld commits: %.1f ms; recorded to %.1f MB of memory: %.1f ms; ratio %.2f\n", commits, 1e3 * plain,
           (double)used / 1e6, 1e3 * recorded, recorded / plain);
    return recorded > most * plain;
}

int main(int argc, char **argv) {
    char *memory = malloc(TAPE);
    int status;
    if (!memory || argc < 2) return 2;
    memset(memory, 0, TAPE);
    if (argc == 2) return timed(memory);
    luzhanem_fresh(&s, sizeof s, NULL);
    pauses = 1;
    day();
    begin(7), write_(7, 2, "begun before", 12);
    status = save(argv[1], &s, LUZHANEM_BLOCK_BYTES);
    tape = memory;
    memcpy(tape, "V1\n", used = 3);
    day();
    printf("%ld commits, %ld stale, %ld other refusals, %zu bytes\n", commits, stale, refusals - stale, used);
    return status || save(argv[2], memory, used) || commits < 10000 || stale < 100 || refusals - stale < 100;
}
