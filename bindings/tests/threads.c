/* Eight tasks and one lock: four append to a log, four add 1 to a counter and begin again when they are stale. Each
 * sleeps after some calls, so that they interleave. With -DWITHOUT_LOCK the lock is left out, for helgrind to find
 * races. */
#include "luzhanem.h"

#include <pthread.h>
#include <stdio.h>
#include <stdlib.h>
#include <time.h>

static luzhanem_store s;
static int rounds = 2000;
static pthread_mutex_t mutex = PTHREAD_MUTEX_INITIALIZER;
#ifdef WITHOUT_LOCK
#define pthread_mutex_lock(m) ((void)(m))
#define pthread_mutex_unlock(m) ((void)(m))
#endif

/* Sleeps after each ninth call of a task. */
static void pause_some(void) {
    static _Thread_local int calls;
    if (++calls % 9 == 0) nanosleep(&(struct timespec){ 0, 1000 }, NULL);
}

/* One call under the lock; its answer goes to r. */
#define LOCKED(call) (pthread_mutex_lock(&mutex), r = (call), pthread_mutex_unlock(&mutex), pause_some(), r)

static void must(int r) {
#ifdef WITHOUT_LOCK
    (void)r;
#else
    if (r >= 0) return;
    fprintf(stderr, "%s\n", luzhanem_strerror(r));
    exit(1);
#endif
}

static void append(size_t t) {
    int r;
    must(LOCKED(luzhanem_write(&s, t, 0, "x", 1)));
}

static void count(size_t t) {
    uint8_t two[2] = { 0, 0 };
    unsigned value;
    int r;
    must(LOCKED(luzhanem_seek(&s, t, 1, 0)));
    if (LOCKED(luzhanem_read(&s, t, 1, two, 2)) < 0 && r != LUZHANEM_E_STALE_READER) must(r);
    value = 256u * two[0] + two[1] + 1;
    two[0] = (uint8_t)(value / 256), two[1] = (uint8_t)value;
    must(LOCKED(luzhanem_seek(&s, t, 1, 0)));
    must(LOCKED(luzhanem_write(&s, t, 1, two, 2)));
}

/* The log is full: seek its descriptor to the start. */
static void start_log_anew(size_t t) {
    int r;
    must(LOCKED(luzhanem_abort(&s, t)));
    must(LOCKED(luzhanem_begin(&s, t)));
    must(LOCKED(luzhanem_seek(&s, t, 0, 0)));
    must(LOCKED(luzhanem_commit(&s, t, 0)));
}

static void *task(void *arg) {
    const size_t t = (size_t)arg;
    long stale = 0;
    int r;
    for (int i = 0; i < rounds;) {
        must(LOCKED(luzhanem_begin(&s, t)));
        if (t < 4) append(t);
        else count(t);
        if (LOCKED(luzhanem_commit(&s, t, 0)) == LUZHANEM_E_STALE) stale++;
        else if (r == LUZHANEM_E_APPEND_PAST_END) start_log_anew(t);
        else must(r), i++;
    }
    return (void *)stale;
}

int main(int argc, char **argv) {
    pthread_t tasks[8];
    long stale = 0;
    int counted;
    if (argc > 1) rounds = atoi(argv[1]);
    must(luzhanem_fresh(&s, sizeof s, NULL));
    for (size_t t = 0; t < 8; t++) pthread_create(&tasks[t], NULL, task, (void *)t);
    for (size_t t = 0; t < 8; t++) {
        void *n;
        pthread_join(tasks[t], &n);
        stale += (long)n;
    }
    counted = 256 * luzhanem_file(&s, 1)[0] + luzhanem_file(&s, 1)[1];
    printf("%d commits, %ld stale, counted %d\n", 8 * rounds, stale, counted);
    return counted != 4 * rounds % 65536 || rounds < 1 || stale < 1;
}
