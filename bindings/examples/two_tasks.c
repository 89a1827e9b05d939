/* Two tasks append to one log and count its lines. Appends never make each other stale; the counter does: a task that
 * has read it is refused if the other was quicker, and begins again. Written from luzhanem.h alone.
 *
 *     gcc -std=c11 -pthread two_tasks.c $(pkg-config --cflags --libs luzhanem)
 */
#include <luzhanem.h>
#include <pthread.h>
#include <stdio.h>

enum { LOG = 0, COUNTER = 1, LINES = 100, MINUTE = 14 * 60 + 2 }; /* two descriptors; lines of each task */

static luzhanem_store store;
static pthread_mutex_t mutex = PTHREAD_MUTEX_INITIALIZER;
static pthread_barrier_t both_have_read;

/* One call under the lock. The header wants the lock for the length of a call and for no longer. */
#define LOCKED(answer, call)           \
    do {                               \
        pthread_mutex_lock(&mutex);    \
        answer = (call);               \
        pthread_mutex_unlock(&mutex);  \
    } while (0)

/* Appends a line and adds 1 to the counter, in one transaction. Answers what the commit answers, or the first
 * refusal. */
static int tell(size_t task, int line, int meet) {
    unsigned char count = 0;
    char text[32];
    const int n = snprintf(text, sizeof text, "task %zu line %02d\n", task, line);
    int r;
    LOCKED(r, luzhanem_begin(&store, task));
    if (r >= 0) LOCKED(r, luzhanem_write(&store, task, LOG, text, (size_t)n)); /* an append */
    if (r >= 0) LOCKED(r, luzhanem_seek(&store, task, COUNTER, 0));
    if (r >= 0) LOCKED(r, luzhanem_read(&store, task, COUNTER, &count, 1));
    if (meet) pthread_barrier_wait(&both_have_read); /* now one of the two commits must be stale */
    count++;
    if (r >= 0) LOCKED(r, luzhanem_seek(&store, task, COUNTER, 0));
    if (r >= 0) LOCKED(r, luzhanem_write(&store, task, COUNTER, &count, 1));
    if (r >= 0) LOCKED(r, luzhanem_commit(&store, task, MINUTE));
    return r;
}

static void *run(void *number) {
    static int again[2];
    const size_t task = (size_t)number;
    for (int line = 0; line < LINES; line++) {
        int r = tell(task, line, line == 0);
        while (r == LUZHANEM_E_STALE || r == LUZHANEM_E_STALE_READER) {
            if (r == LUZHANEM_E_STALE_READER) LOCKED(r, luzhanem_abort(&store, task));
            again[task]++;
            r = tell(task, line, 0);
        }
        if (r < 0) fprintf(stderr, "task %zu: %s\n", task, luzhanem_strerror(r));
    }
    return &again[task];
}

int main(void) {
    pthread_t threads[2];
    int again = 0, lines, count;
    if (luzhanem_fresh(&store, sizeof store, NULL) < 0) return 1; /* a library of another version */
    pthread_barrier_init(&both_have_read, NULL, 2);
    for (size_t t = 0; t < 2; t++) pthread_create(&threads[t], NULL, run, (void *)t);
    for (size_t t = 0; t < 2; t++) {
        void *n;
        pthread_join(threads[t], &n);
        again += *(int *)n;
    }
    lines = luzhanem_length(&store, 0) / 15; /* descriptor d belongs to file d mod 8 */
    count = luzhanem_file(&store, 1)[0];
    printf("%d lines, counted %d, begun again %d times\n", lines, count, again);
    return lines != 2 * LINES || count != 2 * LINES || again < 1;
}
