/* Eight tasks on one store, and what must hold of whatever a crash leaves of their work.
 *
 * Tasks 0 and 1 append numbered records to a log, file 0. Tasks 2 and 3 count in a file of their own. Tasks 4
 * to 7 move amounts between file 4 and file 5, whose sum stays, and count in file 6. Now and then each writes
 * what it then aborts. */
#ifndef WORK_H
#define WORK_H

#include "check.h"
#include <pthread.h>
#include <stdatomic.h>
#include <unistd.h>

enum { TASKS = 8, TOTAL = 1000000, NEVER = 0x7fffffff };

/* What a task tells: it is about to commit its number n; that was answered as saved; that was answered as not
 * saved. */
struct line {
    uint32_t task, what, n;
};
enum { INTENT, ANSWERED, UNSAVED };

struct work {
    luzhanem_store s;
    pthread_mutex_t lock;
    luzhanem_durable *d;
    int out; /* lines go here; -1: nowhere */
    atomic_bool stop;
    uint32_t from[TASKS], made[TASKS];
    atomic_uint fences;
    pthread_t threads[TASKS];
    struct task {
        struct work *w;
        size_t t;
    } tasks[TASKS];
};

static inline void take_lock(void *lock) { pthread_mutex_lock(lock); }
static inline void give_lock(void *lock) { pthread_mutex_unlock(lock); }

#define CALL(w, call) (pthread_mutex_lock(&(w)->lock), r = (call), pthread_mutex_unlock(&(w)->lock), r)

static inline void tell(struct work *w, size_t task, uint32_t what, uint32_t n) {
    struct line l = { (uint32_t)task, what, n };
    if (w->out >= 0 && write(w->out, &l, sizeof l) != sizeof l) exit(4);
}

/* Reads a number of file d. Sets *stale where the transaction is shown nothing more. */
static inline uint32_t get(struct work *w, size_t t, size_t d, bool *stale) {
    uint32_t v = 0;
    int r;
    must(CALL(w, luzhanem_seek(&w->s, t, d, 0)), "seek");
    if (CALL(w, luzhanem_read(&w->s, t, d, &v, 4)) == LUZHANEM_E_STALE_READER) *stale = true;
    else must(r, "read");
    return v;
}

static inline void put(struct work *w, size_t t, size_t d, size_t offset, uint32_t v) {
    int r;
    must(CALL(w, luzhanem_seek(&w->s, t, d, offset)), "seek");
    must(CALL(w, luzhanem_write(&w->s, t, d, &v, 4)), "write");
}

/* Appends a record to the log; where that is full, from the front again, if no other task does it first. */
static inline bool append_record(struct work *w, size_t t, uint32_t n) {
    uint32_t record[2] = { (uint32_t)t, n };
    int r, end = CALL(w, luzhanem_offset(&w->s, 0));
    if (end + 8 > LUZHANEM_FILE_BYTES) {
        end = CALL(w, luzhanem_get_file_pointer(&w->s, t, 0));
        if (end == LUZHANEM_E_STALE_READER) return false;
        if (end + 8 > LUZHANEM_FILE_BYTES) must(CALL(w, luzhanem_seek(&w->s, t, 0, 0)), "seek");
    }
    must(CALL(w, luzhanem_write(&w->s, t, 0, record, 8)), "append");
    return true;
}

static inline bool move_amount(struct work *w, size_t t, uint32_t n, unsigned *seed) {
    bool stale = false;
    uint32_t a = get(w, t, 4, &stale), b = get(w, t, 5, &stale), move = (uint32_t)rand_r(seed) % 1000;
    if (stale) return false;
    if (a < move) move = (uint32_t) - (int32_t)(b / 2);
    put(w, t, 4, 0, a - move);
    put(w, t, 5, 0, b + move);
    put(w, t, 6, 4 * t, n);
    return true;
}

/* The calls of number n of task t, up to its commit. False where it is stale. */
static inline bool attempt(struct work *w, size_t t, uint32_t n, unsigned *seed) {
    if (t < 2) return append_record(w, t, n);
    if (t >= 4) return move_amount(w, t, n, seed);
    put(w, t, t, 0, n);
    return true;
}

/* Makes and commits number n: true where that is granted. */
static inline bool grant(struct work *w, size_t t, uint32_t n, unsigned *seed) {
    int r;
    if (rand_r(seed) % 8 == 0) { /* what never happens */
        must(CALL(w, luzhanem_begin(&w->s, t)), "begin");
        attempt(w, t, NEVER, seed);
        must(CALL(w, luzhanem_abort(&w->s, t)), "abort");
    }
    must(CALL(w, luzhanem_begin(&w->s, t)), "begin");
    bool ready = attempt(w, t, n, seed);
    if (rand_r(seed) % 4 == 0) usleep((unsigned)rand_r(seed) % 3000); /* open while others are saved */
    if (ready) tell(w, t, INTENT, n);
    r = CALL(w, luzhanem_commit(&w->s, t, 0));
    if (r == LUZHANEM_E_STALE) return false;
    if (r != LUZHANEM_E_APPEND_PAST_END) return must(r, "commit"), true;
    must(CALL(w, luzhanem_abort(&w->s, t)), "abort");
    return false;
}

static inline void *task(void *at) {
    struct work *w = ((struct task *)at)->w;
    size_t t = ((struct task *)at)->t;
    unsigned seed = (unsigned)(t + 1) * 7919u ^ w->from[t];
    uint32_t n = w->from[t] + 1;
    while (!w->stop) {
        if (!grant(w, t, n, &seed)) continue;
        int r = luzhanem_durable_sync(w->d);
        if (r == LUZHANEM_DURABLE_E_FENCED) {
            w->fences++;
            break;
        }
        tell(w, t, r == 0 ? ANSWERED : UNSAVED, n);
        w->made[t] = n++;
        if (r < 0) usleep(20000);
    }
    return NULL;
}

static inline void start_tasks(struct work *w) {
    for (size_t t = 0; t < TASKS; t++) {
        w->tasks[t] = (struct task){ w, t };
        if (pthread_create(&w->threads[t], NULL, task, &w->tasks[t]) != 0) exit(5);
    }
}

static inline void join_tasks(struct work *w) {
    for (size_t t = 0; t < TASKS; t++) pthread_join(w->threads[t], NULL);
}

/* The last number of each of the two tasks in the log, whose records have to come in order, the oldest first.
 */
static inline bool read_log(const luzhanem_store *s, uint32_t last[TASKS], char *why, size_t room) {
    uint32_t record[2];
    int end = luzhanem_offset(s, 0), length = luzhanem_length(s, 0);
    if (end % 8 || length % 8 || end > length)
        return snprintf(why, room, "log: offset %d, length %d", end, length), false;
    for (int k = 0; k < length; k += 8) {
        memcpy(record, luzhanem_file(s, 0) + (end + k) % length, 8);
        if (record[0] > 1 || record[1] == NEVER)
            return snprintf(why, room, "log: no record at %d", (end + k) % length), false;
        if (last[record[0]] && record[1] != last[record[0]] + 1)
            return snprintf(why, room, "log: %u of %u after %u", record[1], record[0], last[record[0]]),
                   false;
        last[record[0]] = record[1];
    }
    return true;
}

/* How far each task is in a store; false, with words, where something does not hold. */
static inline bool progress(const luzhanem_store *s, uint32_t last[TASKS], char *why, size_t room) {
    memset(last, 0, sizeof *last * TASKS);
    if (at(s, 4) + at(s, 5) != TOTAL)
        return snprintf(why, room, "%u + %u is not the total", at(s, 4), at(s, 5)), false;
    for (size_t t = 2; t < TASKS; t++) {
        memcpy(&last[t], t < 4 ? luzhanem_file(s, t) : luzhanem_file(s, 6) + 4 * t, 4);
        if (last[t] == NEVER) return snprintf(why, room, "what task %zu aborted is there", t), false;
    }
    return read_log(s, last, why, room);
}

/* A store for the work, as a new channel has it. */
static inline void make_store(luzhanem_store *s) {
    must(luzhanem_fresh(s, sizeof *s, NULL), "fresh");
    write_at(s, 5, 0);
    write_at(s, 4, TOTAL);
}

/* Opens a channel for the work. */
static inline int open_work(struct work *w, const char *url, const char *channel, int how) {
    luzhanem_durable_lock lock = { take_lock, give_lock, &w->lock };
    char why[200];
    memset((void *)w, 0, sizeof *w);
    pthread_mutex_init(&w->lock, NULL);
    w->out = -1;
    make_store(&w->s);
    int r = luzhanem_durable_open(&w->d, url, channel, how, &w->s, &lock);
    if (r < 0) return r;
    if (!progress(&w->s, w->from, why, sizeof why)) return fprintf(stderr, "open: %s\n", why), exit(6), 0;
    memcpy(w->made, w->from, sizeof w->made);
    return 0;
}

#endif
