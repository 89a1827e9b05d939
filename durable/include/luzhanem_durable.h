/* luzhanem_durable.h: keeps what is committed in a store of luzhanem.h in a database, SQLite or PostgreSQL.
 *
 *     luzhanem_fresh(&s, sizeof s, NULL);
 *     luzhanem_durable_lock lock = { take, give, &mutex };     // the host's own lock of the store
 *     luzhanem_durable *d;
 *     int r = luzhanem_durable_open(&d, "sqlite:/var/lib/playout/one.db", "channel one",
 *                                   LUZHANEM_DURABLE_CREATE, &s, &lock);
 *     if (r < 0) fprintf(stderr, "%s\n", luzhanem_durable_error());
 *     ...
 *     take(&mutex); r = luzhanem_commit(&s, t, minute); give(&mutex);
 *     if (r >= 0 && luzhanem_durable_sync(d) == 0)             // granted, and there after a crash
 *
 * The host makes its calls of luzhanem.h as before, and calls luzhanem_durable_sync after those that change
 * what is committed: a granted commit, set_window, undo, dispatch, load. One sync may follow many of them.
 * Threads that sync at the same time share one save. A crash leaves the newest state that was saved, with no
 * transaction open.
 *
 * Order. A save holds the whole committed state, so whatever is on disk has every grant before it. Other
 * threads can read a grant before it is on disk; a thread that acts on what it read, and must not act on what
 * a crash could take away, syncs first.
 *
 * Failure. If a save fails, the store goes on in memory and stays usable. The next sync that answers 0 has
 * saved everything that was missing.
 *
 * This layer is tested, not proved. durable/README.md says what is promised and what is not.
 */
#ifndef LUZHANEM_DURABLE_H
#define LUZHANEM_DURABLE_H

#include "luzhanem.h"

#ifdef __cplusplus
extern "C" {
#endif

/* The answers beside the refusals of luzhanem.h; LUZHANEM_DURABLE_E_name is -number. */
#define LUZHANEM_DURABLE_ANSWERS(X)                                                               \
    X(101, NOT_SAVED, "granted in memory and not known to be on disk; the next sync tries again") \
    X(102, FENCED, "another open has taken the channel over; nothing more is written from here")  \
    X(103, UNREACHABLE, "the database cannot be opened, read or written")                         \
    X(104, NO_CHANNEL, "the database has no channel of this name")                                \
    X(105, FORMAT, "the channel was written in another format, by another version")               \
    X(106, DAMAGED, "a part of the channel is missing, or has another size or checksum")          \
    X(107, BAD_ARGUMENT, "the URL or the name of the channel is not valid, or a pointer is NULL") \
    X(108, NO_MEMORY, "there is no memory for it")

#define LUZHANEM_DURABLE_ANSWER_(number, name, text) LUZHANEM_DURABLE_E_##name = -number,
enum luzhanem_durable_answer { LUZHANEM_DURABLE_ANSWERS(LUZHANEM_DURABLE_ANSWER_) LUZHANEM_DURABLE_OK = 0 };
#undef LUZHANEM_DURABLE_ANSWER_

/* How a channel is opened: a sum of these, or 0. */
enum luzhanem_durable_how {
    LUZHANEM_DURABLE_CREATE = 1, /* make the channel, its tables and SQLite's file where they are missing */
    LUZHANEM_DURABLE_NORMAL = 2, /* survives the process, not always the machine: SQLite's synchronous=NORMAL,
                                  * PostgreSQL's synchronous_commit=local */
    LUZHANEM_DURABLE_OFF = 4     /* never waits for a disk */
};

enum { LUZHANEM_DURABLE_NAME_BYTES = 200 }; /* the longest name of a channel, in UTF-8; the shortest has 1 */

/* The host's lock of the store. A save takes it once, for the time of luzhanem_save. The caller of sync must
 * not hold it. */
typedef struct luzhanem_durable_lock {
    void (*take)(void *context);
    void (*give)(void *context);
    void *context;
} luzhanem_durable_lock;

typedef struct luzhanem_durable luzhanem_durable;

/* Opens a channel of the database at url, "sqlite:PATH" or "postgresql://..", and takes it over from whoever
 * holds it: from now on a sync of theirs answers FENCED. The store becomes what is saved there, with no
 * transaction open. A channel that is new, with CREATE, is made from the store as it is (luzhanem_fresh made
 * it). After an error *d is NULL, and store and channel are as before. One exception: where the answer to the
 * database's own COMMIT is lost, open asks again, and if that is not answered either, the channel may have
 * been taken; opening it again is right. lock is NULL where there is one thread. Open before other threads
 * use the store: the lock is not taken. Store and lock have to outlive *d. */
int luzhanem_durable_open(luzhanem_durable **d, const char *url, const char *channel, int how,
                          luzhanem_store *s, const luzhanem_durable_lock *lock);

/* Answers 0 when everything committed before the call is on disk and the channel was still ours. Otherwise
 * NOT_SAVED, FENCED, or RECORD_RANGE where the store fails luzhanem_check. Any thread may call it, many at
 * once. */
int luzhanem_durable_sync(luzhanem_durable *d);

/* Drops the connection and frees d, which may be NULL. What was not synced is not saved. No thread may be in
 * a sync. */
void luzhanem_durable_close(luzhanem_durable *d);

/* Reads a channel without taking it: the store becomes what is saved, with no transaction open. *generation,
 * if not NULL, becomes the number of saves and takeovers so far. After an error store and *generation are as
 * before. */
int luzhanem_durable_load(const char *url, const char *channel, luzhanem_store *s, int64_t *generation);

/* Calls visit for each channel of a database, in the order of their names, and answers how many there are. A
 * name is valid until visit returns. visit must not call this library with the same database for writing. */
typedef void luzhanem_durable_visit(void *context, const char *channel, int64_t generation);
int luzhanem_durable_list(const char *url, luzhanem_durable_visit *visit, void *context);

/* The sentence of this thread's last error of the calls above, on one line, in the database's own words where
 * it has some. Never NULL; valid until the thread's next call. */
const char *luzhanem_durable_error(void);

/* The sentence of an answer, and its name: "FENCED". They know the answers of luzhanem.h too. Never NULL,
 * static. */
const char *luzhanem_durable_strerror(int answer);
const char *luzhanem_durable_errname(int answer);

#ifdef __cplusplus
}
#endif

#endif
