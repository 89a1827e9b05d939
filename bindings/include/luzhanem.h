/* luzhanem.h: a transactional file store for a playout server.
 *
 * It has 8 files of up to 4,096 bytes, 16 descriptors that all tasks share, and 8 transactions, in one block of
 * memory that the caller owns. Concurrency control is optimistic: no call waits, and a commit is refused as stale
 * if another commit has set something that the transaction had seen.
 *
 *     static luzhanem_store s;
 *     luzhanem_fresh(&s, sizeof s, NULL);                    // descriptor d belongs to file d mod 8
 *     int r;
 *     do {
 *         luzhanem_begin(&s, 0);                             // transaction 0
 *         luzhanem_write(&s, 0, 3, "14:02 jingle\n", 13);    // an append through descriptor 3
 *         r = luzhanem_commit(&s, 0, 14 * 60 + 2);           // at minute 842 of the day
 *     } while (r == LUZHANEM_E_STALE);                       // it has ended: begin it again
 *     if (r < 0)
 *         fprintf(stderr, "%s\n", luzhanem_strerror(r));     // not here: file 3 now holds the line
 *
 * Answers. A call answers an int. 0 or more is its result, less than 0 a refusal: LUZHANEM_E_STALE is -13. A
 * refused call leaves the store and everything behind its pointers as they were. LUZHANEM_E_STALE is the one
 * exception: it ends its transaction, as luzhanem_abort does. Codes below -100 are never answered; they are left
 * to layers above this one.
 *
 * Numbers. An argument may have any value: the call refuses what is out of range, (size_t)-1 too. NULL for a
 * store, for scripts, an image or an order is refused with LUZHANEM_E_BUFFER_LENGTH, and so is NULL for bytes or a
 * list whose length is above 0; with length 0 it is an empty one.
 *
 * Memory. No call allocates, blocks, or keeps a pointer. A store holds numbers and no pointer, so it may be
 * static, on the heap or in shared memory, and may be copied or mapped elsewhere between two calls. Zeros are a
 * store too, with every descriptor in file 0. Do not let a buffer overlap the store, nor the data of
 * luzhanem_dispatch its reader.
 *
 * Stack. A call takes at most 1.5 KB, luzhanem_load 16 KB, luzhanem_replay_line 8 KB and luzhanem_dispatch 20 KB,
 * with what the C library takes for them.
 *
 * Threads. The library has no lock. Hold one lock of your own per store for the length of each call, as for any
 * plain object; readers too, since a look at the store is a call. No lock is needed for longer: transactions
 * interleave between calls. Give each task a transaction number of its own.
 */
#ifndef LUZHANEM_H
#define LUZHANEM_H

#include <stddef.h>
#include <stdint.h>

#ifdef __cplusplus
extern "C" {
#endif

#define LUZHANEM_VERSION "0.1.0"

enum {
    LUZHANEM_FILES = 8,
    LUZHANEM_FILE_BYTES = 4096,
    LUZHANEM_DESCRIPTORS = 16,
    LUZHANEM_TRANSACTIONS = 8,
    LUZHANEM_WRITES = 64,         /* the most writes of one transaction, ... */
    LUZHANEM_LOG_BYTES = 4096,    /* ... and the most bytes of them all */
    LUZHANEM_MINUTES = 1440,      /* of a day */
    LUZHANEM_SCRIPTS = 8,         /* of a dispatcher */
    LUZHANEM_SCRIPT_CALLS = 16,
    LUZHANEM_BUDGET = 40320,      /* the most orders that best_order tries: those of eight */
    LUZHANEM_LINE_BYTES = 8238,   /* the longest line of a call log, with its end */
    LUZHANEM_NUMBERS = 2115,      /* of the record of a store: luzhanem_layout() 2 */
    LUZHANEM_BLOCK_BYTES = 2 * LUZHANEM_NUMBERS + 3 * 32768 + 4096 /* the front of a store: what the program
                                     `replay` reads as a saved block */
};

/* A store. Its fields are the library's; read and change them by the functions below. */
typedef struct luzhanem_store {
    uint16_t record_[LUZHANEM_NUMBERS];
    uint8_t files_[32768];
    uint8_t logs_[32768];
    uint8_t marks_[32768];
    uint8_t undo_[4096];
    uint8_t unused_[2];
} luzhanem_store;

/* The refusals: number, name, sentence. LUZHANEM_E_name is -number. What to do after each:
 *
 *   STALE (13, commit)               The transaction has ended. Begin it again and make its calls anew.
 *   STALE_READER (18, read,          Nothing more is shown to it. Commit (answers STALE) or abort, then begin
 *     get_file_pointer)              it again.
 *   WRITE_PAST_END (9, write)        The file is full at that offset, and the transaction still open. Seek to a
 *                                    lower offset, write less, or abort.
 *   APPEND_PAST_END (12, commit,     Its appends do not fit behind the committed offset; still open. Abort it, make
 *     read, get_file_pointer)        room (seek the descriptor to 0 and commit), and append again.
 *   RECORDS_FULL (10), LOG_FULL (11) Commit what it has, and go on in a new transaction.
 *   FILE_CLOSED (21, commit)         Still open. Commit it at a minute in the file's window, or abort.
 *   NO_PLACE_YET (15, places),       Call get_file_pointer on the descriptor of the append, which places it.
 *     NOT_READY (25, best_order)     NOT_READY also means that one is stale: abort that one.
 *   STILL_OPEN (23, undo),           Commit or abort what is open, stale ones too.
 *     NOT_AT_REST (19, dispatch)
 *   NO_GRANT (24, undo)              Nothing is left to undo: only the last commit can be, once.
 *   LIST_TOO_LONG (16, places)       Give more room; 64 places are enough.
 *   RECORD_RANGE (2, every call)     This memory is no store, or is damaged: load an image, or fresh.
 *   BAD_LINE (17, replay_line)       The line is of another form or version. Nothing was done.
 *   the others                       An argument is wrong: a fault of the caller. Nothing was done.
 */
#define LUZHANEM_REFUSALS(X)                                                                              \
    X(1, BUFFER_LENGTH, "a pointer is NULL, or a store, image or line buffer has another size or format")  \
    X(2, RECORD_RANGE, "the contents of the store or the image are out of their ranges")                  \
    X(3, NO_SUCH_TRANSACTION, "there is no transaction above 7")                                          \
    X(4, NOT_OPEN, "the transaction is not open")                                                         \
    X(5, ALREADY_OPEN, "the transaction is open already")                                                 \
    X(6, NO_SUCH_TARGET, "there is no descriptor above 15 and no file above 7")                           \
    X(7, READER_TOO_SHORT, "a script reads more bytes than the reader's buffer has") /* scripts alone */  \
    X(8, SEEK_PAST_END, "an offset above 4096")                                                           \
    X(9, WRITE_PAST_END, "the write would end above offset 4096; the transaction is still open")          \
    X(10, RECORDS_FULL, "the transaction has 64 writes")                                                  \
    X(11, LOG_FULL, "the writes of the transaction would have more than 4096 bytes")                      \
    X(12, APPEND_PAST_END, "its appends do not fit behind the committed offset; it is still open")        \
    X(13, STALE, "stale: another commit set what it had seen; it has ended, begin it again")              \
    X(14, NO_SUCH_FILE, "a descriptor for a file above 7")                                                \
    X(15, NO_PLACE_YET, "an append to the file has no place yet")                                         \
    X(16, LIST_TOO_LONG, "the list is longer than the room for it")                                       \
    X(17, BAD_LINE, "a line of a log has another form or version") /* luzhanem_replay_line alone */       \
    X(18, STALE_READER, "stale: nothing more is shown to it; commit or abort it")                         \
    X(19, NOT_AT_REST, "the dispatcher runs only while no transaction is open")                           \
    X(20, SCRIPT_RANGE, "too many scripts or calls, an unknown call, or bytes past the data")             \
    X(21, FILE_CLOSED, "it has a byte for a file that is closed at the minute; it is still open")         \
    X(22, NO_SUCH_MINUTE, "there is no minute above 1439")                                                \
    X(23, STILL_OPEN, "undo is possible only while no transaction is open")                               \
    X(24, NO_GRANT, "there is no commit to undo")                                                         \
    X(25, NOT_READY, "one of the list is stale or has an append without a place")                         \
    X(26, BAD_LIST, "the list is empty, has more than 8 or names one twice")                              \
    X(27, BAD_BUDGET, "a budget of 0 or above 40320")

#define LUZHANEM_REFUSAL_(number, name, text) LUZHANEM_E_##name = -number,
enum luzhanem_refusal { LUZHANEM_REFUSALS(LUZHANEM_REFUSAL_) LUZHANEM_OK = 0 };
#undef LUZHANEM_REFUSAL_

/* The sentence of an answer, and its name: "STALE", or "OK" for 0 and more. Never NULL; the text is static. */
const char *luzhanem_strerror(int answer);
const char *luzhanem_errname(int answer);
/* Of the library that is linked: its version, sizeof(luzhanem_store), and the number of the store's layout, which
 * changes whenever a store of one version means something else to another. */
const char *luzhanem_version(void);
size_t luzhanem_size(void);
int luzhanem_layout(void);

/* Makes the store fresh, whatever it held: files empty, offsets 0, nothing open. size is sizeof(luzhanem_store), so
 * that a library of another version refuses (BUFFER_LENGTH). Descriptor d belongs to file file_of[d], for the 16
 * descriptors; NULL means file d mod 8. */
int luzhanem_fresh(luzhanem_store *s, size_t size, const uint8_t *file_of);

/* Opens transaction t, 0 to 7. */
int luzhanem_begin(luzhanem_store *s, size_t t);

/* Ends t and drops its writes. */
int luzhanem_abort(luzhanem_store *s, size_t t);

/* Sets the offset of descriptor d, 0 to 15, in t, to at most 4,096. */
int luzhanem_seek(luzhanem_store *s, size_t t, size_t d, size_t offset);

/* Writes n bytes at the offset of d in t and moves it; t alone sees them until its commit. If t has not yet sought,
 * read or asked through d, this is an append: its place is decided at the commit, or when t looks. Two tasks that
 * only append through one descriptor never make each other stale. */
int luzhanem_write(luzhanem_store *s, size_t t, size_t d, const void *bytes, size_t n);

/* The offset of d in t, as seen inside t: its own seeks, reads and writes count. If t has not set it, t has now
 * seen the committed offset, and becomes stale when another commit changes that. luzhanem_offset looks from
 * outside and is seen by nobody. */
int luzhanem_get_file_pointer(luzhanem_store *s, size_t t, size_t d);

/* Reads up to n bytes at the offset of d in t, as far as the file goes, own writes first, and moves the offset.
 * Answers how many. */
int luzhanem_read(luzhanem_store *s, size_t t, size_t d, void *out, size_t n);

/* Applies what t wrote, at a minute of the day, 0 to 1,439, and ends t. Answers the bit set of the transactions
 * that became stale by it: bit u, worth 1 << u, for transaction u. */
int luzhanem_commit(luzhanem_store *s, size_t t, size_t minute);

/* Where the writes of t on file f will land: ascending, no two touch, none is empty. Answers how many, at most 64.
 * LIST_TOO_LONG if there are more than room. */
typedef struct luzhanem_place {
    uint16_t offset, length;
} luzhanem_place;
int luzhanem_places(const luzhanem_store *s, size_t t, size_t f, luzhanem_place *out, size_t room);

/* The minutes at which a commit may put bytes into file f: from start on, before end; over midnight if start is
 * above end; always if they are equal, as luzhanem_fresh leaves them. */
int luzhanem_set_window(luzhanem_store *s, size_t f, size_t start, size_t end);

/* Undoes the last commit: files, offsets and lengths are again as that commit found them. No transaction may be
 * open. */
int luzhanem_undo(luzhanem_store *s);

/* Scripts for the dispatcher: calls[k][i] is call i of script k, which has counts[k] calls; count scripts. */
enum luzhanem_kind {
    LUZHANEM_SEEK = 0,
    LUZHANEM_WRITE = 1,
    LUZHANEM_GET_FILE_POINTER = 2,
    LUZHANEM_READ = 3
};
typedef struct luzhanem_script_call {
    size_t kind;
    size_t descriptor;
    size_t at;    /* SEEK: the offset. WRITE: where its bytes start in the data */
    size_t count; /* WRITE, READ: how many bytes */
} luzhanem_script_call;
typedef struct luzhanem_scripts {
    luzhanem_script_call calls[LUZHANEM_SCRIPTS][LUZHANEM_SCRIPT_CALLS];
    size_t counts[LUZHANEM_SCRIPTS];
    size_t count;
} luzhanem_scripts;

/* Runs script k as transaction k, in rounds, until each is committed or has failed; a stale one runs again. Bytes
 * that a script reads go to the front of reader. Answers the number of commits made. ended[k] is 0 if script k was
 * committed, or the refusal that ended it; ended may be NULL. No transaction may be open. */
int luzhanem_dispatch(luzhanem_store *s, const luzhanem_scripts *scripts, const void *data, size_t data_bytes,
                      void *reader, size_t reader_bytes, size_t minute, int ended[LUZHANEM_SCRIPTS]);

/* The order of n open transactions in which most of them would be committed at the minute, among at most budget
 * orders tried. Answers how many would be; no order has more than that number plus gap. The store is left. */
typedef struct luzhanem_order {
    uint8_t order[LUZHANEM_TRANSACTIONS]; /* n of them, then 0 */
    uint16_t gap, tried;
} luzhanem_order;
int luzhanem_best_order(const luzhanem_store *s, const uint8_t *transactions, size_t n, size_t minute,
                        size_t budget, luzhanem_order *out);

/* What is committed, looked at from outside every transaction; nobody becomes stale by it. The offset and the file
 * of descriptor d; the length of file f and its 4,096 bytes (NULL if f is above 7); and transaction t: 0 closed,
 * 1 open, 2 open and stale. These looks do not check the store (RECORD_RANGE); luzhanem_check does. */
int luzhanem_offset(const luzhanem_store *s, size_t d);
int luzhanem_file_of(const luzhanem_store *s, size_t d);
int luzhanem_length(const luzhanem_store *s, size_t f);
const uint8_t *luzhanem_file(const luzhanem_store *s, size_t f);
int luzhanem_state(const luzhanem_store *s, size_t t);

/* 0 if every number of the store is in its range, else RECORD_RANGE. Damage within the ranges is not seen. */
int luzhanem_check(const luzhanem_store *s);

/* Saving. An image holds what is committed: files, offsets, lengths, windows, and the last commit for undo; in the
 * byte order and layout of docs/IMAGE.md, so that another machine and a later version read it. Save at any moment,
 * whatever is open. A store that is loaded answers as the saved one would with every transaction aborted. An image
 * of another format is refused with BUFFER_LENGTH, one out of its ranges with RECORD_RANGE, and the store left.
 * (A plain copy of a luzhanem_store, open transactions and all, fits the same luzhanem_layout and byte order
 * only.) */
typedef struct luzhanem_image {
    uint8_t numbers_[552];
    uint8_t files_[32768];
    uint8_t undo_[4096];
} luzhanem_image;
int luzhanem_save(const luzhanem_store *s, luzhanem_image *out);
int luzhanem_load(luzhanem_store *s, const luzhanem_image *image);

/* Recording. A log of calls is text (docs/CALLLOG.md): "V1\n", then for each call its line and the line of its
 * answer. These put one line with its end into out, of at least LUZHANEM_LINE_BYTES, and answer its length in
 * bytes; BUFFER_LENGTH if out is NULL or room less. Put the lines down under the lock of the store:
 *
 *     n += luzhanem_line_begin(log + n, room - n, t);
 *     r = luzhanem_begin(&s, t);
 *     n += luzhanem_line_done(log + n, room - n, r);
 *
 * The program `replay` makes the calls of a log again and compares every answer. To record from now on, write the
 * first LUZHANEM_BLOCK_BYTES of the store to a file first: `replay BLOCK <LOG` starts from it. */
int luzhanem_line_fresh(char *out, size_t room, const uint8_t *file_of);
int luzhanem_line_begin(char *out, size_t room, size_t t);
int luzhanem_line_abort(char *out, size_t room, size_t t);
int luzhanem_line_seek(char *out, size_t room, size_t t, size_t d, size_t offset);
int luzhanem_line_write(char *out, size_t room, size_t t, size_t d, const void *bytes, size_t n);
int luzhanem_line_get_file_pointer(char *out, size_t room, size_t t, size_t d);
int luzhanem_line_read(char *out, size_t room, size_t t, size_t d, size_t n);
int luzhanem_line_commit(char *out, size_t room, size_t t, size_t minute);
int luzhanem_line_places(char *out, size_t room, size_t t, size_t f, size_t places_room);
int luzhanem_line_set_window(char *out, size_t room, size_t f, size_t start, size_t end);
int luzhanem_line_undo(char *out, size_t room);
int luzhanem_line_best_order(char *out, size_t room, const uint8_t *transactions, size_t n, size_t minute,
                             size_t budget);

/* The line of an answer: of fresh, begin, abort, seek, write, set_window and undo; of get_file_pointer and commit;
 * of read, with the bytes it gave; of places, with its list; of best_order, with what it put and its n. */
int luzhanem_line_done(char *out, size_t room, int answer);
int luzhanem_line_number(char *out, size_t room, int answer);
int luzhanem_line_given(char *out, size_t room, int answer, const void *bytes, size_t n);
int luzhanem_line_listed(char *out, size_t room, int answer, const luzhanem_place *places, size_t places_room);
int luzhanem_line_ordered(char *out, size_t room, int answer, const luzhanem_order *order, size_t n);

/* luzhanem_dispatch for a log: makes the calls of the scripts one by one, and hands the lines of each call and of
 * its answer to put. Its answer, ended and the store are those of luzhanem_dispatch (tested, not proved). */
typedef struct luzhanem_recorder {
    void (*put)(void *context, const char *line, size_t n);
    void *context;
    char line_[LUZHANEM_LINE_BYTES];
} luzhanem_recorder;
int luzhanem_dispatch_recorded(luzhanem_store *s, const luzhanem_scripts *scripts, const void *data,
                               size_t data_bytes, void *reader, size_t reader_bytes, size_t minute,
                               int ended[LUZHANEM_SCRIPTS], luzhanem_recorder *recorder);

/* Makes the call of one line of a log, given without its end, and answers what that call answers; 0 for a comment,
 * an answer, an empty line and V1. BAD_LINE if it is of another form or version. A standby follows a log so. */
int luzhanem_replay_line(luzhanem_store *s, const char *line, size_t n);

#ifdef __cplusplus
}
#endif

#endif
