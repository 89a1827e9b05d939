/* SQLite: one file, in WAL mode. */
#include "engine.h"
#include "luzhanem_durable.h"
#include <inttypes.h>
#include <sqlite3.h>
#include <stdbool.h>
#include <stdio.h>
#include <stdlib.h>
#include <string.h>
#include <sys/stat.h>
#include <unistd.h>

enum {
    LIMIT = 5000,
    PAUSE = 500
}; /* how long to wait for another connection, in ms; between two tries, in microseconds */

/* Small pages: a save of a few bytes writes few of them. The leaf page of a long row has LOCAL bytes of it,
 * and each overflow page OVERFLOW more (www.sqlite.org/fileformat2.html, 1.6). */
#define PAGE "1024"
enum { LOCAL = 104, OVERFLOW = 1020 };

struct sqlite {
    sqlite3 *db;
    sqlite3_stmt *prepared[STATEMENT_COUNT];
    char *still; /* the file, where it is read without locks */
    struct stat before;
};

static const char *sql_of(enum statement what) {
    switch (what) {
    case MAKE_PARTS:
        return "CREATE TABLE IF NOT EXISTS luzhanem_part (channel TEXT NOT NULL, part INTEGER NOT NULL, "
               "checksum INTEGER NOT NULL, fill BLOB, bytes BLOB NOT NULL, padding BLOB, "
               "PRIMARY KEY (channel, part))";
    case BEGIN_MAKE:
    case BEGIN_WRITE: return "BEGIN IMMEDIATE";
    case BEGIN_READ: return "BEGIN";
    case HOLD:
        return "UPDATE luzhanem_channel SET generation = generation + 1 "
               "WHERE name = $1 AND holder = $2 AND generation = $3";
    case REPLACE:
        return "UPDATE luzhanem_part SET bytes = ?3, checksum = ?4, fill = ?5, padding = ?6 "
               "WHERE channel = ?1 AND part = ?2";
    default: return luzhanem_sql_[what];
    }
}

/* The pauses of sqlite3_busy_timeout grow to 100 ms: they would miss every gap between the saves of a busy
 * host. */
static int wait_for_other(void *at, int times) {
    (void)at;
    usleep(PAUSE);
    return times < LIMIT * 1000 / PAUSE;
}

static int compare_answer(void *wanted, int columns, char **values, char **names) {
    (void)names;
    return columns != 1 || !values[0] || strcmp(values[0], wanted) != 0;
}

/* Runs a pragma whose one row has to be `wanted`, or any row where that is NULL; answers SQLite's code. */
static int pragma(sqlite3 *db, const char *sql, char *wanted, char why[WHY]) {
    char *words = NULL;
    int r = sqlite3_exec(db, sql, wanted ? compare_answer : NULL, wanted, &words);
    if (r != SQLITE_OK)
        snprintf(why, WHY, "%s: %s", sql,
                 r == SQLITE_ABORT ? "another answer"
                 : words           ? words
                                   : sqlite3_errstr(r));
    sqlite3_free(words);
    return r;
}

/* True where the file has no log with something in it. */
static bool no_log(const char *path) {
    char log[4096];
    struct stat s;
    return snprintf(log, sizeof log, "%s-wal", path) < (int)sizeof log &&
           (stat(log, &s) != 0 || s.st_size == 0);
}

/* Whether a file that is read without locks is the one that it was. */
static bool unchanged(const struct sqlite *q) {
    struct stat s;
    return no_log(q->still) && stat(q->still, &s) == 0 && s.st_ino == q->before.st_ino &&
           s.st_size == q->before.st_size && s.st_mtim.tv_sec == q->before.st_mtim.tv_sec &&
           s.st_mtim.tv_nsec == q->before.st_mtim.tv_nsec;
}

static int disconnect(void *at) {
    struct sqlite *q = at;
    for (int i = 0; i < STATEMENT_COUNT; i++) sqlite3_finalize(q->prepared[i]);
    sqlite3_close(q->db);
    int r = q->still && !unchanged(q) ? -1 : 0;
    free(q->still);
    free(q);
    return r;
}

/* Opens the file; answers SQLite's code, with words. */
static int open_file(struct sqlite *q, const char *path, int flags, char why[WHY]) {
    int r = sqlite3_open_v2(path, &q->db, flags | SQLITE_OPEN_NOMUTEX, NULL);
    if (r != SQLITE_OK) snprintf(why, WHY, "%s: %s", path, q->db ? sqlite3_errmsg(q->db) : sqlite3_errstr(r));
    else sqlite3_busy_handler(q->db, wait_for_other, NULL);
    return r;
}

/* Opens a file that nobody writes without locks, in a folder where no lock file can be made. */
static int open_still(struct sqlite *q, const char *path, char why[WHY]) {
    char *uri = malloc(3 * strlen(path) + 32), *to = uri;
    sqlite3_close(q->db);
    q->db = NULL;
    q->still = strdup(path);
    if (!uri || !q->still || stat(path, &q->before) != 0) return free(uri), SQLITE_CANTOPEN;
    to += sprintf(to, "file:");
    for (const char *c = path; *c; c++)
        to += sprintf(to, *c == '%' || *c == '?' || *c == '#' ? "%%%02x" : "%c", (unsigned char)*c);
    strcpy(to, "?immutable=1");
    int r = open_file(q, uri, SQLITE_OPEN_READONLY | SQLITE_OPEN_URI, why);
    free(uri);
    return r;
}

static int check_file(struct sqlite *q, char why[WHY]) {
    return pragma(q->db, "PRAGMA quick_check(1)", "ok", why);
}

static int connect_reader(struct sqlite *q, const char *path, char why[WHY]) {
    int r = open_file(q, path, SQLITE_OPEN_READONLY, why);
    if (r == SQLITE_OK) r = check_file(q, why);
    if ((r == SQLITE_CANTOPEN || r == SQLITE_READONLY) && access(path, R_OK) == 0 && no_log(path)) {
        r = open_still(q, path, why);
        if (r == SQLITE_OK) r = check_file(q, why);
    }
    return r == SQLITE_OK ? pragma(q->db, "PRAGMA query_only = 1", NULL, why) : r;
}

/* Two hosts that make one file at once meet in the change to WAL mode, for which SQLite does not wait by
 * itself. */
static int set_wal(struct sqlite *q, char why[WHY]) {
    int r = SQLITE_BUSY;
    for (int i = 0; r == SQLITE_BUSY && i < LIMIT * 1000 / PAUSE; i++) {
        if (i) usleep(PAUSE);
        r = pragma(q->db, "PRAGMA journal_mode = WAL", "wal", why);
    }
    return r;
}

/* A file without our tables is left as it is, unless they may be made. The change to WAL mode would write to
 * an empty one. */
static int has_tables(struct sqlite *q, char why[WHY]) {
    int r = pragma(q->db,
                   "SELECT count(*) FROM sqlite_master WHERE name IN ('luzhanem_channel', 'luzhanem_part')",
                   "2", why);
    if (r == SQLITE_ABORT) snprintf(why, WHY, "the file has no channels");
    return r;
}

/* SQLite folds the log into the file every 1,000 pages. With more a save searches longer in its index of the
 * log. */
static int connect_writer(struct sqlite *q, const char *path, int how, char why[WHY]) {
    int r = open_file(q, path,
                      SQLITE_OPEN_READWRITE | (how & LUZHANEM_DURABLE_CREATE ? SQLITE_OPEN_CREATE : 0), why);
    if (r == SQLITE_OK && how & LUZHANEM_DURABLE_CREATE)
        r = pragma(q->db, "PRAGMA page_size = " PAGE, NULL, why);
    if (r == SQLITE_OK) r = check_file(q, why);
    if (r == SQLITE_OK && !(how & LUZHANEM_DURABLE_CREATE)) r = has_tables(q, why);
    if (r == SQLITE_OK) r = set_wal(q, why);
    const char *level = how & LUZHANEM_DURABLE_OFF      ? "PRAGMA synchronous = OFF"
                        : how & LUZHANEM_DURABLE_NORMAL ? "PRAGMA synchronous = NORMAL"
                                                        : "PRAGMA synchronous = FULL";
    return r == SQLITE_OK ? pragma(q->db, level, NULL, why) : r;
}

static void *connect_to(const char *path, int how, char why[WHY]) {
    struct sqlite *q = calloc(1, sizeof *q);
    if (!q) return snprintf(why, WHY, "no memory"), NULL;
    int r = how < 0 ? connect_reader(q, path, why) : connect_writer(q, path, how, why);
    if (r == SQLITE_OK) return why[0] = 0, q;
    disconnect(q);
    return NULL;
}

static int bind(sqlite3_stmt *s, const struct value v[PARAMETERS]) {
    int r = SQLITE_OK;
    for (int i = 0; i < sqlite3_bind_parameter_count(s) && r == SQLITE_OK; i++)
        r = v[i].bytes ? sqlite3_bind_blob(s, i + 1, v[i].bytes, (int)v[i].n, SQLITE_STATIC)
                       : sqlite3_bind_text(s, i + 1, v[i].text, -1, SQLITE_STATIC);
    return r;
}

/* A table that an older version made has no padding: there a save writes more pages. */
static int prepare(struct sqlite *q, enum statement what) {
    if (q->prepared[what]) return SQLITE_OK;
    int r = sqlite3_prepare_v2(q->db, sql_of(what), -1, &q->prepared[what], NULL);
    if (r == SQLITE_ERROR && what == REPLACE)
        r = sqlite3_prepare_v2(
            q->db, "UPDATE luzhanem_part SET bytes = ?3, checksum = ?4 WHERE channel = ?1 AND part = ?2", -1,
            &q->prepared[what], NULL);
    return r;
}

/* Runs a statement that is prepared and bound, unless r has SQLite's code of an error there. */
static int step(struct sqlite *q, sqlite3_stmt *s, int r, row_function *row, void *context, char why[WHY]) {
    int rows = 0;
    if (r == SQLITE_OK) {
        for (r = sqlite3_step(s); r == SQLITE_ROW; r = sqlite3_step(s), rows++)
            if (row)
                row(context, sqlite3_column_int64(s, 0), sqlite3_column_blob(s, 1),
                    (size_t)sqlite3_column_bytes(s, 1), sqlite3_column_int64(s, 2));
        if (r == SQLITE_DONE && !sqlite3_stmt_readonly(s)) rows = sqlite3_changes(q->db);
    }
    if (r != SQLITE_DONE)
        snprintf(why, WHY, "%s (%s)", sqlite3_errmsg(q->db), sqlite3_errstr(sqlite3_extended_errcode(q->db)));
    sqlite3_reset(s);
    return r == SQLITE_DONE ? rows : -1;
}

static int run(void *at, enum statement what, const struct value v[PARAMETERS], row_function *row,
               void *context, char why[WHY]) {
    struct sqlite *q = at;
    int r = prepare(q, what);
    if (r == SQLITE_OK && v) r = bind(q->prepared[what], v);
    return step(q, q->prepared[what], r, row, context, why);
}

/* SQLite overwrites a row that keeps its size in place, and writes only those of its pages that change. So a
 * checksum, for which it takes 4 or 6 bytes, is filled up to 6, and padding keeps the size while a part
 * grows, until that needs one overflow page more. A row has a head of one byte, and one for each column, or
 * two for a text or bytes longer than 57. */
static size_t padding_of(const char *channel, const struct part *p) {
    size_t name = strlen(channel), full = LOCAL, row = 7 + name + (name > 57) + 1 + 6 + p->n + (p->n > 57);
    if (p->number == NUMBERS) return 0;
    while (full < row) full += OVERFLOW;
    return full - row > 57 ? full - row - 1 : full - row;
}

/* REPLACE or PUT of a part. */
static int put(struct sqlite *q, enum statement what, const char *channel, const struct part *p,
               char why[WHY]) {
    static const uint8_t zeros[OVERFLOW];
    int r = prepare(q, what), fill = p->checksum > INT32_MAX ? 0 : 2;
    sqlite3_stmt *s = q->prepared[what];
    if (r == SQLITE_OK) r = sqlite3_bind_text(s, 1, channel, -1, SQLITE_STATIC);
    if (r == SQLITE_OK) r = sqlite3_bind_int(s, 2, p->number);
    if (r == SQLITE_OK) r = sqlite3_bind_blob(s, 3, p->bytes, (int)p->n, SQLITE_STATIC);
    if (r == SQLITE_OK) r = sqlite3_bind_int64(s, 4, p->checksum);
    bool padded = r == SQLITE_OK && sqlite3_bind_parameter_count(s) == 6;
    if (padded) r = sqlite3_bind_blob(s, 5, zeros, fill, SQLITE_STATIC);
    if (padded && r == SQLITE_OK)
        r = sqlite3_bind_blob(s, 6, zeros, (int)padding_of(channel, p), SQLITE_STATIC);
    return step(q, s, r, NULL, NULL, why);
}

static int replace(void *at, const char *channel, const struct part *p, char why[WHY]) {
    int r = put(at, REPLACE, channel, p, why);
    return r == 0 ? put(at, PUT, channel, p, why) : r;
}

static int save(void *at, const struct save *save, char why[WHY]) {
    char generation[24];
    snprintf(generation, sizeof generation, "%" PRId64, save->generation);
    struct value hold[PARAMETERS] = { { save->channel, NULL, 0 },
                                      { save->holder, NULL, 0 },
                                      { generation, NULL, 0 } };
    if (run(at, BEGIN_WRITE, NULL, NULL, NULL, why) < 0) return -1;
    int held = run(at, HOLD, hold, NULL, NULL, why);
    for (int i = 0; i < save->count && held == 1; i++)
        if (replace(at, save->channel, &save->parts[i], why) != 1) return -1;
    if (held < 0 || run(at, COMMIT, NULL, NULL, NULL, why) < 0) return -1;
    return held;
}

const struct engine luzhanem_sqlite_ = { "sqlite:", 7, connect_to, run, save, disconnect };
