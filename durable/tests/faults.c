/* durable_faults FOLDER [SMALL READ_ONLY]: SQLite files that cannot be written, or are not what they should
 * be. FOLDER is empty; SMALL is on a small file system of its own; READ_ONLY is one that was made read-only
 * after `durable_faults make` left two channels in it. durable_faults make FOLDER: a channel in still.db, and
 * in log.db one that was not closed, with a log beside it. */
#include "check.h"
#include <fcntl.h>
#include <sqlite3.h>
#include <sys/stat.h>
#include <sys/wait.h>
#include <unistd.h>

enum { ROOM = 1 << 20 };
static luzhanem_store a, b, seen, untouched;

static const char *path_in(const char *folder, const char *name) {
    return url_in(folder, name) + strlen("sqlite:");
}

static size_t read_file(const char *file, uint8_t *to) {
    int f = open(file, O_RDONLY);
    ssize_t n = f < 0 ? 0 : read(f, to, ROOM);
    if (f >= 0) close(f);
    return n < 0 ? 0 : (size_t)n;
}

static void write_file(const char *file, const uint8_t *from, size_t n) {
    int f = open(file, O_WRONLY | O_CREAT | O_TRUNC, 0600);
    if (f < 0 || write(f, from, n) != (ssize_t)n) perror(file), exit(2);
    close(f);
}

static void run_sql(const char *file, const char *text) {
    sqlite3 *q;
    char *why = NULL;
    if (sqlite3_open(file, &q) != SQLITE_OK || sqlite3_exec(q, text, NULL, NULL, &why) != SQLITE_OK)
        fprintf(stderr, "%s: %s\n", text, why ? why : sqlite3_errmsg(q)), exit(2);
    sqlite3_close(q);
}

/* An open that is refused leaves the store. */
static void refused(const char *name, int wanted, const char *url, int how) {
    luzhanem_durable *d;
    char words[400];
    b = untouched;
    int r = luzhanem_durable_open(&d, url, "one", how, &b, NULL);
    snprintf(words, sizeof words, "%d %s", r, r < 0 ? luzhanem_durable_error() : "");
    check(r == wanted && !d && memcmp(&b, &untouched, sizeof b) == 0, name, words);
    luzhanem_durable_close(d);
}

static void fill_disk(const char *file) {
    static uint8_t much[65536];
    int f = open(file, O_WRONLY | O_CREAT, 0600);
    for (size_t n = sizeof much; n; n /= 2)
        while (write(f, much, n) > 0) {
        }
    close(f);
}

static void full_disk(const char *small) {
    luzhanem_durable *d;
    char url[700], filler[700];
    snprintf(url, sizeof url, "%s", url_in(small, "full.db"));
    snprintf(filler, sizeof filler, "%s", path_in(small, "filler"));
    must(luzhanem_fresh(&a, sizeof a, NULL), "fresh");
    must(luzhanem_durable_open(&d, url, "one", LUZHANEM_DURABLE_CREATE, &a, NULL), "open");
    for (uint32_t i = 0; i < 8; i++) write_at(&a, i, i);
    must(luzhanem_durable_sync(d), "sync");
    fill_disk(filler);
    int r = 0;
    uint32_t n = 0, saved = 0, fails = 0;
    for (; n < 5000 && fails < 3; n++) {
        for (uint32_t i = 0; i < 8; i++) write_at(&a, i, n + i);
        r = luzhanem_durable_sync(d);
        if (r == 0) saved = n;
        else fails++;
    }
    check(r == LUZHANEM_DURABLE_E_NOT_SAVED && fails == 3, "full disk: NOT_SAVED", luzhanem_durable_error());
    write_at(&a, 2, 77);
    check(at(&a, 2) == 77, "full disk: the store goes on", "");
    check(luzhanem_durable_load(url, "one", &seen, NULL) == 0 && at(&seen, 0) == saved &&
              at(&seen, 7) == saved + 7,
          "full disk: the last save is there, whole", luzhanem_durable_error());
    unlink(filler);
    check(luzhanem_durable_sync(d) == 0, "full disk: with room again the next sync saves",
          luzhanem_durable_error());
    check(luzhanem_durable_load(url, "one", &seen, NULL) == 0 && same(&seen, &a),
          "full disk: and all is there", "");
    luzhanem_durable_close(d);
}

/* The two channels that `make` left: one without a log, which is read without locks, and one whose log cannot
 * be read so. */
static void read_only(const char *folder) {
    refused("read-only disk: open", LUZHANEM_DURABLE_E_UNREACHABLE, url_in(folder, "still.db"), 0);
    refused("read-only disk: a new file", LUZHANEM_DURABLE_E_UNREACHABLE, url_in(folder, "new.db"),
            LUZHANEM_DURABLE_CREATE);
    int r = luzhanem_durable_load(url_in(folder, "still.db"), "one", &seen, NULL);
    check(r == 0 && at(&seen, 1) == 2, "read-only disk: load of a file that nobody writes",
          luzhanem_durable_error());
    check(luzhanem_durable_list(url_in(folder, "still.db"), NULL, NULL) == 1, "read-only disk: list",
          luzhanem_durable_error());
    r = luzhanem_durable_load(url_in(folder, "log.db"), "one", &seen, NULL);
    check((r == 0 && at(&seen, 1) == 2) || r == LUZHANEM_DURABLE_E_UNREACHABLE,
          "read-only disk: load with a log beside it never shows an older state", "");
}

static void make(const char *folder) {
    luzhanem_durable *d;
    const char *names[] = { "still.db", "log.db" };
    for (int i = 0; i < 2; i++) {
        must(luzhanem_fresh(&a, sizeof a, NULL), "fresh");
        for (uint32_t v = 1; v <= 2; v++) { /* the first close folds the log into the file */
            must(
                luzhanem_durable_open(&d, url_in(folder, names[i]), "one", LUZHANEM_DURABLE_CREATE, &a, NULL),
                "open");
            write_at(&a, 1, v);
            must(luzhanem_durable_sync(d), "sync");
            if (v == 1 || i == 0) luzhanem_durable_close(d);
        }
    }
    unlink(path_in(folder, "log.db-shm"));
    _exit(0); /* the second is left as a killed host leaves it */
}

/* Changes that a program or a disk could make; each is noticed, and an open that notices it leaves the file.
 */
static void tampered(const char *folder) {
    static const struct {
        const char *sql;
        int answer;
    } cases[] = {
        { "UPDATE luzhanem_channel SET format = 2", LUZHANEM_DURABLE_E_FORMAT },
        { "UPDATE luzhanem_part SET bytes = substr(bytes, 1, 3) WHERE part = 3", LUZHANEM_DURABLE_E_DAMAGED },
        { "UPDATE luzhanem_part SET bytes = bytes || x'00' WHERE part = 9", LUZHANEM_DURABLE_E_DAMAGED },
        { "UPDATE luzhanem_part SET bytes = x'' WHERE part = 8", LUZHANEM_DURABLE_E_DAMAGED },
        { "UPDATE luzhanem_part SET bytes = zeroblob(5000) WHERE part = 2", LUZHANEM_DURABLE_E_DAMAGED },
        { "DELETE FROM luzhanem_part WHERE part = 8", LUZHANEM_DURABLE_E_DAMAGED },
        { "DELETE FROM luzhanem_part WHERE part = 9", LUZHANEM_DURABLE_E_DAMAGED },
        { "INSERT INTO luzhanem_part (channel, part, bytes, checksum) "
          "SELECT channel, 10, bytes, checksum FROM luzhanem_part WHERE part = 0",
          LUZHANEM_DURABLE_E_DAMAGED },
        { "INSERT INTO luzhanem_part (channel, part, bytes, checksum) "
          "SELECT channel, -1, bytes, checksum FROM luzhanem_part WHERE part = 0",
          LUZHANEM_DURABLE_E_DAMAGED },
        { "UPDATE luzhanem_part SET bytes = zeroblob(4) WHERE part = 1", LUZHANEM_DURABLE_E_DAMAGED },
        { "UPDATE luzhanem_part SET checksum = checksum + 1 WHERE part = 1", LUZHANEM_DURABLE_E_DAMAGED },
        { "UPDATE luzhanem_part SET checksum = checksum + 4294967296 WHERE part = 1",
          LUZHANEM_DURABLE_E_DAMAGED },
        { "UPDATE luzhanem_part SET part = 20 - part WHERE part < 2; UPDATE luzhanem_part SET part = part - "
          "19 WHERE part = 20; "
          "UPDATE luzhanem_part SET part = 0 WHERE part = 19",
          LUZHANEM_DURABLE_E_DAMAGED },
        { "UPDATE luzhanem_part SET (bytes, checksum) = (SELECT bytes, checksum FROM old WHERE part = 1) "
          "WHERE part = 1",
          LUZHANEM_DURABLE_E_DAMAGED },
        { "UPDATE luzhanem_part SET (bytes, checksum) = (SELECT bytes, checksum FROM old WHERE part = 9) "
          "WHERE part = 9",
          LUZHANEM_DURABLE_E_DAMAGED },
        { "DROP TABLE luzhanem_part", LUZHANEM_DURABLE_E_UNREACHABLE },
    };
    static uint8_t good[ROOM], changed[ROOM], later[ROOM];
    luzhanem_durable *d;
    char file[700], url[720];
    snprintf(file, sizeof file, "%s", path_in(folder, "tampered.db"));
    snprintf(url, sizeof url, "sqlite:%s", file);
    must(luzhanem_fresh(&a, sizeof a, NULL), "fresh");
    must(luzhanem_durable_open(&d, url, "one", LUZHANEM_DURABLE_CREATE, &a, NULL), "open");
    for (uint32_t i = 0; i < 8; i++) write_at(&a, i, 1000 + i);
    must(luzhanem_durable_sync(d), "sync");
    run_sql(
        file,
        "CREATE TABLE old AS SELECT * FROM luzhanem_part"); /* parts of an older save, each right by itself */
    write_at(&a, 1, 2000);
    must(luzhanem_durable_sync(d), "sync");
    static luzhanem_store right;
    right = a;
    memset(&a, 7, sizeof a);
    check(luzhanem_durable_sync(d) == LUZHANEM_E_RECORD_RANGE, "a store out of its ranges is not saved",
          luzhanem_durable_error());
    a = right;
    check(luzhanem_durable_load(url, "one", &seen, NULL) == 0 && same(&seen, &a), "and what was saved stays",
          luzhanem_durable_error());
    luzhanem_durable_close(d);
    size_t n = read_file(file, good);
    for (size_t i = 0; i < sizeof cases / sizeof *cases; i++) {
        write_file(file, good, n);
        run_sql(file, cases[i].sql);
        size_t m = read_file(file, changed);
        refused(cases[i].sql, cases[i].answer, url, 0);
        check(read_file(file, later) == m && memcmp(later, changed, m) == 0, "  and the file is as before",
              "");
    }
}

/* By how many bytes the log grows with the sync of one more append of 16 bytes. */
static long long log_grows(luzhanem_durable *d, const char *log) {
    struct stat before, after;
    must(luzhanem_begin(&a, 0), "begin");
    must(luzhanem_write(&a, 0, 6, "0123456789abcdef", 16), "write");
    must(luzhanem_commit(&a, 0, 0), "commit");
    if (stat(log, &before) != 0) return -1;
    must(luzhanem_durable_sync(d), "sync");
    return stat(log, &after) == 0 ? (long long)(after.st_size - before.st_size) : -1;
}

/* 255 appends to one file, of which few need a page more: nearly all saves write `most` bytes or fewer. */
static void appends(const char *url, const char *name, long long most) {
    luzhanem_durable *d;
    char log[740], words[100];
    int small = 0;
    snprintf(log, sizeof log, "%s-wal", url + strlen("sqlite:"));
    must(luzhanem_fresh(&a, sizeof a, NULL), "fresh");
    must(luzhanem_durable_open(&d, url, "one", 0, &a, NULL), "open");
    for (int i = 0; i < 255; i++) {
        long long n = log_grows(d, log);
        small += n >= 0 && n <= most; /* 0 where the log began anew */
    }
    snprintf(words, sizeof words, "%d of 255", small);
    check(small > 230, name, words);
    check(luzhanem_durable_load(url, "one", &seen, NULL) == 0 && same(&seen, &a), "  and all is there",
          luzhanem_durable_error());
    luzhanem_durable_close(d);
}

/* What a version ran that knew no padding, word for word. */
static const char older_tables[] =
    "CREATE TABLE IF NOT EXISTS luzhanem_channel (name TEXT PRIMARY KEY, format INTEGER NOT NULL, "
    "generation BIGINT NOT NULL, holder TEXT NOT NULL); "
    "CREATE TABLE IF NOT EXISTS luzhanem_part (channel TEXT NOT NULL, part INTEGER NOT NULL, "
    "bytes BLOB NOT NULL, checksum INTEGER NOT NULL, PRIMARY KEY (channel, part))";
#define OLDER_MAKE(name) \
    "INSERT INTO luzhanem_channel (name, format, generation, holder) VALUES ('" name "', '1', 1, 'older')"
static const char older_get[] =
    "SELECT part, bytes, checksum FROM luzhanem_part WHERE channel = $1 ORDER BY part";
static const char older_put[] =
    "INSERT INTO luzhanem_part (channel, part, bytes, checksum) VALUES ($1, $2, $3, $4)";
static const char older_replace[] =
    "INSERT INTO luzhanem_part (channel, part, bytes, checksum) VALUES ($1, $2, $3, $4) "
    "ON CONFLICT (channel, part) DO UPDATE SET bytes = excluded.bytes, checksum = excluded.checksum";

/* The older version writes the parts of channel one of a file to a channel of another, by `begin`, `put` a
 * part, and COMMIT. Answers how many. */
static int older_save(const char *from, const char *to, const char *channel, const char *begin,
                      const char *put) {
    sqlite3 *a_file, *b_file;
    sqlite3_stmt *get_one, *put_one;
    int n = 0;
    if (sqlite3_open(from, &a_file) != SQLITE_OK || sqlite3_open(to, &b_file) != SQLITE_OK) exit(2);
    if (sqlite3_exec(b_file, begin, NULL, NULL, NULL) != SQLITE_OK || sqlite3_changes(b_file) != 1) n = -1;
    if (sqlite3_prepare_v2(a_file, older_get, -1, &get_one, NULL) != SQLITE_OK ||
        sqlite3_prepare_v2(b_file, put, -1, &put_one, NULL) != SQLITE_OK)
        fprintf(stderr, "%s %s\n", sqlite3_errmsg(a_file), sqlite3_errmsg(b_file)), exit(2);
    sqlite3_bind_text(get_one, 1, "one", -1, SQLITE_STATIC);
    while (n >= 0 && sqlite3_step(get_one) == SQLITE_ROW && sqlite3_column_int(get_one, 0) == n) {
        sqlite3_bind_text(put_one, 1, channel, -1, SQLITE_STATIC);
        for (int i = 0; i < 3; i++) sqlite3_bind_value(put_one, i + 2, sqlite3_column_value(get_one, i));
        n = sqlite3_step(put_one) == SQLITE_DONE && sqlite3_changes(b_file) == 1 ? n + 1 : -1;
        sqlite3_reset(put_one);
    }
    sqlite3_finalize(get_one);
    sqlite3_finalize(put_one);
    if (sqlite3_exec(b_file, "COMMIT", NULL, NULL, NULL) != SQLITE_OK) n = -1;
    sqlite3_close(a_file);
    sqlite3_close(b_file);
    return n;
}

/* Another state is saved from here, and read again. */
static void goes_on(const char *name, const char *url, const char *channel, const luzhanem_store *was) {
    luzhanem_durable *d;
    must(luzhanem_fresh(&b, sizeof b, NULL), "fresh");
    int r = luzhanem_durable_open(&d, url, channel, 0, &b, NULL);
    check(r == 0 && same(&b, was), name, luzhanem_durable_error());
    if (r < 0) return;
    for (uint32_t i = 0; i < 8; i++) write_at(&b, i, 50 + i);
    check(luzhanem_durable_sync(d) == 0 && luzhanem_durable_load(url, channel, &seen, NULL) == 0 &&
              same(&seen, &b),
          "  and this one goes on", luzhanem_durable_error());
    luzhanem_durable_close(d);
}

/* A table that an older version made serves, and an older version is served by ours: it takes a channel over
 * and saves to it, and makes one. A part that is missing is written. */
static void versions(const char *folder) {
    luzhanem_durable *d;
    int64_t generation;
    char url[720], older[720], file[700], older_file[700], hold[200];
    snprintf(url, sizeof url, "%s", url_in(folder, "padded.db"));
    snprintf(older, sizeof older, "%s", url_in(folder, "older.db"));
    snprintf(file, sizeof file, "%s", path_in(folder, "padded.db"));
    snprintf(older_file, sizeof older_file, "%s", path_in(folder, "older.db"));
    run_sql(older_file, older_tables);
    for (int i = 0; i < 2; i++) {
        must(luzhanem_fresh(&a, sizeof a, NULL), "fresh");
        must(luzhanem_durable_open(&d, i ? older : url, "one", LUZHANEM_DURABLE_CREATE, &a, NULL), "open");
        luzhanem_durable_close(d);
    }
    appends(url, "a save of a small append writes three or four pages", 4 * 1048);
    appends(older, "a table without padding", 16 * 1048);
    must(luzhanem_durable_open(&d, older, "one", 0, &a, NULL), "open");
    run_sql(older_file, "DELETE FROM luzhanem_part WHERE part = 2");
    write_at(&a, 2, 78);
    check(luzhanem_durable_sync(d) == 0 && luzhanem_durable_load(older, "one", &seen, NULL) == 0 &&
              same(&seen, &a),
          "a part that was removed is written again", luzhanem_durable_error());
    luzhanem_durable_close(d);

    must(luzhanem_durable_open(&d, url, "one", 0, &b, NULL), "open");
    run_sql(file, older_tables); /* as its open with CREATE does */
    run_sql(file,
            "UPDATE luzhanem_channel SET generation = generation + 1, holder = 'older' WHERE name = 'one'");
    check(luzhanem_durable_sync(d) == LUZHANEM_DURABLE_E_FENCED, "an older version takes a channel over", "");
    luzhanem_durable_close(d);
    must(luzhanem_durable_load(url, "one", &seen, &generation), "load");
    snprintf(hold, sizeof hold,
             "BEGIN IMMEDIATE; UPDATE luzhanem_channel SET generation = generation + 1 "
             "WHERE name = 'one' AND holder = 'older' AND generation = '%lld'",
             (long long)generation);
    check(older_save(older_file, file, "one", hold, older_replace) == 10,
          "an older version saves to a table with padding", "");
    goes_on("  and what it saved is there", url, "one", &a);
    check(older_save(older_file, file, "two", "BEGIN IMMEDIATE; " OLDER_MAKE("two"), older_put) == 10,
          "an older version makes a channel in a table with padding", "");
    goes_on("  and it is there", url, "two", &a);
    check(older_save(file, older_file, "three", "BEGIN IMMEDIATE; " OLDER_MAKE("three"), older_put) == 10,
          "an older version reads a table with padding", "");
    must(luzhanem_durable_load(url, "one", &a, NULL), "load");
    goes_on("  and what it read is what was saved", older, "three", &a);
}

static void nowhere(const char *folder) {
    refused("no file", LUZHANEM_DURABLE_E_UNREACHABLE, url_in(folder, "none.db"), 0);
    check(access(path_in(folder, "none.db"), F_OK) != 0, "no file: none is made", "");
    refused("no folder", LUZHANEM_DURABLE_E_UNREACHABLE, url_in(folder, "no/none.db"),
            LUZHANEM_DURABLE_CREATE);
    write_file(path_in(folder, "empty.db"), (const uint8_t *)"", 0);
    refused("an empty file", LUZHANEM_DURABLE_E_UNREACHABLE, url_in(folder, "empty.db"), 0);
    struct stat empty;
    check(stat(path_in(folder, "empty.db"), &empty) == 0 && empty.st_size == 0,
          "an empty file: it stays empty", "");
    write_file(path_in(folder, "text.db"),
               (const uint8_t *)"this is no database, but a text that somebody put there ..", 58);
    refused("another file", LUZHANEM_DURABLE_E_UNREACHABLE, url_in(folder, "text.db"),
            LUZHANEM_DURABLE_CREATE);
}

/* Eight hosts that make one file at once: each opens it in the end, and the last one holds it. */
static void made_at_once(const char *folder) {
    int good = 0;
    for (int i = 0; i < 10; i++) {
        char name[40];
        pid_t children[8];
        snprintf(name, sizeof name, "once%d.db", i);
        for (int k = 0; k < 8; k++)
            if ((children[k] = fork()) == 0) {
                luzhanem_durable *d;
                must(luzhanem_fresh(&a, sizeof a, NULL), "fresh");
                int r =
                    luzhanem_durable_open(&d, url_in(folder, name), "one", LUZHANEM_DURABLE_CREATE, &a, NULL);
                if (r < 0) fprintf(stderr, "%s\n", luzhanem_durable_error());
                if (r == 0) r = luzhanem_durable_sync(d) == LUZHANEM_E_RECORD_RANGE;
                _exit(r != 0);
            }
        int status, all = 0;
        for (int k = 0; k < 8; k++)
            all += waitpid(children[k], &status, 0) > 0 && WIFEXITED(status) && WEXITSTATUS(status) == 0;
        good += all == 8 && luzhanem_durable_load(url_in(folder, name), "one", &seen, NULL) == 0;
    }
    check(good == 10, "eight hosts that make one file at once, ten times", luzhanem_durable_error());
}

int main(int n, char **v) {
    memset(&untouched, 7, sizeof untouched);
    if (n == 3 && strcmp(v[1], "make") == 0) make(v[2]);
    if (n != 2 && n != 4) return fprintf(stderr, "durable_faults FOLDER [SMALL READ_ONLY]\n"), 2;
    nowhere(v[1]);
    tampered(v[1]);
    versions(v[1]);
    made_at_once(v[1]);
    if (n == 4) {
        full_disk(v[2]);
        read_only(v[3]);
    }
    return wrong != 0;
}
