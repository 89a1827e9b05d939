/* durable_calls URL: the calls of luzhanem_durable.h on a database of either kind, which has no channel yet.
 */
#include "work.h"

static luzhanem_store a, b, seen;

static bool is_saved(const char *url, const char *channel, const luzhanem_store *s) {
    return luzhanem_durable_load(url, channel, &seen, NULL) == 0 && same(&seen, s);
}

/* What one holder does: every change of what is committed is saved, what is open is not. */
static void saves(const char *url) {
    luzhanem_durable *d;
    must(luzhanem_fresh(&a, sizeof a, NULL), "fresh");
    int r = luzhanem_durable_open(&d, url, "saves", LUZHANEM_DURABLE_CREATE, &a, NULL);
    check(r == 0 && is_saved(url, "saves", &a), "open with CREATE makes a channel from the store",
          luzhanem_durable_error());
    if (r < 0) return;
    write_at(&a, 1, 11);
    check(!is_saved(url, "saves", &a), "a commit without a sync is not saved", "");
    check(luzhanem_durable_sync(d) == 0 && is_saved(url, "saves", &a), "sync saves a commit",
          luzhanem_durable_error());
    check(luzhanem_durable_sync(d) == 0 && is_saved(url, "saves", &a), "a sync with nothing new answers 0",
          luzhanem_durable_error());
    write_at(&a, 1, 12);
    must(luzhanem_durable_sync(d), "sync");
    check(luzhanem_durable_load(url, "saves", &seen, NULL) == 0 && luzhanem_undo(&seen) == 0 &&
              at(&seen, 1) == 11,
          "undo works on what was loaded", "");
    must(luzhanem_undo(&a), "undo");
    must(luzhanem_durable_sync(d), "sync");
    check(is_saved(url, "saves", &a) && luzhanem_undo(&seen) == LUZHANEM_E_NO_GRANT, "an undo is saved", "");
    must(luzhanem_set_window(&a, 1, 60, 120), "window");
    must(luzhanem_durable_sync(d), "sync");
    bool there = is_saved(url, "saves", &a);
    must(luzhanem_set_window(&a, 1, 0, 0), "window");
    must(luzhanem_durable_sync(d), "sync");
    check(there && is_saved(url, "saves", &a), "windows are saved, there and back", "");
    write_at(&a, 1, 11);
    must(luzhanem_begin(&a, 3), "begin");
    must(luzhanem_write(&a, 3, 2, "not yet", 7), "write");
    must(luzhanem_durable_sync(d), "sync");
    check(is_saved(url, "saves", &a) && luzhanem_state(&seen, 3) == 0 && luzhanem_state(&a, 3) == 1 &&
              luzhanem_length(&seen, 2) == 0,
          "what is open is not saved, and stays open in memory", "");
    luzhanem_durable_close(d);
}

/* A commit of 64 writes that overlap, on files that grow by zeros: lengths, offsets and old bytes are all
 * exact. */
static void edges(const char *url) {
    luzhanem_durable *d;
    static uint8_t bytes[LUZHANEM_FILE_BYTES];
    static luzhanem_store before;
    must(luzhanem_fresh(&a, sizeof a, NULL), "fresh");
    must(luzhanem_durable_open(&d, url, "edges", LUZHANEM_DURABLE_CREATE, &a, NULL), "open");
    must(luzhanem_begin(&a, 0), "begin");
    must(luzhanem_write(&a, 0, 2, bytes, 100), "write"); /* zeros: the length alone tells */
    must(luzhanem_commit(&a, 0, 0), "commit");
    must(luzhanem_durable_sync(d), "sync");
    check(is_saved(url, "edges", &a) && luzhanem_length(&seen, 2) == 100, "a file that grows by zeros", "");
    for (size_t i = 0; i < sizeof bytes; i++) bytes[i] = (uint8_t)(i * 7 + 1);
    must(luzhanem_begin(&a, 0), "begin");
    must(luzhanem_write(&a, 0, 3, bytes, sizeof bytes), "write");
    must(luzhanem_commit(&a, 0, 0), "commit");
    must(luzhanem_durable_sync(d), "sync");
    check(is_saved(url, "edges", &a) && luzhanem_length(&seen, 3) == LUZHANEM_FILE_BYTES, "a full file", "");
    before = a;
    must(luzhanem_begin(&a, 0), "begin");
    for (size_t i = 0; i < 64; i++) {
        must(luzhanem_seek(&a, 0, 2 + i % 3, 50 * i % 1000), "seek");
        must(luzhanem_write(&a, 0, 2 + i % 3, bytes + i, 64), "write");
    }
    must(luzhanem_commit(&a, 0, 0), "commit");
    must(luzhanem_durable_sync(d), "sync");
    bool good =
        is_saved(url, "edges", &a) && luzhanem_undo(&seen) == 0 && luzhanem_undo(&a) == 0 && same(&seen, &a);
    for (size_t f = 0; f < LUZHANEM_FILES; f++)
        good = good && luzhanem_length(&seen, f) == luzhanem_length(&before, f) &&
               memcmp(luzhanem_file(&seen, f), luzhanem_file(&before, f), LUZHANEM_FILE_BYTES) == 0;
    check(good, "undo of 64 writes that overlap, after a load", "");
    luzhanem_durable_close(d);
}

static void fencing(const char *url) {
    luzhanem_durable *first, *second;
    int64_t before = 0, after = 0;
    must(luzhanem_fresh(&a, sizeof a, NULL), "fresh");
    must(luzhanem_fresh(&b, sizeof b, NULL), "fresh");
    must(luzhanem_durable_open(&first, url, "fencing", LUZHANEM_DURABLE_CREATE, &a, NULL), "open");
    write_at(&a, 1, 11);
    must(luzhanem_durable_sync(first), "sync");
    must(luzhanem_durable_load(url, "fencing", &seen, &before), "load");
    int r = luzhanem_durable_open(&second, url, "fencing", 0, &b, NULL);
    check(r == 0 && at(&b, 1) == 11, "a second open takes over, with what was saved",
          luzhanem_durable_error());
    write_at(&a, 1, 12);
    check(luzhanem_durable_sync(first) == LUZHANEM_DURABLE_E_FENCED, "the first's sync is fenced",
          luzhanem_durable_error());
    check(is_saved(url, "fencing", &b), "and nothing of it is saved", "");
    check(luzhanem_durable_sync(first) == LUZHANEM_DURABLE_E_FENCED && at(&a, 1) == 12,
          "it stays fenced, and its store usable", "");
    write_at(&b, 1, 13);
    check(luzhanem_durable_sync(second) == 0 && is_saved(url, "fencing", &b), "the second goes on",
          luzhanem_durable_error());
    must(luzhanem_durable_load(url, "fencing", &seen, &after), "load");
    check(after == before + 2, "a takeover and a save count as two generations", "");
    luzhanem_durable_close(first);
    luzhanem_durable_close(second);
    r = luzhanem_durable_open(&first, url, "fencing", 0, &a, NULL);
    check(r == 0 && same(&a, &b), "what was closed can be opened again", luzhanem_durable_error());
    luzhanem_durable_close(first);
}

/* The image is taken between take and give: what is committed in the one is saved, what is committed in the
 * other is not. */
static void on_take(void *s) { write_at(s, 5, 501); }
static void on_give(void *s) { write_at(s, 5, 502); }
static void locked(const char *url) {
    luzhanem_durable *d;
    luzhanem_durable_lock lock = { on_take, on_give, &a };
    must(luzhanem_fresh(&a, sizeof a, NULL), "fresh");
    int r = luzhanem_durable_open(&d, url, "locked", LUZHANEM_DURABLE_CREATE, &a, &lock);
    if (r == 0) r = luzhanem_durable_sync(d);
    check(r == 0 && luzhanem_durable_load(url, "locked", &seen, NULL) == 0 && at(&seen, 5) == 501 &&
              at(&a, 5) == 502,
          "the image is taken under the lock", luzhanem_durable_error());
    luzhanem_durable_close(d);
}

/* A takeover amid eight tasks: the second open has all that was answered, and the database keeps what it was
 * given. */
static bool takeover(const char *url) {
    static struct work w;
    luzhanem_durable *second;
    uint32_t last[TASKS];
    char why[200];
    if (open_work(&w, url, "amid", LUZHANEM_DURABLE_CREATE) < 0) return false;
    start_tasks(&w);
    usleep(30000);
    must(luzhanem_fresh(&b, sizeof b, NULL), "fresh");
    int r = luzhanem_durable_open(&second, url, "amid", 0, &b, NULL);
    if (r < 0) w.stop = true;
    join_tasks(&w);
    bool good =
        r == 0 && progress(&b, last, why, sizeof why) && w.fences == TASKS && is_saved(url, "amid", &b);
    for (size_t t = 0; good && t < TASKS; t++) good = last[t] >= w.made[t];
    luzhanem_durable_close(second);
    luzhanem_durable_close(w.d);
    return good;
}

static void takeovers(const char *url) {
    int good = 0;
    for (int i = 0; i < 20; i++) good += takeover(url);
    check(good == 20, "20 takeovers amid eight tasks", luzhanem_durable_error());
}

static void two_channels(const char *url) {
    static struct work w[2];
    const char *names[] = { "north", "south" };
    bool good = true;
    for (int i = 0; i < 2; i++) {
        must(open_work(&w[i], url, names[i], LUZHANEM_DURABLE_CREATE), "open");
        start_tasks(&w[i]);
    }
    usleep(500000);
    for (int i = 0; i < 2; i++) w[i].stop = true;
    for (int i = 0; i < 2; i++) {
        uint32_t last[TASKS];
        char why[200];
        join_tasks(&w[i]);
        good = good && is_saved(url, names[i], &w[i].s) && progress(&seen, last, why, sizeof why);
        for (size_t t = 0; good && t < TASKS; t++) good = last[t] == w[i].made[t];
        luzhanem_durable_close(w[i].d);
    }
    check(good, "two channels of eight tasks each in one database", "");
}

static void listed(void *at, const char *channel, int64_t generation) {
    char *names = at;
    snprintf(names + strlen(names), 400 - strlen(names), "%s%s ", channel, generation > 0 ? "" : "?");
}

static void lists(const char *url) {
    char names[400] = "";
    int n = luzhanem_durable_list(url, listed, names);
    check(n == 7 && strcmp(names, "amid edges fencing locked north saves south ") == 0,
          "list names every channel in order", names);
    check(luzhanem_durable_list(url, NULL, NULL) == 7, "list without a visit counts", "");
}

static void wrong_arguments(const char *url) {
    luzhanem_durable *d = NULL;
    char name[300];
    memset(name, 'x', sizeof name);
    name[201] = 0;
    must(luzhanem_fresh(&a, sizeof a, NULL), "fresh");
    b = a;
    int bad = LUZHANEM_DURABLE_E_BAD_ARGUMENT;
    check(luzhanem_durable_open(&d, url, "none", 0, &a, NULL) == LUZHANEM_DURABLE_E_NO_CHANNEL && !d,
          "no such channel", luzhanem_durable_error());
    check(luzhanem_durable_load(url, "none", &a, NULL) == LUZHANEM_DURABLE_E_NO_CHANNEL && same(&a, &b),
          "no such channel to load", luzhanem_durable_error());
    check(luzhanem_durable_open(&d, "mysql://x", "one", 0, &a, NULL) == bad, "another kind of database", "");
    check(luzhanem_durable_open(&d, url, "", 0, &a, NULL) == bad &&
              luzhanem_durable_open(&d, url, name, 0, &a, NULL) == bad,
          "no name, a name too long", "");
    check(luzhanem_durable_open(NULL, url, "one", 0, &a, NULL) == bad &&
              luzhanem_durable_open(&d, NULL, "one", 0, &a, NULL) == bad &&
              luzhanem_durable_open(&d, url, NULL, 0, &a, NULL) == bad &&
              luzhanem_durable_open(&d, url, "one", 0, NULL, NULL) == bad &&
              luzhanem_durable_open(&d, url, "one", 8, &a, NULL) == bad &&
              luzhanem_durable_load(url, "one", NULL, NULL) == bad &&
              luzhanem_durable_list(NULL, NULL, NULL) == bad && luzhanem_durable_sync(NULL) == bad,
          "NULL and unknown flags", "");
    luzhanem_durable_close(NULL);
    name[200] = 0;
    check(luzhanem_durable_open(&d, url, name, LUZHANEM_DURABLE_CREATE, &a, NULL) == 0, "a name of 200 bytes",
          luzhanem_durable_error());
    luzhanem_durable_close(d);
    memset(&b, 7, sizeof b);
    check(luzhanem_durable_open(&d, url, "no store", LUZHANEM_DURABLE_CREATE, &b, NULL) ==
                  LUZHANEM_E_RECORD_RANGE &&
              luzhanem_durable_load(url, "no store", &a, NULL) == LUZHANEM_DURABLE_E_NO_CHANNEL,
          "a new channel of what is no store", luzhanem_durable_error());
    check(strcmp(luzhanem_durable_errname(-102), "FENCED") == 0 &&
              strcmp(luzhanem_durable_errname(-13), "STALE") == 0 &&
              strstr(luzhanem_durable_strerror(-106), "checksum") &&
              strstr(luzhanem_durable_strerror(-13), "stale"),
          "names and sentences of the answers", "");
}

int main(int n, char **v) {
    if (n != 2) return fprintf(stderr, "durable_calls URL\n"), 2;
    saves(v[1]);
    edges(v[1]);
    fencing(v[1]);
    locked(v[1]);
    takeovers(v[1]);
    two_channels(v[1]);
    lists(v[1]);
    wrong_arguments(v[1]);
    return wrong != 0;
}
