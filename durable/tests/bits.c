/* durable_bits FOLDER: flips every bit of a small database, one at a time, and cuts it at every page and at
 * places between. What is loaded or opened then is the state that was saved, or an error; and an error leaves
 * store and file. */
#include "check.h"
#include <fcntl.h>
#include <unistd.h>

enum { ROOM = 1 << 20, PAGE = 1024 };
static luzhanem_store a, seen, before;
static uint8_t good[ROOM];
static char file[700], url[720];
static unsigned errors, alike, other, touched;

static void remove_log(void) {
    char name[720];
    snprintf(name, sizeof name, "%s-wal", file);
    unlink(name);
    snprintf(name, sizeof name, "%s-shm", file);
    unlink(name);
}

/* A small channel: a few bytes in each file, and a grant to undo. */
static size_t make(void) {
    luzhanem_durable *d;
    must(luzhanem_fresh(&a, sizeof a, NULL), "fresh");
    must(luzhanem_durable_open(&d, url, "one", LUZHANEM_DURABLE_CREATE, &a, NULL), "open");
    for (uint32_t i = 0; i < 8; i++) write_at(&a, i, 1000 + i);
    write_at(&a, 3, 2000);
    must(luzhanem_durable_sync(d), "sync");
    luzhanem_durable_close(d);
    int f = open(file, O_RDONLY);
    ssize_t n = read(f, good, ROOM);
    close(f);
    if (n <= 0 || n == ROOM) exit(2);
    return (size_t)n;
}

static void count(int r) {
    if (r < 0) errors++;
    else if (same(&seen, &a)) alike++;
    else other++;
}

static void load(void) {
    seen = before;
    int r = luzhanem_durable_load(url, "one", &seen, NULL);
    if (r < 0 && memcmp(&seen, &before, sizeof seen) != 0) touched++;
    count(r);
}

/* Whether the file has these bytes. */
static bool has(const uint8_t *bytes, size_t n) {
    static uint8_t now[ROOM];
    int f = open(file, O_RDONLY);
    ssize_t got = read(f, now, ROOM);
    close(f);
    return got == (ssize_t)n && memcmp(now, bytes, n) == 0;
}

static void open_and_close(const uint8_t *bytes, size_t n) {
    luzhanem_durable *d;
    seen = before;
    int r = luzhanem_durable_open(&d, url, "one", 0, &seen, NULL);
    if (r < 0 && (memcmp(&seen, &before, sizeof seen) != 0 || !has(bytes, n))) touched++;
    count(r);
    luzhanem_durable_close(d);
}

static void put(const uint8_t *bytes, size_t n) {
    remove_log();
    int f = open(file, O_WRONLY | O_CREAT | O_TRUNC, 0600);
    if (f < 0 || write(f, bytes, n) != (ssize_t)n) exit(2);
    close(f);
}

/* Every bit by a load; every 64th by an open too. */
static void flips(size_t n) {
    static uint8_t now[ROOM];
    put(good, n);
    int f = open(file, O_WRONLY);
    for (size_t bit = 0; bit < 8 * n; bit++) {
        uint8_t changed = good[bit / 8] ^ (uint8_t)(1u << bit % 8);
        if (pwrite(f, &changed, 1, (off_t)(bit / 8)) != 1) exit(2);
        load();
        if (pwrite(f, &good[bit / 8], 1, (off_t)(bit / 8)) != 1) exit(2);
        if (bit % 64 != bit / 64 % 64) continue;
        memcpy(now, good, n);
        now[bit / 8] = changed;
        put(now, n);
        open_and_close(now, n);
        put(good, n);
    }
    close(f);
}

static void cuts(size_t n) {
    for (size_t cut = 0; cut < n; cut += PAGE / 4) {
        put(good, cut);
        load();
        put(good, cut);
        open_and_close(good, cut);
    }
}

static void report(const char *name, bool all_errors) {
    char words[300];
    snprintf(words, sizeof words,
             "%u errors, %u the same state, %u another state, %u errors that changed something", errors,
             alike, other, touched);
    check(other == 0 && touched == 0 && errors > 0 && (!all_errors || alike == 0), name, words);
    printf("# %s: %s\n", name, words);
    errors = alike = other = touched = 0;
}

int main(int n, char **v) {
    if (n != 2) return fprintf(stderr, "durable_bits FOLDER\n"), 2;
    snprintf(file, sizeof file, "%s/bits.db", v[1]);
    snprintf(url, sizeof url, "sqlite:%s", file);
    memset(&before, 7, sizeof before);
    size_t size = make();
    printf("# a database of %zu bytes\n", size);
    flips(size);
    report("every bit flipped", false);
    cuts(size);
    report("cut at every page and between", true);
    return wrong != 0;
}
