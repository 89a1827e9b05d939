/* Nanoseconds a call, from Rattle in a loop and from C through luzhanem.h, on one block of memory; the least of many
 * sweeps. Prints for each row, parted by tabs: calls, transactions open, write records of each, Rattle, C.
 * bindings/time joins the rows to those from Rust. */
#include "luzhanem.h"

#include <stdio.h>
#include <time.h>

/* Crate loop_calls: record, files, logs, marks, undo; then what its calls get; then how often. */
#define PARTS uint16_t *, uint8_t *, uint8_t *, uint8_t *, uint8_t *
uint64_t loop_calls_seek(PARTS, size_t t, size_t d, size_t offset, size_t n);
uint64_t loop_calls_pointer(PARTS, size_t t, size_t d, size_t, size_t n);
uint64_t loop_calls_seek_read(PARTS, uint8_t *reader, size_t t, size_t d, size_t count, size_t n);
uint64_t loop_calls_begin_commit(PARTS, size_t t, size_t, size_t minute, size_t n);
uint64_t loop_calls_begin_write_commit(PARTS, const uint8_t *bytes, size_t t, size_t d, size_t minute, size_t n);

enum { CALLS = 4000, SWEEPS = 64, TRIES = 5 };

static luzhanem_store s;
static uint8_t buffer[4096];
static uint64_t sum; /* every answer is used */
#define OF s.record_, s.files_, s.logs_, s.marks_, s.undo_

static void rattle_seek(size_t n) { sum += loop_calls_seek(OF, 0, 0, 48, n); }
static void c_seek(size_t n) {
    int r = 0;
    while (n--) r += luzhanem_seek(&s, 0, 0, 48);
    sum += (unsigned)r;
}

static void rattle_pointer(size_t n) { sum += loop_calls_pointer(OF, 0, 0, 0, n); }
static void c_pointer(size_t n) {
    int r = 0;
    while (n--) r += luzhanem_get_file_pointer(&s, 0, 0);
    sum += (unsigned)r;
}

static void rattle_read(size_t n) { sum += loop_calls_seek_read(OF, buffer, 0, 0, 16, n); }
static void c_read(size_t n) {
    int r = 0;
    while (n--) {
        r += luzhanem_seek(&s, 0, 0, 0);
        r += luzhanem_read(&s, 0, 0, buffer, 16);
    }
    sum += (unsigned)r;
}

static void rattle_commit(size_t n) { sum += loop_calls_begin_commit(OF, 7, 0, 0, n); }
static void c_commit(size_t n) {
    int r = 0;
    while (n--) {
        r += luzhanem_begin(&s, 7);
        r += luzhanem_commit(&s, 7, 0);
    }
    sum += (unsigned)r;
}

static void rattle_write(size_t n) { sum += loop_calls_begin_write_commit(OF, buffer, 7, 0, 0, n); }
static void c_write(size_t n) {
    int r = 0;
    while (n--) {
        r += luzhanem_begin(&s, 7);
        r += luzhanem_seek(&s, 7, 0, 0);
        r += luzhanem_write(&s, 7, 0, buffer, 16);
        r += luzhanem_commit(&s, 7, 0);
    }
    sum += (unsigned)r;
}

/* A full file 0, and transactions open with so many write records each. */
static void prepare(size_t open, int records) {
    luzhanem_fresh(&s, sizeof s, NULL);
    luzhanem_begin(&s, 0);
    luzhanem_write(&s, 0, 0, buffer, sizeof buffer);
    luzhanem_commit(&s, 0, 0);
    for (size_t t = 0; t < open; t++) {
        luzhanem_begin(&s, t);
        for (int i = 0; i < records; i++) luzhanem_write(&s, t, 9, buffer, 16);
    }
}

/* Where the stack lies beside the block makes a difference (4 KB aliasing), so the sweeps try all of it. */
static void sweep(double *least, int depth, void (*calls)(size_t)) {
    volatile char deeper[64 * depth + 1];
    struct timespec a, b;
    double ns;
    deeper[0] = 0, sum += (uint64_t)deeper[0];
    clock_gettime(CLOCK_MONOTONIC, &a);
    calls(CALLS);
    clock_gettime(CLOCK_MONOTONIC, &b);
    ns = (1e9 * (double)(b.tv_sec - a.tv_sec) + (double)(b.tv_nsec - a.tv_nsec)) / CALLS;
    if (ns < *least) *least = ns;
}

/* Sweeps in turn. A row that others disturbed is swept again. */
static void row(const char *name, int open, int records, void (*rattle)(size_t), void (*c)(size_t)) {
    const int itself = rattle == rattle_commit || rattle == rattle_write; /* it opens the last one itself */
    double least[2] = { 1e9, 1e9 };
    prepare((size_t)(open - itself), records);
    for (int try = 0; try < TRIES && (try == 0 || least[1] > 1.1 * least[0]); try++)
        for (int i = 0; i < SWEEPS; i++) sweep(&least[0], i, rattle), sweep(&least[1], i, c);
    printf("%s\t%d\t%d\t%.1f\t%.1f\n", name, open, records, least[0], least[1]);
}

int main(void) {
    static const int rows[3][2] = { { 1, 0 }, { 8, 0 }, { 8, 8 } };
    for (int k = 0; k < 3; k++) {
        const int open = rows[k][0], records = rows[k][1];
        row("Seek", open, records, rattle_seek, c_seek);
        row("GetFilePointer", open, records, rattle_pointer, c_pointer);
        row("Seek, Read of 16", open, records, rattle_read, c_read);
        row("Begin, Commit", open, records, rattle_commit, c_commit);
        row("Begin, Seek, Write of 16, Commit", open, records, rattle_write, c_write);
    }
    return sum == 42;
}
