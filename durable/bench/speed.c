/* speed URL THREADS SECONDS [normal|off]: durable commits per second, each of one append of 16 bytes. Prints
 * commits and saves per second, the median time for which a save holds the lock, in ns, and the bytes that
 * the process wrote for a save. speed image: how long luzhanem_save takes, with eight transactions open, in
 * the caches and out of them. */
#include "luzhanem_durable.h"
#include <pthread.h>
#include <stdatomic.h>
#include <stdbool.h>
#include <stdio.h>
#include <stdlib.h>
#include <string.h>
#include <time.h>

enum { SAMPLES = 1 << 18 };
static luzhanem_store s;
static pthread_mutex_t lock = PTHREAD_MUTEX_INITIALIZER;
static luzhanem_durable *d;
static atomic_bool stop;
static long long began_at, held[SAMPLES], saves; /* under the lock */

static long long now(void) {
    struct timespec t;
    clock_gettime(CLOCK_MONOTONIC, &t);
    return t.tv_sec * 1000000000LL + t.tv_nsec;
}

static void take_lock(void *c) {
    (void)c;
    pthread_mutex_lock(&lock);
    began_at = now();
}

static void give_lock(void *c) {
    (void)c;
    held[saves++ % SAMPLES] = now() - began_at;
    pthread_mutex_unlock(&lock);
}

static void must(int r) {
    if (r < 0)
        fprintf(stderr, "%d %s\n", r, r < -100 ? luzhanem_durable_error() : luzhanem_strerror(r)), exit(1);
}

static void *task(void *at) {
    size_t t = (size_t)at;
    long n = 0;
    char line[48];
    for (; !stop; n++) {
        snprintf(line, sizeof line, "%zu %013ld\n", t, n);
        pthread_mutex_lock(&lock);
        must(luzhanem_begin(&s, t));
        if (luzhanem_offset(&s, t) > LUZHANEM_FILE_BYTES - 16) must(luzhanem_seek(&s, t, t, 0));
        must(luzhanem_write(&s, t, t, line, 16));
        must(luzhanem_commit(&s, t, 0));
        pthread_mutex_unlock(&lock);
        must(luzhanem_durable_sync(d));
    }
    return (void *)n;
}

static int ascending(const void *a, const void *b) {
    long long x = *(const long long *)a, y = *(const long long *)b;
    return (x > y) - (x < y);
}

static long long median(long long *ns, size_t n) {
    qsort(ns, n, sizeof *ns, ascending);
    return n ? ns[n / 2] : 0;
}

/* What the process has written so far, in bytes, as write calls. */
static long long written(void) {
    char line[100];
    long long n = 0;
    FILE *f = fopen("/proc/self/io", "r");
    while (f && fgets(line, sizeof line, f)) sscanf(line, "wchar: %lld", &n);
    if (f) fclose(f);
    return n;
}

static void time_image(void) {
    static uint8_t cold[1 << 23];
    static luzhanem_image image;
    static long long warm[1000], out[1000];
    must(luzhanem_fresh(&s, sizeof s, NULL));
    for (size_t t = 0; t < 8; t++) {
        must(luzhanem_begin(&s, t));
        for (int i = 0; i < 8; i++) must(luzhanem_write(&s, t, t, "0123456789abcdef", 16));
    }
    for (int i = 0; i < 2000; i++) {
        if (i >= 1000) memset(cold, i, sizeof cold);
        long long a = now();
        must(luzhanem_save(&s, &image));
        *(i < 1000 ? &warm[i] : &out[i - 1000]) = now() - a;
    }
    printf("luzhanem_save: %lld ns, %lld ns out of the caches\n", median(warm, 1000), median(out, 1000));
}

int main(int n, char **v) {
    if (n == 2 && strcmp(v[1], "image") == 0) return time_image(), 0;
    if (n < 4) return fprintf(stderr, "speed URL THREADS SECONDS [normal|off]\n"), 2;
    luzhanem_durable_lock l = { take_lock, give_lock, NULL };
    int how = LUZHANEM_DURABLE_CREATE | (n < 5                      ? 0
                                         : strcmp(v[4], "off") == 0 ? LUZHANEM_DURABLE_OFF
                                                                    : LUZHANEM_DURABLE_NORMAL);
    pthread_t threads[8];
    size_t count = (size_t)atoi(v[2]);
    long all = 0;
    must(luzhanem_fresh(&s, sizeof s, NULL));
    must(luzhanem_durable_open(&d, v[1], "speed", how, &s, &l));
    long long began = now(), before = written();
    for (size_t t = 0; t < count; t++) pthread_create(&threads[t], NULL, task, (void *)t);
    struct timespec pause = { atoi(v[3]), 0 };
    nanosleep(&pause, NULL);
    stop = true;
    for (size_t t = 0; t < count; t++) {
        void *got;
        pthread_join(threads[t], &got);
        all += (long)got;
    }
    double seconds = (double)(now() - began) / 1e9;
    printf("%.0f commits/s, %.0f saves/s, lock %lld ns, %lld bytes a save\n", (double)all / seconds,
           (double)saves / seconds, median(held, (size_t)(saves < SAMPLES ? saves : SAMPLES)),
           saves ? (written() - before) / saves : 0);
    luzhanem_durable_close(d);
    return 0;
}
