/* A library to preload, which leaves what a crash of the machine may leave. A write to a file below
 * $POWERLOSS_FROM is made as usual; the same file below $POWERLOSS_TO gets it when the file is synced, or at
 * once with a chance of one half. Who kills the process finds in the second folder what a disk may have.
 * Files are made, cut and removed in both folders at once. */
#include <dlfcn.h>
#include <fcntl.h>
#include <pthread.h>
#include <stdarg.h>
#include <stdbool.h>
#include <stdio.h>
#include <stdlib.h>
#include <string.h>
#include <sys/stat.h>
#include <unistd.h>

enum { HANDLES = 256, WRITES = 65536 };
static int shadow[HANDLES]; /* the handle of a handle's file in the second folder; 0: none */
static struct {
    int handle; /* one of the file that was written */
    off_t at;
    size_t n;
} pending[WRITES];
static int count;
static pthread_mutex_t lock = PTHREAD_MUTEX_INITIALIZER;
static unsigned seed;

/* The function of this name that the program would have called. */
#define REAL(type, name, parameters) \
    static type(*real) parameters;   \
    if (!real) *(void **)&real = dlsym(RTLD_NEXT, name)

static bool is_shadowed(const char *path, char to[1024]) {
    const char *from = getenv("POWERLOSS_FROM"), *at = getenv("POWERLOSS_TO");
    size_t n = from ? strlen(from) : 0;
    if (!from || !at || strncmp(path, from, n) != 0 || path[n] != '/' || strstr(path, "-shm")) return false;
    snprintf(to, 1024, "%s%s", at, path + n);
    return true;
}

static bool one_file(int a, int b) {
    struct stat x, y;
    return fstat(a, &x) == 0 && fstat(b, &y) == 0 && x.st_ino == y.st_ino && x.st_dev == y.st_dev;
}

static void copy_range(int from, int to, off_t at, size_t n) {
    char bytes[4096];
    REAL(ssize_t, "pwrite64", (int, const void *, size_t, off_t));
    while (n) {
        ssize_t got = pread(from, bytes, n < sizeof bytes ? n : sizeof bytes, at);
        if (got <= 0) return;
        if (real(to, bytes, (size_t)got, at) != got) abort();
        at += got, n -= (size_t)got;
    }
}

static int opened(int f, const char *path, int flags) {
    char to[1024];
    REAL(int, "open64", (const char *, int, ...));
    if (f < 0 || f >= HANDLES) return f;
    shadow[f] = 0;
    if ((flags & O_ACCMODE) != O_RDONLY && is_shadowed(path, to))
        shadow[f] = real(to, O_RDWR | O_CREAT, 0600);
    return f;
}

#define OPEN(name)                                           \
    int name(const char *path, int flags, ...) {             \
        REAL(int, #name, (const char *, int, ...));          \
        va_list a;                                           \
        va_start(a, flags);                                  \
        int mode = flags & O_CREAT ? va_arg(a, int) : 0;     \
        va_end(a);                                           \
        return opened(real(path, flags, mode), path, flags); \
    }
OPEN(open)
OPEN(open64)

/* What is pending for the file goes to another handle of it, or is lost. */
static void pass_on(int f) {
    for (int i = 0; i < count; i++) {
        if (pending[i].handle != f) continue;
        pending[i].handle = -1;
        for (int g = 0; g < HANDLES; g++)
            if (g != f && shadow[g] && one_file(f, g)) pending[i].handle = g;
    }
}

int close(int f) {
    REAL(int, "close", (int));
    if (f >= 0 && f < HANDLES && shadow[f]) {
        pthread_mutex_lock(&lock);
        pass_on(f);
        real(shadow[f]);
        shadow[f] = 0;
        pthread_mutex_unlock(&lock);
    }
    return real(f);
}

static ssize_t wrote(int f, ssize_t n, off_t at) {
    if (n <= 0 || f < 0 || f >= HANDLES || !shadow[f]) return n;
    pthread_mutex_lock(&lock);
    if (!seed) seed = (unsigned)getpid();
    if (rand_r(&seed) % 2) copy_range(f, shadow[f], at, (size_t)n);
    if (count == WRITES) abort();
    pending[count].handle = f, pending[count].at = at, pending[count].n = (size_t)n, count++;
    pthread_mutex_unlock(&lock);
    return n;
}

#define PWRITE(name)                                              \
    ssize_t name(int f, const void *bytes, size_t n, off_t at) {  \
        REAL(ssize_t, #name, (int, const void *, size_t, off_t)); \
        return wrote(f, real(f, bytes, n, at), at);               \
    }
PWRITE(pwrite)
PWRITE(pwrite64)

/* The file of the second folder gets all that is pending. No real sync: it would only take its time. */
static int synced(int f) {
    int left = 0;
    if (f < 0 || f >= HANDLES || !shadow[f]) return 0;
    pthread_mutex_lock(&lock);
    for (int i = 0; i < count; i++) {
        if (pending[i].handle >= 0 && one_file(pending[i].handle, f))
            copy_range(f, shadow[f], pending[i].at, pending[i].n);
        else if (pending[i].handle >= 0) pending[left++] = pending[i];
    }
    count = left;
    pthread_mutex_unlock(&lock);
    return 0;
}

int fsync(int f) { return synced(f); }
int fdatasync(int f) { return synced(f); }

#define TRUNCATE(name)                                              \
    int name(int f, off_t n) {                                      \
        REAL(int, #name, (int, off_t));                             \
        if (f >= 0 && f < HANDLES && shadow[f]) real(shadow[f], n); \
        return real(f, n);                                          \
    }
TRUNCATE(ftruncate)
TRUNCATE(ftruncate64)

int unlink(const char *path) {
    char to[1024];
    REAL(int, "unlink", (const char *));
    if (is_shadowed(path, to)) real(to);
    return real(path);
}
