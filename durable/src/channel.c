/* luzhanem-channel: looks at the channels of a database, checks and copies them. It changes nothing but the
 * target of a copy. */
#include "luzhanem_durable.h"
#include <inttypes.h>
#include <stdbool.h>
#include <stdio.h>
#include <stdlib.h>
#include <string.h>

static const char help[] =
    "luzhanem-channel: the channels of a database, \"sqlite:PATH\" or \"postgresql://..\"\n"
    "\n"
    "    list URL                    each channel: its name, and how many saves and takeovers it had\n"
    "    check URL [CHANNEL]         reads and judges every channel, or one\n"
    "    show URL CHANNEL            lengths of the files; file and offset of the descriptors\n"
    "    show URL CHANNEL FILE       the bytes of a file, 0 to 7\n"
    "    copy [--replace] FROM TO [CHANNEL]\n"
    "                                copies every channel, or one, to another database. One that is there\n"
    "                                already is refused; with --replace it is taken over, which fences its\n"
    "                                host, and overwritten\n"
    "    --help, --version\n"
    "\n"
    "A channel may be in use: what is read is its last save. Exit status: 0 good, 1 a channel or a\n"
    "database is not, 2 wrong arguments.\n";

enum { GOOD = 0, BAD = 1, USAGE = 2 };

static luzhanem_store store;

static int wrong(const char *what, const char *word) {
    fprintf(stderr, "luzhanem-channel: %s%s%s\n", what, word ? ": " : "", word ? word : "");
    fprintf(stderr, "luzhanem-channel --help says more\n");
    return USAGE;
}

/* Tells an answer and its words, of a channel or of the whole database. */
static int failed(const char *channel, int answer, const char *words) {
    fprintf(stderr, "luzhanem-channel: %s%s%s: %s\n", channel ? channel : "", channel ? ": " : "",
            luzhanem_durable_errname(answer), words);
    return BAD;
}

/* Reads a channel to the store. What looks at a store does not check it; luzhanem_check does. */
static int read_channel(const char *url, const char *channel, int64_t *generation) {
    int r = luzhanem_durable_load(url, channel, &store, generation);
    if (r < 0) return failed(channel, r, luzhanem_durable_error());
    r = luzhanem_check(&store);
    return r < 0 ? failed(channel, r, luzhanem_strerror(r)) : GOOD;
}

/* ---- the names of all channels */

struct names {
    char **name;
    int64_t *generation;
    size_t count;
};

static void *grown(void *list, size_t n) {
    void *more = realloc(list, n);
    if (more) return more;
    fprintf(stderr, "luzhanem-channel: no memory\n");
    exit(BAD);
}

static void add(void *at, const char *channel, int64_t generation) {
    struct names *n = at;
    n->name = grown(n->name, (n->count + 1) * sizeof *n->name);
    n->generation = grown(n->generation, (n->count + 1) * sizeof *n->generation);
    n->name[n->count] = strcpy(grown(NULL, strlen(channel) + 1), channel);
    n->generation[n->count++] = generation;
}

/* The one named, or all of the database. */
static int find(const char *url, const char *channel, struct names *n) {
    if (channel) return add(n, channel, 0), GOOD;
    int r = luzhanem_durable_list(url, add, n);
    return r < 0 ? failed(NULL, r, luzhanem_durable_error()) : GOOD;
}

static void forget(struct names *n) {
    for (size_t i = 0; i < n->count; i++) free(n->name[i]);
    free(n->name);
    free(n->generation);
}

/* ---- commands */

static int list(const char *url) {
    struct names n = { 0 };
    int status = find(url, NULL, &n);
    for (size_t i = 0; i < n.count; i++) printf("%s\t%" PRId64 "\n", n.name[i], n.generation[i]);
    forget(&n);
    return status;
}

static int check(const char *url, const char *channel) {
    struct names n = { 0 };
    int status = find(url, channel, &n);
    for (size_t i = 0; i < n.count; i++) {
        int64_t generation = 0;
        if (read_channel(url, n.name[i], &generation) != GOOD) status = BAD;
        else printf("%s\tgood\t%" PRId64 "\n", n.name[i], generation);
    }
    forget(&n);
    return status;
}

static int show(const char *url, const char *channel, const char *file) {
    int64_t generation = 0;
    if (file && (strlen(file) != 1 || file[0] < '0' || file[0] > '7'))
        return wrong("a file is a digit from 0 to 7", file);
    if (read_channel(url, channel, &generation) != GOOD) return BAD;
    if (file) {
        size_t f = (size_t)(file[0] - '0');
        fwrite(luzhanem_file(&store, f), 1, (size_t)luzhanem_length(&store, f), stdout);
        return GOOD;
    }
    printf("generation %" PRId64 "\n", generation);
    for (size_t f = 0; f < LUZHANEM_FILES; f++) printf("file %zu: %d bytes\n", f, luzhanem_length(&store, f));
    for (size_t d = 0; d < LUZHANEM_DESCRIPTORS; d++)
        printf("descriptor %zu: file %d, offset %d\n", d, luzhanem_file_of(&store, d),
               luzhanem_offset(&store, d));
    return GOOD;
}

/* A channel that is new is made from the store, in one transaction. For one that was there open gives what it
 * had: the image goes over it, and is saved. */
static int copy_one(const char *from, const char *to, const char *channel, bool replace) {
    static luzhanem_image image;
    static luzhanem_store there;
    luzhanem_durable *d;
    if (read_channel(from, channel, NULL) != GOOD) return BAD;
    int other = replace ? LUZHANEM_DURABLE_E_NO_CHANNEL : luzhanem_durable_load(to, channel, &there, NULL);
    /* UNREACHABLE: there is no file or no table yet, or open fails too */
    if (other != LUZHANEM_DURABLE_E_NO_CHANNEL && other != LUZHANEM_DURABLE_E_UNREACHABLE) {
        fprintf(stderr, "luzhanem-channel: %s: is there already in %s; --replace overwrites it\n", channel,
                to);
        return BAD;
    }
    int r = luzhanem_save(&store, &image);
    if (r < 0) return failed(channel, r, luzhanem_strerror(r));
    r = luzhanem_durable_open(&d, to, channel, LUZHANEM_DURABLE_CREATE, &store, NULL);
    if (r < 0) return failed(channel, r, luzhanem_durable_error());
    r = luzhanem_load(&store, &image);
    if (r >= 0) r = luzhanem_durable_sync(d);
    luzhanem_durable_close(d);
    if (r < 0) return failed(channel, r, luzhanem_durable_error());
    printf("%s\tcopied\n", channel);
    return GOOD;
}

static int copy(const char *from, const char *to, const char *channel, bool replace) {
    struct names n = { 0 };
    if (strcmp(from, to) == 0) return wrong("FROM and TO are the same", from);
    int status = find(from, channel, &n);
    for (size_t i = 0; i < n.count; i++)
        if (copy_one(from, to, n.name[i], replace) != GOOD) status = BAD;
    forget(&n);
    return status;
}

static int command(int n, char **v) {
    const char *what = n > 1 ? v[1] : "";
    bool replace = strcmp(what, "copy") == 0 && n > 2 && strcmp(v[2], "--replace") == 0;
    if (replace) n--, v++;
    for (int i = 2; i < n; i++)
        if (v[i][0] == '-') return wrong("there is no such option here", v[i]);
    if (n == 2 && (strcmp(what, "--help") == 0 || strcmp(what, "-h") == 0)) return fputs(help, stdout), GOOD;
    if (n == 2 && strcmp(what, "--version") == 0)
        return printf("luzhanem-channel %s\n", luzhanem_version()), GOOD;
    const char *third = n > 3 ? v[3] : NULL, *fourth = n > 4 ? v[4] : NULL;
    if (strcmp(what, "list") == 0) return n == 3 ? list(v[2]) : wrong("list wants a URL", NULL);
    if (strcmp(what, "check") == 0)
        return n == 3 || n == 4 ? check(v[2], third) : wrong("check wants a URL, and maybe a channel", NULL);
    if (strcmp(what, "show") == 0)
        return n == 4 || n == 5 ? show(v[2], third, fourth)
                                : wrong("show wants a URL, a channel, and maybe a file", NULL);
    if (strcmp(what, "copy") == 0)
        return n == 4 || n == 5 ? copy(v[2], third, fourth, replace)
                                : wrong("copy wants two URLs, and maybe a channel", NULL);
    return n == 1 ? wrong("a command is wanted", NULL) : wrong("there is no such command", what);
}

int main(int n, char **v) {
    int status = command(n, v);
    if (fflush(stdout) != 0 || ferror(stdout)) {
        perror("luzhanem-channel: standard output");
        return BAD;
    }
    return status;
}
