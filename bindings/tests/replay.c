/* Replays traces and vectors through luzhanem.h; compiled as C++, through luzhanem.hpp.
 *     replay trace <TRACE        what the program `trace` prints
 *     replay vectors FILE..      lists of calls with their replies; the last line is 'N passed, M failed'
 */
#ifdef __cplusplus
#include "luzhanem.hpp"
#include <cstdio>
#include <cstdlib>
#include <cstring>
static luzhanem::store store;
#define S store.get()
#define DO(call, ...) store.call(__VA_ARGS__).code()
#define VIEW(p, n) std::string_view((const char *)(p), n)
#define FRESH(list) store.fresh(list).code()
#define DISPATCH(q, p, n, out, room, minute, ended) store.dispatch(*(q), VIEW(p, n), out, room, minute, ended).code()
#define BEST(list, n, minute, budget, o) store.best_order(list, n, minute, budget, *(o)).code()
#define UNDO store.undo().code()
#else
#include "luzhanem.h"
#include <stdio.h>
#include <stdlib.h>
#include <string.h>
static luzhanem_store store;
#define S (&store)
#define DO(call, ...) luzhanem_##call(&store, __VA_ARGS__)
#define VIEW(p, n) p, n
#define FRESH(list) luzhanem_fresh(&store, sizeof store, list)
#define DISPATCH(q, p, n, out, room, minute, ended) luzhanem_dispatch(&store, q, p, n, out, room, minute, ended)
#define BEST(list, n, minute, budget, o) luzhanem_best_order(&store, list, n, minute, budget, o)
#define UNDO luzhanem_undo(&store)
#endif

typedef struct { unsigned char *p; size_t n; } bytes;

/* A Read of n bytes into a buffer of `room`: refusal 7 is answered here, since the library reads as much as fits. */
static int read_into(size_t t, size_t d, size_t n, unsigned char *out, size_t room) {
    if (n > room) {
        if (d <= 15 && luzhanem_state(S, t) == 1) return LUZHANEM_E_READER_TOO_SHORT;
        n = 0;
    }
    return DO(read, t, d, out, n);
}

/* ---- traces */

static int number(const unsigned char **p, const unsigned char *end, size_t *n) {
    int digits = 0;
    for (*n = 0; *p < end && **p >= '0' && **p <= '9' && digits < 6; ++*p, ++digits) *n = 10 * *n + (**p - '0');
    return digits >= 1 && digits <= 5;
}
static int space(const unsigned char **p, const unsigned char *end) { return *p < end && *(*p)++ == ' '; }

static void line(const unsigned char *p, size_t length) {
    const unsigned char *end = p + length;
    unsigned char out[4096];
    size_t t, d = 0, n = 0;
    int r = -17, kind = length >= 2 && length <= 128 ? p[0] : 0;
    if (kind && p[1] >= '0' && p[1] <= '9') {
        t = p[1] - '0';
        p += 2;
        int more = p < end;
        int one = more && space(&p, end) && number(&p, end, &d);
        if (kind == 'B' && !more) r = DO(begin, t);
        if (kind == 'C' && !more) r = DO(commit, t, 0);
        if (kind == 'A' && !more) r = DO(abort, t);
        if (kind == 'P' && one && p == end) r = DO(get_file_pointer, t, d);
        if (kind == 'W' && one && space(&p, end)) r = DO(write, t, d, VIEW(p, (size_t)(end - p)));
        if ((kind == 'S' || kind == 'R') && one && space(&p, end) && number(&p, end, &n) && p == end)
            r = kind == 'S' ? DO(seek, t, d, n) : read_into(t, d, n, out, sizeof out);
    }
    if (r < 0) {
        printf("%d\n", -r);
        return;
    }
    printf("ok");
    if (kind == 'P' || kind == 'C') printf(" %d", r);
    if (kind == 'R' && r) putchar(' ');
    for (int i = 0; kind == 'R' && i < r; i++) printf("%02x", out[i]);
    printf("\n");
}

static int trace(void) {
    unsigned char b[130];
    size_t n = 0;
    int c;
    FRESH(NULL);
    while ((c = getchar()) != EOF) {
        if (c == '\n') {
            line(b, n);
            n = 0;
        } else if (n < sizeof b)
            b[n++] = (unsigned char)c;
    }
    if (n) line(b, n);
    return 0;
}

/* ---- vectors */

static bytes octets(const char *text) {
    bytes b = { (unsigned char *)calloc(1, 65536), 0 };
    while (*text && *text != '-') {
        size_t start = b.n;
        while (*text && *text != '*' && *text != '.') {
            unsigned x;
            sscanf(text, "%2x", &x);
            b.p[b.n++] = (unsigned char)x;
            text += 2;
        }
        if (*text == '*') {
            size_t times = strtoul(text + 1, (char **)&text, 10), piece = b.n - start;
            if (!times) b.n = start;
            for (size_t i = 1; i < times; i++, b.n += piece) memcpy(b.p + b.n, b.p + start, piece);
        }
        if (*text == '.') text++;
    }
    return b;
}
static int same_bytes(const char *text, const unsigned char *p, size_t n) {
    bytes b = octets(text);
    int same = b.n == n && !memcmp(b.p, p, n);
    free(b.p);
    return same;
}
static size_t num(const char *w) { return strtoul(w, NULL, 10); }

static void scripts_of(char *text, luzhanem_scripts *q) {
    memset(q, 0, sizeof *q);
    if (!strcmp(text, "none")) return;
    char *rest;
    for (char *script = strtok_r(text, "|", &rest); script; script = strtok_r(NULL, "|", &rest)) {
        size_t k = q->count++, i = 0;
        if (k > 7) continue;
        char *more;
        char *call = strcmp(script, "-") ? strtok_r(script, ",", &more) : NULL;
        for (; call; call = strtok_r(NULL, ",", &more), i++) {
            if (i > 15) continue;
            luzhanem_script_call *c = &q->calls[k][i];
            size_t a[3] = { 0, 0, 0 };
            char *colon = strchr(call, ':');
            sscanf(colon, ":%zu:%zu:%zu", &a[0], &a[1], &a[2]);
            c->descriptor = a[0];
            c->kind = call[0] == 's' ? 0 : call[0] == 'w' ? 1 : call[0] == 'p' ? 2 : 3;
            c->at = c->kind < 2 ? a[1] : 0;
            c->count = c->kind == 1 ? a[2] : c->kind == 3 ? a[1] : 0;
        }
        q->counts[k] = i;
    }
}

static char *words[64];
static int split(char *text) {
    int n = 0;
    char *rest;
    for (char *w = strtok_r(text, " \n", &rest); w && n < 64; w = strtok_r(NULL, " \n", &rest)) words[n++] = w;
    return n;
}

/* The reply says the same as the answer r and the buffer. */
static int says(char *reply, const char *word, int r, const unsigned char *p, size_t n) {
    int w = split(reply);
    if (r < 0) return w == 2 && !strcmp(words[0], "refused") && (int)num(words[1]) == -r;
    if (strcmp(words[0], word)) return 0;
    if (w >= 2 && (int)num(words[1]) != r) return 0;
    return !p || (w == 3 && same_bytes(words[2], p, n));
}

/* Calls whose arguments are numbers: the answer, and the word of its reply; NULL if it is another call. */
static const char *simple_call(char **w, int n, int *r) {
    const char *k = w[0];
    const size_t a = n > 1 ? num(w[1]) : 0, b = n > 2 ? num(w[2]) : 0, c = n > 3 ? num(w[3]) : 0;
    unsigned char list[16];
    if (!strcmp(k, "begin")) return *r = DO(begin, a), "done";
    if (!strcmp(k, "abort")) return *r = DO(abort, a), "done";
    if (!strcmp(k, "seek")) return *r = DO(seek, a, b, c), "done";
    if (!strcmp(k, "pointer")) return *r = DO(get_file_pointer, a, b), "offset";
    if (!strcmp(k, "commit")) return *r = DO(commit, a, b), "granted";
    if (!strcmp(k, "window")) return *r = DO(set_window, a, b, c), "done";
    if (!strcmp(k, "undo")) return *r = UNDO, "done";
    if (strcmp(k, "fresh")) return NULL;
    for (int i = 0; i < 16 && i + 1 < n; i++) list[i] = (unsigned char)num(w[i + 1]);
    memset(S, 0, sizeof *S);
    return *r = FRESH(list), "done";
}

static int write_call(char **w, char *reply) {
    bytes b = octets(w[3]);
    const int ok = says(reply, "done", DO(write, num(w[1]), num(w[2]), VIEW(b.p, b.n)), NULL, 0);
    free(b.p);
    return ok;
}

static int read_call(char **w, char *reply) {
    bytes b = octets(w[4]);
    const int r = read_into(num(w[1]), num(w[2]), num(w[3]), b.p, b.n), ok = says(reply, "given", r, b.p, b.n);
    free(b.p);
    return ok;
}

static int places_call(char **w, char *reply) {
    bytes b = octets(w[3]);
    luzhanem_place at[64];
    const int r = DO(places, num(w[1]), num(w[2]), at, b.n / 4);
    int ok;
    for (int i = 0; i < r; i++) {
        b.p[4 * i] = (unsigned char)(at[i].offset >> 8), b.p[4 * i + 1] = (unsigned char)at[i].offset;
        b.p[4 * i + 2] = (unsigned char)(at[i].length >> 8), b.p[4 * i + 3] = (unsigned char)at[i].length;
    }
    ok = says(reply, "pairs", r, b.p, b.n);
    free(b.p);
    return ok;
}

static int dispatch_call(char **w, char *reply) {
    luzhanem_scripts q;
    int ended[8], ok, n, r;
    char results[64] = "";
    bytes data = octets(w[2]), reader = octets(w[3]);
    scripts_of(w[1], &q);
    r = DISPATCH(&q, data.p, data.n, reader.p, reader.n, num(w[4]), ended);
    for (size_t i = 0; r >= 0 && i < q.count; i++) sprintf(results + strlen(results), i ? ",%d" : "%d", -ended[i]);
    n = split(reply);
    if (r < 0) ok = n == 2 && (int)num(words[1]) == -r;
    else
        ok = n == 6 && !strcmp(words[1], *results ? results : "-") && (int)num(words[3]) == r &&
             same_bytes(words[5], reader.p, reader.n);
    free(data.p), free(reader.p);
    return ok;
}

static int best_call(char **w, char *reply) {
    unsigned char list[64];
    size_t length = 0;
    char have[64] = "", *rest;
    luzhanem_order o;
    int n, r;
    for (char *x = strcmp(w[1], "-") ? strtok_r(w[1], ",", &rest) : NULL; x; x = strtok_r(NULL, ",", &rest))
        list[length++] = (unsigned char)(num(x) < 255 ? num(x) : 255);
    r = BEST(list, length, num(w[2]), num(w[3]), &o);
    for (size_t i = 0; r >= 0 && i < length; i++) sprintf(have + strlen(have), i ? ",%d" : "%d", o.order[i]);
    n = split(reply);
    if (r < 0) return n == 2 && (int)num(words[1]) == -r;
    return n == 8 && !strcmp(words[1], have) && (int)num(words[3]) == r && num(words[5]) == o.gap && num(words[7]) == o.tried;
}

/* Makes a call; 1 if it gets its reply. */
static int call(char *text, char *reply) {
    char *w[20];
    const int n = split(text);
    int r = 0;
    const char *word;
    memcpy(w, words, sizeof w);
    word = simple_call(w, n, &r);
    if (word) return says(reply, word, r, NULL, 0);
    if (!strcmp(w[0], "write")) return write_call(w, reply);
    if (!strcmp(w[0], "read")) return read_call(w, reply);
    if (!strcmp(w[0], "places")) return places_call(w, reply);
    if (!strcmp(w[0], "dispatch")) return dispatch_call(w, reply);
    return !strcmp(w[0], "best") && best_call(w, reply);
}

/* What a list leaves: offsets, lengths, files, old bytes. */
static int left(char *text) {
    int n = split(text);
    if (!strcmp(words[0], "offsets")) {
        for (int d = 0; d < 16; d++) if (luzhanem_offset(S, (size_t)d) != (int)num(words[d + 1])) return 0;
        return n == 17;
    }
    if (!strcmp(words[0], "lengths")) {
        for (int f = 0; f < 8; f++) if (luzhanem_length(S, (size_t)f) != (int)num(words[f + 1])) return 0;
        return n == 9;
    }
    const unsigned char *p = !strcmp(words[0], "files") ? luzhanem_file(S, 0) : S->undo_;
    for (int i = 1; i < n; i++) {
        bytes b = octets(words[i]);
        int same = !memcmp(p, b.p, b.n);
        p += b.n;
        free(b.p);
        if (!same) return 0;
    }
    return 1;
}

int main(int argc, char **argv) {
    static char text[1 << 17], shown[200];
    int passed = 0, failed = 0;
    if (argc < 2) return 2;
    if (!strcmp(argv[1], "trace")) return trace();
    for (int i = 2; i < argc; i++) {
        FILE *f = fopen(argv[i], "r");
        if (!f) return 2;
        for (int number = 1; fgets(text, sizeof text, f); number++) {
            if (text[0] == '\n') continue;
            memcpy(shown, text, sizeof shown - 1);
            char *arrow = strstr(text, " -> ");
            if (arrow) *arrow = 0;
            if (text[0] == ' ' ? left(text) : call(text, arrow + 4)) passed++;
            else failed++, printf("%s:%d: %s\n", argv[i], number, shown);
        }
        fclose(f);
    }
    printf("%d passed, %d failed\n", passed, failed);
    return failed != 0 || passed == 0;
}
