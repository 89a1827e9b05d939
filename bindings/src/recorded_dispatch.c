/* The dispatcher call by call, for a log, which has lines for calls alone. docs/RULES.md gives the rounds. It is not
 * proved; tests/recording.c holds it to luzhanem_dispatch, which is. */
#include "parts.h"

/* What the calls of all scripts share. */
typedef struct run {
    luzhanem_store *s;
    const luzhanem_scripts *scripts;
    const u8 *data;
    u8 *reader;
    size_t reader_bytes;
    luzhanem_recorder *recorder;
} run;

static void put(const run *p, size_t n) { p->recorder->put(p->recorder->context, p->recorder->line_, n); }

#define LINE(p) ((u8 *)(p)->recorder->line_)

static int done(const run *p, int answer) {
    put(p, luzhanem_parts_line_done(LINE(p), (u16)answer));
    return answer;
}

static int number(const run *p, int answer) {
    put(p, luzhanem_parts_line_number(LINE(p), (u16)answer));
    return answer;
}

static int begin(const run *p, size_t t) {
    put(p, luzhanem_parts_line_begin(LINE(p), t));
    return done(p, luzhanem_parts_begin(OF(p->s), t));
}

static int abort_script(const run *p, size_t t) {
    put(p, luzhanem_parts_line_abort(LINE(p), t));
    return done(p, luzhanem_parts_abort(OF(p->s), t));
}

static int commit(const run *p, size_t t, size_t minute) {
    put(p, luzhanem_parts_line_commit(LINE(p), t, minute));
    return number(p, luzhanem_parts_commit(OF(p->s), t, minute));
}

static int read_bytes(const run *p, size_t t, size_t d, size_t n) {
    int r;
    put(p, luzhanem_parts_line_read(LINE(p), t, d, n, p->reader_bytes));
    r = luzhanem_parts_read(OF(p->s), t, d, n, p->reader, p->reader_bytes);
    put(p, luzhanem_parts_line_given(LINE(p), (u16)r, p->reader, p->reader_bytes));
    return r;
}

/* Call i of script t. */
static int make(const run *p, size_t t, size_t i) {
    const luzhanem_script_call c = p->scripts->calls[t][i];
    switch (c.kind) {
    case LUZHANEM_SEEK:
        put(p, luzhanem_parts_line_seek(LINE(p), t, c.descriptor, c.at));
        return done(p, luzhanem_parts_seek(p->s->record_, t, c.descriptor, c.at, BUFFERS(p->s)));
    case LUZHANEM_WRITE:
        put(p, luzhanem_parts_line_write(LINE(p), t, c.descriptor, p->data + c.at, c.count));
        return done(p, luzhanem_parts_write(OF(p->s), t, c.descriptor, p->data + c.at, c.count));
    case LUZHANEM_GET_FILE_POINTER:
        put(p, luzhanem_parts_line_get_file_pointer(LINE(p), t, c.descriptor));
        return number(p, luzhanem_parts_get_file_pointer(p->s->record_, t, c.descriptor, BUFFERS(p->s)));
    default:
        return read_bytes(p, t, c.descriptor, c.count);
    }
}

/* A known kind, and a write's bytes inside the data. */
static int in_range(const luzhanem_script_call *c, size_t data_bytes) {
    if (c->kind != LUZHANEM_WRITE) return c->kind <= LUZHANEM_READ;
    return c->at <= data_bytes && c->count <= data_bytes - c->at;
}

/* RECORD_RANGE (2), NOT_AT_REST (19), SCRIPT_RANGE (20), tested in this order. */
static int admit(const luzhanem_store *s, const luzhanem_scripts *scripts, size_t data_bytes) {
    int r = luzhanem_parts_check(OF(s));
    if (r < 0) return r;
    for (size_t t = 0; t < LUZHANEM_TRANSACTIONS; t++)
        if (luzhanem_parts_state(s->record_, t) != 0) return LUZHANEM_E_NOT_AT_REST;
    if (scripts->count > LUZHANEM_SCRIPTS) return LUZHANEM_E_SCRIPT_RANGE;
    for (size_t t = 0; t < scripts->count; t++) {
        if (scripts->counts[t] > LUZHANEM_SCRIPT_CALLS) return LUZHANEM_E_SCRIPT_RANGE;
        for (size_t i = 0; i < scripts->counts[t]; i++)
            if (!in_range(&scripts->calls[t][i], data_bytes)) return LUZHANEM_E_SCRIPT_RANGE;
    }
    return 0;
}

enum status { OVER, RUNS };

/* A script whose call is refused has failed, and is aborted. */
static void settle(const run *p, size_t t, int r, enum status *status, int *end) {
    if (r >= 0) return;
    *end = r;
    *status = OVER;
    abort_script(p, t);
}

/* One round: begins every script that is not over, gives each one call in turn, and commits them. Answers the
 * number of commits made. */
static int round_of(const run *p, size_t minute, enum status status[LUZHANEM_SCRIPTS], int ends[LUZHANEM_SCRIPTS]) {
    const size_t count = p->scripts->count;
    int commits = 0;
    for (size_t t = 0; t < count; t++)
        if (status[t] == RUNS) begin(p, t);
    for (size_t i = 0; i < LUZHANEM_SCRIPT_CALLS; i++)
        for (size_t t = 0; t < count; t++)
            if (status[t] == RUNS && i < p->scripts->counts[t]) settle(p, t, make(p, t, i), &status[t], &ends[t]);
    for (size_t t = 0; t < count; t++) {
        int r;
        if (status[t] == OVER) continue;
        commits++;
        r = commit(p, t, minute);
        if (r >= 0) status[t] = OVER;
        else if (r != LUZHANEM_E_STALE) settle(p, t, r, &status[t], &ends[t]);
    }
    return commits;
}

int luzhanem_dispatch_recorded(luzhanem_store *s, const luzhanem_scripts *scripts, const void *data,
                               size_t data_bytes, void *reader, size_t reader_bytes, size_t minute,
                               int ended[LUZHANEM_SCRIPTS], luzhanem_recorder *recorder) {
    enum status status[LUZHANEM_SCRIPTS];
    int ends[LUZHANEM_SCRIPTS] = { 0 }, commits = 0, made, r;
    WANTED(s && scripts && recorder && recorder->put);
    BYTES(data, data_bytes);
    BYTES(reader, reader_bytes);
    r = admit(s, scripts, data_bytes);
    if (r < 0) return r;
    const run p = { s, scripts, data, reader, reader_bytes, recorder };
    for (size_t t = 0; t < LUZHANEM_SCRIPTS; t++) status[t] = t < scripts->count ? RUNS : OVER;
    do commits += made = round_of(&p, minute, status, ends);
    while (made > 0);
    for (int k = 0; ended && k < LUZHANEM_SCRIPTS; k++) ended[k] = ends[k];
    return commits;
}
