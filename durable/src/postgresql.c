/* PostgreSQL, by libpq. */
#include "engine.h"
#include "luzhanem_durable.h"
#include <inttypes.h>
#include <libpq-fe.h>
#include <poll.h>
#include <stdbool.h>
#include <stdio.h>
#include <stdlib.h>
#include <string.h>
#include <time.h>

enum {
    LIMIT = 5000
}; /* milliseconds that a statement may take: a server that is stopped must not stop the host */

struct postgresql {
    PGconn *db;
    bool prepared[STATEMENT_COUNT];
    char warning[WHY]; /* of the statement that runs, which then has failed */
    uint8_t *arrays;   /* room for those of a save */
};

/* A save is one statement, so it is one transaction and one round trip. The parts go as three arrays. A save
 * that the host has given up may still run in the server: once a later one has ended it finds another
 * generation, and changes nothing. */
static const char save_sql[] =
    "WITH held AS (UPDATE luzhanem_channel SET generation = generation + 1 "
    "WHERE name = $1 AND holder = $2 AND generation = $3 RETURNING name), "
    "put AS (INSERT INTO luzhanem_part (channel, part, bytes, checksum) "
    "SELECT held.name, v.part, v.bytes, v.checksum "
    "FROM held, unnest($4::int4[], $5::bytea[], $6::int8[]) AS v (part, bytes, checksum) "
    "ON CONFLICT (channel, part) DO UPDATE SET bytes = excluded.bytes, checksum = excluded.checksum) "
    "SELECT 0, name, 0 FROM held";

/* The parts stay in their rows, compressed where the server can, with room beside them for the next version:
 * a save then writes few bytes and leaves the index as it is. */
static const char make_parts_sql[] =
    "DO $$ BEGIN IF to_regclass('luzhanem_part') IS NULL THEN "
    "CREATE TABLE luzhanem_part (channel TEXT NOT NULL, part INTEGER NOT NULL, bytes BYTEA NOT NULL, "
    "checksum BIGINT NOT NULL, PRIMARY KEY (channel, part)) WITH (fillfactor = 50); "
    "ALTER TABLE luzhanem_part ALTER bytes SET STORAGE MAIN; "
    "BEGIN ALTER TABLE luzhanem_part ALTER bytes SET COMPRESSION lz4; EXCEPTION WHEN OTHERS THEN NULL; END; "
    "END IF; END $$";

static const char *sql_of(enum statement what) {
    switch (what) {
    case MAKE_PARTS: return make_parts_sql;
    case BEGIN_MAKE:
    case BEGIN_WRITE: return "BEGIN ISOLATION LEVEL READ COMMITTED READ WRITE";
    case BEGIN_READ: return "BEGIN ISOLATION LEVEL REPEATABLE READ READ ONLY";
    case LOCK_MAKING: return "SELECT pg_advisory_xact_lock(1819634280, 1)";
    case HOLD:
    case REPLACE: return save_sql;
    default: return luzhanem_sql_[what];
    }
}

/* A COMMIT that was not allowed to wait for its standby succeeds, with a warning. No warning is a success
 * here. */
static void note_warning(void *at, const PGresult *r) {
    struct postgresql *q = at;
    const char *kind = PQresultErrorField(r, PG_DIAG_SEVERITY_NONLOCALIZED);
    if (kind && strcmp(kind, "WARNING") == 0) snprintf(q->warning, WHY, "%s", PQresultErrorMessage(r));
}

static int disconnect(void *at) {
    struct postgresql *q = at;
    PQfinish(q->db);
    free(q->arrays);
    free(q);
    return 0;
}

static long long now(void) {
    struct timespec t;
    clock_gettime(CLOCK_MONOTONIC, &t);
    return t.tv_sec * 1000LL + t.tv_nsec / 1000000;
}

/* The next result, or NULL: none follows, or none came in time, with a warning. */
static PGresult *next(struct postgresql *q) {
    long long end = now() + LIMIT;
    while (PQisBusy(q->db)) {
        struct pollfd p = { PQsocket(q->db), POLLIN, 0 };
        long long left = end - now();
        if (left <= 0 || poll(&p, 1, (int)left) == 0)
            return snprintf(q->warning, WHY, "the server did not answer in %d ms", LIMIT), NULL;
        if (!PQconsumeInput(q->db)) break;
    }
    return PQgetResult(q->db);
}

/* A number of 4 or 8 bytes, the highest first. */
static int64_t number(const PGresult *r, int row, int column) {
    const unsigned char *p = (const unsigned char *)PQgetvalue(r, row, column);
    int n = PQgetlength(r, row, column);
    uint64_t v = n > 0 && p[0] & 0x80 ? UINT64_MAX : 0;
    for (int i = 0; i < n; i++) v = v << 8 | p[i];
    return (int64_t)v;
}

/* How many rows a result changed or gave, or -1. */
static int judge(enum statement what, const PGresult *r, row_function *row, void *context) {
    if (PQresultStatus(r) == PGRES_TUPLES_OK) {
        int rows = PQntuples(r);
        for (int i = 0; row && i < rows; i++)
            row(context, number(r, i, 0), PQgetvalue(r, i, 1), (size_t)PQgetlength(r, i, 1), number(r, i, 2));
        return rows;
    }
    if (PQresultStatus(r) != PGRES_COMMAND_OK) return -1;
    if (what == COMMIT && strcmp(PQcmdStatus((PGresult *)r), "COMMIT") != 0)
        return -1;                           /* ROLLBACK: of what had failed */
    return atoi(PQcmdTuples((PGresult *)r)); /* "" where no rows are counted */
}

/* Waits for all results of what was sent, up to the server's word that it is ready: it commits between a
 * statement's result and that word, so an error or a warning may still come. */
static int results(struct postgresql *q, enum statement what, row_function *row, void *context,
                   char why[WHY]) {
    int rows = -1;
    bool good = true;
    PGresult *r;
    for (int i = 0; (r = next(q)) != NULL; i++) {
        int here = judge(what, r, i == 0 ? row : NULL, context);
        if (here < 0 && good) snprintf(why, WHY, "%s", PQresultErrorMessage(r));
        good = good && here >= 0;
        if (i == 0) rows = here;
        PQclear(r);
    }
    if (q->warning[0]) snprintf(why, WHY, "%s", q->warning);
    else if (rows < 0 && !why[0]) snprintf(why, WHY, "%s", PQerrorMessage(q->db));
    return good && !q->warning[0] && PQstatus(q->db) == CONNECTION_OK ? rows : -1;
}

static int prepare(struct postgresql *q, enum statement what, const char *name, char why[WHY]) {
    if (q->prepared[what]) return 0;
    int r =
        PQsendPrepare(q->db, name, sql_of(what), 0, NULL) ? results(q, STATEMENT_COUNT, NULL, NULL, why) : -1;
    q->prepared[what] = r >= 0;
    return r;
}

static int run(void *at, enum statement what, const struct value v[PARAMETERS], row_function *row,
               void *context, char why[WHY]) {
    struct postgresql *q = at;
    const char *values[PARAMETERS];
    int lengths[PARAMETERS], formats[PARAMETERS], n = 0;
    char name[8];
    snprintf(name, sizeof name, "s%d", (int)what);
    for (; n < PARAMETERS && v && (v[n].text || v[n].bytes); n++) {
        formats[n] = v[n].bytes != NULL;
        values[n] = v[n].bytes ? v[n].bytes : v[n].text;
        lengths[n] = (int)v[n].n;
    }
    q->warning[0] = 0;
    if (prepare(q, what, name, why) < 0) return -1;
    if (!PQsendQueryPrepared(q->db, name, n, values, lengths, formats, 1))
        return snprintf(why, WHY, "%s", PQerrorMessage(q->db)), -1;
    int r = results(q, what, row, context, why);
    /* two hosts that make the tables at once wait here for each other; the lock ends with the transaction */
    return what == BEGIN_MAKE && r >= 0 ? run(at, LOCK_MAKING, NULL, NULL, NULL, why) : r;
}

/* ---- arrays, in the server's binary form: dimensions, no NULLs, type, length, first index, then each with
 * its length */

static uint8_t *put_number(uint8_t *to, int64_t v, int bytes) {
    for (int i = bytes - 1; i >= 0; i--) *to++ = (uint8_t)((uint64_t)v >> 8 * i);
    return to;
}

static uint8_t *put_head(uint8_t *to, int type, int count) {
    const int head[] = { 1, 0, type, count, 1 };
    for (int i = 0; i < 5; i++) to = put_number(to, head[i], 4);
    return to;
}

static struct value part_numbers(uint8_t *at, const struct save *s) {
    uint8_t *to = put_head(at, 23, s->count);
    for (int i = 0; i < s->count; i++) to = put_number(put_number(to, 4, 4), s->parts[i].number, 4);
    return (struct value){ NULL, at, (size_t)(to - at) };
}

static struct value part_sums(uint8_t *at, const struct save *s) {
    uint8_t *to = put_head(at, 20, s->count);
    for (int i = 0; i < s->count; i++) to = put_number(put_number(to, 8, 4), s->parts[i].checksum, 8);
    return (struct value){ NULL, at, (size_t)(to - at) };
}

static struct value part_bytes(uint8_t *at, const struct save *s) {
    uint8_t *to = put_head(at, 17, s->count);
    for (int i = 0; i < s->count; i++) {
        to = put_number(to, (int64_t)s->parts[i].n, 4);
        memcpy(to, s->parts[i].bytes, s->parts[i].n);
        to += s->parts[i].n;
    }
    return (struct value){ NULL, at, (size_t)(to - at) };
}

enum { SMALL_ARRAY = 20 + 12 * PARTS, ARRAYS = 3 * SMALL_ARRAY + (int)sizeof(luzhanem_image) };

static int save(void *at, const struct save *save, char why[WHY]) {
    struct postgresql *q = at;
    char generation[24];
    snprintf(generation, sizeof generation, "%" PRId64, save->generation);
    struct value v[PARAMETERS] = { { save->channel, NULL, 0 },
                                   { save->holder, NULL, 0 },
                                   { generation, NULL, 0 },
                                   part_numbers(q->arrays, save),
                                   part_bytes(q->arrays + 2 * SMALL_ARRAY, save),
                                   part_sums(q->arrays + SMALL_ARRAY, save) };
    return run(at, REPLACE, v, NULL, NULL, why);
}

/* ---- connecting */

/* With a plan that is made once a save takes the server half the time. */
#define GENERIC "; SET plan_cache_mode = force_generic_plan"
static const char *settings_of(int how) {
    return how < 0                         ? "SET default_transaction_read_only = on"
           : how & LUZHANEM_DURABLE_OFF    ? "SET synchronous_commit = off" GENERIC
           : how & LUZHANEM_DURABLE_NORMAL ? "SET synchronous_commit = local" GENERIC
                                           : "SET synchronous_commit = on" GENERIC;
}

static void *connect_to(const char *where, int how, char why[WHY]) {
    struct postgresql *q = calloc(1, sizeof *q);
    if (q) q->arrays = malloc(ARRAYS);
    if (!q || !q->arrays) return free(q), snprintf(why, WHY, "no memory"), NULL;
    const char *keys[] = { "connect_timeout", "dbname", NULL },
               *values[] = { "5", where, NULL }; /* `where` may have its own */
    q->db = PQconnectdbParams(keys, values, 1);
    int r = PQstatus(q->db) == CONNECTION_OK ? 0 : -1;
    if (r < 0) snprintf(why, WHY, "%s", PQerrorMessage(q->db));
    PQsetNoticeReceiver(q->db, note_warning, q);
    if (r == 0) r = PQsendQuery(q->db, settings_of(how)) ? results(q, STATEMENT_COUNT, NULL, NULL, why) : -1;
    if (r >= 0) return q;
    disconnect(q);
    return NULL;
}

const struct engine luzhanem_postgresql_ = { "postgresql://", 0, connect_to, run, save, disconnect };
