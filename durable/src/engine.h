/* What durable.c wants of a database. */
#ifndef LUZHANEM_ENGINE_H
#define LUZHANEM_ENGINE_H

#include <stddef.h>
#include <stdint.h>

/* The parts of an image: the eight files, the old bytes that the last grant used, the committed numbers. */
enum { OLD_BYTES = 8, NUMBERS = 9, PARTS = 10 };

/* The statements that both databases run as they stand. Each SELECT gives a number, bytes or a text, and a
 * number. */
#define STATEMENTS(X)                                                                                 \
    X(COMMIT, "COMMIT")                                                                               \
    X(LIST, "SELECT format, name, generation FROM luzhanem_channel ORDER BY name")                    \
    X(LOOK, "SELECT format, holder, generation FROM luzhanem_channel WHERE name = $1")                \
    X(MAKE, "INSERT INTO luzhanem_channel (name, format, generation, holder) VALUES ($1, $2, 1, $3)") \
    X(TAKE, "UPDATE luzhanem_channel SET generation = generation + 1, holder = $1 WHERE name = $2")   \
    X(GET, "SELECT part, bytes, checksum FROM luzhanem_part WHERE channel = $1 ORDER BY part")        \
    X(PUT, "INSERT INTO luzhanem_part (channel, part, bytes, checksum) VALUES ($1, $2, $3, $4)")      \
    X(MAKE_CHANNELS,                                                                                  \
      "CREATE TABLE IF NOT EXISTS luzhanem_channel (name TEXT PRIMARY KEY, format INTEGER NOT NULL, " \
      "generation BIGINT NOT NULL, holder TEXT NOT NULL)")
/* Each engine has its own: begin to make tables, to write, to read one state; the table of parts; and those
 * of a save. */
#define OWN_STATEMENTS(X) \
    X(MAKE_PARTS, 0)      \
    X(BEGIN_MAKE, 0) X(BEGIN_WRITE, 0) X(BEGIN_READ, 0) X(LOCK_MAKING, 0) X(HOLD, 0) X(REPLACE, 0)
#define STATEMENT_NAME(name, sql) name,
enum statement { STATEMENTS(STATEMENT_NAME) OWN_STATEMENTS(STATEMENT_NAME) STATEMENT_COUNT };
#undef STATEMENT_NAME

enum { PARAMETERS = 6, WHY = 256 };

/* A parameter: text up to its 0, or where that is NULL, bytes. Numbers go as text. */
struct value {
    const char *text;
    const void *bytes;
    size_t n;
};

struct part {
    int number;
    const uint8_t *bytes;
    size_t n;
    int64_t checksum;
};

/* Parts to be replaced if the channel is still at this generation and has this holder. */
struct save {
    const char *channel, *holder;
    int64_t generation;
    int count;
    struct part parts[PARTS];
};

typedef void row_function(void *context, int64_t number, const void *bytes, size_t n, int64_t second);

struct engine {
    const char *prefix;
    size_t skip; /* how much of the prefix is not for the database */
    /* how is that of open, or -1 to read. NULL: `why` has the words. */
    void *(*connect)(const char *where, int how, char why[WHY]);
    /* How many rows were changed or given, or -1. */
    int (*run)(void *db, enum statement what, const struct value v[PARAMETERS], row_function *row,
               void *context, char why[WHY]);
    /* In one transaction: the generation goes up by one, the parts are replaced. 1 when that is on disk; 0
     * where the channel has another holder or generation, and nothing is changed; -1 where it is not known.
     */
    int (*save)(void *db, const struct save *save, char why[WHY]);
    /* Ends an open transaction as a rollback. Answers -1 where what was read may have changed meanwhile. */
    int (*disconnect)(void *db);
};

extern const char *const luzhanem_sql_[STATEMENT_COUNT];
extern const struct engine luzhanem_sqlite_, luzhanem_postgresql_;

#endif
