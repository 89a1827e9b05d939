/* What a careless caller can pass: NULL, numbers of any value, a store of another size, garbage for a store. Each
 * function is a row of the table "Error behaviour" in bindings/README.md. */
#include "check.h"

#include <string.h>

static luzhanem_store s, other;
static luzhanem_scripts q;
static luzhanem_image image;
static luzhanem_order order;
static luzhanem_place place[64];
static uint8_t bytes[65536];

enum { BAD = LUZHANEM_E_BUFFER_LENGTH };

static void null_for_a_store(void) {
    IS(luzhanem_fresh(NULL, sizeof s, NULL), BAD);
    IS(luzhanem_begin(NULL, 0), BAD);
    IS(luzhanem_abort(NULL, 0), BAD);
    IS(luzhanem_seek(NULL, 0, 0, 0), BAD);
    IS(luzhanem_write(NULL, 0, 0, bytes, 1), BAD);
    IS(luzhanem_get_file_pointer(NULL, 0, 0), BAD);
    IS(luzhanem_read(NULL, 0, 0, bytes, 1), BAD);
    IS(luzhanem_commit(NULL, 0, 0), BAD);
    IS(luzhanem_places(NULL, 0, 0, place, 2), BAD);
    IS(luzhanem_set_window(NULL, 0, 0, 0), BAD);
    IS(luzhanem_undo(NULL), BAD);
    IS(luzhanem_dispatch(NULL, &q, NULL, 0, NULL, 0, 0, NULL), BAD);
    IS(luzhanem_best_order(NULL, bytes, 1, 0, 1, &order), BAD);
    IS(luzhanem_offset(NULL, 0), BAD);
    IS(luzhanem_file_of(NULL, 0), BAD);
    IS(luzhanem_length(NULL, 0), BAD);
    IS(luzhanem_state(NULL, 0), BAD);
    HOLDS(luzhanem_file(NULL, 0) == NULL);
    IS(luzhanem_check(NULL), BAD);
    IS(luzhanem_save(NULL, &image), BAD);
    IS(luzhanem_load(NULL, &image), BAD);
    IS(luzhanem_replay_line(NULL, "B0", 2), BAD);
}

/* NULL for scripts, an order, an image, or for bytes, places or a list with a length above 0; nothing is touched. */
static void null_for_a_buffer(void) {
    IS(luzhanem_fresh(&s, sizeof s, NULL), 0);
    IS(luzhanem_begin(&s, 0), 0);
    memcpy(&other, &s, sizeof s);
    IS(luzhanem_write(&s, 0, 0, NULL, 1), BAD);
    IS(luzhanem_write(&s, 0, 0, NULL, SIZE_MAX), BAD);
    IS(luzhanem_read(&s, 0, 0, NULL, 1), BAD);
    IS(luzhanem_places(&s, 0, 0, NULL, 1), BAD);
    IS(luzhanem_dispatch(&s, NULL, NULL, 0, NULL, 0, 0, NULL), BAD);
    IS(luzhanem_dispatch(&s, &q, NULL, 1, NULL, 0, 0, NULL), BAD);
    IS(luzhanem_dispatch(&s, &q, NULL, 0, NULL, 1, 0, NULL), BAD);
    IS(luzhanem_best_order(&s, NULL, 1, 0, 1, &order), BAD);
    IS(luzhanem_best_order(&s, bytes, 1, 0, 1, NULL), BAD);
    IS(luzhanem_save(&s, NULL), BAD);
    IS(luzhanem_load(&s, NULL), BAD);
    IS(luzhanem_replay_line(&s, NULL, 1), BAD);
    HOLDS(!memcmp(&other, &s, sizeof s));
}

static void null_without_length(void) {
    IS(luzhanem_fresh(&s, sizeof s, NULL), 0);
    IS(luzhanem_begin(&s, 0), 0);
    IS(luzhanem_write(&s, 0, 0, NULL, 0), 0);
    IS(luzhanem_read(&s, 0, 1, NULL, 0), 0);
    IS(luzhanem_places(&s, 0, 2, NULL, 0), 0);
    IS(luzhanem_best_order(&s, NULL, 0, 0, 1, &order), LUZHANEM_E_BAD_LIST);
    IS(luzhanem_dispatch(&s, &q, NULL, 0, NULL, 0, 0, NULL), LUZHANEM_E_NOT_AT_REST);
    IS(luzhanem_abort(&s, 0), 0);
    IS(luzhanem_dispatch(&s, &q, NULL, 0, NULL, 0, 0, NULL), 0);
    IS(luzhanem_replay_line(&s, NULL, 0), 0);
}

static void another_size(void) {
    memset(&s, 7, sizeof s);
    memcpy(&other, &s, sizeof s);
    IS(luzhanem_fresh(&s, sizeof s - 1, NULL), BAD);
    IS(luzhanem_fresh(&s, sizeof s + 1, NULL), BAD);
    IS(luzhanem_fresh(&s, 0, NULL), BAD);
    IS(luzhanem_fresh(&s, SIZE_MAX, NULL), BAD);
    HOLDS(!memcmp(&other, &s, sizeof s));
    IS(luzhanem_fresh(&s, sizeof s, (const uint8_t *)"\0\1\2\3\4\5\6\7\0\1\2\3\4\5\6\10"), LUZHANEM_E_NO_SUCH_FILE);
    HOLDS(!memcmp(&other, &s, sizeof s));
}

/* Every number of every call, from its first value out of range up. */
static void numbers_out_of_range(void) {
    static const size_t big[] = { 8, 16, 1440, 4097, 65536, INT32_MAX, UINT32_MAX, (size_t)1 << 32, (size_t)1 << 63,
                                  (size_t)-1 };
    IS(luzhanem_fresh(&s, sizeof s, NULL), 0);
    IS(luzhanem_begin(&s, 1), 0);
    memcpy(&other, &s, sizeof s);
    for (size_t i = 0; i < sizeof big / sizeof *big; i++) {
        const size_t n = big[i];
        const uint8_t octet = (uint8_t)(n < 255 ? n : 255);
        IS(luzhanem_begin(&s, n), LUZHANEM_E_NO_SUCH_TRANSACTION);
        IS(luzhanem_abort(&s, n), LUZHANEM_E_NO_SUCH_TRANSACTION);
        IS(luzhanem_seek(&s, n, 0, 0), LUZHANEM_E_NO_SUCH_TRANSACTION);
        IS(luzhanem_write(&s, n, 0, "x", 1), LUZHANEM_E_NO_SUCH_TRANSACTION);
        IS(luzhanem_read(&s, n, 0, bytes, 1), LUZHANEM_E_NO_SUCH_TRANSACTION);
        IS(luzhanem_get_file_pointer(&s, n, 0), LUZHANEM_E_NO_SUCH_TRANSACTION);
        IS(luzhanem_commit(&s, n, 0), LUZHANEM_E_NO_SUCH_TRANSACTION);
        IS(luzhanem_places(&s, n, 0, place, 1), LUZHANEM_E_NO_SUCH_TRANSACTION);
        IS(luzhanem_state(&s, n), LUZHANEM_E_NO_SUCH_TRANSACTION);
        IS(luzhanem_best_order(&s, &octet, 1, 0, 1, &order), LUZHANEM_E_NO_SUCH_TRANSACTION);
        IS(luzhanem_places(&s, 1, n, place, 1), LUZHANEM_E_NO_SUCH_TARGET);
        IS(luzhanem_set_window(&s, n, 0, 0), LUZHANEM_E_NO_SUCH_TARGET);
        IS(luzhanem_length(&s, n), LUZHANEM_E_NO_SUCH_TARGET);
        HOLDS(luzhanem_file(&s, n) == NULL);
        if (n < 16) continue;
        IS(luzhanem_seek(&s, 1, n, 0), LUZHANEM_E_NO_SUCH_TARGET);
        IS(luzhanem_write(&s, 1, n, "x", 1), LUZHANEM_E_NO_SUCH_TARGET);
        IS(luzhanem_read(&s, 1, n, bytes, 1), LUZHANEM_E_NO_SUCH_TARGET);
        IS(luzhanem_get_file_pointer(&s, 1, n), LUZHANEM_E_NO_SUCH_TARGET);
        IS(luzhanem_offset(&s, n), LUZHANEM_E_NO_SUCH_TARGET);
        IS(luzhanem_file_of(&s, n), LUZHANEM_E_NO_SUCH_TARGET);
        if (n < 1440) continue;
        IS(luzhanem_commit(&s, 1, n), LUZHANEM_E_NO_SUCH_MINUTE);
        IS(luzhanem_set_window(&s, 0, n, 0), LUZHANEM_E_NO_SUCH_MINUTE);
        IS(luzhanem_set_window(&s, 0, 0, n), LUZHANEM_E_NO_SUCH_MINUTE);
        IS(luzhanem_best_order(&s, (const uint8_t *)"\1", 1, n, 1, &order), LUZHANEM_E_NO_SUCH_MINUTE);
        if (n < 4097) continue;
        IS(luzhanem_seek(&s, 1, 0, n), LUZHANEM_E_SEEK_PAST_END);
        if (n <= sizeof bytes) IS(luzhanem_write(&s, 1, 0, bytes, n), LUZHANEM_E_WRITE_PAST_END);
        if (n < 40321) continue;
        IS(luzhanem_best_order(&s, (const uint8_t *)"\1", 1, 0, n, &order), LUZHANEM_E_BAD_BUDGET);
    }
    IS(luzhanem_best_order(&s, (const uint8_t *)"\1", 1, 0, 0, &order), LUZHANEM_E_BAD_BUDGET);
    IS(luzhanem_best_order(&s, (const uint8_t *)"\1\1", 2, 0, 1, &order), LUZHANEM_E_BAD_LIST);
    IS(luzhanem_best_order(&s, bytes, 9, 0, 1, &order), LUZHANEM_E_BAD_LIST);
    HOLDS(!memcmp(&other, &s, sizeof s));
}

/* A refused dispatcher leaves its buffers and `ended` too. */
static void scripts_out_of_range(void) {
    static uint8_t reader[4] = "xyz";
    int ended[8] = { 1, 2, 3, 4, 5, 6, 7, 8 };
    IS(luzhanem_fresh(&s, sizeof s, NULL), 0);
    memset(&q, 0, sizeof q);
    q.count = 1, q.counts[0] = 1, q.calls[0][0].kind = 4;
    IS(luzhanem_dispatch(&s, &q, bytes, 8, reader, 4, 0, ended), LUZHANEM_E_SCRIPT_RANGE);
    q.calls[0][0].kind = SIZE_MAX;
    IS(luzhanem_dispatch(&s, &q, bytes, 8, reader, 4, 0, ended), LUZHANEM_E_SCRIPT_RANGE);
    q.calls[0][0] = (luzhanem_script_call){ LUZHANEM_WRITE, 0, 8, 1 };
    IS(luzhanem_dispatch(&s, &q, bytes, 8, reader, 4, 0, ended), LUZHANEM_E_SCRIPT_RANGE);
    q.calls[0][0] = (luzhanem_script_call){ LUZHANEM_WRITE, 0, SIZE_MAX, 2 };
    IS(luzhanem_dispatch(&s, &q, bytes, 8, reader, 4, 0, ended), LUZHANEM_E_SCRIPT_RANGE);
    q.counts[0] = 17;
    IS(luzhanem_dispatch(&s, &q, bytes, 8, reader, 4, 0, ended), LUZHANEM_E_SCRIPT_RANGE);
    q.counts[0] = SIZE_MAX;
    IS(luzhanem_dispatch(&s, &q, bytes, 8, reader, 4, 0, ended), LUZHANEM_E_SCRIPT_RANGE);
    q.counts[0] = 0, q.count = 9;
    IS(luzhanem_dispatch(&s, &q, bytes, 8, reader, 4, 0, ended), LUZHANEM_E_SCRIPT_RANGE);
    q.count = SIZE_MAX;
    IS(luzhanem_dispatch(&s, &q, bytes, 8, reader, 4, 0, ended), LUZHANEM_E_SCRIPT_RANGE);
    for (int k = 0; k < 8; k++) IS(ended[k], k + 1);
    HOLDS(!memcmp(reader, "xyz", 4));
    q.count = 3, q.counts[0] = q.counts[1] = 1;
    q.calls[0][0] = (luzhanem_script_call){ LUZHANEM_READ, 0, 0, 5 };
    q.calls[1][0] = (luzhanem_script_call){ LUZHANEM_SEEK, 0, (size_t)1 << 32, 0 };
    IS(luzhanem_dispatch(&s, &q, bytes, 8, reader, 4, 0, ended), 1);
    IS(ended[0], LUZHANEM_E_READER_TOO_SHORT);
    IS(ended[1], LUZHANEM_E_SEEK_PAST_END);
    IS(ended[2], 0);
    IS(luzhanem_dispatch(&s, &q, bytes, 8, reader, 4, 1440, ended), 1);
    IS(ended[2], LUZHANEM_E_NO_SUCH_MINUTE);
    memset(&q, 0, sizeof q);
}

static void calls_out_of_turn(void) {
    IS(luzhanem_fresh(&s, sizeof s, NULL), 0);
    IS(luzhanem_commit(&s, 1, 0), LUZHANEM_E_NOT_OPEN);
    IS(luzhanem_begin(&s, 1), 0);
    IS(luzhanem_begin(&s, 1), LUZHANEM_E_ALREADY_OPEN);
    IS(luzhanem_undo(&s), LUZHANEM_E_STILL_OPEN);
    IS(luzhanem_commit(&s, 1, 0), 0);
    memcpy(&other, &s, sizeof s);
    IS(luzhanem_commit(&s, 1, 0), LUZHANEM_E_NOT_OPEN);
    IS(luzhanem_abort(&s, 1), LUZHANEM_E_NOT_OPEN);
    IS(luzhanem_seek(&s, 1, 0, 0), LUZHANEM_E_NOT_OPEN);
    IS(luzhanem_write(&s, 1, 0, "x", 1), LUZHANEM_E_NOT_OPEN);
    IS(luzhanem_read(&s, 1, 0, bytes, 1), LUZHANEM_E_NOT_OPEN);
    IS(luzhanem_get_file_pointer(&s, 1, 0), LUZHANEM_E_NOT_OPEN);
    IS(luzhanem_places(&s, 1, 0, place, 1), LUZHANEM_E_NOT_OPEN);
    IS(luzhanem_best_order(&s, (const uint8_t *)"\1", 1, 0, 1, &order), LUZHANEM_E_NOT_OPEN);
    HOLDS(!memcmp(&other, &s, sizeof s));
    IS(luzhanem_undo(&s), 0);
    IS(luzhanem_undo(&s), LUZHANEM_E_NO_GRANT);
}

/* Memory that fresh was never called on, and a damaged block: refused by every call, and left. */
static void no_store(void) {
    memset(&s, 0, sizeof s);
    IS(luzhanem_begin(&s, 0), 0);
    for (size_t d = 0; d < 16; d++) IS(luzhanem_file_of(&s, d), 0);
    memset(&s, 0xFF, sizeof s);
    memcpy(&other, &s, sizeof s);
    IS(luzhanem_begin(&s, 0), LUZHANEM_E_RECORD_RANGE);
    IS(luzhanem_abort(&s, 0), LUZHANEM_E_RECORD_RANGE);
    IS(luzhanem_seek(&s, 0, 0, 0), LUZHANEM_E_RECORD_RANGE);
    IS(luzhanem_write(&s, 0, 0, bytes, 1), LUZHANEM_E_RECORD_RANGE);
    IS(luzhanem_get_file_pointer(&s, 0, 0), LUZHANEM_E_RECORD_RANGE);
    IS(luzhanem_read(&s, 0, 0, bytes, 1), LUZHANEM_E_RECORD_RANGE);
    IS(luzhanem_commit(&s, 0, 0), LUZHANEM_E_RECORD_RANGE);
    IS(luzhanem_places(&s, 0, 0, place, 1), LUZHANEM_E_RECORD_RANGE);
    IS(luzhanem_set_window(&s, 0, 0, 0), LUZHANEM_E_RECORD_RANGE);
    IS(luzhanem_undo(&s), LUZHANEM_E_RECORD_RANGE);
    IS(luzhanem_dispatch(&s, &q, NULL, 0, NULL, 0, 0, NULL), LUZHANEM_E_RECORD_RANGE);
    IS(luzhanem_best_order(&s, bytes, 1, 0, 1, &order), LUZHANEM_E_RECORD_RANGE);
    IS(luzhanem_check(&s), LUZHANEM_E_RECORD_RANGE);
    IS(luzhanem_save(&s, &image), LUZHANEM_E_RECORD_RANGE);
    IS(luzhanem_replay_line(&s, "B0", 2), LUZHANEM_E_RECORD_RANGE);
    HOLDS(!memcmp(&other, &s, sizeof s));
    IS(luzhanem_fresh(&s, sizeof s, NULL), 0);
    s.record_[2048] = 4097; /* the offset of descriptor 0 */
    IS(luzhanem_begin(&s, 0), LUZHANEM_E_RECORD_RANGE);
    IS(luzhanem_check(&s), LUZHANEM_E_RECORD_RANGE);
    s.record_[2048] = 4096; /* within its range: damage that is not seen */
    IS(luzhanem_check(&s), 0);
    IS(luzhanem_begin(&s, 0), 0);
}

static void unknown_codes(void) {
    for (int r = -200; r < 60; r++) HOLDS(luzhanem_strerror(r) && *luzhanem_strerror(r) && luzhanem_errname(r));
    HOLDS(!strcmp(luzhanem_errname(LUZHANEM_E_STALE), "STALE"));
    HOLDS(!strcmp(luzhanem_errname(7), "OK"));
    HOLDS(!strcmp(luzhanem_errname(-28), "UNKNOWN"));
    HOLDS(!strcmp(luzhanem_errname(INT32_MIN), "UNKNOWN"));
    HOLDS(!strcmp(luzhanem_strerror(INT32_MIN), "no such refusal"));
    HOLDS(!strcmp(luzhanem_strerror(-101), "no such refusal"));
}

static struct {
    uint8_t before[64];
    luzhanem_store s;
    uint8_t after[64];
} guarded;

/* One call with numbers around their limits. */
static int any_call(luzhanem_store *g, uint8_t out[4096], uint8_t was[4096]) {
    const size_t t = drawn(9), d = drawn(17), n = drawn(4200), f = drawn(9);
    const uint8_t list[2] = { (uint8_t)t, (uint8_t)f };
    memcpy(was, out, 4096);
    switch (drawn(14)) {
    case 0: return luzhanem_begin(g, t);
    case 1: return luzhanem_seek(g, t, d, n);
    case 2: return luzhanem_write(g, t, d, bytes, n % 40);
    case 3: return luzhanem_get_file_pointer(g, t, d);
    case 4: return luzhanem_read(g, t, d, out, n % 4097);
    case 5: return luzhanem_commit(g, t, n % 1500);
    case 6: return luzhanem_abort(g, t);
    case 7: return luzhanem_places(g, t, f, (luzhanem_place *)(void *)out, n % 65);
    case 8: return luzhanem_undo(g);
    case 9: return luzhanem_set_window(g, t, n % 1500, (n * 7) % 1500);
    case 10: return luzhanem_best_order(g, list, 1 + n % 2, n % 1500, 1 + n % 3, (luzhanem_order *)(void *)out);
    case 11: return luzhanem_dispatch(g, &q, bytes, 64, out, n % 100, n % 1500, NULL);
    case 12: return luzhanem_check(g);
    default: return luzhanem_save(g, &image);
    }
}

/* Records with numbers drawn at random, between guard bytes: every call ends in an answer, and a refused one leaves
 * the whole block and the buffer. */
static void garbage(void) {
    static _Alignas(8) uint8_t out[4096], was[4096];
    int changed = 0, unknown = 0, accepted = 0, refused[28] = { 0 };
    memset(guarded.before, 0xA5, 64), memset(guarded.after, 0x5A, 64);
    q.count = 2, q.counts[0] = 2, q.counts[1] = 1;
    q.calls[0][0] = (luzhanem_script_call){ LUZHANEM_WRITE, 0, 0, 20 };
    q.calls[0][1] = (luzhanem_script_call){ LUZHANEM_READ, 1, 0, 50 };
    q.calls[1][0] = (luzhanem_script_call){ LUZHANEM_GET_FILE_POINTER, 0, 0, 0 };
    for (long i = 0; i < 200000; i++) {
        luzhanem_store *g = &guarded.s;
        int r;
        if (i % 64 == 0) {
            luzhanem_fresh(g, sizeof *g, NULL);
            for (size_t k = 0; k < 8; k++)
                if (drawn(2)) luzhanem_begin(g, k);
        }
        if (drawn(8) == 0) g->record_[drawn(LUZHANEM_NUMBERS)] = (uint16_t)(drawn(4) ? drawn(5) : drawn(65536));
        if (drawn(64) == 0)
            for (int k = 0; k < LUZHANEM_NUMBERS; k++) g->record_[k] = (uint16_t)drawn(65536);
        memcpy(&other, g, sizeof other);
        r = any_call(g, out, was);
        if (r < -27) unknown++;
        else if (r < 0) refused[-r]++;
        else accepted++;
        if (r < 0 && memcmp(was, out, sizeof out)) changed++;
        if (r < 0 && r != LUZHANEM_E_STALE && memcmp(&other, g, sizeof other)) changed++;
    }
    IS(changed, 0);
    IS(unknown, 0);
    HOLDS(accepted > 20000 && refused[2] > 20000 && refused[4] > 1000 && refused[13] > 0 && refused[19] > 100);
    for (int k = 0; k < 64; k++) HOLDS(guarded.before[k] == 0xA5 && guarded.after[k] == 0x5A);
}

int main(void) {
    HOLDS(luzhanem_size() == sizeof(luzhanem_store));
    IS((int)sizeof(luzhanem_store), 106632);
    IS((int)offsetof(luzhanem_store, unused_), LUZHANEM_BLOCK_BYTES);
    HOLDS(!strcmp(luzhanem_version(), LUZHANEM_VERSION));
    null_for_a_store();
    null_for_a_buffer();
    null_without_length();
    another_size();
    numbers_out_of_range();
    scripts_out_of_range();
    calls_out_of_turn();
    no_store();
    unknown_codes();
    garbage();
    return finish();
}
