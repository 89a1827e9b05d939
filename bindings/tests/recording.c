/* Lines of a log of calls, a dispatcher recorded call by call, and lines replayed. */
#include "check.h"

#include <stdlib.h>
#include <string.h>

static luzhanem_store s, plain, standby, before;
static char line[LUZHANEM_LINE_BYTES];

/* The line that a call put is the text. */
#define TEXT(call, text)                                                                                     \
    do {                                                                                                     \
        const int n_ = (call);                                                                               \
        if (n_ == (int)strlen(text) && !memcmp(line, text, strlen(text))) passed++;                          \
        else failed++, printf("%s:%d: %s: %d, %.*s", __FILE__, __LINE__, #call, n_, n_ > 0 ? n_ : 0, line);  \
    } while (0)
#define PUT(what, ...) luzhanem_line_##what(line, sizeof line, __VA_ARGS__)

static void lines_of_calls(void) {
    static uint8_t big[5000];
    static const uint8_t file_of[16] = { 7, 0, 0, 0, 0, 0, 0, 0, 0, 0, 0, 0, 0, 0, 0, 255 };
    TEXT(PUT(fresh, NULL), "F0 1 2 3 4 5 6 7 0 1 2 3 4 5 6 7\n");
    TEXT(PUT(fresh, file_of), "F7 0 0 0 0 0 0 0 0 0 0 0 0 0 0 255\n");
    TEXT(PUT(begin, 0), "B0\n");
    TEXT(PUT(begin, SIZE_MAX), "B18446744073709551615\n");
    TEXT(PUT(abort, 7), "A7\n");
    TEXT(PUT(seek, 0, 3, 17), "S0 3 17\n");
    TEXT(PUT(write, 0, 3, "14:02 jingle", 12), "W0 3 14:02 jingle\n");
    TEXT(PUT(write, 0, 3, "hi\n", 3), "X0 3 68690a\n");
    TEXT(PUT(write, 0, 3, NULL, 0), "W0 3 \n");
    IS(PUT(write, 0, 3, big, 123), 5 + 2 * 123 + 1);
    IS(PUT(write, 0, 3, big, 4097), 5 + 2 * 4097 + 1);
    IS(PUT(write, 0, 3, big, 5000), 5 + 2 * 4097 + 1);
    IS(PUT(write, SIZE_MAX, SIZE_MAX, big, 5000), 43 + 2 * 4097 + 1);
    IS(43 + 2 * 4097 + 1, LUZHANEM_LINE_BYTES);
    TEXT(PUT(get_file_pointer, 0, 3), "P0 3\n");
    TEXT(PUT(read, 0, 3, 64), "R0 3 64 64\n");
    TEXT(PUT(commit, 0, 842), "C0 842\n");
    TEXT(PUT(places, 0, 2, 16), "L0 2 64\n");
    TEXT(PUT(places, 0, 2, SIZE_MAX), "L0 2 256\n");
    TEXT(PUT(set_window, 2, 480, 1320), "H2 480 1320\n");
    TEXT(luzhanem_line_undo(line, sizeof line), "U\n");
    TEXT(PUT(best_order, (const uint8_t *)"\2\0\1", 3, 600, 40320), "O600 40320 2 0 1\n");
    TEXT(PUT(best_order, NULL, 0, 600, 1), "O600 1\n");
}

static void lines_of_answers(void) {
    static const luzhanem_place place[2] = { { 0, 5 }, { 16, 300 } };
    static const luzhanem_order order = { { 2, 0, 1 }, 4, 6 };
    TEXT(PUT(done, 0), "= ok\n");
    TEXT(PUT(done, LUZHANEM_E_STALE), "= 13\n");
    TEXT(PUT(number, 0), "= ok 0\n");
    TEXT(PUT(number, 4096), "= ok 4096\n");
    TEXT(PUT(number, LUZHANEM_E_BAD_BUDGET), "= 27\n");
    TEXT(PUT(given, 3, "hi\n+", 4), "= ok 68690a\n");
    TEXT(PUT(given, 0, NULL, 0), "= ok\n");
    TEXT(PUT(given, LUZHANEM_E_STALE_READER, "abc", 3), "= 18\n");
    TEXT(PUT(listed, 2, place, 2), "= ok 0 5 16 300\n");
    TEXT(PUT(listed, 0, NULL, 0), "= ok\n");
    TEXT(PUT(listed, LUZHANEM_E_LIST_TOO_LONG, NULL, 0), "= 16\n");
    TEXT(PUT(ordered, 3, &order, 3), "= ok 3 4 6 2 0 1\n");
    TEXT(PUT(ordered, LUZHANEM_E_NOT_READY, &order, 3), "= 25\n");
}

static void bad_buffers(void) {
    enum { BAD = LUZHANEM_E_BUFFER_LENGTH };
    memset(line, 'x', sizeof line);
    IS(luzhanem_line_begin(NULL, sizeof line, 0), BAD);
    IS(luzhanem_line_begin(line, sizeof line - 1, 0), BAD);
    IS(luzhanem_line_begin(line, 0, 0), BAD);
    IS(luzhanem_line_done(NULL, sizeof line, 0), BAD);
    IS(luzhanem_line_undo(line, 3), BAD);
    IS(PUT(write, 0, 0, NULL, 1), BAD);
    IS(PUT(best_order, NULL, 1, 0, 1), BAD);
    IS(PUT(given, 0, NULL, 1), BAD);
    IS(PUT(listed, 0, NULL, 1), BAD);
    IS(PUT(ordered, 0, NULL, 1), BAD);
    for (size_t i = 0; i < sizeof line; i++)
        if (line[i] != 'x') failed++;
}

static void replayed_lines(void) {
    IS(luzhanem_fresh(&s, sizeof s, NULL), 0);
#define REPLAY(text) luzhanem_replay_line(&s, text, strlen(text))
    IS(REPLAY("V1"), 0);
    IS(REPLAY("B1"), 0);
    IS(REPLAY("= ok"), 0);
    IS(REPLAY("# a comment"), 0);
    IS(REPLAY(""), 0);
    IS(REPLAY("W1 1 Hello"), 0);
    IS(REPLAY("P1 1"), 5);
    IS(REPLAY("X1 1 0a"), 0);
    IS(REPLAY("B1"), LUZHANEM_E_ALREADY_OPEN);
    IS(REPLAY("L1 1 64"), 1);
    IS(REPLAY("C1 842"), 0);
    IS(REPLAY("C1 842"), LUZHANEM_E_NOT_OPEN);
    HOLDS(luzhanem_length(&s, 1) == 6 && !memcmp(luzhanem_file(&s, 1), "Hello\n", 6));
    IS(REPLAY("B0"), 0);
    IS(REPLAY("S0 1 0"), 0);
    IS(REPLAY("R0 1 5 5"), 5);
    IS(REPLAY("R0 1 5 4"), LUZHANEM_E_READER_TOO_SHORT);
    IS(REPLAY("O600 1 0"), 1);
    IS(REPLAY("H2 480 1320"), 0);
    IS(REPLAY("A0"), 0);
    IS(REPLAY("U"), 0);
    IS(luzhanem_length(&s, 1), 0);
    IS(REPLAY("F0 0 0 0 0 0 0 0 0 0 0 0 0 0 0 7"), 0);
    IS(luzhanem_file_of(&s, 15), 7);
    memcpy(&before, &s, sizeof s);
    IS(REPLAY("V2"), LUZHANEM_E_BAD_LINE);
    IS(REPLAY("b0"), LUZHANEM_E_BAD_LINE);
    IS(REPLAY("B0 "), LUZHANEM_E_BAD_LINE);
    IS(REPLAY("X0 3 6A"), LUZHANEM_E_BAD_LINE);
    IS(REPLAY("=ok"), LUZHANEM_E_BAD_LINE);
    IS(REPLAY("B18446744073709551615"), LUZHANEM_E_NO_SUCH_TRANSACTION);
    HOLDS(!memcmp(&before, &s, sizeof s));
}

/* What a recorder was handed. */
static struct {
    char text[4000000];
    size_t n;
} put_down;
static void put(void *context, const char *text, size_t n) {
    HOLDS(context == &put_down);
    if (sizeof put_down.text - put_down.n < n) abort();
    memcpy(put_down.text + put_down.n, text, n);
    put_down.n += n;
}

static void draw_scripts(luzhanem_scripts *q) {
    memset(q, 0, sizeof *q);
    q->count = drawn(40) ? drawn(9) : 9;
    for (size_t k = 0; k < 8; k++) {
        q->counts[k] = drawn(60) ? drawn(7) : drawn(18);
        for (size_t i = 0; i < 16; i++) {
            luzhanem_script_call *c = &q->calls[k][i];
            c->kind = drawn(300) ? drawn(4) : drawn(6);
            c->descriptor = drawn(40) ? drawn(3) : drawn(17);
            c->at = c->kind == LUZHANEM_SEEK ? drawn(40) ? drawn(100) : drawn(4200) : drawn(40);
            c->count = drawn(24);
            if (drawn(300) == 0) c->count = drawn(100);
        }
    }
}

/* Applies what was put down to a store, line by line. */
static int replay_all(luzhanem_store *to) {
    int lines = 0;
    for (size_t at = 0; at < put_down.n; lines++) {
        const char *start = put_down.text + at, *end = memchr(start, '\n', put_down.n - at);
        if (!end || luzhanem_replay_line(to, start, (size_t)(end - start)) == LUZHANEM_E_BAD_LINE) return -1;
        at += (size_t)(end - start) + 1;
    }
    return lines;
}

/* Recorded or not, the dispatcher answers and leaves the same; and so do the lines that it recorded. */
static void recorded_dispatch(void) {
    static luzhanem_recorder recorder = { put, &put_down, { 0 } };
    static luzhanem_scripts q;
    static uint8_t data[64], reader[2][40];
    int many = 0, failures = 0, refusals = 0;
    IS(luzhanem_fresh(&s, sizeof s, NULL), 0);
    IS(luzhanem_set_window(&s, 2, 10, 20), 0);
    plain = standby = s;
    for (int i = 0; i < 4000; i++) {
        int ended[2][8] = { { 1 }, { 1 } }, r;
        const size_t minute = drawn(100) ? drawn(30) : drawn(1500), room = drawn(20) ? 40 : drawn(20);
        const int damaged = drawn(100) == 0;
        for (size_t k = 0; k < sizeof data; k++) data[k] = (uint8_t)drawn(256);
        draw_scripts(&q);
        if (drawn(50) == 0) luzhanem_begin(&s, 5), luzhanem_begin(&plain, 5), luzhanem_begin(&standby, 5);
        put_down.n = 0;
        if (damaged) s.record_[2048] = plain.record_[2048] = standby.record_[2048] = 4097; /* an offset */
        r = luzhanem_dispatch(&plain, &q, data, sizeof data, reader[0], room, minute, ended[0]);
        IS(luzhanem_dispatch_recorded(&s, &q, data, sizeof data, reader[1], room, minute, ended[1], &recorder), r);
        HOLDS(!memcmp(ended[0], ended[1], sizeof ended[0]) && !memcmp(reader[0], reader[1], sizeof reader[0]));
        HOLDS(!memcmp(&plain, &s, sizeof s));
        HOLDS(replay_all(&standby) >= 0);
        HOLDS(!memcmp(&standby, &s, sizeof s));
        many += r > (int)q.count;
        refusals += r < 0;
        if (r < 0) HOLDS(put_down.n == 0);
        if (damaged) IS(r, LUZHANEM_E_RECORD_RANGE);
        for (int k = 0; r >= 0 && k < 8; k++) failures += ended[0][k] < 0;
        luzhanem_abort(&s, 5), luzhanem_abort(&plain, 5), luzhanem_abort(&standby, 5);
        if (i % 20 && !damaged) continue;
        luzhanem_fresh(&s, sizeof s, NULL), luzhanem_set_window(&s, 2, 10, 20);
        plain = standby = s;
    }
    HOLDS(many > 100 && failures > 100 && refusals > 50);
    IS(luzhanem_dispatch_recorded(NULL, &q, data, 1, reader[0], 1, 0, NULL, &recorder), LUZHANEM_E_BUFFER_LENGTH);
    IS(luzhanem_dispatch_recorded(&s, NULL, data, 1, reader[0], 1, 0, NULL, &recorder), LUZHANEM_E_BUFFER_LENGTH);
    IS(luzhanem_dispatch_recorded(&s, &q, NULL, 1, reader[0], 1, 0, NULL, &recorder), LUZHANEM_E_BUFFER_LENGTH);
    IS(luzhanem_dispatch_recorded(&s, &q, data, 1, NULL, 1, 0, NULL, &recorder), LUZHANEM_E_BUFFER_LENGTH);
    IS(luzhanem_dispatch_recorded(&s, &q, data, 1, reader[0], 1, 0, NULL, NULL), LUZHANEM_E_BUFFER_LENGTH);
}

int main(void) {
    lines_of_calls();
    lines_of_answers();
    bad_buffers();
    replayed_lines();
    recorded_dispatch();
    return finish();
}
