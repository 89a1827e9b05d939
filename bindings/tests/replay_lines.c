/* Holds luzhanem_replay_line to the program `replay`: replay_lines ANSWERS <LOG, where ANSWERS is what `replay` printed for
 * the same log. */
#include "check.h"

#include <ctype.h>
#include <stdlib.h>
#include <string.h>

static luzhanem_store s;
static char line[1 << 16], answer[1 << 16];

/* Whether `replay` prints something for the line, if it is no version: a call, another form, or one that is too long. */
static int is_answered(const char *text, size_t n) {
    const int says_nothing = n == 0 || text[0] == '#' || (n > 1 && text[0] == '=' && text[1] == ' ');
    return n >= LUZHANEM_LINE_BYTES || !says_nothing;
}

static int words_behind(const char *text) {
    int words = 0;
    for (; *text; text++) words += *text == ' ';
    return words;
}

/* What luzhanem_replay_line should answer where `replay` printed this for such a line. */
static int expected(char kind, const char *text) {
    if (strncmp(text, "ok", 2)) return -atoi(text);
    if (kind == 'P' || kind == 'C' || kind == 'O') return atoi(text + 2);
    if (kind == 'R') return text[2] ? (int)strlen(text + 3) / 2 : 0;
    return kind == 'L' ? words_behind(text) / 2 : 0;
}

/* The number of a version; -1 of any other line. */
static int version(const char *text, size_t n) {
    size_t digits = 0;
    while (1 + digits < n && isdigit((unsigned char)text[1 + digits])) digits++;
    if (text[0] != 'V' || digits == 0 || digits + 1 != n || digits > 18) return -1;
    return atoll(text + 1) == 1 ? 1 : 2;
}

int main(int argc, char **argv) {
    FILE *answers = argc == 2 ? fopen(argv[1], "r") : NULL;
    if (!answers || luzhanem_fresh(&s, sizeof s, NULL)) return 2;
    for (;;) {
        size_t n = 0;
        int c, r;
        while ((c = getchar()) != EOF && c != '\n')
            if (n < sizeof line - 1) line[n++] = (char)c;
        if (c == EOF && n == 0) break;
        r = luzhanem_replay_line(&s, line, n);
        line[n < sizeof line ? n : sizeof line - 1] = 0;
        if (version(line, n) == 2) { /* another version ends the run of `replay` */
            IS(r, LUZHANEM_E_BAD_LINE);
            break;
        }
        if (!is_answered(line, n) || version(line, n) == 1) {
            IS(r, 0);
            continue;
        }
        if (!fgets(answer, sizeof answer, answers)) {
            failed++;
            break;
        }
        answer[strcspn(answer, "\n")] = 0;
        IS(r, expected(line[0], answer));
    }
    HOLDS(!fgets(answer, sizeof answer, answers));
    return finish() || passed < 100;
}
