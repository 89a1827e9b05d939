/* A standby: follows a log of calls through a pipe and prints what is committed at its end.
 *
 *     tail -n +1 -F day.log | standby
 */
#include <luzhanem.h>
#include <stdio.h>

static luzhanem_store store;

/* Reads a line without its end; -1 at the end of the input, the length otherwise, also of one that is too long. */
static long next_line(char line[LUZHANEM_LINE_BYTES]) {
    long n = 0;
    int c;
    while ((c = getchar()) != EOF && c != '\n') {
        if (n < LUZHANEM_LINE_BYTES) line[n] = (char)c;
        n++;
    }
    return c == EOF && n == 0 ? -1 : n;
}

int main(void) {
    static char line[LUZHANEM_LINE_BYTES];
    long n, number = 0;
    luzhanem_fresh(&store, sizeof store, NULL);
    while ((n = next_line(line)) >= 0) {
        number++;
        if (n <= LUZHANEM_LINE_BYTES && luzhanem_replay_line(&store, line, (size_t)n) != LUZHANEM_E_BAD_LINE) continue;
        fprintf(stderr, "standby: line %ld is of another form\n", number);
        return 1;
    }
    for (size_t f = 0; f < LUZHANEM_FILES; f++) {
        printf("file %zu: %d bytes: ", f, luzhanem_length(&store, f));
        for (int i = 0; i < luzhanem_length(&store, f); i++) printf("%02x", luzhanem_file(&store, f)[i]);
        printf("\n");
    }
    return 0;
}
