/* Holds the numbers and names of luzhanem.h to `Refusal` in the source of crate state, whose path is the argument. */
#include "check.h"

#include <ctype.h>
#include <string.h>

/* "SeekPastEnd" as SEEK_PAST_END. */
static void upper(const char *name, char *out) {
    for (const char *p = name; *p; p++) {
        if (isupper((unsigned char)*p) && p != name) *out++ = '_';
        *out++ = (char)toupper((unsigned char)*p);
    }
    *out = 0;
}

int main(int argc, char **argv) {
    char text[300], name[100], expected[200];
    int number, rows = 0;
    FILE *source = argc == 2 ? fopen(argv[1], "r") : NULL;
    if (!source) {
        printf("usage: refusals crates/state/src/outcomes.rt\n");
        return 2;
    }
    while (fgets(text, sizeof text, source)) {
        if (sscanf(text, " Refusal::%99[A-Za-z] => %d,", name, &number) != 2) continue;
        rows++;
        upper(name, expected);
        if (!strcmp(luzhanem_errname(-number), expected)) {
            passed++;
            continue;
        }
        failed++;
        printf("refusal %d is %s in the source, %s in luzhanem.h\n", number, expected, luzhanem_errname(-number));
    }
    fclose(source);
#define COUNT(number, name, text) +1
    IS(0 LUZHANEM_REFUSALS(COUNT), rows);
    IS(rows, 27);
#define NUMBER(number, name, text) IS(LUZHANEM_E_##name, -number);
    LUZHANEM_REFUSALS(NUMBER)
    return finish();
}
