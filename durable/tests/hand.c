/* durable_hand URL CHANNEL [UNTIL]: a host with one task that is driven by lines. It waits for the file
 * UNTIL, opens the channel, and prints the answer and what file 1 has. For each line, a number, it puts the
 * number into file 1, commits, syncs, and prints the answer, the milliseconds that the sync took, and the
 * words of an error. */
#include "check.h"
#include <time.h>
#include <unistd.h>

static luzhanem_store s;

static long long now(void) {
    struct timespec t;
    clock_gettime(CLOCK_MONOTONIC, &t);
    return t.tv_sec * 1000LL + t.tv_nsec / 1000000;
}

static void say(int answer, long long ms) {
    printf("%d %.9s %lld ms %s\n", answer, luzhanem_length(&s, 1) ? (const char *)luzhanem_file(&s, 1) : "-",
           ms, answer < 0 ? luzhanem_durable_error() : "");
    fflush(stdout);
}

int main(int n, char **v) {
    luzhanem_durable *d;
    char line[100];
    if (n != 3 && n != 4) return fprintf(stderr, "durable_hand URL CHANNEL [UNTIL]\n"), 2;
    must(luzhanem_fresh(&s, sizeof s, NULL), "fresh");
    while (n == 4 && access(v[3], F_OK) != 0) usleep(200);
    long long began = now();
    int r = luzhanem_durable_open(&d, v[1], v[2], LUZHANEM_DURABLE_CREATE, &s, NULL);
    say(r, now() - began);
    if (r < 0) return 1;
    while (fgets(line, sizeof line, stdin)) {
        char text[16];
        snprintf(text, sizeof text, "%09d", atoi(line) % 1000000000);
        must(luzhanem_begin(&s, 0), "begin");
        must(luzhanem_seek(&s, 0, 1, 0), "seek");
        must(luzhanem_write(&s, 0, 1, text, 9), "write");
        must(luzhanem_commit(&s, 0, 0), "commit");
        began = now();
        r = luzhanem_durable_sync(d);
        say(r, now() - began);
    }
    luzhanem_durable_close(d);
    return 0;
}
