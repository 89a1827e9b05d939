/* durable_crash run URL CHANNEL ROUNDS MOST_MS [LIBRARY FROM TO]: kills a child with eight committing tasks
 * at a random moment, ROUNDS times, and holds what is recovered to what the child had been answered. With
 * powerloss.so as LIBRARY that is what a crash of the machine may leave: the database lies in FROM, and after
 * the kill it becomes what is in TO. durable_crash child URL CHANNEL: that child; its lines go to standard
 * output. durable_crash check URL CHANNEL FILE: holds a channel to the lines in a file. CRASH_HOW=2 in the
 * environment: with LUZHANEM_DURABLE_NORMAL. */
#include "work.h"
#include <fcntl.h>
#include <signal.h>
#include <sys/wait.h>
#include <time.h>

/* What a child told: the last number of each task that was answered, and that was about to be committed. */
struct told {
    uint32_t answered[TASKS], intent[TASKS];
    unsigned counts[3];
};

static void read_lines(int in, struct told *told) {
    struct line l;
    size_t got = 0;
    ssize_t n;
    while ((n = read(in, (char *)&l + got, sizeof l - got)) > 0) {
        got += (size_t)n;
        if (got < sizeof l) continue;
        got = 0;
        told->counts[l.what]++;
        if (l.what == ANSWERED) told->answered[l.task] = l.n;
        if (l.what == INTENT) told->intent[l.task] = l.n;
    }
}

/* Undo of the last grant takes back one step of one task. A log with one record of a task does not tell. */
static bool undo_holds(const luzhanem_store *s, const uint32_t last[TASKS], char *why, size_t room) {
    static luzhanem_store copy;
    uint32_t before[TASKS], all = 0, fewer = 0;
    copy = *s;
    int r = luzhanem_undo(&copy);
    if (r < 0) return snprintf(why, room, "undo: %s", luzhanem_strerror(r)), false;
    for (size_t t = 0; t < TASKS; t++) all += last[t];
    if (all == 0) return at(&copy, 4) == 0 || (snprintf(why, room, "undo of the store's making"), false);
    if (!progress(&copy, before, why, room)) return false;
    if (last[0] < 2 || last[1] < 2) return true;
    for (size_t t = 0; t < TASKS; t++) fewer += last[t] - before[t];
    return fewer == 1 || (snprintf(why, room, "undo took back %u steps", fewer), false);
}

/* Holds a store to what was told; `known` is what was recovered before. */
static bool holds(const luzhanem_store *s, const uint32_t known[TASKS], const struct told *told,
                  uint32_t last[TASKS], char *why, size_t room) {
    if (!progress(s, last, why, room)) return false;
    for (size_t t = 0; t < TASKS; t++) {
        uint32_t least = told->answered[t] > known[t] ? told->answered[t] : known[t],
                 most = told->intent[t] > known[t] ? told->intent[t] : known[t];
        if (last[t] < least)
            return snprintf(why, room, "LOST: task %zu has %u, at least %u", t, last[t], least), false;
        if (last[t] > most)
            return snprintf(why, room, "INVENTED: task %zu has %u, at most %u", t, last[t], most), false;
    }
    return undo_holds(s, last, why, room);
}

static int child(const char *url, const char *channel) {
    static struct work w;
    const char *how = getenv("CRASH_HOW");
    if (open_work(&w, url, channel, LUZHANEM_DURABLE_CREATE | (how ? atoi(how) : 0)) < 0)
        return fprintf(stderr, "open: %s\n", luzhanem_durable_error()), 5;
    w.out = 1;
    start_tasks(&w);
    join_tasks(&w);
    return fprintf(stderr, "the child ended: %u fenced\n", w.fences), 7;
}

/* Starts a child, kills it, and reads what it told. Answers false where it ended by itself. */
static bool one_kill(const char *url, const char *channel, unsigned most, char **loss, struct told *told) {
    int ends[2], status;
    if (pipe(ends) != 0) exit(2);
    fcntl(ends[1], F_SETPIPE_SZ, 1 << 20);
    pid_t p = fork();
    if (p == 0) {
        dup2(ends[1], 1);
        close(ends[0]);
        close(ends[1]);
        if (loss)
            setenv("LD_PRELOAD", loss[0], 1), setenv("POWERLOSS_FROM", loss[1], 1),
                setenv("POWERLOSS_TO", loss[2], 1);
        execl("/proc/self/exe", "durable_crash", "child", url, channel, (char *)NULL);
        _exit(9);
    }
    close(ends[1]);
    usleep(1000u * ((unsigned)rand() % most) + (unsigned)rand() % 1000u);
    kill(p, SIGKILL);
    waitpid(p, &status, 0);
    read_lines(ends[0], told);
    close(ends[0]);
    return WIFSIGNALED(status);
}

/* The files of one folder become those of another. */
static bool replace_files(const char *to, const char *from) {
    char command[2000];
    snprintf(command, sizeof command, "rm -f '%s'/*; cp '%s'/* '%s' 2>/dev/null", to, from, to);
    return system(command) == 0;
}

/* Every other time by a load, and by an open. */
static int recover(const char *url, const char *channel, bool by_load, bool made, luzhanem_store *s) {
    luzhanem_durable *d;
    make_store(s);
    if (by_load) return luzhanem_durable_load(url, channel, s, NULL);
    int r = luzhanem_durable_open(&d, url, channel, made ? 0 : LUZHANEM_DURABLE_CREATE, s, NULL);
    luzhanem_durable_close(d);
    return r;
}

static int rounds(const char *url, const char *channel, int count, unsigned most, char **loss) {
    static luzhanem_store s;
    uint32_t known[TASKS] = { 0 }, last[TASKS], late[TASKS] = { 0 };
    unsigned all[3] = { 0 };
    char why[200];
    bool made = luzhanem_durable_load(url, channel, &s, NULL) == 0 && progress(&s, known, why, sizeof why);
    srand((unsigned)time(NULL) ^ (unsigned)getpid());
    for (int i = 0; i < count; i++) {
        struct told told = { 0 };
        if (!one_kill(url, channel, most, loss, &told))
            return printf("round %d: the child ended by itself\n", i), 1;
        for (int k = 0; k < 3; k++) all[k] += told.counts[k];
        made = made || told.counts[INTENT];
        for (int t = 0; t < TASKS; t++)
            if (told.intent[t] < late[t]) told.intent[t] = late[t];
        if (loss && !replace_files(loss[1], loss[2]) && made)
            return printf("round %d: nothing is left\n", i), 1;
        int r = recover(url, channel, i % 2, made, &s);
        if (r < 0 && !made) continue; /* killed before the channel was there */
        if (r < 0) return printf("round %d: %d %s\n", i, r, luzhanem_durable_error()), 1;
        if (!holds(&s, known, &told, last, why, sizeof why)) return printf("round %d: %s\n", i, why), 1;
        memcpy(known, last, sizeof known);
        /* a server may end a dead host's save after a load, and no more after an open */
        for (int t = 0; t < TASKS; t++) late[t] = i % 2 ? told.intent[t] : 0;
        if (loss) replace_files(loss[2], loss[1]); /* the recovery went to FROM */
    }
    if (!all[ANSWERED]) return printf("%d kills, and no commit was answered\n", count), 1;
    printf("%d kills, %u commits answered as saved, %u as not saved\n", count, all[ANSWERED], all[UNSAVED]);
    return 0;
}

static int check_file(const char *url, const char *channel, const char *file) {
    static luzhanem_store s;
    struct told told = { 0 };
    uint32_t known[TASKS] = { 0 }, last[TASKS];
    int64_t generation;
    char why[200];
    int in = open(file, O_RDONLY);
    if (in < 0) return perror(file), 2;
    read_lines(in, &told);
    close(in);
    if (luzhanem_durable_load(url, channel, &s, &generation) < 0)
        return printf("load: %s\n", luzhanem_durable_error()), 1;
    if (!holds(&s, known, &told, last, why, sizeof why)) return printf("%s\n", why), 1;
    printf("%u commits answered as saved, %u as not saved; generation %lld\n", told.counts[ANSWERED],
           told.counts[UNSAVED], (long long)generation);
    return 0;
}

int main(int n, char **a) {
    if ((n == 6 || n == 9) && strcmp(a[1], "run") == 0)
        return rounds(a[2], a[3], atoi(a[4]), (unsigned)atoi(a[5]), n == 9 ? a + 6 : NULL);
    if (n == 4 && strcmp(a[1], "child") == 0) return child(a[2], a[3]);
    if (n == 5 && strcmp(a[1], "check") == 0) return check_file(a[2], a[3], a[4]);
    return fprintf(stderr, "durable_crash run|child|check URL CHANNEL ..\n"), 2;
}
