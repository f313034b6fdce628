/* Times the proved library against the plain C of plain/, in one process and in turn.
   bench                 the table, and once more with working memory lent to ours: medians of ROUNDS runs each, CPU time of this thread,
                         and of the ratio in each round
   bench once NAME WHO   one call of measure NAME by WHO (ours, lent, plain), for a profiler
   bench loop            nanoseconds for each round of the count-down loop
   bench list            the names */
#define _GNU_SOURCE
#include "../link/stal.h"
#include "plain/plain.h"
#include <dirent.h>
#include <stdio.h>
#include <stdlib.h>
#include <string.h>
#include <time.h>

enum { ROUNDS = 101 };

typedef struct {
    uint8_t *at;
    size_t len;
} bytes;

static bytes slurp(const char *name) {
    FILE *f = fopen(name, "rb");
    bytes b = {malloc(70000), 0};
    if (f) {
        b.len = fread(b.at, 1, 70000, f);
        fclose(f);
    }
    return b;
}

static double now(void) {
    struct timespec t;
    clock_gettime(CLOCK_THREAD_CPUTIME_ID, &t);
    return t.tv_sec * 1e9 + t.tv_nsec;
}

/* the same machine with a switch in place of computed goto (machine.c, compiled once more) */
plain_answer plain_start_switch(const uint8_t *text, size_t len, const uint8_t *samples, size_t slen, size_t budget, plain_state *st);

enum { OURS, PLAIN, SWITCH, WHO };

/* what is measured: a check, or a start with a budget; by ours with the tables on the stack or with working memory lent */
typedef struct {
    char name[64];
    int run, lent;
    bytes text, samples;
    size_t budget;
} measure;

static stal_memory memory;
static stal_state ours;
static plain_state plain;

static stal_answer start(const measure *m) {
    if (m->lent)
        return stal_start_with(m->text.at, m->text.len, m->samples.at, m->samples.len, m->budget, &memory, &ours);
    return stal_start_state(m->text.at, m->text.len, m->samples.at, m->samples.len, m->budget, &ours);
}

/* one call; what it answers, as a number to compare */
static uint64_t call(const measure *m, int who) {
    if (!m->run) {
        if (who != OURS) {
            plain_verdict v = plain_check(m->text.at, m->text.len);
            return v.code << 24 | v.a << 12 | (v.code ? 0 : v.b);
        }
        stal_verdict v = m->lent ? stal_check_with(m->text.at, m->text.len, &memory) : stal_check_text(m->text.at, m->text.len);
        return v.code << 24 | v.first << 12 | (v.code ? 0 : v.second);
    }
    if (who != OURS) {
        plain_answer a = (who == PLAIN ? plain_start : plain_start_switch)(m->text.at, m->text.len, m->samples.at, m->samples.len, m->budget, &plain);
        return (uint64_t)a.code << 56 | (uint64_t)a.a << 32 | (a.code ? 0 : a.number);
    }
    stal_answer a = start(m);
    return (uint64_t)a.code << 56 | (uint64_t)a.first << 32 | (a.code ? 0 : a.number);
}

static int by_size(const void *a, const void *b) {
    double x = *(const double *)a, y = *(const double *)b;
    return (x > y) - (x < y);
}

/* medians over rounds of nanoseconds a call, of the same less a call with no steps, and of each one's time over ours in the same round */
typedef struct {
    double call[WHO], steps[WHO], ratio[WHO], steps_ratio[WHO];
} times;

static double median(const double *t, int n) {
    static double s[ROUNDS];
    memcpy(s, t, n * sizeof *t);
    qsort(s, n, sizeof *s, by_size);
    return s[n / 2];
}

static double lap(const measure *m, int who, int n) {
    double from = now();
    for (int i = 0; i < n; i++)
        call(m, who);
    return (now() - from) / n;
}

static times time_it(const measure *m) {
    static double t[WHO][ROUNDS], s[WHO][ROUNDS], q[WHO][ROUNDS], sq[WHO][ROUNDS];
    times all;
    measure idle = *m;
    int whos = m->run ? WHO : SWITCH, steps = m->run && m->budget;
    uint64_t said = call(m, OURS);
    double one = lap(m, OURS, 1);
    int rounds = one > 1e7 ? 15 : ROUNDS, n = one > 2e6 ? 1 : (int)(2e6 / (one + 1)) + 1; /* some 2 ms a run */
    idle.budget = 0;
    if (n > 2000)
        n = 2000;
    if (said != call(m, PLAIN) || said != call(m, SWITCH))
        printf("%s: the answers differ (as they do for a text with packages, which plain C has not)\n", m->name);
    for (int r = 0; r < rounds; r++)
        for (int who = 0; who < whos; who++) {
            t[who][r] = lap(m, who, n);
            s[who][r] = t[who][r] - (steps ? lap(&idle, who, n) : 0);
            q[who][r] = t[who][r] / t[OURS][r];
            sq[who][r] = s[who][r] / s[OURS][r];
        }
    for (int who = 0; who < whos; who++) {
        all.call[who] = median(t[who], rounds);
        all.steps[who] = median(s[who], rounds);
        all.ratio[who] = median(q[who], rounds);
        all.steps_ratio[who] = median(sq[who], rounds);
    }
    return all;
}

static measure all[64];
static int count;

static void add(const char *name, int run, const char *dir, size_t budget) {
    char path[300];
    measure *m = &all[count++];
    snprintf(m->name, sizeof m->name, "%s", name);
    m->run = run;
    snprintf(path, sizeof path, "bench/programs/%s/program.txt", dir);
    m->text = slurp(path);
    snprintf(path, sizeof path, "bench/programs/%s/samples.txt", dir);
    m->samples = slurp(path);
    m->budget = budget;
}

static void add_hostile(const char *dir) {
    char path[400];
    struct dirent **names;
    int n = scandir(dir, &names, 0, alphasort);
    for (int i = 0; i < n; i++) {
        char *dot = strstr(names[i]->d_name, ".txt");
        if (dot && dot[4] == 0) {
            measure *m = &all[count++];
            *dot = 0;
            snprintf(m->name, sizeof m->name, "hostile %.40s", names[i]->d_name);
            snprintf(path, sizeof path, "%s/%s.txt", dir, names[i]->d_name);
            m->text = slurp(path);
            m->run = 0;
        }
        free(names[i]);
    }
    if (n >= 0)
        free(names);
}

static void table(int lent) {
    double worst[2] = {0, 0};
    const char *slow = "";
    if (lent)
        printf("\nwith working memory lent to ours\n");
    printf("%-28s %8s %8s %8s   %-24s %s\n", "M steps a second", "ours", "plain C", "switch", "ours/plain, ours/switch", "steps alone (less a start with no steps): ours/plain, ns a step");
    for (int i = 0; i < count; i++) {
        measure *m = &all[i];
        m->lent = lent;
        times x = time_it(m);
        double *t = x.call;
        if (m->run && m->budget) {
            size_t steps = start(m).first;
            printf("%-28s %8.1f %8.1f %8.1f   %.2f, %.2f %14s %.2f   %.2f, %.2f, %.2f   (%zu steps)\n", m->name, steps / t[OURS] * 1e3, steps / t[PLAIN] * 1e3, steps / t[SWITCH] * 1e3,
                   x.ratio[PLAIN], x.ratio[SWITCH], "", x.steps_ratio[PLAIN], x.steps[OURS] / steps, x.steps[PLAIN] / steps, x.steps[SWITCH] / steps, steps);
        } else if (!strncmp(m->name, "hostile", 7)) {
            if (getenv("BENCH_ALL"))
                printf("%-28s %11.0f us %11.0f us %9.2f\n", m->name, t[0] / 1e3, t[1] / 1e3, 1 / x.ratio[PLAIN]);
            if (t[0] > worst[0]) {
                worst[0] = t[0];
                worst[1] = t[1];
                slow = m->name;
            }
        } else
            printf("%-28s %11.2f us %11.2f us %9.2f   (%zu bytes)\n", m->name, t[0] / 1e3, t[1] / 1e3, 1 / x.ratio[PLAIN], m->text.len);
        if (m->run && m->budget && i + 1 < count && !(all[i + 1].run && all[i + 1].budget))
            printf("\n%-28s %11s    %11s    %9s\n", "a call", "ours", "plain C", "ours/plain");
        fflush(stdout);
    }
    if (*slow)
        printf("%-28s %11.0f us %11.0f us %9.2f   (the slowest for ours)\n", slow, worst[0] / 1e3, worst[1] / 1e3, worst[0] / worst[1]);
}

int main(int argc, char **argv) {
    add("count-down loop", 1, "countdown", 1000000);
    add("recursive factorial", 1, "factorial", 1000000);
    add("malloc (fills the heap)", 1, "malloc", 1000000);
    add("tuple loads and stores", 1, "tuples", 1000000);
    add("stack pointers", 1, "pointers", 1000000);
    add("start, nine-line text", 1, "net_weight", 0);
    add("start, 64 KB text", 1, "typical", 0);
    add("check, nine-line text", 0, "net_weight", 0);
    add("check, factorial", 0, "factorial", 0);
    add("check, typical 64 KB", 0, "typical", 0);
    add_hostile("examples/hostile");
    add_hostile("bench/hostile");
    if (argc > 3 && !strcmp(argv[1], "once")) {
        for (int i = 0; i < count; i++)
            if (!strcmp(all[i].name, argv[2])) {
                all[i].lent = !strcmp(argv[3], "lent");
                return (int)(call(&all[i], !strcmp(argv[3], "plain")) & 0);
            }
        return 2;
    }
    if (argc > 1 && !strcmp(argv[1], "list")) {
        for (int i = 0; i < count; i++)
            puts(all[i].name);
        return 0;
    }
    if (argc > 1 && !strcmp(argv[1], "loop")) {
        times x = time_it(&all[0]);
        printf("ours %f\nplain_C %f\nplain_C_switch %f\n", x.call[OURS] / 333000, x.call[PLAIN] / 333000, x.call[SWITCH] / 333000);
        return 0;
    }
    table(0);
    table(1);
    return 0;
}
