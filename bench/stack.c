/* How much stack a call uses: it is made on a thread whose stack was painted, and the paint that is left is counted. */
#define _GNU_SOURCE
#include "../link/stal.h"
#include <dirent.h>
#include <pthread.h>
#include <stdio.h>
#include <stdlib.h>
#include <string.h>
#include <sys/mman.h>

enum { SIZE = 16 << 20, PAINT = 0xa5 };

typedef struct {
    int what, lent; /* 0 nothing, 1 check, 2 start and continue; with working memory lent */
    const uint8_t *text, *samples;
    size_t len, samples_len;
} job;

static stal_memory memory;
static stal_state state;

static void *work(void *p) {
    const job *j = p;
    if (j->what == 1)
        stal_check_text(j->text, j->len);
    if (j->what == 2) {
        stal_start_state(j->text, j->len, j->samples, j->samples_len, 1, &state);
        stal_continue_state(j->text, j->len, 1000000, &state);
    }
    return NULL;
}

static void *work_lent(void *p) {
    const job *j = p;
    if (j->what == 1)
        stal_check_with(j->text, j->len, &memory);
    if (j->what == 2) {
        stal_start_with(j->text, j->len, j->samples, j->samples_len, 1, &memory, &state);
        stal_continue_with(j->text, j->len, 1000000, &memory, &state);
    }
    return NULL;
}

static size_t used(job *j) {
    pthread_attr_t a;
    pthread_t t;
    uint8_t *s = mmap(NULL, SIZE, PROT_READ | PROT_WRITE, MAP_PRIVATE | MAP_ANONYMOUS, -1, 0);
    size_t k = 0;
    memset(s, PAINT, SIZE);
    pthread_attr_init(&a);
    pthread_attr_setstack(&a, s, SIZE);
    if (pthread_create(&t, &a, j->lent ? work_lent : work, j))
        exit(1);
    pthread_join(t, NULL);
    while (k < SIZE && s[k] == PAINT)
        k++;
    munmap(s, SIZE);
    return SIZE - k;
}

static uint8_t text[70000], samples[1000];

static size_t slurp(const char *dir, const char *name, uint8_t *to, size_t cap) {
    char path[600];
    snprintf(path, sizeof path, "%s/%s", dir, name);
    FILE *f = fopen(path, "rb");
    size_t n = f ? fread(to, 1, cap, f) : 0;
    if (f)
        fclose(f);
    return n;
}

/* less what a thread uses that makes no call */
static size_t used_by_call(job j) {
    job none = {0, j.lent, text, samples, 0, 0};
    return used(&j) - used(&none);
}

/* of the hostile texts the one that takes the most */
static void most(const char *dir, int what, int lent, size_t *max, char *name) {
    struct dirent **names;
    int n = scandir(dir, &names, 0, alphasort);
    for (int i = 0; i < n; i++) {
        if (strstr(names[i]->d_name, ".txt")) {
            job j = {what, lent, text, samples, slurp(dir, names[i]->d_name, text, sizeof text), 0};
            size_t u = used_by_call(j);
            if (u > *max) {
                *max = u;
                snprintf(name, 100, "%.90s", names[i]->d_name);
            }
        }
        free(names[i]);
    }
}

static void table(int lent, int argc, char **argv) {
    static const char *const programs[] = {"net_weight", "factorial", "malloc", "typical"};
    static const char *const whats[] = {"check", "start and continue"};
    for (unsigned i = 0; i < sizeof programs / sizeof *programs; i++) {
        char dir[100];
        snprintf(dir, sizeof dir, "bench/programs/%s", programs[i]);
        job c = {1, lent, text, samples, slurp(dir, "program.txt", text, sizeof text), slurp(dir, "samples.txt", samples, sizeof samples)};
        job r = c;
        r.what = 2;
        printf("%-28s check %8zu   start and continue %8zu\n", programs[i], used_by_call(c), used_by_call(r));
    }
    for (int what = 1; what <= 2; what++) {
        char name[100] = "";
        size_t max = 0;
        most("examples/hostile", what, lent, &max, name);
        most("bench/hostile", what, lent, &max, name);
        for (int i = 1; i < argc; i++)
            most(argv[i], what, lent, &max, name);
        printf("%-28s %s %8zu   (the most of all hostile texts)\n", name, whats[what - 1], max);
    }
}

int main(int argc, char **argv) {
    table(0, argc, argv);
    printf("with working memory lent (its %zu bytes not counted)\n", sizeof memory);
    table(1, argc, argv);
    return 0;
}
