/* Gives the cases of crates/cases/data to the proved library, with and without working memory lent, and to the plain C, and compares: the
   check's answer; the run's answer and the whole lent state after a start, after a start with a budget of 5, and after continuing by 7 and
   by 1,000,000 steps. The working memory holds 0xa5 at first, and then what the call before left in it. Texts with packages are left out: the
   plain C has none. */
#include "../link/stal.h"
#include "plain/plain.h"
#include <stdio.h>
#include <stdlib.h>
#include <string.h>

static stal_memory memory;
static stal_state a, l;
static plain_state b;

static int same_state(void) {
    return !memcmp(&a, &l, sizeof a) && !memcmp(a.rk, b.rk, 8) && !memcmp(a.rn, b.rn, sizeof b.rn) && !memcmp(a.sk, b.sk, 256) && !memcmp(a.sn, b.sn, sizeof b.sn) && !memcmp(a.hk, b.hk, 2048) &&
           !memcmp(a.hn, b.hn, sizeof b.hn) && a.depth == b.depth && a.used == b.used && a.position == b.position;
}

static int same_answer(stal_answer x, stal_answer z, plain_answer y) {
    return x.code == z.code && x.first == z.first && x.kind == z.kind && x.number == z.number && x.code == y.code && x.first == y.a &&
           (x.code || (x.kind == y.kind && x.number == y.number)) && same_state();
}

static int start(const uint8_t *t, size_t n, const uint8_t *s, size_t m, size_t budget) {
    return same_answer(stal_start_state(t, n, s, m, budget, &a), stal_start_with(t, n, s, m, budget, &memory, &l), plain_start(t, n, s, m, budget, &b));
}

static int resume(const uint8_t *t, size_t n, size_t budget) {
    return same_answer(stal_continue_state(t, n, budget, &a), stal_continue_with(t, n, budget, &memory, &l), plain_resume(t, n, budget, &b));
}

static int agree(const uint8_t *t, size_t n, const uint8_t *s, size_t m) {
    stal_verdict v = stal_check_text(t, n), z = stal_check_with(t, n, &memory);
    plain_verdict w = plain_check(t, n);
    int ok = v.code == w.code && v.first == w.a && v.second == w.b;
    ok &= v.code == z.code && v.first == z.first && v.second == z.second;
    memset(&a, 0, sizeof a);
    memset(&l, 0, sizeof l);
    memset(&b, 0, sizeof b);
    ok &= start(t, n, s, m, STAL_BUDGET);
    ok &= start(t, n, s, m, 5);
    ok &= resume(t, n, 7);
    ok &= resume(t, n, STAL_BUDGET);
    return ok;
}

static uint8_t file[1 << 20], text[1 << 17], samples[1 << 17];

/* some line is an `H` row or an `unpack`, or has an operand that packs */
static int packages(size_t n) {
    for (size_t i = 0; i < n; i++)
        if (text[i] == '!' || ((i == 0 || text[i - 1] == '\n') && (text[i] == 'H' || text[i] == 'u')))
            return 1;
    return 0;
}

/* the cases of a packed file (tools/pack_cases tells its form): of each the text and the samples */
static int cases(const char *name, size_t n, int *good) {
    size_t at = 0, t = 0, s = 0;
    int count = 0;
    while (at < n) {
        const char *line = (const char *)file + at;
        char *rest;
        unsigned long a = strtoul(line + 1, &rest, 10), b = strtoul(rest, NULL, 10);
        while (file[at++] != '\n')
            ;
        if (*line == 'c')
            t = s = 0;
        if (*line == 't') {
            for (; a; a--, t += b)
                memcpy(text + t, file + at, b);
            at += b + 1;
        }
        if (*line == 's') {
            memcpy(samples, file + at, s = a);
            at += a + 1;
        }
        if (*line == 'a' && !packages(t)) {
            int ok = agree(text, t, samples, s);
            count++;
            *good += ok;
            if (!ok)
                printf("%s, case %d differs\n", name, count);
        }
    }
    return count;
}

int main(int argc, char **argv) {
    int all = 0, good = 0;
    memset(&memory, 0xa5, sizeof memory);
    for (int i = 1; i < argc; i++) {
        FILE *f = fopen(argv[i], "rb");
        if (!f)
            return 2;
        size_t n = fread(file, 1, sizeof file - 1, f);
        fclose(f);
        file[n] = 0;
        all += cases(argv[i], n, &good);
    }
    printf("%d cases, %d agree\n", all, good);
    return all != good;
}
