/* plain check <TEXT | plain run DIR [BUDGET] | plain vectors FILE.. (cases with another team's answers; prints how many agree) */
#include "plain.h"
#include <stdio.h>
#include <stdlib.h>
#include <string.h>

static const char *const kinds[] = {"int", "code", "tuple", "height", "junk"};

static void say_verdict(plain_verdict v, char *out) {
    if (!v.code)
        sprintf(out, "accept,%zu,%zu", v.a, v.b);
    else
        sprintf(out, "refuse,%u,%zu", v.code, v.a);
}

static void say_answer(plain_answer a, char *out) {
    if (a.code == PLAIN_HALTED)
        sprintf(out, "halted,%zu,%s,%d", a.a, kinds[a.kind], (int)a.number);
    else if (a.code <= 16)
        sprintf(out, "refuse,%u,%zu", a.code, a.a);
    else
        sprintf(out, "%s,%zu", a.code == PLAIN_PAUSED ? "paused" : a.code == PLAIN_STACK ? "stack" : a.code == PLAIN_HEAP ? "heap" : "stuck", a.a);
}

static size_t slurp(const char *name, uint8_t *buf, size_t cap) {
    FILE *f = strcmp(name, "-") ? fopen(name, "rb") : stdin;
    if (!f)
        return 0;
    size_t n = fread(buf, 1, cap, f);
    if (f != stdin)
        fclose(f);
    return n;
}

static uint8_t text[1 << 20], samples[1 << 16];
static plain_state st;

static int listed(const char *items, size_t item) {
    char want[8];
    sprintf(want, "%zu", item);
    size_t n = strlen(want);
    for (const char *p = items; *p;) {
        size_t k = strcspn(p, ",\n");
        if (k == n && !strncmp(p, want, n))
            return 1;
        p += k + (p[k] == ',');
        if (*p == '\n')
            break;
    }
    return 0;
}

static int vectors(const char *name) {
    FILE *f = fopen(name, "rb");
    char line[512], id[200], got[64];
    size_t p, s;
    int cases = 0, bad = 0;
    if (!f)
        return 1;
    while (fgets(line, sizeof line, f)) {
        if (sscanf(line, "case %199s %zu %zu", id, &p, &s) != 3)
            continue;
        if (fread(text, 1, p, f) != p || fread(samples, 1, s, f) != s || fgetc(f) != '\n')
            return 1;
        cases++;
        plain_verdict v = plain_check(text, p);
        say_verdict(v, got);
        if (!fgets(line, sizeof line, f))
            return 1;
        line[strcspn(line, "\n")] = 0;
        int ok = !strncmp(line, "check ", 6) && !strcmp(line + 6, got);
        if (!ok)
            printf("%s: %s, got %s\n", id, line, got);
        if (!fgets(line, sizeof line, f))
            return 1;
        if (!strncmp(line, "items ", 6)) {
            if (!listed(line + 6, v.b)) {
                ok = 0;
                printf("%s: %s got item %zu\n", id, line, v.b);
            }
            if (!fgets(line, sizeof line, f))
                return 1;
        }
        memset(&st, 0, sizeof st);
        say_answer(plain_start(text, p, samples, s, 1000000, &st), got);
        line[strcspn(line, "\n")] = 0;
        if (strncmp(line, "run ", 4) || strcmp(line + 4, got)) {
            ok = 0;
            printf("%s: %s, got %s\n", id, line, got);
        }
        bad += !ok;
    }
    fclose(f);
    printf("%s: %d cases, %d differ\n", name, cases, bad);
    return bad != 0;
}

int main(int argc, char **argv) {
    char out[64], path[1024];
    int bad = 0;
    if (argc >= 2 && !strcmp(argv[1], "check")) {
        size_t n = slurp("-", text, 65537);
        say_verdict(plain_check(text, n), out);
        puts(out);
    } else if (argc >= 3 && !strcmp(argv[1], "run")) {
        snprintf(path, sizeof path, "%s/program.txt", argv[2]);
        size_t n = slurp(path, text, 65537);
        snprintf(path, sizeof path, "%s/samples.txt", argv[2]);
        size_t s = slurp(path, samples, sizeof samples);
        say_answer(plain_start(text, n, samples, s, argc > 3 ? strtoul(argv[3], 0, 10) : 1000000, &st), out);
        puts(out);
    } else if (argc >= 3 && !strcmp(argv[1], "vectors")) {
        for (int i = 2; i < argc; i++)
            bad |= vectors(argv[i]);
    } else {
        fprintf(stderr, "plain check <TEXT | plain run DIR [BUDGET] | plain vectors FILE..\n");
        return 2;
    }
    return bad;
}
