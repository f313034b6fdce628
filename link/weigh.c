/* Weigh a load with the proved library: check program T, run it on the samples 41200 and 15600, then once more in two calls,
   in working memory that is static, as in firmware; then with the tables on the stack; at the end the day's report. */
#include "stal.h"
#include <stdio.h>
#include <string.h>

static const char program[] = "I\nU,0,0\nE\nC,-,2,1,-,-,-,-,-,-,-\nB,3\nld,r2,r1,0\nld,r3,r1,1\nsub,r1,r2,r3\nhalt,0\n";
static const char samples[] = "41200\n15600\n";
/* jumps to a block that asks for integers in r1, which is a tuple there, and in r2, of which nothing is known */
static const char faulty[] = "I\nU,0,0\nE\nC,-,2,1,-,-,-,-,-,-,-\nC,-,2,0,0,-,-,-,-,-,-\nB,3\njmp,#1\nB,4\nhalt,0\n";
static const char correction[] = "halted,4,int,-7\n";
static stal_memory memory;
static stal_state state;

static uint8_t line[STAL_LINE], day[4000]; /* a line to print, and the stop lines of the day */
static size_t end;

static void print(stal_line w) {
    if (w.code == STAL_WRITTEN)
        fwrite(line, 1, w.length, stdout);
    else
        puts("misuse");
}

/* the line, and of a faulty jump or branch the first item that does not fit */
static void print_verdict(stal_verdict v) {
    print(stal_verdict_to(v, line, sizeof line));
    if (v.code == 10 && v.second != 100)
        printf("item %zu\n", v.second);
}

/* a stop is also kept for the day's report */
static void print_answer(stal_answer a) {
    print(stal_answer_to(a, line, sizeof line));
    if (a.code == STAL_HALTED || (a.code >= STAL_PAUSED && a.code <= STAL_STUCK))
        end += stal_answer_to(a, day + end, sizeof day - end).length;
}

/* the day's line, and its figures */
static void print_report(const uint8_t *text, size_t len) {
    stal_figures f;
    print(stal_report_to(text, len, line, sizeof line));
    if (stal_report_text(text, len, &f).code == STAL_REPORTED)
        printf("total %lld, mean %lld, from %lld to %lld\n", (long long)f.total, (long long)f.quotient, (long long)f.smallest,
               (long long)f.largest);
}

int main(void) {
    const uint8_t *text = (const uint8_t *)program, *load = (const uint8_t *)samples;
    size_t n = strlen(program), m = strlen(samples);
    print_verdict(stal_check_with(text, n, &memory));
    print_answer(stal_start_with(text, n, load, m, STAL_BUDGET, &memory, &state));
    print_answer(stal_start_with(text, n, load, m, 2, &memory, &state));
    print_answer(stal_continue_with(text, n, STAL_BUDGET, &memory, &state));
    /* what the boundary answers: no text, a faulty jump, a load that does not fit, a damaged state */
    print_verdict(stal_check_with(NULL, 0, &memory));
    print_verdict(stal_check_with((const uint8_t *)faulty, strlen(faulty), &memory));
    print_answer(stal_start_with(text, n, load, m - 1, 1, &memory, &state));
    state.depth = 257;
    print_answer(stal_continue_with(text, n, 1, &memory, &state));
    /* with the tables on the stack */
    print_verdict(stal_check_text(text, n));
    print_answer(stal_start_state(text, n, load, m, 2, &state));
    print_answer(stal_continue_state(text, n, STAL_BUDGET, &state));
    /* the day's report of these stops and one more; a day with a line that is no stop's */
    memcpy(day + end, correction, strlen(correction));
    print_report(day, end + strlen(correction));
    print_report(text, n);
    return 0;
}
