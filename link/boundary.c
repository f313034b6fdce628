/* What stal.h says of null, short, overlapping and damaged memory, and of the item of a faulty jump, tried. Prints each that fails, and how
   many there are. */
#include "stal.h"
#include <stdio.h>
#include <string.h>

static const char program[] = "I\nU,0,0\nE\nC,-,2,1,-,-,-,-,-,-,-\nB,3\nld,r2,r1,0\nld,r3,r1,1\nsub,r1,r2,r3\nhalt,0\n";
static const char samples[] = "41200\n15600\n";
static const uint8_t *const text = (const uint8_t *)program, *const load = (const uint8_t *)samples;
enum { N = sizeof program - 1, M = sizeof samples - 1 };
static uint8_t large[65537];
static stal_state s, t;
static stal_memory memory, before;
static int cases, failed;

static void expect(int ok, const char *what) {
    cases++;
    failed += !ok;
    if (!ok)
        printf("fails: %s\n", what);
}

static void fill(int byte) {
    memset(&s, byte, sizeof s);
    memset(&memory, byte, sizeof memory);
    t = s;
    before = memory;
}

static int unchanged(void) {
    return !memcmp(&s, &t, sizeof s) && !memcmp(&memory, &before, sizeof memory);
}

/* a start with a state of other lengths */
static size_t start_in(size_t registers, size_t stack, size_t heap) {
    stal_answer a;
    return stal_start(text, N, load, M, 9, s.rk, registers, s.rn, registers, s.sk, stack, s.sn, stack, s.hk, heap, s.hn, heap,
                      &s.depth, &s.used, &s.position, &a.first, &a.kind, &a.number);
}

/* the calls with tables on the stack */
static void on_the_stack(void) {
    fill(77);
    expect(stal_check_text(NULL, 1).code == STAL_MISUSE, "null text");
    expect(stal_check_text(NULL, 0).code == 8, "empty text");
    expect(stal_check_text(large, 65537).code == 3, "long text");
    expect(stal_start_state(NULL, 1, load, M, 9, &s).code == STAL_MISUSE, "start, null text");
    expect(stal_start_state(text, N, NULL, 1, 9, &s).code == STAL_MISUSE, "start, null samples");
    expect(stal_start_state(text, N, load, M, 9, NULL).code == STAL_MISUSE, "start, null state");
    expect(stal_start_state(text, N, NULL, 0, 9, &s).code == 15, "start, no samples");
    expect(stal_start_state((uint8_t *)&s + 9, 5, load, M, 9, &s).code == STAL_MISUSE, "start, text within the state");
    expect(stal_start_state(text, N, (uint8_t *)&s + sizeof s - 1, 5, 9, &s).code == STAL_MISUSE, "start, samples over the state's end");
    expect(stal_continue_state(NULL, 1, 9, &s).code == STAL_MISUSE, "continue, null text");
    expect(stal_continue_state(text, N, 9, NULL).code == STAL_MISUSE, "continue, null state");
    expect(stal_continue_state((uint8_t *)&s, 1, 9, &s).code == STAL_MISUSE, "continue, text within the state");
    expect(stal_continue_state(text, N, 9, &s).code == 16, "continue, damaged state");
    expect(start_in(7, 256, 2048) == 16, "seven registers");
    expect(start_in(8, 255, 2048) == 16, "255 stack words");
    expect(start_in(8, 256, 2047) == 16, "2,047 heap words");
    expect(start_in(0, 0, 0) == 16, "no state lent");
    expect(unchanged(), "refusals and misuse leave the state as it was");
    expect(start_in(8, 256, 2048) == STAL_HALTED, "enough lent");
    expect(stal_continue_state(text, N, 9, &s).code == STAL_HALTED, "continue at the halt");
}

/* the calls with working memory lent: null and overlapping */
static void misused(void) {
    uint8_t *inside = (uint8_t *)memory.literals + 3, *end = (uint8_t *)(&memory + 1) - 1;
    stal_state *within = (stal_state *)memory.plan;
    fill(77);
    expect(stal_check_with(NULL, 1, &memory).code == STAL_MISUSE, "check in memory, null text");
    expect(stal_check_with(text, N, NULL).code == STAL_MISUSE, "check, null memory");
    expect(stal_check_with(inside, 5, &memory).code == STAL_MISUSE, "check, text within the memory");
    expect(stal_check_with(end, 5, &memory).code == STAL_MISUSE, "check, text over the memory's end");
    expect(stal_start_with(NULL, 1, load, M, 9, &memory, &s).code == STAL_MISUSE, "start in memory, null text");
    expect(stal_start_with(text, N, NULL, 1, 9, &memory, &s).code == STAL_MISUSE, "start in memory, null samples");
    expect(stal_start_with(text, N, load, M, 9, NULL, &s).code == STAL_MISUSE, "start, null memory");
    expect(stal_start_with(text, N, load, M, 9, &memory, NULL).code == STAL_MISUSE, "start in memory, null state");
    expect(stal_start_with(inside, 5, load, M, 9, &memory, &s).code == STAL_MISUSE, "start, text within the memory");
    expect(stal_start_with(text, N, end, 5, 9, &memory, &s).code == STAL_MISUSE, "start, samples over the memory's end");
    expect(stal_start_with((uint8_t *)&s, 5, load, M, 9, &memory, &s).code == STAL_MISUSE, "start in memory, text within the state");
    expect(stal_start_with(text, N, (uint8_t *)&s, 5, 9, &memory, &s).code == STAL_MISUSE, "start in memory, samples within the state");
    expect(stal_start_with(text, N, load, M, 9, &memory, within).code == STAL_MISUSE, "start, state within the memory");
    expect(stal_continue_with(NULL, 1, 9, &memory, &s).code == STAL_MISUSE, "continue in memory, null text");
    expect(stal_continue_with(text, N, 9, NULL, &s).code == STAL_MISUSE, "continue, null memory");
    expect(stal_continue_with(text, N, 9, &memory, NULL).code == STAL_MISUSE, "continue in memory, null state");
    expect(stal_continue_with(inside, 5, 9, &memory, &s).code == STAL_MISUSE, "continue, text within the memory");
    expect(stal_continue_with((uint8_t *)&s, 5, 9, &memory, &s).code == STAL_MISUSE, "continue in memory, text within the state");
    expect(stal_continue_with(text, N, 9, &memory, within).code == STAL_MISUSE, "continue, state within the memory");
    expect(unchanged(), "misuse leaves state and memory as they were");
}

/* working memory of other lengths, and any text: each call answers 16, line 0 */
static int short_of(const uint8_t *bytes, size_t len, size_t image, size_t literals, size_t plan, size_t work) {
    stal_verdict v = {0, 7, 7};
    stal_answer a = {0, 7, 7, 7}, b = a;
    v.code = stal_check_in(bytes, len, memory.image, image, memory.literals, literals, memory.plan, plan, memory.work, work, &v.first, &v.second);
    if (v.code != 16 || v.first != 0 || v.second != 100)
        return 0;
    if (work < STAL_WORK) /* a check's alone */
        return 1;
    a.code = stal_start_in(bytes, len, load, M, 9, memory.image, image, memory.literals, literals, memory.plan, plan, s.rk, 8, s.rn, 8, s.sk, 256,
                           s.sn, 256, s.hk, 2048, s.hn, 2048, &s.depth, &s.used, &s.position, &a.first, &a.kind, &a.number);
    b.code = stal_continue_in(bytes, len, 9, memory.image, image, memory.literals, literals, memory.plan, plan, s.rk, 8, s.rn, 8, s.sk, 256,
                              s.sn, 256, s.hk, 2048, s.hn, 2048, &s.depth, &s.used, &s.position, &b.first, &b.kind, &b.number);
    return a.code == 16 && a.first == 0 && b.code == 16 && b.first == 0;
}

static void too_short(void) {
    enum { I = STAL_IMAGE, L = STAL_LITERALS, P = STAL_PLAN, W = STAL_WORK };
    stal_verdict v;
    fill(77);
    stal_start_state(text, N, load, M, 2, &s); /* a state that could be continued */
    t = s;
    expect(short_of(text, N, I - 1, L, P, W), "an image of 259,997");
    expect(short_of(text, N, I, L - 1, P, W), "16,399 literals");
    expect(short_of(text, N, I, L, P - 1, W), "a plan of 8,207");
    expect(short_of(text, N, I, L, P, W - 1), "8,191 words of work");
    expect(short_of(text, N, 0, L, P, W), "no image");
    expect(short_of(text, N, 0, 0, 0, 0), "no memory");
    expect(short_of(large, 65537, I - 1, L, P, W), "short memory before a long text");
    expect(short_of(text, 0, I, L, P - 1, W), "short memory before an empty text");
    expect(unchanged(), "short memory leaves state and memory as they were");
    expect(stal_check_in(text, N, (uint16_t *)&memory, sizeof memory / 2, before.literals, L, before.plan, P, before.work, W, &v.first, &v.second) == STAL_ACCEPTED,
           "a longer image");
}

/* The same answers and states as with the tables on the stack, whatever byte the working memory is full of at each call. */
static int same_answer(stal_answer a, stal_answer b) {
    return a.code == b.code && a.first == b.first && a.kind == b.kind && a.number == b.number && !memcmp(&s, &t, sizeof s);
}

static int same(const uint8_t *bytes, size_t len, int byte) {
    stal_verdict v = stal_check_text(bytes, len), w;
    int ok;
    fill(byte);
    w = stal_check_with(bytes, len, &memory);
    ok = v.code == w.code && v.first == w.first && v.second == w.second;
    memset(&memory, byte, sizeof memory);
    ok &= same_answer(stal_start_with(bytes, len, load, M, 2, &memory, &s), stal_start_state(bytes, len, load, M, 2, &t));
    memset(&memory, byte, sizeof memory);
    ok &= same_answer(stal_continue_with(bytes, len, 9, &memory, &s), stal_continue_state(bytes, len, 9, &t));
    ok &= same_answer(stal_continue_with(bytes, len, 9, &memory, &s), stal_continue_state(bytes, len, 9, &t)); /* as the last call left it */
    return ok;
}

/* one text from three: `middle` stands `times` times between the others */
static size_t join(uint8_t *to, const char *from, const char *middle, int times, const char *rest) {
    char *at = (char *)to;
    at += sprintf(at, "%s", from);
    while (times-- > 0)
        at += sprintf(at, "%s", middle);
    return (size_t)(at + sprintf(at, "%s", rest) - (char *)to);
}

static void damaged(void) {
    static const int bytes[] = {0, 77, 255};
    static const char rows[] = "I\nU,0,0\nE\nC,-,2,1,-,-,-,-,-,-,-\n";
    static uint8_t other[8000];
    for (int i = 0; i < 3; i++) {
        int b = bytes[i];
        expect(same(text, N, b), "the same answers");
        expect(same(text, N - 1, b), "the same answers, last line cut");
        expect(same(NULL, 0, b), "the same answers, empty text");
        expect(same(large, 65537, b), "the same answers, long text");
        expect(same(other, join(other, rows, "", 0, "B,3\nld,r2,r1,0\nld,r3,r1,2\nhalt,0\n"), b), "the same answers, index past the end");
        expect(same(other, join(other, rows, "U,0,0,0,0,0,0,0\n", 300, "B,3\nld,r2,r1,0\nld,r3,r1,1\nsub,r1,r2,r3\nhalt,0\n"), b), "the same answers, large text");
        expect(same(other, join(other, rows, "", 0, "B,3\nmalloc,r1,1,1,2\njmp,#0\n"), b), "the same answers, a loop");
    }
}

/* The rows of the program and `rest`: the check's number, line and item. */
static int verdict_of(const char *rest, size_t code, size_t line, size_t item) {
    static uint8_t other[400];
    size_t n = join(other, "I\nU,0,0\nE\nC,-,2,1,-,-,-,-,-,-,-\nK,0,2\n", "", 0, rest);
    stal_verdict v = stal_check_text(other, n), w = stal_check_with(other, n, &memory);
    return v.code == code && v.first == line && v.second == item && w.code == code && w.first == line && w.second == item;
}

/* Where a jump or branch stands below, sp is empty and r1 is the tuple of samples; r2 is an integer if it was moved there, and nothing is
   known of the others. */
static void items(void) {
    expect(verdict_of("C,-,4,0,0,-,-,-,-,-,-\nB,3\njmp,#1\nB,5\nhalt,0\n", 10, 8, 0), "a jump: sp, before r1 and r2");
    expect(verdict_of("C,-,2,0,0,-,-,-,-,-,-\nB,3\njmp,#1\nB,5\nhalt,0\n", 10, 8, 1), "a jump: r1, before r2");
    expect(verdict_of("C,-,2,1,0,-,-,-,-,-,0\nB,3\njmp,#1\nB,5\nhalt,0\n", 10, 8, 2), "a jump: r2, before r8");
    expect(verdict_of("C,-,2,1,0,-,-,-,0,0,-\nB,3\nmov,r2,5\nbeq,r2,#1\nhalt,1\nB,5\nhalt,1\n", 10, 9, 6), "a branch: r6, before r7");
    expect(verdict_of("C,-,2,1,0,-,-,-,-,-,0\nB,3\nmov,r2,5\nbeq,r2,#1\nhalt,1\nB,5\nhalt,1\n", 10, 9, 8), "a branch: r8");
    expect(verdict_of("C,v,2,1,-,-,-,-,-,-,-\nC,-,4,0,0,-,-,-,-,-,-\nB,3\njmp,#1:0=6\nB,5\nhalt,1\n", 10, 9, 99),
           "a jump: the resulting row, before its sp, r1 and r2");
    expect(verdict_of("C,-,4,0,0,-,-,-,-,-,-\nB,3\nbeq,r1,#1\nhalt,1\nB,5\nhalt,0\n", 9, 8, 100), "a branch on a tuple: no item");
    expect(verdict_of("B,3\nhalt,0\n", 10, 7, 100), "10 at a halt: no item");
}

/* the memory is full of 77, but for the n bytes of `line` at its start */
static uint8_t bytes[200];

static int holds(const char *line, size_t n) {
    for (size_t i = n; i < sizeof bytes; i++)
        if (bytes[i] != 77)
            return 0;
    return !memcmp(bytes, line, n);
}

/* a line is written whole where there is room for it, and not at all where one byte is missing; then the memory is as before */
static int fits(stal_line (*write)(size_t room), const char *line) {
    size_t n = strlen(line);
    stal_line w;
    memset(bytes, 77, sizeof bytes);
    w = write(n - 1);
    if (w.code != STAL_SHORT || w.length != 0 || !holds("", 0) || write(0).code != STAL_SHORT || !holds("", 0))
        return 0;
    w = write(n);
    if (w.code != STAL_WRITTEN || w.length != n || !holds(line, n))
        return 0;
    memset(bytes, 77, sizeof bytes);
    w = write(sizeof bytes);
    return w.code == STAL_WRITTEN && w.length == n && holds(line, n);
}

static const uint8_t day[] = "halted,3,int,25600\nstuck,9\nhalted,5,int,-7\n";
enum { D = sizeof day - 1 };
static stal_verdict verdict;
static stal_answer answer;
static size_t day_len;

static stal_line write_report(size_t room) {
    return stal_report_to(day, day_len, bytes, room);
}

static stal_line write_verdict(size_t room) {
    return stal_verdict_to(verdict, bytes, room);
}

static stal_line write_answer(size_t room) {
    return stal_answer_to(answer, bytes, room);
}

static int verdict_is(size_t code, size_t first, size_t second, const char *line) {
    stal_verdict v = {code, first, second};
    verdict = v;
    return fits(write_verdict, line);
}

static int answer_is(size_t code, size_t first, uint8_t kind, uint32_t number, const char *line) {
    stal_answer a = {code, first, kind, number};
    answer = a;
    return fits(write_answer, line);
}

static int report_is(size_t len, const char *line) {
    day_len = len;
    return fits(write_report, line);
}

/* the lines of reports, verdicts and answers */
static void lines(void) {
    stal_verdict misuse = stal_check_text(NULL, 1);
    stal_answer no_state = stal_continue_state(text, N, 9, NULL);
    expect(report_is(D, "2,1,25593,-7,25600,12796,1\n"), "a report's line");
    expect(report_is(0, "0,0,-,-,-,-,-\n"), "the line of an empty day");
    expect(report_is(D - 1, "refuse,17,3\n"), "the line of a day cut short");
    expect(verdict_is(STAL_ACCEPTED, 1, 4, "accept,1,4\n"), "an acceptance's line");
    expect(verdict_is(10, 7, 99, "refuse,10,7\n"), "a refusal's line");
    expect(verdict_is(SIZE_MAX, SIZE_MAX, 0, "refuse,18446744073709551615,18446744073709551615\n"), "the longest line of a verdict");
    expect(answer_is(STAL_HALTED, 3, STAL_INT, 0xfffffff9u, "halted,3,int,-7\n"), "a halt's line");
    expect(answer_is(STAL_HALTED, SIZE_MAX, STAL_HEIGHT, 0x80000000u, "halted,18446744073709551615,height,-2147483648\n"),
           "the longest line of an answer");
    expect(answer_is(STAL_HALTED, 3, 255, 0, "halted,3,junk,0\n"), "a halt's line, no such kind");
    expect(answer_is(STAL_PAUSED, 2, 9, 9, "paused,2\n"), "a pause's line");
    expect(answer_is(STAL_STACK_FULL, 2, 0, 0, "stack,2\n"), "a full stack's line");
    expect(answer_is(STAL_HEAP_FULL, 2, 0, 0, "heap,2\n"), "a full heap's line");
    expect(answer_is(STAL_STUCK, 2, 0, 0, "stuck,2\n"), "a stuck run's line");
    expect(answer_is(15, 0, 0, 0, "refuse,15,0\n"), "the line of a run refused");
    memset(bytes, 77, sizeof bytes);
    expect(stal_report_to(NULL, 1, bytes, 200).code == STAL_MISUSE, "report's line, null text");
    expect(stal_report_to(day, D, NULL, 200).code == STAL_MISUSE, "report's line, null memory");
    expect(stal_report_to(bytes + 9, 5, bytes, 200).code == STAL_MISUSE, "report's line, text within the memory");
    expect(stal_report_to(bytes + 199, 5, bytes, 200).code == STAL_MISUSE, "report's line, text over the memory's end");
    expect(stal_verdict_to(verdict, NULL, 200).code == STAL_MISUSE, "verdict's line, null memory");
    expect(stal_answer_to(answer, NULL, 200).code == STAL_MISUSE, "answer's line, null memory");
    expect(stal_verdict_to(misuse, bytes, 200).code == STAL_MISUSE, "a misused check has no line");
    expect(stal_answer_to(no_state, bytes, 200).code == STAL_MISUSE, "a misused run has no line");
    expect(holds("", 0), "misuse leaves the memory as it was");
}

/* a report into so many entries, all full of 77 before */
static uint64_t entries[9];

static size_t report_in(const uint8_t *bytes, size_t len, size_t room, size_t *line) {
    memset(entries, 77, sizeof entries);
    return stal_report(bytes, len, entries, room, line);
}

static int kept(size_t from) {
    for (uint8_t *at = (uint8_t *)(entries + from); at < (uint8_t *)(entries + 9); at++)
        if (*at != 77)
            return 0;
    return 1;
}

/* a day's report */
static void reports(void) {
    static const uint64_t want[] = {2, 1, 25593, (uint64_t)-7, 25600, 12796, 1}, none[] = {0, 1, 0, 0, 0, 0, 0};
    static uint8_t full[501 * 9];
    stal_figures f, g;
    size_t line = 7, n = join(full, "", "stuck,77\n", 500, "");
    expect(report_in(day, D, 6, &line) == 16 && line == 0 && kept(0), "six figures");
    line = 7;
    expect(report_in(day, D - 1, 0, &line) == 16 && line == 0 && kept(0), "no figures, before a bad line");
    expect(report_in(day, D - 1, 9, &line) == STAL_BAD_LINE && line == 3 && kept(0), "a day cut short");
    expect(report_in(day, D, 7, &line) == STAL_REPORTED && line == 0 && !memcmp(entries, want, sizeof want) && kept(7), "seven figures");
    line = 7;
    expect(report_in(day, D, 9, &line) == STAL_REPORTED && line == 0 && !memcmp(entries, want, sizeof want) && kept(7), "nine entries");
    expect(report_in(day + 19, 8, 7, &line) == STAL_REPORTED && !memcmp(entries, none, sizeof none) && kept(7), "no integer");
    memset(&f, 77, sizeof f);
    g = f;
    expect(stal_report_text(NULL, 1, &f).code == STAL_MISUSE, "report, null text");
    expect(stal_report_text(day, D, NULL).code == STAL_MISUSE, "report, null figures");
    expect(stal_report_text((uint8_t *)&f + 9, 5, &f).code == STAL_MISUSE, "report, text within the figures");
    expect(stal_report_text((uint8_t *)(&f + 1) - 1, 5, &f).code == STAL_MISUSE, "report, text over the figures' end");
    expect(stal_report_text(text, N, &f).code == STAL_BAD_LINE, "report, no stop line");
    expect(!memcmp(&f, &g, sizeof f), "misuse and refusals leave the figures as they were");
    expect(stal_report_text(day, D, &f).code == STAL_REPORTED && f.count == 2 && f.others == 1 && f.total == 25593 && f.smallest == -7 &&
               f.largest == 25600 && f.quotient == 12796 && f.remainder == 1, "the figures");
    expect(stal_report_text(NULL, 0, &f).code == STAL_REPORTED && f.count == 0 && f.others == 0, "report, empty text");
    expect(stal_report_text(full, n, &f).code == STAL_REPORTED && f.others == 500, "500 lines");
    memcpy(full + n, "stuck,77\n", 9);
    expect(stal_report_text(full, n + 9, &f).line == 501, "501 lines");
    expect(stal_report_text(large, 65537, &f).line == 1, "report, long text");
}

int main(void) {
    on_the_stack();
    misused();
    too_short();
    damaged();
    items();
    lines();
    reports();
    printf("%d cases, %d fail\n", cases, failed);
    return failed != 0;
}
