/* stal.h: the proved checker and machine for STAL programs, for C on x86-64 (libstal.a, made by `rt lib` in crates/stal).
 *
 * Two kinds of calls, with the same answers:
 *   stal_check_with, stal_start_with, stal_continue_with       for firmware: they are lent working memory (stal_memory, 438 KB, static in
 *                                                              the caller, whatever it holds) and need little stack.
 *   stal_check_text, stal_start_state, stal_continue_state     where there is stack: they ask for no memory, and put their tables on the
 *                                                              stack, up to 565 KB of it.
 * (docs/performance.md has the stack that each uses, and times.) They test what the boundary asks, and then call the proved functions, which
 * are declared above them: stal_check_in, stal_start_in and stal_continue_in, and stal_check, stal_start and stal_continue.
 *
 * Besides them a day's report, from the lines of its stops, and the lines that the programs print, for whoever prints or stores them:
 *   stal_report_text                                           the seven figures of a day.
 *   stal_report_to, stal_verdict_to, stal_answer_to            the line of a report, of a check's answer, of a run's answer.
 * They need little stack and no working memory. The proved functions: stal_report, stal_report_line, stal_verdict_line, stal_answer_line.
 *
 * What each does on memory that is
 *   null         a null text or samples with length 0 is an empty one; a null text or samples with another length, or a null state,
 *                working memory, figures or memory for a line, is STAL_MISUSE, and nothing is read or written.
 *   short        a text of any length is answered: over 65,536 bytes it is refused (3, line 0). State and working memory have the lengths
 *                that are wanted. (The proved functions answer 16, line 0, where they are lent fewer than 8 registers, 256 stack or 2,048
 *                heap words; and, before anything else is looked at, where an array of the working memory is shorter than here, or fewer
 *                than 7 figures are lent.) Memory that is too short for a line is STAL_SHORT, and nothing is written. A day's text of any
 *                length is answered: a 501st line is refused.
 *   overlapping  text and samples may overlap each other. One that overlaps the state, the working memory, the figures or the memory for a
 *                line, or a state that overlaps the working memory, is STAL_MISUSE, and nothing is read or written.
 *   damaged      any bytes of text, samples, state and working memory are answered; a state of bad form is refused (16, line 0) when
 *                continuing; what the working memory holds changes no answer.
 * A refusal leaves the state, or the figures, as they were; bytes past a written line stay. Nothing is kept between calls, not in the
 * working memory either: no static state, no allocation, no file, no errno, so calls on different states and working memories may run at
 * once. Every call returns: after at most 1,000,000 steps, and a check after an amount of work that the text's length bounds.
 */
#ifndef STAL_H
#define STAL_H

#include <stddef.h>
#include <stdint.h>

#ifdef __cplusplus
extern "C" {
#endif

enum { STAL_REGISTERS = 8, STAL_STACK = 256, STAL_HEAP = 2048, STAL_BUDGET = 1000000 };
enum { STAL_IMAGE = 161694, STAL_LITERALS = 16400, STAL_PLAN = 8208, STAL_WORK = 8192 };
enum { STAL_FIGURES = 7, STAL_LINE = 160 }; /* no line is longer, its LF included */

/* The kinds of a word, and what its number is. */
enum {
    STAL_INT = 0,    /* an integer: its 32 bits, read as signed */
    STAL_CODE = 1,   /* a label: its block's number */
    STAL_TUPLE = 2,  /* a handle: the index of the tuple's length word in the heap */
    STAL_HEIGHT = 3, /* a stack height, 0 to 256 */
    STAL_JUNK = 4    /* junk: 0 */
};

/* What a call answers (`code`). 1 to 16 are the faults of document 01. */
enum {
    STAL_ACCEPTED = 0,    /* of a check: first the blocks, second the instructions */
    STAL_HALTED = 0,      /* of a run: first the steps made, kind and number r1's */
    STAL_PAUSED = 17,     /* the budget is spent; first the steps */
    STAL_STACK_FULL = 18, /* first the steps, as for the next two */
    STAL_HEAP_FULL = 19,
    STAL_STUCK = 20,
    STAL_REPORTED = 0,  /* of a report: the figures */
    STAL_BAD_LINE = 17, /* of a report: line may not stand there (document 02, point 1) */
    STAL_WRITTEN = 0,   /* of a line: length the bytes written, its LF the last, no NUL behind it */
    STAL_SHORT = 16,    /* of a line: the memory is too short for it; length 0 */
    STAL_MISUSE = 255 /* of the functions to call: null or overlapping memory; nothing was done */
};

/* The machine's state. Word i has its kind in ..k[i] and its number in ..n[i]. Between calls the owner may store it, copy it, send it
   elsewhere; continuing looks at its form first. Words past those in use keep what they held. */
typedef struct {
    uint8_t rk[STAL_REGISTERS]; /* r1 to r8 */
    uint32_t rn[STAL_REGISTERS];
    uint8_t sk[STAL_STACK]; /* the stack, from the bottom: word depth - 1 is the top */
    uint32_t sn[STAL_STACK];
    uint8_t hk[STAL_HEAP]; /* the heap: tuples end to end, each a length word (an integer) and its components */
    uint32_t hn[STAL_HEAP];
    uint32_t depth;  /* stack words in use, 0 to 256 */
    size_t used;     /* heap words in use, 0 to 2,048 */
    size_t position; /* the next instruction, counted from 0 over all blocks */
} stal_state;

/* Working memory: 438 KB (438,204 bytes), static in firmware. It need not be set, and what a call leaves in it is of no use to anyone: the
   same may be lent to the next call, on whatever text and state. Calls that run at the same time need one each. */
typedef struct {
    uint16_t image[STAL_IMAGE]; /* the decoded text */
    uint16_t work[STAL_WORK];   /* what typing needs; a start or a continuing does not look at it */
    uint32_t literals[STAL_LITERALS];
    uint32_t plan[STAL_PLAN]; /* the machine's own table */
} stal_memory;

/* A check's answer: STAL_ACCEPTED, blocks and instructions; or the fault's number, its line, and for 10 at a jump or branch the first item
   that does not fit: sp (0) before r1 (1), r1 before r2 (2), and so on to r8 (8); 99 for the resulting row; 100 where there is none to
   name. */
typedef struct {
    size_t code, first, second;
} stal_verdict;

/* A run's answer: a stop and the steps made, STAL_HALTED with r1's word; or the fault's number and its line. */
typedef struct {
    size_t code, first;
    uint8_t kind;
    uint32_t number;
} stal_answer;

/* A day's figures. Where no stop halted with an integer, count and the last five are 0. */
typedef struct {
    uint64_t count, others;                     /* halts with an integer; all other stops */
    int64_t total, smallest, largest, quotient; /* of the integers; the quotient is the mean, rounded down */
    uint64_t remainder;                         /* 0 to count - 1 */
} stal_figures;

/* A report's answer: STAL_REPORTED, or STAL_BAD_LINE and the lowest line that is no stop line, has no LF or is the 501st. */
typedef struct {
    size_t code, line;
} stal_day;

/* A written line: STAL_WRITTEN and its length, or STAL_SHORT. */
typedef struct {
    size_t code, length;
} stal_line;

/* ---- the proved functions. A slice is a pointer and its length (in words). Asked of the caller: each pointer is not null, is aligned, and
   leads to as many words as its length says (an empty slice's to any aligned address); what is not const is overlapped by nothing else. */
size_t stal_check(const uint8_t *text, size_t text_len, size_t *first, size_t *second);

size_t stal_start(const uint8_t *text, size_t text_len, const uint8_t *samples, size_t samples_len, size_t budget,
                  uint8_t *rk, size_t rk_len, uint32_t *rn, size_t rn_len, uint8_t *sk, size_t sk_len, uint32_t *sn, size_t sn_len,
                  uint8_t *hk, size_t hk_len, uint32_t *hn, size_t hn_len, uint32_t *depth, size_t *used, size_t *position,
                  size_t *first, uint8_t *kind, uint32_t *number);

size_t stal_continue(const uint8_t *text, size_t text_len, size_t budget,
                     uint8_t *rk, size_t rk_len, uint32_t *rn, size_t rn_len, uint8_t *sk, size_t sk_len, uint32_t *sn, size_t sn_len,
                     uint8_t *hk, size_t hk_len, uint32_t *hn, size_t hn_len, uint32_t *depth, size_t *used, size_t *position,
                     size_t *first, uint8_t *kind, uint32_t *number);

/* The same with working memory lent, of at least the lengths of stal_memory; else 16, line 0 (of a check `second` is 100), and nothing is
   changed. */
size_t stal_check_in(const uint8_t *text, size_t text_len, uint16_t *image, size_t image_len, uint32_t *literals, size_t literals_len,
                     uint32_t *plan, size_t plan_len, uint16_t *work, size_t work_len, size_t *first, size_t *second);

size_t stal_start_in(const uint8_t *text, size_t text_len, const uint8_t *samples, size_t samples_len, size_t budget,
                     uint16_t *image, size_t image_len, uint32_t *literals, size_t literals_len, uint32_t *plan, size_t plan_len,
                     uint8_t *rk, size_t rk_len, uint32_t *rn, size_t rn_len, uint8_t *sk, size_t sk_len, uint32_t *sn, size_t sn_len,
                     uint8_t *hk, size_t hk_len, uint32_t *hn, size_t hn_len, uint32_t *depth, size_t *used, size_t *position,
                     size_t *first, uint8_t *kind, uint32_t *number);

size_t stal_continue_in(const uint8_t *text, size_t text_len, size_t budget,
                        uint16_t *image, size_t image_len, uint32_t *literals, size_t literals_len, uint32_t *plan, size_t plan_len,
                        uint8_t *rk, size_t rk_len, uint32_t *rn, size_t rn_len, uint8_t *sk, size_t sk_len, uint32_t *sn, size_t sn_len,
                        uint8_t *hk, size_t hk_len, uint32_t *hn, size_t hn_len, uint32_t *depth, size_t *used, size_t *position,
                        size_t *first, uint8_t *kind, uint32_t *number);

/* A day's report: 0 and the figures in the first seven entries, in the order of stal_figures, negative ones as 64 bits of two's complement;
   entries past them stay. 17 and the line, or, before anything else is looked at, 16 and line 0 where figures_len is under 7: then the
   entries are as they were. */
size_t stal_report(const uint8_t *text, size_t text_len, uint64_t *figures, size_t figures_len, size_t *line);

/* The line of a day's report, of a check's answer and of a run's, these given by their numbers, as the programs print them: 0 and its
   length, or 16 and 0 where out_len is less. Any numbers are answered: a code that is neither 0 nor a stop's prints as a refusal. */
size_t stal_report_line(const uint8_t *text, size_t text_len, uint8_t *out, size_t out_len, size_t *length);
size_t stal_verdict_line(size_t code, size_t first, size_t second, uint8_t *out, size_t out_len, size_t *length);
size_t stal_answer_line(size_t code, size_t first, uint8_t kind, uint32_t number, uint8_t *out, size_t out_len, size_t *length);

/* ---- what the boundary asks */
static inline int stal_overlaps(const void *a, size_t n, const void *b, size_t m) {
    uintptr_t x = (uintptr_t)a, y = (uintptr_t)b;
    return n != 0 && m != 0 && (x < y ? y - x < n : x - y < m);
}

/* Bytes to read: not null, or none. */
static inline int stal_readable(const uint8_t *bytes, size_t len) {
    return bytes != NULL || len == 0;
}

/* Where they are. */
static inline const uint8_t *stal_bytes(const uint8_t *bytes) {
    static const uint8_t none = 0;
    return bytes == NULL ? &none : bytes;
}

/* `size` bytes to write, and bytes to read that do not overlap them. */
static inline int stal_lent(const void *lent, size_t size, const uint8_t *bytes, size_t len) {
    return lent != NULL && stal_readable(bytes, len) && !stal_overlaps(lent, size, bytes, len);
}

static inline int stal_state_lent(const uint8_t *text, size_t len, const uint8_t *samples, size_t samples_len, const stal_state *s) {
    return stal_lent(s, sizeof *s, text, len) && stal_lent(s, sizeof *s, samples, samples_len);
}

static inline int stal_both_lent(const uint8_t *text, size_t len, const uint8_t *samples, size_t samples_len, const stal_memory *m,
                                 const stal_state *s) {
    return stal_state_lent(text, len, samples, samples_len, s) && stal_lent(m, sizeof *m, text, len) &&
           stal_lent(m, sizeof *m, samples, samples_len) && !stal_overlaps(m, sizeof *m, s, sizeof *s);
}

/* The slices of a state and of working memory, and where an answer goes. */
#define STAL_STATE_OF(s) \
    (s)->rk, STAL_REGISTERS, (s)->rn, STAL_REGISTERS, (s)->sk, STAL_STACK, (s)->sn, STAL_STACK, (s)->hk, STAL_HEAP, (s)->hn, STAL_HEAP, \
        &(s)->depth, &(s)->used, &(s)->position
#define STAL_MEMORY_OF(m) (m)->image, STAL_IMAGE, (m)->literals, STAL_LITERALS, (m)->plan, STAL_PLAN
#define STAL_ANSWER_TO(a) &(a).first, &(a).kind, &(a).number

/* ---- what to call */
/* Check a text. */
static inline stal_verdict stal_check_text(const uint8_t *text, size_t len) {
    stal_verdict v = {STAL_MISUSE, 0, 100};
    if (stal_readable(text, len))
        v.code = stal_check(stal_bytes(text), len, &v.first, &v.second);
    return v;
}

static inline stal_verdict stal_check_with(const uint8_t *text, size_t len, stal_memory *m) {
    stal_verdict v = {STAL_MISUSE, 0, 100};
    if (stal_lent(m, sizeof *m, text, len))
        v.code = stal_check_in(stal_bytes(text), len, STAL_MEMORY_OF(m), m->work, STAL_WORK, &v.first, &v.second);
    return v;
}

/* Start a program: the text's faults that bar it, then 15, then 16, else at most `budget` steps (over 1,000,000 is taken as that).
   The state need not have been set: a start writes what a run reads. */
static inline stal_answer stal_start_state(const uint8_t *text, size_t len, const uint8_t *samples, size_t samples_len, size_t budget,
                                           stal_state *s) {
    stal_answer a = {STAL_MISUSE, 0, 0, 0};
    if (stal_state_lent(text, len, samples, samples_len, s))
        a.code = stal_start(stal_bytes(text), len, stal_bytes(samples), samples_len, budget, STAL_STATE_OF(s), STAL_ANSWER_TO(a));
    return a;
}

static inline stal_answer stal_start_with(const uint8_t *text, size_t len, const uint8_t *samples, size_t samples_len, size_t budget,
                                          stal_memory *m, stal_state *s) {
    stal_answer a = {STAL_MISUSE, 0, 0, 0};
    if (stal_both_lent(text, len, samples, samples_len, m, s))
        a.code = stal_start_in(stal_bytes(text), len, stal_bytes(samples), samples_len, budget, STAL_MEMORY_OF(m), STAL_STATE_OF(s),
                               STAL_ANSWER_TO(a));
    return a;
}

/* Continue a program from the state: the same faults of the text, then 16, else at most `budget` steps. */
static inline stal_answer stal_continue_state(const uint8_t *text, size_t len, size_t budget, stal_state *s) {
    stal_answer a = {STAL_MISUSE, 0, 0, 0};
    if (stal_state_lent(text, len, NULL, 0, s))
        a.code = stal_continue(stal_bytes(text), len, budget, STAL_STATE_OF(s), STAL_ANSWER_TO(a));
    return a;
}

static inline stal_answer stal_continue_with(const uint8_t *text, size_t len, size_t budget, stal_memory *m, stal_state *s) {
    stal_answer a = {STAL_MISUSE, 0, 0, 0};
    if (stal_both_lent(text, len, NULL, 0, m, s))
        a.code = stal_continue_in(stal_bytes(text), len, budget, STAL_MEMORY_OF(m), STAL_STATE_OF(s), STAL_ANSWER_TO(a));
    return a;
}

#undef STAL_STATE_OF
#undef STAL_MEMORY_OF
#undef STAL_ANSWER_TO

/* An integer's number, read as signed; a figure of 64 bits likewise. */
static inline int32_t stal_signed(uint32_t bits) {
    return bits < 0x80000000u ? (int32_t)bits : (int32_t)(bits - 0x80000000u) - 0x7fffffff - 1;
}

static inline int64_t stal_signed64(uint64_t bits) {
    return bits <= INT64_MAX ? (int64_t)bits : -(int64_t)(UINT64_MAX - bits) - 1;
}

/* Report a day: its text is the lines of its stops, at most 500. */
static inline stal_day stal_report_text(const uint8_t *text, size_t len, stal_figures *f) {
    stal_day d = {STAL_MISUSE, 0};
    uint64_t n[STAL_FIGURES];
    if (!stal_lent(f, sizeof *f, text, len))
        return d;
    d.code = stal_report(stal_bytes(text), len, n, STAL_FIGURES, &d.line);
    if (d.code == STAL_REPORTED) {
        f->count = n[0];
        f->others = n[1];
        f->total = stal_signed64(n[2]);
        f->smallest = stal_signed64(n[3]);
        f->largest = stal_signed64(n[4]);
        f->quotient = stal_signed64(n[5]);
        f->remainder = n[6];
    }
    return d;
}

/* Write the line of a day's report. */
static inline stal_line stal_report_to(const uint8_t *text, size_t len, uint8_t *out, size_t out_len) {
    stal_line w = {STAL_MISUSE, 0};
    if (stal_lent(out, out_len, text, len))
        w.code = stal_report_line(stal_bytes(text), len, out, out_len, &w.length);
    return w;
}

/* Write the line of a check's answer; STAL_MISUSE has none. */
static inline stal_line stal_verdict_to(stal_verdict v, uint8_t *out, size_t out_len) {
    stal_line w = {STAL_MISUSE, 0};
    if (out != NULL && v.code != STAL_MISUSE)
        w.code = stal_verdict_line(v.code, v.first, v.second, out, out_len, &w.length);
    return w;
}

/* Write the line of a run's answer; STAL_MISUSE has none. */
static inline stal_line stal_answer_to(stal_answer a, uint8_t *out, size_t out_len) {
    stal_line w = {STAL_MISUSE, 0};
    if (out != NULL && a.code != STAL_MISUSE)
        w.code = stal_answer_line(a.code, a.first, a.kind, a.number, out, out_len, &w.length);
    return w;
}

#ifdef __cplusplus
}
#endif
#endif
