/* A plain C checker and machine for the text form of document 01, written for speed and not proved: what the bench measures against.
   Its tables are static, and nothing of an earlier call is read. */
#ifndef PLAIN_H
#define PLAIN_H
#include <stddef.h>
#include <stdint.h>

enum { PLAIN_INT, PLAIN_CODE, PLAIN_TUPLE, PLAIN_HEIGHT, PLAIN_JUNK };

typedef struct {
    uint8_t rk[8];
    uint32_t rn[8];
    uint8_t sk[256];
    uint32_t sn[256];
    uint8_t hk[2048];
    uint32_t hn[2048];
    size_t depth, used, position;
} plain_state;

enum { PLAIN_HALTED = 0, PLAIN_PAUSED = 17, PLAIN_STACK, PLAIN_HEAP, PLAIN_STUCK };

/* code 0: accepted, a blocks, b instructions; else the fault's number, a its line, b the first item that does not fit (100: none). */
typedef struct {
    unsigned code;
    size_t a, b;
} plain_verdict;

/* code 1 to 16: refused, a the line; else a stop, a the steps; halted: r1's kind and number too. */
typedef struct {
    unsigned code;
    size_t a;
    uint8_t kind;
    uint32_t number;
} plain_answer;

plain_verdict plain_check(const uint8_t *text, size_t len);
plain_answer plain_start(const uint8_t *text, size_t len, const uint8_t *samples, size_t slen, size_t budget, plain_state *st);
plain_answer plain_resume(const uint8_t *text, size_t len, size_t budget, plain_state *st);
#endif
