/* A decoded text: type rows, blocks, instructions, operands (document 01, "Program text"). */
#ifndef PROGRAM_H
#define PROGRAM_H
#include "plain.h"

enum { ROWS = 512, BLOCKS = 64, INSTRS = 1024, OPERANDS = 16400, ARGS = 32800, PARTS = 8800, NONE = 0xffff };
enum { I, N, V, U, P, C, E, X, K, A }; /* row kinds; from E on: stacks */
enum { REG, LIT, LAB };                /* operand kinds */
enum { ADD, SUB, MUL, BEQ, BNEQ, BGT, BLT, BGTE, BLTE, MOV, LD, ST, MALLOC, GETSP, SETSP, SALLOC, SFREE, SLD, SST, SLP, SSP, JMP, HALT };

typedef struct {
    uint8_t kind, k, n; /* k: a variable's number, or the letters of a code row (bit j: letter of variable j is s); n: parts */
    uint8_t letters;    /* how many */
    uint16_t at;        /* first part; a code row has the stack, then r1 to r8 or NONE */
} row_t;

typedef struct {
    uint8_t kind, nargs;
    uint16_t result;
    uint32_t num, args;
} operand_t;

typedef struct {
    uint8_t op, a, b, i, n; /* n: operands */
    uint16_t t;
    uint16_t first;         /* first operand */
    uint32_t line;
} instr_t;

typedef struct {
    uint16_t row, first;
    uint32_t line;
} block_t;

/* what a row needs of the letters around it */
typedef struct {
    uint64_t v, s;
    uint32_t bad;
} needs_t;

typedef struct {
    unsigned nrows, nblocks, ninstrs, nparts, noperands, nargs;
    uint32_t lines;
    row_t rows[ROWS + 1];
    uint16_t parts[PARTS];
    block_t blocks[BLOCKS + 1];
    instr_t instrs[INSTRS + 1];
    operand_t operands[OPERANDS];
    uint16_t args[ARGS];
    uint16_t size[ROWS];
    needs_t needs[ROWS];
} program_t;

typedef struct {
    unsigned number;
    uint32_t line;
} fault_t;

fault_t pass_one(program_t *p, const uint8_t *text, size_t len);
fault_t pass_two(program_t *p);
/* variables of the block's letters: bit k for value and for stack variables */
static inline void masks(const row_t *c, uint64_t *v, uint64_t *s) {
    *s = c->k;
    *v = ~(uint64_t)c->k & ((1ull << c->letters) - 1);
}
static inline int scoped(const needs_t *n, uint64_t v, uint64_t s) {
    return !n->bad && !(n->v & ~v) && !(n->s & ~s);
}
unsigned entry_fault(const program_t *p, unsigned label, unsigned items);
unsigned count_items(const program_t *p, unsigned r, unsigned limit);
int parse_int(const uint8_t **at, uint32_t *out);
#endif
