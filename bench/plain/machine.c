/* The machine: a flat table of instructions made special by their operand's kind, then a loop over it.
   By default the loop jumps from instruction to instruction (computed goto); -DPLAIN_SWITCH makes it a switch. */
#include "program.h"
#include <string.h>

/* n: an integer's bits, a label, a position, a count or a first operand */
typedef struct {
    uint8_t op, a, b, i;
    uint32_t n;
} step_t;

#define OPS(_) \
    _(add_r) _(add_i) _(sub_r) _(sub_i) _(mul_r) _(mul_i) _(beq_l) _(bneq_l) _(bgt_l) _(blt_l) _(bgte_l) _(blte_l) _(beq_r) _(bneq_r) _(bgt_r) \
    _(blt_r) _(bgte_r) _(blte_r) _(beq_i) _(bneq_i) _(bgt_i) _(blt_i) _(bgte_i) _(blte_i) _(mov_r) _(mov_i) _(mov_l) _(ld) _(st) _(malloc) \
    _(getsp) _(setsp) _(salloc) _(sfree) _(sld) _(sst) _(slp) _(ssp) _(jmp_l) _(jmp_r) _(halt) _(none)
#define NAME(x) o_##x,
enum { OPS(NAME) };

static void flatten(const program_t *p, step_t *code) {
    for (unsigned k = 0; k < p->ninstrs; k++) {
        const instr_t *x = &p->instrs[k];
        const operand_t *o = &p->operands[x->first];
        step_t s = {0, x->a, x->b, x->i, 0};
        switch (x->op) {
        case ADD: case SUB: case MUL:
            s.op = (uint8_t)(o->kind == LAB ? o_none : o_add_r + 2 * (x->op - ADD) + (o->kind == LIT));
            s.n = o->num;
            break;
        case BEQ: case BNEQ: case BGT: case BLT: case BGTE: case BLTE:
            s.op = (uint8_t)((o->kind == LAB ? o_beq_l : o->kind == REG ? o_beq_r : o_beq_i) + (x->op - BEQ));
            s.n = o->kind == LAB ? p->blocks[o->num].first : o->num;
            break;
        case MOV:
            s.op = (uint8_t)(o->kind == REG ? o_mov_r : o->kind == LIT ? o_mov_i : o_mov_l);
            s.n = o->num;
            break;
        case JMP:
            s.op = (uint8_t)(o->kind == REG ? o_jmp_r : o->kind == LAB ? o_jmp_l : o_none);
            s.n = o->kind == LAB ? p->blocks[o->num].first : o->num;
            break;
        case MALLOC:
            s.op = o_malloc;
            s.i = x->n;
            s.n = x->first;
            break;
        case HALT: s.op = o_halt; break;
        case LD: s.op = o_ld; break;
        case ST: s.op = o_st; break;
        default: s.op = (uint8_t)(o_getsp + (x->op - GETSP)); break;
        }
        code[k] = s;
    }
}

static plain_answer run(const program_t *p, const step_t *code, size_t budget, plain_state *st) {
    size_t left = budget > 1000000 ? 1000000 : budget;
    const size_t all = left;
    size_t depth = st->depth, used = st->used;
    const step_t *x = code + st->position;
    uint8_t *const rk = st->rk;
    uint32_t *const rn = st->rn;
    unsigned stop;

/* a step is made: paused if the budget is spent */
#define STEP \
    do { \
        if (left == 0) goto paused; \
        left--; \
    } while (0)
#define STUCK_IF(c) \
    do { \
        if (c) goto stuck; \
    } while (0)

#ifdef PLAIN_SWITCH
#define OP(name) case o_##name:
#define NEXT break
    for (;;) {
        switch (x->op) {
#else
#define LABEL(n) &&l_##n,
    static const void *const to[] = {OPS(LABEL)};
#define OP(name) l_##name:
#define NEXT goto *to[x->op]
    NEXT;
    {
        {
#endif
#define ARITH(name, e) \
    OP(name##_r) { \
        STUCK_IF(rk[x->b] != PLAIN_INT || rk[x->n] != PLAIN_INT); \
        STEP; \
        uint32_t u = rn[x->b], w = rn[x->n]; \
        rk[x->a] = PLAIN_INT; \
        rn[x->a] = e; \
        x++; \
        NEXT; \
    } \
    OP(name##_i) { \
        STUCK_IF(rk[x->b] != PLAIN_INT); \
        STEP; \
        uint32_t u = rn[x->b], w = x->n; \
        rk[x->a] = PLAIN_INT; \
        rn[x->a] = e; \
        x++; \
        NEXT; \
    }
        ARITH(add, u + w)
        ARITH(sub, u - w)
        ARITH(mul, u *w)
#define BRANCH(name, cmp) \
    OP(name##_l) { \
        STUCK_IF(rk[x->a] != PLAIN_INT); \
        STEP; \
        x = (int32_t)rn[x->a] cmp 0 ? code + x->n : x + 1; \
        NEXT; \
    } \
    OP(name##_r) { \
        STUCK_IF(rk[x->a] != PLAIN_INT); \
        if ((int32_t)rn[x->a] cmp 0) { \
            uint32_t l = rn[x->n]; \
            STUCK_IF(rk[x->n] != PLAIN_CODE || l >= p->nblocks); \
            STEP; \
            x = code + p->blocks[l].first; \
        } else { \
            STEP; \
            x++; \
        } \
        NEXT; \
    } \
    OP(name##_i) { \
        STUCK_IF(rk[x->a] != PLAIN_INT || (int32_t)rn[x->a] cmp 0); \
        STEP; \
        x++; \
        NEXT; \
    }
        BRANCH(beq, ==)
        BRANCH(bneq, !=)
        BRANCH(bgt, >)
        BRANCH(blt, <)
        BRANCH(bgte, >=)
        BRANCH(blte, <=)
        OP(mov_r) {
            STEP;
            rk[x->a] = rk[x->n];
            rn[x->a] = rn[x->n];
            x++;
            NEXT;
        }
        OP(mov_i) {
            STEP;
            rk[x->a] = PLAIN_INT;
            rn[x->a] = x->n;
            x++;
            NEXT;
        }
        OP(mov_l) {
            STEP;
            rk[x->a] = PLAIN_CODE;
            rn[x->a] = x->n;
            x++;
            NEXT;
        }
        OP(ld) {
            uint32_t h = rn[x->b];
            STUCK_IF(rk[x->b] != PLAIN_TUPLE || x->i >= st->hn[h]);
            STEP;
            rk[x->a] = st->hk[h + 1 + x->i];
            rn[x->a] = st->hn[h + 1 + x->i];
            x++;
            NEXT;
        }
        OP(st) {
            uint32_t h = rn[x->a];
            STUCK_IF(rk[x->a] != PLAIN_TUPLE || x->i >= st->hn[h]);
            STEP;
            st->hk[h + 1 + x->i] = rk[x->b];
            st->hn[h + 1 + x->i] = rn[x->b];
            x++;
            NEXT;
        }
        OP(malloc) {
            size_t n = x->i;
            if (used + n + 1 > 2048) {
                stop = PLAIN_HEAP;
                goto end;
            }
            STEP;
            uint8_t *hk = st->hk + used;
            uint32_t *hn = st->hn + used;
            const operand_t *o = &p->operands[x->n];
            *hk++ = PLAIN_INT;
            *hn++ = (uint32_t)n;
            for (size_t j = 0; j < n; j++, o++) {
                hk[j] = o->kind == REG ? rk[o->num] : o->kind == LIT ? PLAIN_INT : PLAIN_CODE;
                hn[j] = o->kind == REG ? rn[o->num] : o->num;
            }
            rk[x->a] = PLAIN_TUPLE;
            rn[x->a] = (uint32_t)used;
            used += n + 1;
            x++;
            NEXT;
        }
        OP(getsp) {
            STEP;
            rk[x->a] = PLAIN_HEIGHT;
            rn[x->a] = (uint32_t)depth;
            x++;
            NEXT;
        }
        OP(setsp) {
            STUCK_IF(rk[x->a] != PLAIN_HEIGHT || rn[x->a] > depth);
            STEP;
            depth = rn[x->a];
            x++;
            NEXT;
        }
        OP(salloc) {
            size_t n = x->i;
            if (depth + n > 256) {
                stop = PLAIN_STACK;
                goto end;
            }
            STEP;
            for (n += depth; depth < n; depth++) {
                st->sk[depth] = PLAIN_JUNK;
                st->sn[depth] = 0;
            }
            x++;
            NEXT;
        }
        OP(sfree) {
            STUCK_IF(x->i > depth);
            STEP;
            depth -= x->i;
            x++;
            NEXT;
        }
        OP(sld) {
            STUCK_IF(x->i >= depth);
            STEP;
            rk[x->a] = st->sk[depth - 1 - x->i];
            rn[x->a] = st->sn[depth - 1 - x->i];
            x++;
            NEXT;
        }
        OP(sst) {
            STUCK_IF(x->i >= depth);
            STEP;
            st->sk[depth - 1 - x->i] = rk[x->a];
            st->sn[depth - 1 - x->i] = rn[x->a];
            x++;
            NEXT;
        }
        OP(slp) {
            size_t h = rn[x->b];
            STUCK_IF(rk[x->b] != PLAIN_HEIGHT || h > depth || x->i >= h);
            STEP;
            rk[x->a] = st->sk[h - 1 - x->i];
            rn[x->a] = st->sn[h - 1 - x->i];
            x++;
            NEXT;
        }
        OP(ssp) {
            size_t h = rn[x->a];
            STUCK_IF(rk[x->a] != PLAIN_HEIGHT || h > depth || x->i >= h);
            STEP;
            st->sk[h - 1 - x->i] = rk[x->b];
            st->sn[h - 1 - x->i] = rn[x->b];
            x++;
            NEXT;
        }
        OP(jmp_l) {
            STEP;
            x = code + x->n;
            NEXT;
        }
        OP(jmp_r) {
            uint32_t l = rn[x->n];
            STUCK_IF(rk[x->n] != PLAIN_CODE || l >= p->nblocks);
            STEP;
            x = code + p->blocks[l].first;
            NEXT;
        }
        OP(halt) {
            stop = PLAIN_HALTED;
            goto end;
        }
        OP(none) goto stuck;
        }
    }
stuck:
    stop = PLAIN_STUCK;
    goto end;
paused:
    stop = PLAIN_PAUSED;
end:
    st->depth = depth;
    st->used = used;
    st->position = (size_t)(x - code);
    return (plain_answer){stop, all - left, rk[0], rn[0]};
}

/* what bars a start; else the samples wanted */
static fault_t load(program_t *p, const uint8_t *text, size_t len, unsigned *want) {
    fault_t f = pass_one(p, text, len);
    if (!f.number)
        f = pass_two(p);
    if (f.number)
        return f;
    if (!p->nblocks)
        return (fault_t){8, p->lines + 1};
    const row_t *c = &p->rows[p->blocks[0].row];
    unsigned no = entry_fault(p, 0, count_items(p, p->parts[c->at], 64));
    if (no)
        return (fault_t){no, p->blocks[0].line};
    *want = p->rows[p->parts[c->at + 1]].n;
    return f;
}

static int read_samples(const uint8_t *s, size_t len, unsigned want, uint32_t *out) {
    if (len && s[len - 1] != '\n')
        return 0;
    const uint8_t *at = s, *end = s + len;
    unsigned n = 0;
    while (at < end) {
        if (n == want || !parse_int(&at, &out[n]) || *at != '\n')
            return 0;
        at++;
        n++;
    }
    return n == want;
}

static int good_word(uint8_t k, uint32_t n, const uint8_t *starts, size_t used) {
    switch (k) {
    case PLAIN_INT: case PLAIN_CODE: return 1;
    case PLAIN_TUPLE: return n < used && starts[n];
    case PLAIN_HEIGHT: return n <= 256;
    case PLAIN_JUNK: return n == 0;
    }
    return 0;
}

static int good_form(const program_t *p, const plain_state *st) {
    if (st->position >= p->ninstrs || st->depth > 256 || st->used > 2048)
        return 0;
    uint8_t starts[2048];
    memset(starts, 0, st->used);
    size_t at = 0;
    while (at < st->used) {
        if (st->hk[at] != PLAIN_INT || st->hn[at] > 16)
            return 0;
        starts[at] = 1;
        at += 1 + st->hn[at];
    }
    if (at != st->used)
        return 0;
    for (unsigned i = 0; i < 8; i++)
        if (!good_word(st->rk[i], st->rn[i], starts, at))
            return 0;
    for (size_t i = 0; i < st->depth; i++)
        if (!good_word(st->sk[i], st->sn[i], starts, at))
            return 0;
    for (size_t i = 0; i < at; i++)
        if (!good_word(st->hk[i], st->hn[i], starts, at))
            return 0;
    return 1;
}

static program_t p;
static step_t code[INSTRS];

plain_answer plain_start(const uint8_t *text, size_t len, const uint8_t *samples, size_t slen, size_t budget, plain_state *st) {
    uint32_t xs[16];
    unsigned want;
    fault_t f = load(&p, text, len, &want);
    if (f.number)
        return (plain_answer){f.number, f.line, 0, 0};
    if (!read_samples(samples, slen, want, xs))
        return (plain_answer){15, 0, 0, 0};
    st->hk[0] = PLAIN_INT;
    st->hn[0] = want;
    for (unsigned i = 0; i < want; i++) {
        st->hk[1 + i] = PLAIN_INT;
        st->hn[1 + i] = xs[i];
    }
    memset(st->rk, PLAIN_JUNK, 8);
    memset(st->rn, 0, sizeof st->rn);
    st->rk[0] = PLAIN_TUPLE;
    st->depth = 0;
    st->used = want + 1;
    st->position = 0;
    flatten(&p, code);
    return run(&p, code, budget, st);
}

plain_answer plain_resume(const uint8_t *text, size_t len, size_t budget, plain_state *st) {
    unsigned want;
    fault_t f = load(&p, text, len, &want);
    if (f.number)
        return (plain_answer){f.number, f.line, 0, 0};
    if (!good_form(&p, st))
        return (plain_answer){16, 0, 0, 0};
    flatten(&p, code);
    return run(&p, code, budget, st);
}
