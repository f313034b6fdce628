/* Pass three: faults 7 to 14. Equal types get one number each (rows are taken in order, each looked up by a hash of its parts), a stack
   type being the list of its items, bottom first, the top last. So types are compared by number and stacks by memcmp. */
#include "program.h"
#include <string.h>

enum { SLOTS = 2048, UNKNOWN = 0xffff, STACK_VAR = 0x8000, SP = 64, NO_I = 0x7ffe, NO_N = 0x7ffd }; /* NO_I, NO_N: no such row */

typedef struct {
    uint32_t at, len, hash;
    uint64_t free; /* variables in it */
} list_t;

typedef struct {
    const program_t *p;
    uint16_t id[ROWS];      /* a row's type or list: the first row that has it */
    list_t list[ROWS];      /* of stack rows */
    uint64_t free[ROWS];    /* variables of the row's type */
    uint32_t hash[ROWS];
    uint16_t slot[SLOTS];
    uint16_t items[ROWS * 4096]; /* of all lists; one has no more than its row's size */
    uint32_t nitems;
    uint16_t int_type, junk_type;
    /* the block at hand */
    uint16_t regs[8], sp[SP];
    unsigned depth;
    uint64_t vmask, smask;
    unsigned item;
} check_t;

static inline uint32_t mix(uint32_t h, uint32_t x) {
    h = (h ^ x) * 0x9e3779b1u;
    return h ^ (h >> 15);
}

static inline const uint16_t *items_of(const check_t *c, unsigned r) {
    return c->items + c->list[r].at;
}

/* the list of stack row r */
static void make_list(check_t *c, unsigned r) {
    const row_t *x = &c->p->rows[r];
    const uint16_t *part = &c->p->parts[x->at];
    list_t l = {c->nitems, 0, 1, c->free[r]};
    if (x->kind == X) {
        c->items[c->nitems++] = (uint16_t)(STACK_VAR | x->k);
        l.len = 1;
        l.hash = mix(1, STACK_VAR | x->k);
    } else if (x->kind == K) {
        unsigned s = c->id[part[1]];
        l.at = c->list[s].at;
        l.len = c->list[s].len;
        if (l.at + l.len != c->nitems) { /* not the last made: copy */
            memcpy(c->items + c->nitems, c->items + l.at, l.len * sizeof(uint16_t));
            l.at = c->nitems;
            c->nitems += l.len;
        }
        c->items[c->nitems++] = c->id[part[0]];
        l.hash = mix(c->list[s].hash, c->id[part[0]]);
        l.len++;
    } else if (x->kind == A) {
        unsigned t = c->id[part[0]], s = c->id[part[1]];
        l.len = c->list[s].len + c->list[t].len;
        memcpy(c->items + c->nitems, items_of(c, s), c->list[s].len * sizeof(uint16_t));
        c->nitems += c->list[s].len;
        const uint16_t *top = items_of(c, t);
        l.hash = c->list[s].hash;
        for (uint32_t i = 0; i < c->list[t].len; i++) {
            l.hash = mix(l.hash, top[i]);
            c->items[c->nitems++] = top[i];
        }
    }
    c->list[r] = l;
    c->hash[r] = l.hash;
}

static int same_row(const check_t *c, unsigned r, unsigned s) {
    const program_t *p = c->p;
    const row_t *x = &p->rows[r], *y = &p->rows[s];
    if (x->kind >= E)
        return y->kind >= E && c->list[r].len == c->list[s].len && !memcmp(items_of(c, r), items_of(c, s), c->list[r].len * sizeof(uint16_t));
    if (x->kind != y->kind || x->k != y->k || x->n != y->n || x->letters != y->letters)
        return 0;
    const uint16_t *a = &p->parts[x->at], *b = &p->parts[y->at];
    for (unsigned i = 0; i < x->n; i++)
        if ((a[i] == NONE ? NONE : c->id[a[i]]) != (b[i] == NONE ? NONE : c->id[b[i]]))
            return 0;
    return 1;
}

static void share(check_t *c) {
    const program_t *p = c->p;
    memset(c->slot, 0xff, sizeof c->slot);
    c->int_type = NO_I;
    c->junk_type = NO_N;
    for (unsigned r = 0; r < p->nrows; r++) {
        const row_t *x = &p->rows[r];
        c->free[r] = p->needs[r].v | p->needs[r].s;
        if (x->kind >= E) {
            make_list(c, r);
        } else {
            uint32_t h = mix(x->kind + 77, x->k | x->letters << 8 | (uint32_t)x->n << 16);
            for (unsigned i = 0; i < x->n; i++) {
                unsigned q = p->parts[x->at + i];
                h = mix(h, q == NONE ? NONE : c->id[q]);
            }
            c->hash[r] = h;
        }
        unsigned s = c->hash[r] % SLOTS;
        c->id[r] = (uint16_t)r;
        for (; c->slot[s] != UNKNOWN; s = (s + 1) % SLOTS) {
            unsigned o = c->slot[s];
            if (c->hash[o] == c->hash[r] && (p->rows[o].kind >= E) == (x->kind >= E) && same_row(c, r, o)) {
                c->id[r] = (uint16_t)o;
                break;
            }
        }
        if (c->id[r] == r)
            c->slot[s] = (uint16_t)r;
        if (x->kind == I)
            c->int_type = c->id[r];
        if (x->kind == N)
            c->junk_type = c->id[r];
    }
}

/* ---- filling: the type x, under d binders, with the first m of n letters filled, is y */
typedef struct {
    const check_t *c;
    const uint16_t *args;
    unsigned m, n;
} fill_t;

static inline unsigned part_id(const check_t *c, const row_t *x, unsigned i) {
    unsigned q = c->p->parts[x->at + i];
    return q == NONE ? NONE : c->id[q];
}

static int raised_list(const check_t *c, const uint16_t *a, const uint16_t *b, unsigned n, unsigned cut, unsigned by);

/* a with its variables from cut on raised is b */
static int raised(const check_t *c, unsigned a, unsigned b, unsigned cut, unsigned by) {
    if (cut > 63 || !(c->free[a] >> cut) || by == 0)
        return a == b;
    const row_t *x = &c->p->rows[a], *y = &c->p->rows[b];
    if (x->kind != y->kind || x->n != y->n || x->letters != y->letters)
        return 0;
    if (x->kind == V)
        return (x->k >= cut ? x->k + by : x->k) == y->k;
    if (x->k != y->k)
        return 0;
    unsigned i = 0;
    if (x->kind == P || x->kind == C) {
        unsigned s = part_id(c, x, 0), t = part_id(c, y, 0);
        if (c->list[s].len != c->list[t].len || !raised_list(c, items_of(c, s), items_of(c, t), c->list[s].len, cut + x->letters, by))
            return 0;
        i = 1;
    }
    for (; i < x->n; i++) {
        unsigned u = part_id(c, x, i), w = part_id(c, y, i);
        if (u == NONE || w == NONE ? u != w : !raised(c, u, w, cut + x->letters, by))
            return 0;
    }
    return 1;
}

static int raised_list(const check_t *c, const uint16_t *a, const uint16_t *b, unsigned n, unsigned cut, unsigned by) {
    for (unsigned i = 0; i < n; i++) {
        if (a[i] & STACK_VAR) {
            unsigned k = a[i] & 63;
            if (!(b[i] & STACK_VAR) || (k >= cut ? k + by : k) != (unsigned)(b[i] & 63))
                return 0;
        } else if ((b[i] & STACK_VAR) || !raised(c, a[i], b[i], cut, by))
            return 0;
    }
    return 1;
}

static int filled(const fill_t *f, unsigned a, unsigned b, unsigned d);

static int filled_list(const fill_t *f, unsigned s, unsigned t, unsigned d) {
    const check_t *c = f->c;
    unsigned rest = f->n - f->m;
    if (d + rest > 63 || !(c->list[s].free >> (d + rest)))
        return s == t;
    const uint16_t *a = items_of(c, s), *b = items_of(c, t);
    unsigned n = c->list[s].len, left = c->list[t].len;
    for (unsigned i = 0; i < n; i++) {
        if (!(a[i] & STACK_VAR)) {
            if (!left || (*b & STACK_VAR) || !filled(f, a[i], *b, d))
                return 0;
            b++;
            left--;
            continue;
        }
        unsigned k = a[i] & 63;
        if (k >= d + rest && k < d + f->n) { /* filled: the argument's items */
            unsigned g = f->args[f->n - 1 - (k - d)];
            if (c->p->rows[g].kind < E)
                return 0;
            g = c->id[g];
            unsigned len = c->list[g].len;
            if (len > left || !raised_list(c, items_of(c, g), b, len, 0, d + rest))
                return 0;
            b += len;
            left -= len;
            continue;
        }
        if (k >= d + f->n)
            k -= f->m;
        if (!left || *b != (STACK_VAR | k))
            return 0;
        b++;
        left--;
    }
    return left == 0;
}

static int filled(const fill_t *f, unsigned a, unsigned b, unsigned d) {
    const check_t *c = f->c;
    unsigned rest = f->n - f->m;
    if (d + rest > 63 || !(c->free[a] >> (d + rest)))
        return a == b;
    const row_t *x = &c->p->rows[a], *y = &c->p->rows[b];
    if (x->kind == V) {
        unsigned k = x->k;
        if (k < d + f->n) {
            unsigned g = f->args[f->n - 1 - (k - d)];
            return c->p->rows[g].kind < E && raised(c, c->id[g], b, 0, d + rest);
        }
        return y->kind == V && y->k == k - f->m;
    }
    if (x->kind != y->kind || x->n != y->n || x->letters != y->letters || x->k != y->k)
        return 0;
    unsigned i = 0;
    if (x->kind == P || x->kind == C) {
        if (!filled_list(f, part_id(c, x, 0), part_id(c, y, 0), d + x->letters))
            return 0;
        i = 1;
    }
    for (; i < x->n; i++) {
        unsigned u = part_id(c, x, i), w = part_id(c, y, i);
        if (u == NONE || w == NONE ? u != w : !filled(f, u, w, d + x->letters))
            return 0;
    }
    return 1;
}

/* the code type a with its first letters filled is b */
static int filled_code(const check_t *c, unsigned a, const uint16_t *args, unsigned m, unsigned b) {
    const row_t *x = &c->p->rows[a], *y = &c->p->rows[b];
    fill_t f = {c, args, m, x->letters};
    if (y->kind != C || y->letters != x->letters - m || y->k != (x->k & ((1u << y->letters) - 1)))
        return 0;
    if (!filled_list(&f, part_id(c, x, 0), part_id(c, y, 0), 0))
        return 0;
    for (unsigned i = 1; i <= 8; i++) {
        unsigned u = part_id(c, x, i), w = part_id(c, y, i);
        if (u == NONE || w == NONE ? u != w : !filled(&f, u, w, 0))
            return 0;
    }
    return 1;
}

/* ---- premises: the lowest fault so far */
static inline void fault(unsigned *f, unsigned n) {
    if (n < *f)
        *f = n;
}

static unsigned reg_type(const check_t *c, unsigned r, unsigned *f) {
    if (c->regs[r] == UNKNOWN)
        fault(f, 9);
    return c->regs[r];
}

/* an operand's type, UNKNOWN after a fault that leaves it without one */
static unsigned operand_type(check_t *c, const operand_t *o, unsigned *f, int jump) {
    const program_t *p = c->p;
    if (o->kind == LIT)
        return c->int_type;
    unsigned base = o->kind == REG ? reg_type(c, o->num, f) : c->id[p->blocks[o->num].row];
    if (base == UNKNOWN || o->nargs == 0)
        return base;
    const uint16_t *args = &p->args[o->args];
    if (base >= ROWS || p->rows[base].kind != C) {
        fault(f, 9);
        return UNKNOWN;
    }
    unsigned letters = p->rows[base].letters;
    if (o->nargs > letters) {
        fault(f, 14);
        return UNKNOWN;
    }
    for (unsigned j = 0; j < o->nargs; j++)
        if ((p->rows[args[j]].kind >= E) != (p->rows[base].k >> (letters - 1 - j) & 1)) {
            fault(f, 14);
            return UNKNOWN;
        }
    unsigned result = c->id[o->result];
    if (!filled_code(c, base, args, o->nargs, result)) {
        if (jump && *f > 10)
            c->item = 99;
        fault(f, 10);
        return UNKNOWN;
    }
    return result;
}

static inline unsigned row_kind(const check_t *c, unsigned t) {
    return t < ROWS ? c->p->rows[t].kind : t == NO_I ? (unsigned)I : (unsigned)N;
}

static void target(check_t *c, const operand_t *o, unsigned *f) {
    unsigned t = operand_type(c, o, f, 1);
    if (t == UNKNOWN)
        return;
    if (row_kind(c, t) != C || c->p->rows[t].letters) {
        fault(f, 9);
        return;
    }
    const row_t *x = &c->p->rows[t];
    unsigned s = part_id(c, x, 0);
    unsigned bad = 100;
    if (c->list[s].len != c->depth || memcmp(items_of(c, s), c->sp, c->depth * sizeof(uint16_t)))
        bad = 0;
    for (unsigned i = 1; bad == 100 && i <= 8; i++) {
        unsigned u = part_id(c, x, i);
        if (u != NONE && u != c->regs[i - 1])
            bad = i;
    }
    if (bad != 100) {
        if (*f > 10)
            c->item = bad;
        fault(f, 10);
    }
}

/* value items on top of a list */
static unsigned leading(const uint16_t *items, unsigned n) {
    unsigned k = 0;
    while (k < n && !(items[n - 1 - k] & STACK_VAR))
        k++;
    return k;
}

static int reaches(const uint16_t *items, unsigned n, unsigned i) {
    if (i >= n)
        return 0;
    for (unsigned k = 0; k <= i; k++)
        if (items[n - 1 - k] & STACK_VAR)
            return 0;
    return 1;
}

/* the stack row that register r points to, NONE with 9 if none */
static unsigned pointer(const check_t *c, unsigned r, unsigned *f) {
    unsigned t = reg_type(c, r, f);
    if (t == UNKNOWN)
        return NONE;
    if (row_kind(c, t) != P) {
        fault(f, 9);
        return NONE;
    }
    return part_id(c, &c->p->rows[t], 0);
}

static int is_tail(const check_t *c, unsigned s) {
    return c->list[s].len <= c->depth && !memcmp(items_of(c, s), c->sp, c->list[s].len * sizeof(uint16_t));
}

static void want_int(const check_t *c, unsigned t, unsigned *f) {
    if (t != UNKNOWN && t != c->int_type)
        fault(f, 9);
}

static int points_to_sp(const check_t *c, unsigned t) {
    if (row_kind(c, t) != P)
        return 0;
    unsigned s = part_id(c, &c->p->rows[t], 0);
    return c->list[s].len == c->depth && is_tail(c, s);
}

static void ssp(check_t *c, const instr_t *x, unsigned *f) {
    unsigned src = reg_type(c, x->b, f), s = pointer(c, x->a, f);
    if (s == NONE)
        return;
    unsigned n = c->list[s].len;
    const uint16_t *l = items_of(c, s);
    if (!is_tail(c, s))
        fault(f, 12);
    if (!reaches(l, n, x->i)) {
        fault(f, 11);
        return;
    }
    if (src == UNKNOWN)
        return;
    unsigned t = c->id[x->t], same = 0, at = n - 1 - x->i;
    if (row_kind(c, t) == P) {
        unsigned m = part_id(c, &c->p->rows[t], 0);
        const uint16_t *w = items_of(c, m);
        same = c->list[m].len == n && !memcmp(w, l, at * 2) && w[at] == src && !memcmp(w + at + 1, l + at + 1, (n - at - 1) * 2);
    }
    if (!same)
        fault(f, 10);
    if (*f == 100) {
        c->sp[at] = (uint16_t)src;
        c->regs[x->a] = (uint16_t)t;
    }
}

static void malloc_type(check_t *c, const instr_t *x, unsigned *f) {
    unsigned t = c->id[x->t], known = 1, same = row_kind(c, t) == U && c->p->rows[t].n == x->n;
    for (unsigned i = 0; i < x->n; i++) {
        unsigned u = operand_type(c, &c->p->operands[x->first + i], f, 0);
        known &= u != UNKNOWN;
        same = same && part_id(c, &c->p->rows[t], i) == u;
    }
    if (known && !same)
        fault(f, 10);
    c->regs[x->a] = (uint16_t)t;
}

static int rows_scoped(const check_t *c, const instr_t *x) {
    const program_t *p = c->p;
    int ok = 1;
    if (x->op == MALLOC || x->op == GETSP || x->op == SSP || x->op == HALT)
        ok = scoped(&p->needs[x->t], c->vmask, c->smask);
    for (unsigned i = 0; ok && i < x->n; i++) {
        const operand_t *o = &p->operands[x->first + i];
        if (o->nargs == 0)
            continue;
        for (unsigned j = 0; j < o->nargs; j++)
            ok &= scoped(&p->needs[p->args[o->args + j]], c->vmask, c->smask);
        ok &= scoped(&p->needs[o->result], c->vmask, c->smask);
    }
    return ok;
}

/* one instruction: its lowest fault, 100 if none, and the types after it */
static unsigned judge(check_t *c, const instr_t *x) {
    const program_t *p = c->p;
    const operand_t *o = &p->operands[x->first];
    unsigned f = 100, t, s;
    if (!rows_scoped(c, x))
        return 7;
    switch (x->op) {
    case ADD: case SUB: case MUL:
        want_int(c, reg_type(c, x->b, &f), &f);
        want_int(c, operand_type(c, o, &f, 0), &f);
        c->regs[x->a] = c->int_type;
        break;
    case BEQ: case BNEQ: case BGT: case BLT: case BGTE: case BLTE:
        want_int(c, reg_type(c, x->a, &f), &f);
        target(c, o, &f);
        break;
    case MOV: c->regs[x->a] = (uint16_t)operand_type(c, o, &f, 0); break;
    case LD:
        if ((t = reg_type(c, x->b, &f)) == UNKNOWN)
            break;
        if (row_kind(c, t) != U)
            fault(&f, 9);
        else if (x->i >= p->rows[t].n)
            fault(&f, 11);
        else
            c->regs[x->a] = (uint16_t)part_id(c, &p->rows[t], x->i);
        break;
    case ST:
        t = reg_type(c, x->a, &f);
        s = reg_type(c, x->b, &f);
        if (t == UNKNOWN)
            break;
        if (row_kind(c, t) != U)
            fault(&f, 9);
        else if (x->i >= p->rows[t].n)
            fault(&f, 11);
        else if (s != UNKNOWN && s != part_id(c, &p->rows[t], x->i))
            fault(&f, 10);
        break;
    case MALLOC: malloc_type(c, x, &f); break;
    case GETSP:
        if (!points_to_sp(c, c->id[x->t]))
            fault(&f, 10);
        c->regs[x->a] = c->id[x->t];
        break;
    case SETSP:
        s = pointer(c, x->a, &f);
        if (s == NONE)
            break;
        if (is_tail(c, s))
            c->depth = c->list[s].len;
        else
            fault(&f, 12);
        break;
    case SALLOC:
        if (c->depth + x->i > SP)
            return 13;
        for (unsigned i = 0; i < x->i; i++)
            c->sp[c->depth++] = c->junk_type;
        break;
    case SFREE:
        if (x->i && leading(c->sp, c->depth) < x->i)
            return 11;
        c->depth -= x->i;
        break;
    case SLD:
        if (!reaches(c->sp, c->depth, x->i))
            return 11;
        c->regs[x->a] = c->sp[c->depth - 1 - x->i];
        break;
    case SST:
        s = reg_type(c, x->a, &f);
        if (!reaches(c->sp, c->depth, x->i))
            fault(&f, 11);
        else if (s != UNKNOWN)
            c->sp[c->depth - 1 - x->i] = (uint16_t)s;
        break;
    case SLP:
        s = pointer(c, x->b, &f);
        if (s == NONE)
            break;
        if (!is_tail(c, s))
            fault(&f, 12);
        if (!reaches(items_of(c, s), c->list[s].len, x->i))
            fault(&f, 11);
        else
            c->regs[x->a] = items_of(c, s)[c->list[s].len - 1 - x->i];
        break;
    case SSP: ssp(c, x, &f); break;
    case JMP: target(c, o, &f); break;
    case HALT:
        t = reg_type(c, 0, &f);
        if (t != UNKNOWN && t != c->id[x->t])
            fault(&f, 10);
        break;
    }
    return f;
}

static plain_verdict pass_three(check_t *c) {
    const program_t *p = c->p;
    if (!p->nblocks)
        return (plain_verdict){8, p->lines + 1, 100};
    share(c);
    for (unsigned b = 0; b < p->nblocks; b++) {
        const block_t *k = &p->blocks[b];
        const row_t *r = &p->rows[k->row];
        unsigned s = part_id(c, r, 0), f;
        if ((f = entry_fault(p, b, c->list[s].len)))
            return (plain_verdict){f, k->line, 100};
        masks(r, &c->vmask, &c->smask);
        c->depth = c->list[s].len;
        memcpy(c->sp, items_of(c, s), c->depth * sizeof(uint16_t));
        for (unsigned i = 0; i < 8; i++)
            c->regs[i] = (uint16_t)part_id(c, r, i + 1);
        unsigned end = b + 1 < p->nblocks ? p->blocks[b + 1].first : p->ninstrs;
        for (unsigned i = k->first; i < end; i++) {
            c->item = 100;
            f = judge(c, &p->instrs[i]);
            if (f != 100)
                return (plain_verdict){f, p->instrs[i].line, f == 10 ? c->item : 100};
        }
    }
    return (plain_verdict){0, p->nblocks, p->ninstrs};
}

plain_verdict plain_check(const uint8_t *text, size_t len) {
    static program_t p;
    static check_t c;
    fault_t f = pass_one(&p, text, len);
    if (!f.number)
        f = pass_two(&p);
    if (f.number)
        return (plain_verdict){f.number, f.line, 100};
    c.p = &p;
    c.nitems = 0;
    return pass_three(&c);
}
