/* Pass one: lines into tables, faults 1 to 3. Pass two: what lines name, sizes, faults 4 to 6. */
#include "program.h"
#include <string.h>

typedef const uint8_t *cur;

/* a number up to max at *at, which is moved past it */
static inline int number(cur *at, uint32_t max, uint32_t *out) {
    cur p = *at;
    uint32_t d = *p - '0';
    if (d > 9)
        return 0;
    uint64_t n = d;
    p++;
    if (n == 0) {
        if ((unsigned)(*p - '0') <= 9)
            return 0;
    } else {
        while ((d = *p - '0') <= 9) {
            n = n * 10 + d;
            if (n > max)
                return 0;
            p++;
        }
    }
    *at = p;
    *out = (uint32_t)n;
    return n <= max;
}

int parse_int(cur *at, uint32_t *out) {
    if (**at == '-') {
        ++*at;
        if (!number(at, 2147483648u, out) || *out == 0)
            return 0;
        *out = -*out;
        return 1;
    }
    return number(at, 2147483647u, out);
}

static inline int row_no(cur *at, uint16_t *out) {
    uint32_t n;
    if (!number(at, 511, &n))
        return 0;
    *out = (uint16_t)n;
    return 1;
}

static inline int small(cur *at, uint32_t max, uint8_t *out) {
    uint32_t n;
    if (!number(at, max, &n))
        return 0;
    *out = (uint8_t)n;
    return 1;
}

static inline int comma(cur *at) {
    if (**at != ',')
        return 0;
    ++*at;
    return 1;
}

static inline int reg(cur *at, uint8_t *out) {
    if ((*at)[0] != 'r')
        return 0;
    unsigned d = (*at)[1] - '1';
    if (d > 7)
        return 0;
    *out = (uint8_t)d;
    *at += 2;
    return 1;
}

static int operand(program_t *p, cur *at) {
    operand_t *o = &p->operands[p->noperands++];
    uint8_t r;
    o->nargs = 0;
    if (**at == 'r') {
        if (!reg(at, &r))
            return 0;
        o->kind = REG;
        o->num = r;
    } else if (**at == '#') {
        ++*at;
        if (!number(at, 63, &o->num))
            return 0;
        o->kind = LAB;
    } else {
        o->kind = LIT;
        return parse_int(at, &o->num);
    }
    if (**at != ':')
        return **at != '=';
    o->args = p->nargs;
    while (**at == ':') {
        ++*at;
        if (o->nargs == 8 || !row_no(at, &p->args[p->nargs]))
            return 0;
        p->nargs++;
        o->nargs++;
    }
    if (**at != '=')
        return 0;
    ++*at;
    return row_no(at, &o->result);
}

static int code_row(program_t *p, row_t *r, cur at) {
    unsigned n = 0, k = 0;
    uint16_t *part = &p->parts[p->nparts];
    if (*at == '-') {
        at++;
    } else {
        for (; *at == 'v' || *at == 's'; at++, n++) {
            if (n == 8)
                return 0;
            k = k << 1 | (*at == 's');
        }
        if (n == 0)
            return 0;
    }
    r->letters = (uint8_t)n;
    r->k = (uint8_t)k;
    if (!comma(&at) || !row_no(&at, part))
        return 0;
    for (int i = 1; i <= 8; i++) {
        if (!comma(&at))
            return 0;
        if (*at == '-') {
            part[i] = NONE;
            at++;
        } else if (!row_no(&at, &part[i]))
            return 0;
    }
    r->n = 9;
    p->nparts += 9;
    return *at == '\n';
}

static int tuple_row(program_t *p, row_t *r, cur at) {
    unsigned n = 0;
    while (*at == ',') {
        at++;
        if (n == 16 || !row_no(&at, &p->parts[p->nparts + n]))
            return 0;
        n++;
    }
    r->n = (uint8_t)n;
    p->nparts += n;
    return *at == '\n';
}

static int named_rows(program_t *p, row_t *r, cur at, unsigned n) {
    for (unsigned i = 0; i < n; i++)
        if (!comma(&at) || !row_no(&at, &p->parts[p->nparts + i]))
            return 0;
    r->n = (uint8_t)n;
    p->nparts += n;
    return *at == '\n';
}

static int variable(row_t *r, cur at) {
    return comma(&at) && small(&at, 63, &r->k) && *at == '\n';
}

/* a type line (its first letter is c, read); 0: no form */
static int type_line(program_t *p, uint8_t c, cur at) {
    row_t *r = &p->rows[p->nrows];
    r->at = (uint16_t)p->nparts;
    r->n = r->k = r->letters = 0;
    switch (c) {
    case 'I': r->kind = I; return *at == '\n';
    case 'N': r->kind = N; return *at == '\n';
    case 'E': r->kind = E; return *at == '\n';
    case 'V': r->kind = V; return variable(r, at);
    case 'X': r->kind = X; return variable(r, at);
    case 'U': r->kind = U; return tuple_row(p, r, at);
    case 'P': r->kind = P; return named_rows(p, r, at, 1);
    case 'K': r->kind = K; return named_rows(p, r, at, 2);
    case 'A': r->kind = A; return named_rows(p, r, at, 2);
    case 'C': r->kind = C; return comma(&at) && code_row(p, r, at);
    }
    return 0;
}

#define W2(a, b) ((uint64_t)(a) | (uint64_t)(b) << 8)
#define W3(a, b, c) (W2(a, b) | (uint64_t)(c) << 16)
#define W4(a, b, c, d) (W3(a, b, c) | (uint64_t)(d) << 24)
#define W5(a, b, c, d, e) (W4(a, b, c, d) | (uint64_t)(e) << 32)
#define W6(a, b, c, d, e, f) (W5(a, b, c, d, e) | (uint64_t)(f) << 40)

static int instr_line(program_t *p, cur at) {
    instr_t *x = &p->instrs[p->ninstrs];
    uint64_t w = 0;
    int n = 0;
    for (; *at >= 'a' && *at <= 'z' && n < 7; at++, n++)
        w |= (uint64_t)*at << (8 * n);
    if (!comma(&at))
        return 0;
    x->first = (uint16_t)p->noperands;
    x->n = 0;
    switch (w) {
    case W3('a', 'd', 'd'): x->op = ADD; goto arith;
    case W3('s', 'u', 'b'): x->op = SUB; goto arith;
    case W3('m', 'u', 'l'):
        x->op = MUL;
    arith:
        x->n = 1;
        return reg(&at, &x->a) && comma(&at) && reg(&at, &x->b) && comma(&at) && operand(p, &at) && *at == '\n';
    case W3('b', 'e', 'q'): x->op = BEQ; goto branch;
    case W4('b', 'n', 'e', 'q'): x->op = BNEQ; goto branch;
    case W3('b', 'g', 't'): x->op = BGT; goto branch;
    case W3('b', 'l', 't'): x->op = BLT; goto branch;
    case W4('b', 'g', 't', 'e'): x->op = BGTE; goto branch;
    case W4('b', 'l', 't', 'e'): x->op = BLTE; goto branch;
    case W3('m', 'o', 'v'):
        x->op = MOV;
    branch:
        x->n = 1;
        return reg(&at, &x->a) && comma(&at) && operand(p, &at) && *at == '\n';
    case W2('l', 'd'): x->op = LD; goto load;
    case W3('s', 'l', 'p'):
        x->op = SLP;
    load:
        return reg(&at, &x->a) && comma(&at) && reg(&at, &x->b) && comma(&at) && small(&at, 63, &x->i) && *at == '\n';
    case W2('s', 't'):
        x->op = ST;
        return reg(&at, &x->a) && comma(&at) && small(&at, 63, &x->i) && comma(&at) && reg(&at, &x->b) && *at == '\n';
    case W3('s', 's', 'p'):
        x->op = SSP;
        return reg(&at, &x->a) && comma(&at) && small(&at, 63, &x->i) && comma(&at) && reg(&at, &x->b) && comma(&at) && row_no(&at, &x->t) && *at == '\n';
    case W6('m', 'a', 'l', 'l', 'o', 'c'):
        x->op = MALLOC;
        if (!reg(&at, &x->a) || !comma(&at) || !row_no(&at, &x->t))
            return 0;
        while (*at == ',') {
            at++;
            if (x->n == 16 || !operand(p, &at))
                return 0;
            x->n++;
        }
        return *at == '\n';
    case W5('g', 'e', 't', 's', 'p'):
        x->op = GETSP;
        return reg(&at, &x->a) && comma(&at) && row_no(&at, &x->t) && *at == '\n';
    case W5('s', 'e', 't', 's', 'p'):
        x->op = SETSP;
        return reg(&at, &x->a) && *at == '\n';
    case W6('s', 'a', 'l', 'l', 'o', 'c'): x->op = SALLOC; goto depth;
    case W5('s', 'f', 'r', 'e', 'e'):
        x->op = SFREE;
    depth:
        return small(&at, 64, &x->i) && *at == '\n';
    case W3('s', 'l', 'd'):
        x->op = SLD;
        return reg(&at, &x->a) && comma(&at) && small(&at, 63, &x->i) && *at == '\n';
    case W3('s', 's', 't'):
        x->op = SST;
        return small(&at, 63, &x->i) && comma(&at) && reg(&at, &x->a) && *at == '\n';
    case W3('j', 'm', 'p'):
        x->op = JMP;
        x->n = 1;
        return operand(p, &at) && *at == '\n';
    case W4('h', 'a', 'l', 't'):
        x->op = HALT;
        return row_no(&at, &x->t) && *at == '\n';
    }
    return 0;
}

fault_t pass_one(program_t *p, const uint8_t *text, size_t len) {
    p->nrows = p->nblocks = p->ninstrs = p->nparts = p->noperands = p->nargs = 0;
    p->lines = 0;
    if (len > 65536)
        return (fault_t){3, 0};
    size_t whole = len;
    while (whole > 0 && text[whole - 1] != '\n')
        whole--;
    cur at = text, end = text + whole;
    uint32_t line = 0;
    int open = 0;
    while (at < end) {
        line++;
        cur nl = at;
        uint8_t c = *at;
        unsigned nrows = p->nrows;
        if (c == 'B') {
            block_t *b = &p->blocks[p->nblocks];
            cur q = at + 1;
            if (!comma(&q) || !row_no(&q, &b->row) || *q != '\n')
                return (fault_t){1, line};
            if (open)
                return (fault_t){2, line};
            if (p->nblocks == BLOCKS)
                return (fault_t){3, line};
            b->line = line;
            b->first = (uint16_t)p->ninstrs;
            p->nblocks++;
            open = 1;
        } else if (c >= 'A' && c <= 'Z') {
            if (!type_line(p, c, at + 1))
                return (fault_t){1, line};
            if (p->nblocks)
                return (fault_t){2, line};
            if (nrows == ROWS)
                return (fault_t){3, line};
            p->nrows++;
        } else {
            if (!instr_line(p, at))
                return (fault_t){1, line};
            if (!open)
                return (fault_t){2, line};
            if (p->ninstrs == INSTRS)
                return (fault_t){3, line};
            instr_t *x = &p->instrs[p->ninstrs++];
            x->line = line;
            if (x->op >= JMP)
                open = 0;
        }
        at = (cur)memchr(nl, '\n', (size_t)(end - nl)) + 1;
    }
    if (whole < len)
        return (fault_t){1, line + 1};
    p->lines = line;
    if (open)
        return (fault_t){2, line + 1};
    return (fault_t){0, 0};
}

/* ---- pass two */
static inline int is_stack(const program_t *p, unsigned r) {
    return p->rows[r].kind >= E;
}

static unsigned check_row(program_t *p, unsigned n) {
    const row_t *r = &p->rows[n];
    const uint16_t *part = &p->parts[r->at];
    unsigned size = 1, wrong = 0;
    needs_t nd = {0, 0, 0};
    for (unsigned i = 0; i < r->n; i++) {
        unsigned x = part[i];
        if (x == NONE)
            continue;
        if (x >= n)
            return 4;
        int stack = r->kind == P || r->kind == A || (r->kind == C && i == 0) || (r->kind == K && i == 1);
        wrong |= is_stack(p, x) != stack;
        size += p->size[x];
        nd.v |= p->needs[x].v;
        nd.s |= p->needs[x].s;
        nd.bad |= p->needs[x].bad;
    }
    if (wrong)
        return 5;
    if (size > 4096)
        return 6;
    p->size[n] = (uint16_t)size;
    if (r->kind == V)
        nd.v = 1ull << r->k;
    if (r->kind == X)
        nd.s = 1ull << r->k;
    if (r->kind == C) {
        uint64_t v, s;
        masks(r, &v, &s);
        uint64_t low = (1ull << r->letters) - 1;
        nd.bad |= ((nd.v & low & ~v) | (nd.s & low & ~s)) != 0;
        nd.v >>= r->letters;
        nd.s >>= r->letters;
    }
    p->needs[n] = nd;
    return 0;
}

static unsigned check_names(const program_t *p, const instr_t *x) {
    unsigned wrong = 0;
    if (x->op == MALLOC || x->op == GETSP || x->op == SSP || x->op == HALT) {
        if (x->t >= p->nrows)
            return 4;
        wrong = is_stack(p, x->t);
    }
    for (unsigned i = 0; i < x->n; i++) {
        const operand_t *o = &p->operands[x->first + i];
        if (o->kind == LAB && o->num >= p->nblocks)
            return 4;
        if (o->kind == LIT || o->nargs == 0)
            continue;
        for (unsigned j = 0; j < o->nargs; j++)
            if (p->args[o->args + j] >= p->nrows)
                return 4;
        if (o->result >= p->nrows)
            return 4;
        wrong |= p->rows[o->result].kind != C;
    }
    return wrong ? 5 : 0;
}

fault_t pass_two(program_t *p) {
    unsigned f;
    for (unsigned n = 0; n < p->nrows; n++)
        if ((f = check_row(p, n)))
            return (fault_t){f, n + 1};
    for (unsigned b = 0; b < p->nblocks; b++) {
        const block_t *k = &p->blocks[b];
        if (k->row >= p->nrows)
            return (fault_t){4, k->line};
        if (p->rows[k->row].kind != C)
            return (fault_t){5, k->line};
        unsigned end = b + 1 < p->nblocks ? p->blocks[b + 1].first : p->ninstrs;
        for (unsigned i = k->first; i < end; i++)
            if ((f = check_names(p, &p->instrs[i])))
                return (fault_t){f, p->instrs[i].line};
    }
    return (fault_t){0, 0};
}

/* a stack row's items, no more than limit + 1 counted */
unsigned count_items(const program_t *p, unsigned r, unsigned limit) {
    const row_t *x = &p->rows[r];
    const uint16_t *part = &p->parts[x->at];
    unsigned n = 0;
    for (;;) {
        if (x->kind == E)
            return n;
        if (x->kind == X)
            return n + 1;
        if (x->kind == K)
            n++;
        else
            n += count_items(p, part[0], limit);
        if (n > limit)
            return n;
        x = &p->rows[part[1]];
        part = &p->parts[x->at];
    }
}

/* a fault on a block's own line: 7, 8, 13 */
unsigned entry_fault(const program_t *p, unsigned label, unsigned items) {
    unsigned r = p->blocks[label].row;
    const row_t *c = &p->rows[r];
    const uint16_t *part = &p->parts[c->at];
    if (!scoped(&p->needs[r], 0, 0))
        return 7;
    if (label == 0) {
        if (c->letters || items || part[1] == NONE || p->rows[part[1]].kind != U)
            return 8;
        const row_t *u = &p->rows[part[1]];
        for (unsigned i = 0; i < u->n; i++)
            if (p->rows[p->parts[u->at + i]].kind != I)
                return 8;
        for (unsigned i = 2; i <= 8; i++)
            if (part[i] != NONE)
                return 8;
    }
    return items > 64 ? 13 : 0;
}
