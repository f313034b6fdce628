#!/usr/bin/env python3
# Writes programs/typical/program.txt: an accepted text of nearly 64 KB, of the kind that a compiler writes. 31 functions, polymorphic in a
# value and in the rest of the stack, each in two blocks: it makes a frame, makes tuples, computes, calls the next function with its frame
# below, and in the second block goes on, drops the frame and returns.
# typical.py [FUNCTIONS DIR]: a smaller one.
import random
import sys
random.seed(7)
N = int(sys.argv[1]) if len(sys.argv) > 2 else 31
folder = sys.argv[2] if len(sys.argv) > 2 else 'bench/programs/typical'
rows, code = [], []
def row(*f):
    rows.append(','.join(str(x) for x in f))
    return len(rows) - 1
def ctype(q, s, **r):
    return row('C', q, s, *[r.get(f'r{i}', '-') for i in range(1, 9)])
I = row('I')
U1 = row('U', I)
E = row('E')
ent = ctype('-', E, r1=U1)
X, V = row('X', 0), row('V', 1)
wide = row('U', *[I] * 16)
some = row('U', *[I] * 5)
ret = ctype('-', X, r1=V)
fn = ctype('vs', X, r1=V, r2=I, r8=ret)
fin = ctype('-', E, r1=I)
fin_fn = ctype('-', E, r1=I, r2=I, r8=fin)
frames = []
for j in range(N):
    items = [I, V, ret] + [random.choice([I, wide, some, V]) for _ in range(3 + j % 3)]
    s = X
    for t in reversed(items):
        s = row('K', t, s)
    back = ctype('-', s, r1=V)                # where the callee returns to, seen from this function
    call = ctype('-', s, r1=V, r2=I, r8=back) # the callee, filled
    cont = ctype('vs', s, r1=V)               # the second block
    P = row('P', s)
    frames.append((items, s, back, call, cont, P))
while len(rows) < 505 * N // 31:
    k = random.choice([I, wide, some])
    ctype('-', random.choice(frames)[1], r1=k, r2=I, r3=wide, r4=some, r5=I, r8=ret)
def literal():
    return random.choice([random.randrange(-2**31, 2**31), random.randrange(-2**31, 2**31), random.randrange(-99999, 99999)])
def sixteen():
    return ','.join(random.choice(['r2'] + [str(literal()) for _ in range(4)]) for _ in range(16))
def work(n):
    out = []
    for i in range(n):
        out.append(random.choices([
            lambda: f'malloc,r3,{wide},' + sixteen(),
            lambda: f'malloc,r4,{some},' + ','.join(str(literal()) for _ in range(5)),
            lambda: f'ld,r2,r3,{random.randrange(16)}',
            lambda: f'st,r3,{random.randrange(16)},r2',
            lambda: f'add,r2,r2,{literal()}',
            lambda: 'mul,r5,r2,r2',
            lambda: f'ld,r5,r4,{random.randrange(5)}',
        ], [9, 1, 1, 1, 1, 0, 0])[0]())
    return out
code += [f'B,{ent}', 'ld,r2,r1,0', 'mov,r1,r2', 'mov,r8,#1', f'jmp,#2:{I}:{E}={fin_fn}', f'B,{fin}', f'halt,{I}']
used = 6
per = (1024 - used) // 62
for j, (items, s, back, call, cont, P) in enumerate(frames):
    body = ['malloc,r3,%d,%s' % (wide, sixteen()), f'malloc,r4,{some},' + ','.join(str(literal()) for _ in range(5)), f'salloc,{len(items)}']
    for i, t in enumerate(items):
        body.append(f"sst,{i},{ {I: 'r2', V: 'r1', ret: 'r8', wide: 'r3', some: 'r4'}[t] }")
    tail = [f'mov,r8,#{2 * j + 3}:{V}:{X}={back}', f'jmp,#{2 * j + 4}:{V}:{s}={call}'] if j + 1 < N else [f'sfree,{len(items)}', 'jmp,r8']
    code += [f'B,{fn}'] + body + work(per - len(body) - len(tail)) + tail
    second = [f'getsp,r6,{P}', 'sld,r2,0', 'slp,r1,r6,1', 'sld,r8,2', 'malloc,r3,%d,%s' % (wide, sixteen()), f'malloc,r4,{some},' + ','.join(str(literal()) for _ in range(5))]
    tail = [f'sfree,{len(items)}', 'jmp,r8']
    code += [f'B,{cont}'] + second + work(per - len(second) - len(tail)) + tail
text = '\n'.join(rows + code) + '\n'
open(folder + '/program.txt', 'w').write(text)
open(folder + '/samples.txt', 'w').write('25\n')
print(len(text), 'bytes,', len(rows), 'rows')
