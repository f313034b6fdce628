#!/usr/bin/env python3
"""Brings this repository's own definitions and lemmas to snake case, after /opt/rattle/port/port.py (docs/PORT.md).

usage: tools/port_names.py [TABLE]     at the top of the checkout, once, right after port.py; writes the renamings to TABLE

A name that a file of specs/ or proofs/ declares and that begins with a small letter (or with a turnstile) gets underscores for its
dashes and inner capitals: lowestLine is lowest_line, add-line is add_line. Where a lemma would then have the name of a definition,
the definition has it and the lemma gets `_lem`. A name that a file imports from a library of the kit stays in that file.
What turns: antt's code, the clauses and `ghost use` lines of Rattle's, code spans of comments, and code spans and fenced blocks of
pages. Functions of src/, strings, inputs and outputs stay.
"""

import collections
import os
import re
import sys

ROOT = os.path.dirname(os.path.dirname(os.path.realpath(__file__)))
WORD = r"[^\s(){}.;,@\"«»`]+"
DECLARED = re.compile(r"(?m)^\s*(?:abbrev\s+|unfoldable\s+|pub\s+)*((?:" + WORD + r"\s+)+?):\s")
USE = re.compile(r"\buse\s+([^\s{;]+?)\.?\{([^}]*)\}")
COMMENT = re.compile(r"(?m)(?:^|(?<=\s))--.*$")
SPAN = re.compile(r"`[^`\n]+`")
# a clause or a ghost item of a .rt file, and the names of its `ghost use` lines
CLAUSE = re.compile(r"ghost\s+use\b[^;]*;|(?:requires|ensures)\*?\s*(?:\w+\s*)?\{|ghost\s+\w+\s*:\s*\{")
OWN = re.compile(r"[a-zβμ⊢⊨]")


def paths(ext):
    for folder, dirs, files in os.walk(os.path.join(ROOT, "crates")):
        dirs[:] = sorted(d for d in dirs if d != "out")
        for f in sorted(files):
            if f.endswith(ext):
                yield os.path.join(folder, f)


def read(path):
    with open(path, encoding="utf-8") as f:
        return f.read()


def snake(name):
    return re.sub(r"(?<=[a-z0-9])([A-Z])", lambda m: "_" + m[1].lower(), name).replace("-", "_")


def crates():
    with open(os.path.join(ROOT, "crates.txt"), encoding="utf-8") as f:
        return {line.split(":")[0].split()[0] for line in f if ":" in line and not line.startswith("#")}


def imports(text, own):
    """The names that a file imports: of the repository's own modules, and of the kit's."""
    mine, kit = set(), set()
    for path, names in USE.findall(text):
        parts = path.split(".")
        here = parts[0] == "Rattle" and len(parts) > 1 and parts[1] in own
        for it in names.split(","):
            (mine if here else kit).update(it.split(" as ")[0].split())
            if " as " in it:
                mine.add(it.split(" as ")[1].strip())
    return mine, kit


def table(texts, own):
    declared = collections.defaultdict(set)
    for path, text in texts.items():
        for names in DECLARED.findall(text):
            for name in names.split():
                declared[name].add(path)
    turned = {n for n in declared if OWN.match(n) and snake(n) != n}
    tokens = {p: set(re.findall(WORD, t)) for p, t in texts.items()}
    by_new = collections.defaultdict(set)
    for n in turned:
        by_new[snake(n)].add(n)
    to, lem = {}, set()
    for new, olds in by_new.items():
        camel = [n for n in olds if "-" not in n]
        for n in olds:
            taken = "-" in n and (camel or new in declared and any(n in tokens[p] and new in tokens[p] and new not in path_words(texts[p]) for p in texts))
            to[n] = new + "_lem" if taken else new
        # a lemma that has the name already, where the definition comes to it
        if camel and new in declared and any(c in tokens[p] for p in declared[new] for c in camel):
            lem.add(new)
    return to, lem, declared


def path_words(text):
    """Words that stand in a file only as parts of paths."""
    bare = set(re.findall(r"(?<![^\s(){};,])(" + WORD + r")(?!\.)", text))
    return set(re.findall(WORD, text)) - bare


def turn_code(text, to, quoted=True):
    def word(m):
        return to.get(m[0], m[0])

    out, at = [], 0
    for m in re.finditer(r'"(?:[^"\\\n]|\\.)*"', text) if quoted else ():
        out += [re.sub(WORD, word, text[at : m.start()]), m[0]]
        at = m.end()
    return "".join(out) + re.sub(WORD, word, text[at:])


def turn_spans(text, to):
    return SPAN.sub(lambda m: turn_code(m[0], to, False), text)


def turn_antt(text, to):
    out, at = [], 0
    for m in COMMENT.finditer(text):
        out += [turn_code(text[at : m.start()], to), turn_spans(m[0], to)]
        at = m.end()
    return "".join(out) + turn_code(text[at:], to)


def turn_rt(text, to):
    out, at = [], 0
    for m in re.finditer(r"//[^\n]*|" + CLAUSE.pattern, text):
        if m.start() < at:
            continue
        out.append(text[at : m.start()])
        end = m.end()
        if m[0].startswith("//"):
            out.append(turn_spans(m[0], to))
        elif m[0].endswith(";"):
            out.append(turn_code(m[0], to, False))
        else:
            depth = 1
            while depth:
                depth += {"{": 1, "}": -1}.get(text[end], 0)
                end += 1
            out.append(turn_code(text[m.start() : end], to, False))
        at = end
    return "".join(out) + text[at:]


def main(argv):
    own = crates()
    full = {p: read(p) for p in paths(".antt")}
    texts = {p: COMMENT.sub("", t) for p, t in full.items()}
    to, lem, declared = table(texts, own)
    for path, text in full.items():
        mine, kit = imports(texts[path], own)
        here = {n for n, ps in declared.items() if path in ps}
        mine_lem = {n: n + "_lem" for n in lem if n in here or any(n in names.split(", ") and ".proofs." in p for p, names in USE.findall(texts[path]))}
        local = {o: n for o, n in to.items() if o in mine or o in here or o not in kit} | mine_lem
        new = turn_antt(text, local)
        if new != text:
            with open(path, "w", encoding="utf-8") as f:
                f.write(new)
    for path in paths(".rt"):
        text = read(path)
        new = turn_rt(text, to)
        if new != text:
            with open(path, "w", encoding="utf-8") as f:
                f.write(new)
    if argv:
        with open(argv[0], "w", encoding="utf-8") as f:
            f.write("".join(f"{o}\t{n}\n" for o, n in sorted(to.items())))
    print(f"{len(to)} names; `_lem`: {sorted(n for n in to.values() if n.endswith('_lem'))}; lemmas beside a definition: {sorted(lem)}")


if __name__ == "__main__":
    main(sys.argv[1:])
