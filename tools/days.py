# What pack_days and fuzz_days share: the days below examples/days (their forms are told in examples/README.md), random days, and what the
# other team's interpreter prints for a day.
import glob
import os
import re
import subprocess

ROOT = os.path.abspath(os.path.join(os.path.dirname(os.path.abspath(__file__)), ".."))
FOLDER = os.path.join(ROOT, "examples", "days")
STOPS = ["paused", "stack", "heap", "stuck"]
KINDS = ["int", "int", "int", "int", "int", "code", "tuple", "height", "junk"]
NUMBERS = ["0", "1", "7", "-1", "-7", "25600", "1000000", "1000001", "2147483647", "2147483648", "-2147483648", "-2147483649", "4294967296",
           "99999999999999999999", "-0", "00", "01", "+1", "-", ""]
LINES = ["", ",", "refuse,8,1", "accept,1,4", "overflow,3", "halted,3", "halted,3,int", "halted,3,int,4,5", "paused", "paused,3,",
         "paused, 3", "stuck,3\r", "paused,3,int,4", "Paused,3", "halted,3,Int,4", "\xff"]


# A day: its name, its text as pieces (times, bytes), and the line that a person expects, if one does.
class Day:
    def __init__(self, name, pieces, expected=None):
        self.name, self.pieces, self.expected = name, pieces, expected

    def text(self):
        return b"".join(k * b for k, b in self.pieces)


# ---- hand-written days
def piece(s, end):
    line, times = re.fullmatch(r"(.*?)(?: \*(\d+))?", s).groups()
    return int(times or 1), line.encode().decode("unicode_escape").encode("latin-1") + end


def between(s):
    return [(1, b"paused,3\n"), piece(s, b"\n"), (1, b"paused,3\n")]


def days_in(path):
    days = []
    file = os.path.relpath(path, ROOT) + " "
    for line in open(path).read().split("\n"):
        word, _, rest = line.partition(" ")
        if word == "day":
            days.append(Day(file + rest, []))
        elif word == ">":
            days[-1].pieces.append(piece(rest, b"\n"))
        elif word == "+":
            days[-1].pieces.append(piece(rest, b""))
        elif word == "=":
            days[-1].expected = rest
        elif word == "bad":
            days.append(Day(file + line, between(rest), "refuse,17,2"))
        elif word == "other":
            days.append(Day(file + line, between(rest), "0,3,-,-,-,-,-"))
        elif word not in ("", "#"):
            raise SystemExit(f"{path}: {line}")
    return days


def hand_written():
    read = lambda name: open(os.path.join(FOLDER, name), "rb").read()
    days = [Day("examples/days/day.txt", [(1, read("day.txt"))], read("expected.txt").decode().rstrip("\n"))]
    return days + [d for path in sorted(glob.glob(os.path.join(FOLDER, "*.days"))) for d in days_in(path)]


# ---- random days
def number(r):
    return r.choice([r.randrange(-(2**31), 2**31), r.randrange(-9, 10), r.randrange(20000, 30000), 2**31 - 1, -(2**31)])


def good(r):
    if r.random() < 0.25:
        return f"{r.choice(STOPS)},{r.randrange(1000001)}"
    kind = r.choice(KINDS)
    return f"halted,{r.choice([0, 3, 1000000, r.randrange(1000001)])},{kind},{0 if kind == 'junk' else number(r)}"


# A good line with one of its fields changed, put in or left out, or another line.
def doubtful(r):
    if r.random() < 0.2:
        return r.choice(LINES)
    fields = good(r).split(",")
    i = r.randrange(len(fields))
    new = r.choice([r.choice(NUMBERS), r.choice(NUMBERS), r.choice(NUMBERS), r.choice(KINDS + STOPS), None])
    fields[i : i + r.randrange(2)] = [] if new is None else [new]
    return ",".join(fields)


def changed(r, text):
    i = r.randrange(len(text) + 1)
    return text[:i] + bytes([r.choice([r.randrange(256), *b"0123456789,-\n"])]) * r.randrange(2) + text[i + r.randrange(2) :]


# A few lines; some dozens; or some 500 of them, in stretches of equal lines.
def random_pieces(r):
    what = r.random()
    if what < 0.5:
        doubt = r.choice([0, 0, 0.2, 1])
        pieces = [(1, ((doubtful if r.random() < doubt else good)(r) + "\n").encode("latin-1")) for _ in range(r.randrange(9))]
    elif what < 0.8:
        pieces = [(1, (good(r) + "\n").encode()) for _ in range(r.randrange(10, 60))]
    else:
        left, pieces = r.choice([499, 500, 500, 501, r.randrange(400, 600)]), []
        while left > 0:
            k = min(left, r.choice([1, 2, 10, 50, 100]))
            pieces.append((k, (good(r) + "\n").encode()))
            left -= k
    if pieces and r.random() < 0.3:
        i = r.randrange(len(pieces))
        k, b = pieces[i]
        pieces[i : i + 1] = [(k - 1, b), (1, changed(r, b))]
    if pieces and r.random() < 0.05:
        k, b = pieces.pop()
        pieces += [(k - 1, b), (1, b[:-1])]
    return pieces


# ---- the interpreter
def reported(oracle, text):
    return subprocess.run([oracle, "--points", "1", "report"], input=text, check=True, capture_output=True).stdout.decode().rstrip("\n")
