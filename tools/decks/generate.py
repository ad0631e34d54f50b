#!/usr/bin/env python3
"""Decks from a seed, good and bad ones.

    generate.py SEED COUNT [--out FOLDER] [--good]

prints each deck in one line, every byte outside 33..126, and the backslash, as a backslash and two hexadecimal digits; with --out it writes
them as files. About half of the decks are good. Those of one seed are always the same.

Numbers 8 and 10 can't come from a file: no line stands behind finishing, and no order's base is t0. Nor can 6: the only `beq` and `bne`
that are jumps stand in the frames, whose ends are never longer than 120 words.
"""
import argparse
import pathlib
import random

from reference import CELL, CODE, FIELDS, JUMPS, Code, Refused, epilogue, head_of, orders, prologue, reloads, routine, saves

PLACES = ["mem", "stack", "param"]
BODY = [n for n in FIELDS if n not in ("fast", "indirect")]
PRESERVED = list(CELL)
SMALL_FLOATS = [0, 1, -1, 2, 3, 7, -10, 100, 2**31, 2**53, -(2**53), 2**53 - 1, 12345678901]
RAW = [0, 1, 2**63, 2**64 - 1, 0x3FE0000000000000, 0x7FF0000000000000, 0xFFF0000000000000, 0x7FF8000000000000, 0x7FF0000000000001,
       0xFFFFFFFFFFFFFFFE, 0x4330000000000001, 0x0010000000000000, 0x000FFFFFFFFFFFFF, 0x43E0000000000000, 0xC3E0000000000001]


def escaped(deck):
    return "".join(chr(b) if 33 <= b < 127 and b != 92 else f"\\{b:02x}" for b in deck)


def line(name, *fields):
    return ",".join([name, *map(str, fields)]) + "\n"


def text(lines):
    return "".join(lines).encode("latin-1")


# ---- good decks


def some_mask(r):
    """Any bits; the preserved ones are there or not by chance."""
    mask = r.choice([0, 0, 2**32 - 1, r.getrandbits(32), r.getrandbits(32) & r.getrandbits(32)])
    if r.random() < 0.3:
        mask |= 1 << r.choice(PRESERVED)
    return mask


def some_head(r, frame=None):
    """A head that is accepted, often at a limit."""
    frame = frame or r.choice(["fast", "indirect"])
    mask = some_mask(r)
    least = 16 if any(mask >> p & 1 for p in PRESERVED) else 0
    cap = r.choice([least, 16, 17, 20, 255, 256, 257, 300, 4096, r.randint(least, 40), r.randint(least, 4096)])
    if frame == "fast":
        states = r.choice([0, 1, 2, 7, 8, r.randint(0, 8)])
        obs = r.choice([0, 1, 3, 17, 255, 4096 - states, r.randint(0, 30)]) + (states == 0)
        obs = min(obs, 4096 - states)
        last = r.choice([0, states + obs - 1, r.randint(0, states + obs - 1)])
        return frame, cap, states, obs, min(last, 255), mask
    states = r.choice([0, 1, 2, 15, 16, 17, 18, 300, 2047, 2048, 4096, r.randint(0, 40)])
    obs = r.choice([0, 1, 2, 15, 16, 17, 18, 300, 2048, 4096 - states, r.randint(0, 40)])
    obs = min(obs, 4096 - states)
    return frame, cap, states, obs, r.choice([0, 1, 5, 256, 300, 4096, r.randint(0, 50)]), mask


class Maker:
    """Lines that are accepted under a head, with labels that get set and constants that get given."""

    def __init__(self, r, head, scratch=None, backward=False, near=False):
        self.r, self.head, self.h, self.scratch, self.backward, self.near = r, head, head_of(head[0], head[1:]), scratch, backward, near
        self.saved = set(self.h.saved())
        self.targets = [n for n in range(32) if n not in CELL or n in self.saved]
        self.taken = {CELL[n] for n in self.saved}
        self.open, self.used, self.constants = [], set(), 0

    def source(self):
        return self.r.choice([10, 11, self.r.randint(0, 31), self.r.randint(0, 31)])

    def target(self):
        return self.r.choice([10, 12, self.r.choice(self.targets)])

    def index(self, place, put=False):
        """A cell, often at an access's limit; None where there is none."""
        n = self.h.cells(place)
        if self.near:
            n = min(n, 256)
        cells = [i for i in (0, 1, 4, 15, 254, 255, 256, 257, n - 1, self.r.randrange(n) if n else 0) if 0 <= i < n]
        if put and place == "stack":
            cells = [i for i in cells if i not in self.taken]
        return self.r.choice(cells) if cells else None

    def label(self):
        """A label for a branch: one that will be set, or with backward ones also one that is."""
        if self.backward and self.used and self.r.random() < 0.3:
            past = [n for n in self.used if n not in self.open]
            if past:
                return self.r.choice(past)
        if self.open and self.r.random() < 0.6:
            return self.r.choice(self.open)
        fresh = [n for n in (0, 1, 1023, self.r.randint(0, 1023), self.r.randint(0, 1023)) if n not in self.used]
        if not fresh:
            return self.r.choice(self.open) if self.open else None
        n = self.r.choice(fresh)
        self.open.append(n)
        self.used.add(n)
        return n

    def one(self, name):
        """A line of that name; None where none fits."""
        s, d, shape = self.source, self.target, orders.shape(name)
        if shape == "unary":
            return line(name, d(), s())
        if shape == "scratched":
            return line(name, d(), s(), self.target() if self.scratch is None else self.scratch)
        if shape == "binary":
            return line(name, d(), s(), s())
        if shape == "fused":
            return line(name, d(), s(), s(), s())
        if name == "load_const":
            self.constants = max(self.constants, self.r.randint(1, 12))
            return line(name, d(), self.r.randrange(self.constants))
        if name == "branch":
            n = self.label()
            return None if n is None else line(name, s(), n, self.r.randint(0, 1))
        if name == "label":
            return self.set_label()
        place = "stack" if name == "ifelse" else self.r.choice(PLACES)
        i = self.index(place, name == "put")
        if i is None:
            return None
        if name == "ifelse":
            return line(name, d(), s(), s(), i)
        return line(name, d() if name == "get" else s(), place, i)

    def set_label(self):
        if self.open and self.r.random() < 0.8:
            n = self.r.choice(self.open)
            self.open.remove(n)
        else:
            fresh = [n for n in range(1024) if n not in self.used]
            n = self.r.choice(fresh)
            self.used.add(n)
        return line("label", n)

    def constant(self):
        if self.r.random() < 0.5:
            return line("float", self.r.choice([*SMALL_FLOATS, self.r.randint(-1000, 1000), self.r.randint(-(2**53), 2**53)]))
        return line("bits", f"{self.r.choice([*RAW, self.r.getrandbits(64)]):016x}")

    def deck(self, count, names=BODY, anywhere=True):
        """A head, about `count` orders, the labels still open, the constants that are still missing."""
        lines, given = [], 0
        while len(lines) < count:
            name = self.r.choice(names)
            if name in ("float", "bits"):
                if anywhere:
                    lines.append(self.constant())
                    given += 1
                continue
            told = self.one(name)
            if told:
                lines.append(told)
        lines += [line("label", n) for n in self.open]
        for _ in range(self.constants - given):
            where = self.r.randint(0, len(lines)) if anywhere and self.r.random() < 0.3 else len(lines)
            lines.insert(where, self.constant())
        return [line(*self.head), *lines]


def good(r, scratch=None, without=(), frame=None, count=None, backward=False, near=False):
    """A deck that is accepted, unless chance fills it up."""
    names = [n for n in BODY if n not in without]
    if r.random() < 0.2:
        names = r.sample(names, r.randint(3, 8)) + ["minus"]
    maker = Maker(r, some_head(r, frame), scratch, backward, near)
    return maker.deck(r.choice([0, 1, 3, 10, 25, 60]) if count is None else count, names)


def rich(r, count=None):
    """A deck with many labels: stale ones, and ones jumped to before they are set, behind that, or both; and constants, loaded or not."""
    timed = []
    for label in r.sample(range(1024), r.choice([1, 3, 10, 40, 200, 1024]) if count is None else count):
        at = r.random()
        timed.append((at, line("label", label)))
        before, behind = r.choice([(0, 0), (0, 0), (1, 0), (0, 1), (1, 1), (r.randint(0, 2), r.randint(0, 2))])
        times = [at * r.random() for _ in range(before)] + [at + (1 - at) * r.random() for _ in range(behind)]
        timed += [(t, line("branch", r.randint(0, 31), label, r.randint(0, 1))) for t in times]
    for k in range(r.choice([0, 0, 1, 5, 60])):
        timed.append((r.random(), r.choice(["float,1\n", "bits,0000000000000001\n"])))
        if r.random() < 0.5:
            timed.append((r.random(), line("load_const", r.randint(0, 7), k)))
    timed += [(r.random(), line("minus", 1, 2, 3)) for _ in range(r.choice([0, 5, 30]))]
    return [line(*some_head(r)), *(told for _, told in sorted(timed))]


def ends(head):
    """Words and jumps that a head's frame has before and behind the body."""
    h = head_of(head[0], head[1:])
    before, behind = Code(CODE), Code(CODE)
    before.place([*prologue(h), *saves(h)], 1)
    behind.place([*reloads(h), *epilogue(h)], 1)
    return len(before.words), len(behind.words), len(before.jumps) + len(behind.jumps)


# Lines of 11, 8, 4, 2 and 1 words that fill a buffer; the head needs 257 stack cells for the first.
FILL = [(11, "ifelse,1,2,3,256\n"), (8, "ifelse,1,2,3,0\n"), (4, "and,1,2,3\n"), (2, "floor,1,2\n"), (1, "minus,1,2,3\n")]


def filled(head, words, first=0):
    """The head and lines of exactly so many words, behind `first` words that others take."""
    lines, left = [], words - first
    for size, told in FILL:
        if size == 11 and head[1] < 257:
            continue
        lines += [told] * (left // size)
        left %= size
    return [line(*head), *lines]


def full(r, spare=0, head=None):
    """A deck whose code ends `spare` words before the buffer's end (behind it, where that is negative), a `nop` before constants apart."""
    head = head or (r.choice(["fast", "indirect"]), r.choice([257, 300]), r.randint(0, 8), r.randint(1, 40), 0, some_mask(r))
    before, behind, _ = ends(head)
    constants = r.choice([0, 0, 1, 5])
    lines = filled(head, CODE // 4 - spare, before + behind + 2 * constants)
    return lines + ["float,1\n"] * constants


def jumpy(r, spare=0, head=None):
    """A deck with all but `spare` of the 4,096 jumps (more of them, where that is negative)."""
    head = head or (r.choice(["fast", "indirect"]), 20, r.choice([0, 3, 8]), r.choice([1, 20]), 0, 0)
    _, _, taken = ends(head)
    pairs = (JUMPS - taken - spare) // 2
    loads = r.choice([0, pairs // 2, pairs])
    body = ["branch,1,7,0\n"] * (pairs - loads) + ["load_const,1,0\n"] * loads
    return [line(*head), *body, "label,7\n", "float,5\n"]


def long_file(r, size):
    """A good file of exactly `size` bytes."""
    lines, told = ["fast,0,1,0,0,0\n"], r.choice(["fmov,1,1\n", "fmov,10,10\n", "label,7\n"])
    left = size - len(lines[0])
    if told == "label,7\n":
        lines += [told, "put,10,mem,0\n"]
        left, told = left - len(lines[1] + lines[2]), "fmov,31,31\n"
    while left >= 120:
        lines.append(told)
        left -= len(told)
    # what is left is 9 a + 11 b
    while left % 9:
        lines.append("fmov,10,10\n")
        left -= 11
    return lines + ["fmov,1,1\n"] * (left // 9)


def large(r, count, **options):
    """Many lines of all kinds; the buffer holds them."""
    maker = Maker(r, ("indirect", 300, 20, 20, 300, 0x0FFC0300), near=True, **options)
    return maker.deck(count, [n for n in BODY if n not in ("ifelse", "float", "bits")], anywhere=False)


# ---- bad decks

BIG = ["32", "99", "256", "1008", "1024", "4096", "4097", "9007199254740993", "4294967295", "4294967296", "4294967328",
       "18446744073709551615", "18446744073709551616", "18446744073709551648", "1" + "0" * 30, "9" * 40,
       "340282366920938463463374607431768211456"]
BAD = ["", "00", "01", "0000", "-0", "-1", "+1", " 1", "1 ", "1.0", "0x1", "a", "1a", "1\r", "\0", "1\0", "\xb2", "1,", "9" * 23 + "x",
       "mem", "Mem", "2", "-00", "-", "--1", "-01", "1e3", "\t1", "'1'", '"1"', "1_0", "\xff", "\x1a"]
OTHERS = ["plus", "branch_if", "set_label", "load_mem", "save_mem", "neg", "abs", "root", "half", "trunc", "ceiling", "geq", "lt", "leq",
          "eq", "#", "//", "", "fast", "indirect", "Minus", "MINUS", "minus ", " minus", "minu", "minuss", "get ", "fmov\0", "call",
          "power"]


def broken_field(r, told):
    """One field of a line is too big or malformed."""
    fields = told.rstrip("\n").split(",")
    at = r.randrange(1, len(fields)) if len(fields) > 1 else 0
    fields[at] = r.choice(BIG + BAD)
    return ",".join(fields) + "\n"


def broken_shape(r, told):
    """A line's commas, ends or name are off."""
    body = told.rstrip("\n")
    return r.choice([
        body + ",0\n", body + ",\n", body.rsplit(",", 1)[0] + "\n", body + " \n", " " + told, body + "\r\n", "\n", "\r\n", " \n", ",\n",
        "\0\n", body.replace(",", ";") + "\n", body.replace(",", ",,", 1) + "\n", body.upper() + "\n", told + "\n", "\n" + told,
        "# " + told, "," + told, r.choice(OTHERS) + "," + body.partition(",")[2] + "\n", r.choice(OTHERS) + "\n",
        body.replace(",", ", ", 1) + "\n", body + "\0\n", body + "\t\n",
    ])


def some_line(r, head):
    """A line of any name with fields anywhere at, below or above their limits."""
    name = r.choice(BODY)
    edge = {"r": [0, 8, 10, 18, 31, 32], "l": [0, 7, 1023, 1024], "k": [0, 5, 1007, 1008]}
    edge |= {"i": [0, 4, 15, 16, 4095, 4096, head[1], head[2] + head[3], head[4]]}
    out = []
    for k in FIELDS[name]:
        if k in edge:
            out.append(r.choice(edge[k]) if r.random() < 0.7 else r.randint(0, 40))
        elif k == "p":
            out.append(r.choice(PLACES))
        elif k == "e":
            out.append(r.choice([0, 1, 0, 1, 2]))
        elif k == "z":
            out.append(r.choice([*SMALL_FLOATS, 2**53 + 1, -(2**53) - 1, 2**64, -(2**64)]))
        else:
            out.append(f"{r.choice(RAW):016x}")
    return line(name, *out)


def unsaved_line(r):
    """A line that writes a preserved register."""
    d, s, some = r.choice(PRESERVED), r.randint(0, 31), lambda shape: r.choice(orders.names(shape))
    return r.choice([line(some("unary"), d, r.choice([s, d])), line(some("scratched"), s, s, d), line(some("binary"), d, s, s),
                     line(some("fused"), d, s, s, s), line("load_const", d, 0), line("get", d, "mem", 0), line("ifelse", d, s, s, 0)])


def wild_head(r):
    """A head with counts around their limits."""
    n = lambda *edges: r.choice([*edges, r.randint(0, 20)])
    return (r.choice(["fast", "indirect"]), n(0, 15, 16, 17, 4096, 4097, 2**32), n(0, 8, 9, 4096, 4097, 2**64),
            n(0, 1, 4088, 4096, 4097, 2**64 - 1), n(0, 1, 255, 256, 4096, 4097, 2**32),
            r.choice([0, 1 << 8, 1 << 27, 1 << 28, 2**32 - 1, 2**32, 2**64, r.getrandbits(32)]))


def bad(r, lines=None):
    """A deck, or these lines, with a fault of some kind; a few come out good."""
    lines = lines or good(r, count=r.choice([0, 1, 4, 12]), backward=True)
    at = r.randrange(len(lines))
    kind = r.choice(["field", "field", "shape", "line", "line", "line", "head", "byte", "cut", "drop", "twice", "swap", "join", "none",
                     "relabel", "unset", "unsaved"])
    if kind == "field":
        lines[at] = broken_field(r, lines[at])
    elif kind == "shape":
        lines[at] = broken_shape(r, lines[at])
    elif kind == "line":
        head = lines[0].rstrip("\n").split(",")
        for _ in range(r.choice([1, 1, 3])):
            lines.insert(r.randint(1, len(lines)), some_line(r, [head[0], *map(int, head[1:])]))
    elif kind == "head":
        lines[0] = line(*wild_head(r))
    elif kind == "drop":
        del lines[at]
    elif kind == "twice":
        lines.insert(r.randint(0, len(lines)), lines[at])
    elif kind == "swap":
        lines[at], lines[0] = lines[0], lines[at]
    elif kind == "join":
        lines[at] = lines[at].rstrip("\n")
    elif kind == "relabel":
        for _ in range(2):
            lines.insert(r.randint(1, len(lines)), line("label", r.choice([0, 5, 1023])))
    elif kind == "unset":
        lines.insert(r.randint(1, len(lines)), line("branch", 3, r.randint(0, 1023), 1))
    elif kind == "unsaved":
        at = r.randint(1, len(lines))
        lines.insert(at, r.choice([f"put,3,stack,{r.choice(list(CELL.values()))}\n", *(unsaved_line(r) for _ in range(6))]))
    deck = text(lines)
    if kind == "byte" and deck:
        i = r.randrange(len(deck))
        return deck[:i] + bytes([r.choice([0, 10, 13, 32, 44, 45, 48, 49, 255, r.randrange(256)])]) + deck[i + r.randint(0, 1) :]
    return deck[: r.randint(0, len(deck))] if kind == "cut" else deck


def at_limit(r):
    """A deck just below or above the limit of code, jumps, constants or the file."""
    kind = r.randrange(5)
    if kind == 0:
        return text(full(r, r.choice([0, 1, -1, 2, -2, 5, -20])))
    if kind == 1:
        return text(jumpy(r, r.choice([0, 1, -1, 2, -2, 4])))
    if kind == 2:
        n = r.choice([1007, 1008, 1009])
        loaded = f"load_const,1,{r.choice([0, 1007, 1008])}\n"
        return text(["indirect,0,0,0,0,0\n", loaded] + [r.choice(["float,1\n", "bits,0000000000000001\n"])] * n)
    if kind == 3:
        return text(long_file(r, r.choice([65535, 65536, 65537, 65545])))
    return text(large(r, r.choice([500, 1500, 3500])))


def decks(seed, count, only_good=False, **options):
    """COUNT decks of a seed."""
    r = random.Random(seed)
    for i in range(count):
        if i % 50 == 49 and not only_good:
            yield at_limit(r)
        elif only_good or i % 2 == 0:
            yield text(good(r, **options))
        else:
            yield bad(r)


def accepted(seed, count, **options):
    """COUNT decks that the reference accepts, with its answers."""
    found = 0
    for deck in decks(seed, 10 * count + 10, only_good=True, **options):
        try:
            told = routine(deck)
        except Refused:
            continue
        yield deck, told
        found += 1
        if found == count:
            return


def main():
    parser = argparse.ArgumentParser(description=__doc__, formatter_class=argparse.RawDescriptionHelpFormatter)
    parser.add_argument("seed", type=int)
    parser.add_argument("count", type=int)
    parser.add_argument("--out", type=pathlib.Path)
    parser.add_argument("--good", action="store_true")
    given = parser.parse_args()
    for i, deck in enumerate(decks(given.seed, given.count, given.good)):
        if given.out:
            given.out.mkdir(parents=True, exist_ok=True)
            (given.out / f"{i:05}.deck").write_bytes(deck)
        else:
            print(escaped(deck))


if __name__ == "__main__":
    main()
