#!/usr/bin/env python3
"""Document 01 once more, independent of the proved code: from a deck file's bytes to its words, or to number and line of its refusal; and
of document 02 point 2, the labels that nobody jumps to, and point 7, constants on eights.

    reference.py [--buffer BYTES] < FILE        prints what `deckwords` prints
    reference.py --labels < FILE                prints what `decklabels` prints

Encodings are laid out by the ISA Manual's formats; refusals, their order and the deck's grammar are document 01's, with the points that
docs/DECISIONS.md decides. Which instructions a frame has is the Rust's, since the bytes of accepted inputs are those of the
Rust; tools/orders.py has the orders.
"""
import argparse
import collections
import pathlib
import re
import struct
import sys
from typing import NamedTuple

from instructions import A0, A1, A2, A3, FA0, RA, S0, S1, S2, S3, S4, S5, SP, T0, T1, T2, ZERO
from instructions import add, addi, auipc, beq, bne, fld, fsd, hi, jalr, ld, li, lo, lui, mv, sd, slli, sub, xor

sys.path.insert(0, str(pathlib.Path(__file__).resolve().parent.parent))
import orders  # noqa: E402
from orders import CONST, FIELDS  # noqa: E402

CODE = 65536  # bytes of a buffer that count, and of a file
JUMPS = 4096
REGISTER, VALUE, LABEL, TWICE, UNSET, FAR, FULL, COUNT, UNSAVED, LINE = 1, 2, 3, 4, 5, 6, 7, 9, 11, 12

# Where a preserved float register is kept: its stack cell.
CELL = {8: 4, 9: 5} | {r: r - 12 for r in range(18, 28)}
SELF, MAIN, PRO, EPI, DONE, SUCCESS, EPILOGUE = range(2032, 2039)


class Refused(Exception):
    def __init__(self, number, line):
        self.number, self.line = number, line


class Head(NamedTuple):
    frame: str
    cap: int
    states: int
    obs: int
    last: int  # the result cell of a fast frame, the count of parameters of an indirect one
    mask: int

    def cells(self, place):
        """How many cells a place has."""
        if place == "mem":
            return self.states + self.obs
        return self.cap if place == "stack" else 0 if self.frame == "fast" else self.last

    def saved(self):
        """The registers that the frame saves, upward."""
        return [r for r in range(32) if self.mask >> r & 1 and r in CELL]


class Accepted(NamedTuple):
    words: list
    offset: int  # of the constants
    constants: int
    jumps: int
    head: Head
    lines: list  # the parsed lines from line 2 on
    labels: dict  # a label's line
    numbers: dict  # how many jumps are made to each label that has one
    unused: list  # the set labels that have none, rising: users', constants' and frames'


# ---- frames


def sub_stack(n):
    return [addi(SP, SP, -n)] if n < 2048 else [*li(T0, -n), add(SP, SP, T0)]


def allocate_stack(n):
    down = [addi(SP, SP, -n)] if n < 2048 else [lui(T0, hi(n)), addi(T0, T0, lo(n)), sub(SP, SP, T0)]
    return [*down, mv(S5, SP)]


def align_stack(n):
    return n + 16 - n % 16


def copies(count, head, label, first, second):
    """The copy of `count` cells between t1 and the table at s2: a loop above 16, else one after the other. t1's words come first."""
    inner = [ld(T0, S2, 0), add(T0, T0, S3), fld(FA0, first, 0), fsd(FA0, second, 0), addi(S2, S2, 16), addi(T1, T1, 8)]
    if count > 16:
        return [*head, *li(T2, count), ("label", label), *inner, addi(T2, T2, -1), ("jump", "bne", 0, label)]
    return [*head, *inner * count] if count else []


INDIRECT_SAVED = [RA, S0, S1, S2, S3, S4, S5]
FAST_SAVED = [RA, S0, S1, S5]


def prologue(h):
    frame, stack = align_stack(8 * (h.states + h.obs)), align_stack(8 * h.cap)
    if h.frame == "fast":
        kept = [sd(r, SP, 8 * i) for i, r in enumerate(FAST_SAVED)]
        sizes = [*sub_stack(frame), mv(S1, SP), *sub_stack(stack), mv(S5, SP)]
        return [*sub_stack(32), *kept, mv(S0, SP), *sizes, *(fsd(FA0 + i, S1, 8 * i) for i in range(h.states))]
    kept = [sd(r, SP, 8 * i) for i, r in enumerate(INDIRECT_SAVED)]
    given = [mv(S0, SP), mv(S1, A0), mv(S2, A1), mv(S3, A2), mv(S4, A3), ("jump", "beq", 0, MAIN)]
    states = copies(h.states, [mv(T1, S1)], PRO, T0, T1)
    return [
        ("label", SELF), addi(SP, SP, -64), *kept, *given, *sub_stack(frame), mv(S1, SP), slli(S3, S3, 3),
        *states, ("label", MAIN), *allocate_stack(stack),
    ]


def epilogue(h):
    if h.frame == "fast":
        kept = [ld(r, SP, 8 * i) for i, r in enumerate(FAST_SAVED)]
        return [fld(FA0, S1, 8 * h.last), mv(SP, S0), *kept, addi(SP, SP, 32), xor(A0, A0, A0), jalr(ZERO, RA, 0)]
    observations = copies(h.obs, [*li(T1, 8 * h.states), add(T1, T1, S1)], EPI, T1, T0)
    kept = [ld(r, SP, 8 * i) for i, r in enumerate(INDIRECT_SAVED)]
    back = [mv(SP, S0), *kept, addi(SP, SP, 64), xor(A0, A0, A0), jalr(ZERO, RA, 0)]
    return [("jump", "beq", 0, DONE), *observations, ("label", DONE), *back]


def saves(h):
    return [fsd(r, S5, 8 * CELL[r]) for r in h.saved()]


def reloads(h):
    return [("label", SUCCESS), addi(A0, ZERO, 0), ("label", EPILOGUE), *(fld(r, S5, 8 * CELL[r]) for r in h.saved())]


# ---- the deck file

NUMBER = "(0|[1-9][0-9]*)"
PATTERN = {c: NUMBER for c in "rlikcm"} | {"p": "(mem|stack|param)", "e": "([01])", "z": "(0|-?[1-9][0-9]*)", "x": "([0-9a-f]{16})"}
FORM = {name: re.compile((name + "".join("," + PATTERN[k] for k in kinds) + "\n").encode()) for name, kinds in FIELDS.items()}


def whole(digits):
    """The number that decimal digits spell; one of more than 400 digits counts as 10^400, which is too big for every field."""
    return 10**400 if len(digits) > 400 else int(digits)


def parsed(line, first):
    """A line's name and fields, or None: line 1 is a head, and no other line is."""
    name = line.split(b",")[0].decode("latin-1")
    if name not in FORM or (name in ("fast", "indirect")) != first:
        return None
    m = FORM[name].fullmatch(line)
    if not m:
        return None
    words = [g.decode() for g in m.groups()]
    return name, [w if k == "p" else int(w, 16) if k == "x" else whole(w) for k, w in zip(FIELDS[name], words)]


def split(file):
    """Lines with their byte 10; bytes behind the last one are a line too."""
    lines = [line + b"\n" for line in file.split(b"\n")]
    rest = lines.pop()[:-1]
    return lines + [rest] if rest else lines


def head_of(name, v):
    """Number 2 of the mask, then 9."""
    h = Head(name, *v)
    if h.mask >= 2**32:
        raise Refused(VALUE, 1)
    good = h.cap <= 4096 and h.states + h.obs <= 4096
    if name == "fast":
        good = good and h.states <= 8 and h.last <= 255 and h.last < h.states + h.obs
    else:
        good = good and h.last <= 4096
    if not good or (h.saved() and h.cap < 16):
        raise Refused(COUNT, 1)
    return h


def written(name, v):
    """The float registers that an order's destination and scratch name; `fmov` of a register to itself writes nothing."""
    if name in ("put", "branch", "label", "float", "bits") or (name == "fmov" and v[0] == v[1]):
        return []
    return [v[0], v[2]] if orders.shape(name) == "scratched" else [v[0]]


def fault(name, v, h, constants):
    """The first of 1, 3, 2, 9, 11 that a well-formed line has, else 0."""
    kinds = FIELDS[name]
    of = lambda c: [n for n, k in zip(v, kinds) if k == c]
    if any(r > 31 for r in of("r")):
        return REGISTER
    if any(n > 1023 for n in of("l")):
        return LABEL
    if any(abs(z) > 2**53 for z in of("z")):
        return VALUE
    place = v[1] if name in ("get", "put") else "stack"
    if any(i >= h.cells(place) for i in of("i")) or any(k > 1007 for k in of("k")):
        return COUNT
    if name in ("float", "bits") and constants >= 1008:
        return COUNT
    if any(r in CELL and r not in h.saved() for r in written(name, v)):
        return UNSAVED
    if name == "put" and place == "stack" and v[2] in [CELL[r] for r in h.saved()]:
        return UNSAVED
    return 0


class Code:
    """What is placed so far: words, labels' places, jumps with their line."""

    def __init__(self, size):
        self.room, self.words, self.labels, self.jumps = min(size, CODE), [], {}, []

    def place(self, items, line):
        """All items or none: 4, then 7."""
        if any(i[0] == "label" and i[1] in self.labels for i in items if isinstance(i, tuple)):
            raise Refused(TWICE, line)
        jumps = sum(isinstance(i, tuple) and i[0] == "jump" for i in items)
        words = sum(isinstance(i, int) for i in items) + jumps
        if words and 4 * (len(self.words) + words) > self.room or len(self.jumps) + jumps > JUMPS:
            raise Refused(FULL, line)
        for item in items:
            if isinstance(item, int):
                self.words.append(item)
            elif item[0] == "label":
                self.labels[item[1]] = 4 * len(self.words)
            else:
                self.jumps.append((4 * len(self.words), *item[1:], line))
                self.words.append(0)

    def finish(self):
        """5, then 6, each at the first such jump's line; then every jump's word."""
        for _, _, _, label, line in self.jumps:
            if label not in self.labels:
                raise Refused(UNSET, line)
        for at, kind, _, label, line in self.jumps:
            if kind in ("beq", "bne") and not -4096 <= self.labels[label] - at <= 4094:
                raise Refused(FAR, line)
        for at, kind, r, label, _ in self.jumps:
            self.words[at // 4] = self.jump(kind, r, self.labels[label] - at)

    def numbers(self):
        """How many jumps are made to each label: a pair is two."""
        return collections.Counter(label for _, _, _, label, _ in self.jumps)

    @staticmethod
    def jump(kind, r, n):
        if kind == "auipc":
            return auipc(T0, hi(n))
        if kind in ("beq", "bne"):
            return beq(S2, ZERO, n) if kind == "beq" else bne(T2, ZERO, n)
        return {"ld": ld, "jalr": jalr, "fld": fld}[kind](r, T0, lo(n + 4))


def routine(file, size=CODE):
    """The words of a file for a buffer of `size` bytes; raises Refused."""
    if len(file) > CODE:
        raise Refused(FULL, 1)
    lines = split(file)
    first = parsed(lines[0], True) if lines else None
    if not first:
        raise Refused(LINE, 1)
    h, code, constants, body, at = head_of(*first), Code(size), [], [], {}
    code.place([*prologue(h), *saves(h)], 1)
    for n, line in enumerate(lines[1:], 2):
        told = parsed(line, False)
        if not told:
            raise Refused(LINE, n)
        name, v = told
        number = fault(name, v, h, len(constants))
        if number:
            raise Refused(number, n)
        if name == "float":
            constants.append(struct.unpack("<Q", struct.pack("<d", float(v[0])))[0])
        elif name == "bits":
            constants.append(v[0])
        else:
            code.place(orders.ORDERS[name].words(*v), n)
        if name == "label":
            at[v[0]] = n
        body.append((name, v))
    return close(code, h, constants, len(lines), body, at)


def padding(length, constants):
    """Document 02, point 7: one `nop` before constants that would start at no multiple of 8."""
    return [addi(ZERO, ZERO, 0)] if constants and length % 8 else []


def close(code, h, constants, last, body, at):
    """All that follows the body, and finishing."""
    code.place([*reloads(h), *epilogue(h)], last)
    code.place(padding(4 * len(code.words), constants), last)
    offset = 4 * len(code.words)
    for k, c in enumerate(constants):
        code.place([("label", CONST + k), c % 2**32, c >> 32], last)
    code.finish()
    numbers = code.numbers()
    unused = [label for label in sorted(code.labels) if label not in numbers]
    return Accepted(code.words, offset, len(constants), len(code.jumps), h, body, at, numbers, unused)


def refusal(r):
    return f"refused,{r.number},{r.line}\n"


def answer(file, size=CODE):
    """What `deckwords` prints."""
    try:
        words = routine(file, size).words
    except Refused as r:
        return refusal(r)
    return "".join(f"{4 * i},{w:08x}\n" for i, w in enumerate(words))


def stale(file):
    """What `decklabels` prints: each user's label that is set and never jumped to, rising, with the line that sets it."""
    try:
        told = routine(file)
    except Refused as r:
        return refusal(r)
    return "".join(f"{label},{told.labels[label]}\n" for label in told.unused if label < CONST)


def main():
    parser = argparse.ArgumentParser(description=__doc__, formatter_class=argparse.RawDescriptionHelpFormatter)
    parser.add_argument("--buffer", type=int, default=CODE)
    parser.add_argument("--labels", action="store_true")
    given, file = parser.parse_args(), sys.stdin.buffer.read()
    sys.stdout.write(stale(file) if given.labels else answer(file, given.buffer))


if __name__ == "__main__":
    main()
