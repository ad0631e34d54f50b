#!/usr/bin/env python3
"""Compares reading.py with what objdump prints, on random words.

    compare.py SEED COUNT

Half of the words are instructions with random operands, the others have a fixed bit turned or are any words. Where reading.py has no line,
objdump must have a name that no listing has, or a rounding that macros.rs doesn't write.
"""
import random
import sys

import objdump
import reading

# What macros.rs writes into a rounding field: any of document 01's for two instructions, 0 for one, 7 for the others.
WRITTEN = {name: ["7"] for name in objdump.ROUNDED} | {name: list("012347") for name in ("fadd.d", "fcvt.l.d")} | {"fcvt.d.w": ["0"]}


def of_objdump(line):
    """objdump's line where it is one of a listing."""
    if line is None:
        return None
    name, *operands = line.split(",")
    return line if name not in WRITTEN or operands[-1] in WRITTEN[name] else None


def filled(r, row):
    """A row's word with random operands; a rounding that may be any may be no rounding too."""
    _, fixed, value, _, _ = row
    return value | r.getrandbits(32) & ~fixed


def turned(r, row):
    """The same with a fixed bit turned."""
    return filled(r, row) ^ 1 << r.choice([b for b in range(32) if row[1] >> b & 1])


def some_word(r):
    kind, row = r.random(), r.choice(reading.ROWS)
    return filled(r, row) if kind < 0.5 else turned(r, row) if kind < 0.75 else r.getrandbits(32) | (3 if kind < 0.95 else 0)


def differing(words):
    """Words on which the two differ, with both lines."""
    pairs = zip(words, map(reading.line, words), map(of_objdump, objdump.lines(words)))
    return [(f"{word:08x}", ours, theirs) for word, ours, theirs in pairs if ours != theirs]


def main():
    seed, count = map(int, sys.argv[1:])
    r = random.Random(f"words {seed}")
    words = sorted({some_word(r) for _ in range(count)})
    differ = differing(words)
    taken = sum(reading.line(w) is not None for w in words)
    print(*differ[:5], sep="\n", end="\n" if differ else "")
    print(f"{len(words)} different words, {taken} of them instructions")
    print(f"same {len(words) - len(differ)}, differ {len(differ)}")
    sys.exit(len(differ) > 0)


if __name__ == "__main__":
    main()
