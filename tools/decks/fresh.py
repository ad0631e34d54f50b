#!/usr/bin/env python3
"""Rows for the program `test_decks` (record.py says what they are): fresh decks, good and bad ones, with the reference's answers.

    fresh.py SEED COUNT | target/bin/test_decks

Unlike `deckwords`, the program lends buffers of any size: one in five here isn't 65,536 bytes, and every accepted deck with constants is
tried again in one around its own length, where the `nop` before them may lack room. Behind them come a quarter as many decks that are
rich in labels: the rows have the list of labels that nobody jumps to.
"""
import random
import sys

from generate import decks, rich, text
from record import accepted_row, deck_rows, refused_row
from reference import CODE, Refused, routine


def answer_row(deck, size):
    try:
        return accepted_row(routine(deck, size), size)
    except Refused as r:
        return refused_row(r.number, r.line, size)


def told(deck, size):
    sys.stdout.write("".join(deck_rows(deck)) + answer_row(deck, size))


def around(deck, r):
    """A size around the length of an accepted deck with constants; none of others."""
    try:
        made = routine(deck)
    except Refused:
        return []
    return [4 * len(made.words) - r.choice([-1, 0, 1, 4, 8 * made.constants, 8 * made.constants + 4])] if made.constants else []


def main():
    seed, count = map(int, sys.argv[1:])
    r = random.Random(f"sizes {seed}")
    for deck in decks(seed, count):
        size = r.choice([0, 3, 4, 300, 500, 65535, 65537, 70000, r.randint(0, 3000)]) if r.random() < 0.2 else CODE
        for room in (size, *around(deck, r)):
            told(deck, room)
    for _ in range(count // 4):
        told(text(rich(r)), CODE)


if __name__ == "__main__":
    main()
