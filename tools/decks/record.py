#!/usr/bin/env python3
"""Makes the list of decks that the program `test_decks` reads, and what the program must print.

    record.py RUSTDIR [--out crates/test_decks] [--check]

Accepted decks come from accepted.py; their words are the Rust's, built unchanged from RUSTDIR behind tools/oracle's driver, which appends
document 02's `nop` before constants where the Rust's length is no multiple of 8. The Rust's `sign` has other words than document 01's
(docs/DIFFERENCES.md): where a deck has the order, the driver has document 01's words for it, and the deck's row says so. Refused decks
come from refused.py, with document 01's numbers. reference.py, a third writing of document 01, must agree with both.

A row has 128 bytes: a letter, numbers of eight hexadecimal digits, text, spaces, byte 10.
    d times count text              count bytes more of the deck, so many times; a tilde is a line's end
    b times value                   one byte more, so many times: those that a text can't have
    s sentence                      the sentence that the refusal in the next row rests on
    r size 0 number line 0 0 hash   the deck, in a buffer of so many bytes, is refused
    r size frame length offset constants jumps hash count hash
                                    the deck is accepted: frame is 1 fast or 2 indirect; length, the constants' offset and count, the
                                    count of jumps; the labels that are set and never jumped to (document 02, point 2): how many, and
                                    the hash of their numbers, two bytes each, the high one first; behind the numbers `sign` where
                                    document 01's words for it are among them
    w offset count words            words of the deck accepted last, from that offset on: for all decks of at most 120 words
A hash has two columns: a polynomial of the bytes, each one more, at 257 modulo the prime 2^54 - 33. The first one is of the code.
The list of labels is the reference's; behind a refused deck it must be refused with 2, place 0. Label and jump memory are lent spoiled.
--check writes nothing, and fails where the files in --out differ from what is made.
"""
import argparse
import itertools
import pathlib
import re
import sys
import tempfile

import rust
from accepted import accepted
from reference import Refused, routine
from refused import refused

ROW, TEXT, WORDS, SPELLED = 128, 107, 12, 120
PRIME = 2**54 - 33


def row(letter, numbers, text=""):
    out = " ".join([letter, *(f"{n:08x}" for n in numbers)]) + (f" {text}" if text else "")
    assert len(out) < ROW, out
    return out.ljust(ROW - 1) + "\n"


def pieces(deck):
    """(times, bytes): a line that comes four times or more in a row is one piece, and so is a run of a byte that a text can't have."""
    for part in re.findall(rb"[\n -}]+|(?:[^\n -}])+", deck):
        if part[0] != 10 and not 32 <= part[0] <= 125:
            yield from ((len(list(run)), bytes([b])) for b, run in itertools.groupby(part))
        else:
            yield from texts(part)


def texts(part):
    held = b""
    for line, run in itertools.groupby(re.findall(rb"[^\n]*\n|[^\n]+", part)):
        times = len(list(run))
        if times >= 4 and len(line) <= TEXT:
            yield from cut(held)
            yield times, line
            held = b""
        else:
            held += line * times
    yield from cut(held)


def cut(held):
    return ((1, held[i : i + TEXT]) for i in range(0, len(held), TEXT))


def deck_rows(deck):
    rows = []
    for times, part in pieces(deck):
        if part[0] == 10 or 32 <= part[0] <= 125:
            rows.append(row("d", [times, len(part)], part.decode().replace("\n", "~")))
        else:
            rows.append(row("b", [times, part[0]]))
    return rows


def hashed(data):
    h = 0
    for b in data:
        h = (h * 257 + b + 1) % PRIME
    return [h >> 32, h % 2**32]


def accepted_row(told, size, note=""):
    frame = 1 if told.head.frame == "fast" else 2
    code = b"".join(w.to_bytes(4, "little") for w in told.words)
    labels = b"".join(label.to_bytes(2, "big") for label in told.unused)
    counts = [4 * len(told.words), told.offset, told.constants, told.jumps]
    return row("r", [size, frame, *counts, *hashed(code), len(told.unused), *hashed(labels)], note)


def refused_row(number, line, size):
    return row("r", [size, 0, number, line, 0, 0, *hashed(b"")])


def accepted_rows(deck, size, words, told, signs):
    assert words == told.words, deck
    yield accepted_row(told, size, "sign" if signs else "")
    if len(words) <= SPELLED:
        for i in range(0, len(words), WORDS):
            part = words[i : i + WORDS]
            yield row("w", [4 * i, len(part), *part])


def agreed(deck, number, line, size):
    try:
        routine(deck, size)
    except Refused as r:
        return (r.number, r.line) == (number, line)
    return False


def made(rust_folder):
    """The list, and what is printed."""
    decks = accepted()
    with tempfile.TemporaryDirectory() as folder:
        programs = rust.build.build(rust_folder, folder)
        answers, _ = rust.words(programs["checked"], [deck for deck, _ in decks])
        others, _ = rust.words(programs["optimized"], [deck for deck, _ in decks])
    if answers != others or None in answers:
        sys.exit("no single answer of the Rust")
    rows, set_apart = [], 0
    for (deck, size), words in zip(decks, answers):
        signs = b"\nsign," in deck
        set_apart += signs
        rows += deck_rows(deck) + list(accepted_rows(deck, size, words, routine(deck, size), signs))
    bad = refused()
    for deck, number, line, size, sentence in bad:
        if not agreed(deck, number, line, size):
            sys.exit(f"the reference differs: {number} at line {line}, {sentence}")
        rows += deck_rows(deck) + [row("s", [], sentence), refused_row(number, line, size)]
    return "".join(rows), f"{len(decks)} accepted, {len(bad)} refused, 0 mismatches\n", set_apart


def main():
    parser = argparse.ArgumentParser(description=__doc__, formatter_class=argparse.RawDescriptionHelpFormatter)
    parser.add_argument("rust", metavar="RUSTDIR")
    parser.add_argument("--out", default="crates/test_decks", type=pathlib.Path)
    parser.add_argument("--check", action="store_true")
    given = parser.parse_args()
    rows, printed, set_apart = made(given.rust)
    for name, text in {"stdin": rows, "stdout": printed}.items():
        path = given.out / name
        if not given.check:
            path.write_text(text)
        elif path.read_text() != text:
            sys.exit(f"{path} is not what this script makes")
    print(f"{len(rows)} bytes; {set_apart} decks with `sign`; {printed}", end="")


if __name__ == "__main__":
    main()
