#!/usr/bin/env python3
"""Makes the list that the program `test_listing` reads, and what the program must print.

    record.py [--out crates/test_listing] [--check]

Words are those of `test_encoder`'s list and others; their lines come from objdump's output (objdump.py). Refused codes and words come from
codes.py, with document 02's numbers and places. reading.py, a second writing of document 02, must agree with both. Decks come from
views.py: their words are the reference's (tools/decks/reference.py), and what the attendant doesn't see follows from their lines.

A row has 80 bytes: a letter, numbers of eight hexadecimal digits, text, spaces, byte 10.
    s sentence                      the sentence that the rows behind it rest on
    w word number count text note   the word alone, in a buffer of 64 bytes: the number of refusal or 0, and `count` bytes of text, which
                                    a line's end follows
    n                               a new code, which has no byte yet
    c times count words             count words more, so many times
    b byte                          one byte more
    r at room number place length   the code's listing, whose constants start at `at`, in a buffer of so many bytes: the number or 0, the
                                    place, the text's length
    x at room number place          the same, but the buffer is too short: it stays as it was
    d times count text              count bytes more, so many times: of a deck file; a tilde is a line's end
    v view room number line length  the file's listing for maintainer (0) or attendant (1), in a buffer of so many bytes: the number or 0,
                                    the line, the text's length
    y view room number line         the same, but the buffer is too short: it stays as it was
    t from count text               bytes of the text answered last, from one on
--check writes nothing, and fails where the files in --out differ from what is made.
"""
import argparse
import pathlib
import random
import sys

import objdump
from codes import ACCEPTED_EXAMPLES, FIRST, OTHERS, accepted, foreign_words, refused
from compare import differing, filled
from reading import ROWS, code_of, line, listing, word_at
from views import by_reference, recorded, seen

ROOT = pathlib.Path(__file__).resolve().parent.parent.parent
SEED = 20261201
ROW, TEXT, WORDS = 80, 59, 6
ROOM = 524288  # bytes of the program's text memory
WHOLE = 30  # texts of at most so many lines are in the list whole
DECKS = 40


def row(letter, numbers=(), text=""):
    out = " ".join([letter, *(f"{n:08x}" for n in numbers)]) + (f" {text}" if text else "")
    assert len(out) < ROW, out
    return out.ljust(ROW - 1) + "\n"


# ---- words


def encoded_words():
    """The words of `test_encoder`'s list; only they are taken from it."""
    rows = (ROOT / "crates/test_encoder/stdin").read_text().splitlines()
    return [int(r[57:65], 16) for r in rows if r[49:56] == "word   "]


def other_words():
    """Each instruction with a single bit of its operands set, with all of them, and with random ones."""
    r = random.Random(SEED)
    for kind in ROWS:
        _, fixed, value, _, _ = kind
        free = [1 << b for b in range(32) if not fixed >> b & 1]
        yield from (value | bit for bit in free)
        yield value | sum(free)
        yield from (filled(r, kind) for _ in range(6))


def word_row(word, number, text, note=""):
    return row("w", [word, number, len(text)], f"{text}  {note}" if note else text)


def word_rows():
    words = list(dict.fromkeys([*encoded_words(), *(w for w in other_words() if line(w) is not None)]))
    if differing(words):
        sys.exit(f"reading.py and objdump differ: {differing(words)[:5]}")
    return [word_row(w, 0, f"0,{told}") for w, told in zip(words, objdump.lines(words))]


def foreign_rows():
    words = foreign_words()
    if differing(list(words)) or any(line(w) is not None for w in words):
        sys.exit("a word is taken for foreign that is not")
    if [name for _, _, name, _ in objdump.printed([w for w, _ in OTHERS])] != [name for _, name in OTHERS]:
        sys.exit("objdump has other names")
    return [row("s", text=FIRST), *(word_row(w, 14, "refused,14,0", note) for w, note in words.items())]


# ---- codes


def runs(words):
    """(times, words): a word that comes four times or more in a row stands alone."""
    held, i = [], 0
    while i < len(words):
        times = next((n for n, w in enumerate(words[i:]) if w != words[i]), len(words) - i)
        if times >= 4 and held:
            yield 1, held
            held = []
        if times >= 4:
            yield times, [words[i]]
        else:
            held += words[i : i + times]
        i += times
    if held:
        yield 1, held


def code_rows(code):
    rows = [row("n")]
    for times, words in runs([word_at(code, i) for i in range(0, len(code) // 4 * 4, 4)]):
        rows += [row("c", [times, len(words[i : i + WORDS]), *words[i : i + WORDS]]) for i in range(0, len(words), WORDS)]
    return rows + [row("b", [b]) for b in code[len(code) // 4 * 4 :]]


def shown(text, last=8):
    """Parts of a text, each with its place: all of a short one; of a long one its ends, and where offsets get a digit more."""
    lines = text.splitlines(keepends=True)
    place, parts = 0, []
    for i, part in enumerate(lines):
        more = str(4 * i).rstrip("0") in ("", "1") or str(4 * i + 4).rstrip("0") == "1"
        if len(lines) <= WHOLE or more or i < 2 or i >= len(lines) - last:
            parts.append((place, part))
        place += len(part)
    return parts


def text_rows(text, last=8):
    """Rows of parts that follow each other are one as far as they fit."""
    joined = []
    for place, part in shown(text, last):
        if joined and sum(map(len, joined[-1][1:])) + joined[-1][0] == place and sum(map(len, joined[-1][1:])) + len(part) <= TEXT:
            joined[-1].append(part)
        else:
            joined.append([place, part])
    return [row("t", [at, len("".join(parts))], "".join(parts).replace("\n", "~")) for at, *parts in joined]


def answer_rows(at, number, place, text, tight):
    """In the whole memory; where `tight` holds also in a buffer just long enough, in one a byte shorter and in none."""
    rows = [row("r", [at, ROOM, number, place, len(text)]), *text_rows(text)]
    if tight:
        rows += [row("r", [at, len(text), number, place, len(text)]), *text_rows(text)]
        rows += [row("x", [at, short, number, place]) for short in sorted({len(text) - 1, 0}) if short < len(text) and text]
    return rows


def accepted_rows():
    for words, at, text in ACCEPTED_EXAMPLES:
        assert objdump.listing(words, at) == text, text
    rows = [row("s", text="offset, name and operands; constants print as `data` and 8 hex digits")]
    for words, at in accepted():
        text = objdump.listing(words, at)
        if listing(code_of(words), at) != (0, 0, text):
            sys.exit(f"reading.py and objdump differ: {text}")
        rows += code_rows(code_of(words)) + answer_rows(at, 0, 0, text, len(words) < 3000)
    return rows


def refused_rows():
    rows, sentence = [], None
    for n, (code, at, number, place, why) in enumerate({bad[:2]: bad for bad in refused()}.values()):
        text = f"refused,{number},{place}\n"
        if listing(code, at) != (number, place, text):
            sys.exit(f"reading.py differs: {number} at {place}, {why}")
        rows += [row("s", text=why)] if why != sentence else []
        rows += code_rows(code) + answer_rows(at, number, place, text, n % 4 == 0)
        sentence = why
    return rows


# ---- decks


def packed(lines):
    """Lines put together as far as they fit into a row."""
    texts = [""]
    for told in lines:
        texts += [""] if len(texts[-1] + told) > TEXT else []
        texts[-1] += told
    return texts


def deck_rows(deck):
    rows = [row("n")]
    for times, lines in runs(deck.decode().splitlines(keepends=True)):
        rows += [row("d", [times, len(text)], text.replace("\n", "~")) for text in packed(lines)]
    return rows


def view_rows(deck, turn):
    """Both views, one of them in the whole memory, the other in a buffer just long enough; and each in one a byte shorter."""
    words, at, text = by_reference(deck)
    number, place = (0, 0) if at is not None else map(int, text.split(",")[1:])
    if at is not None and objdump.listing(words, at) != text:
        sys.exit(f"reading.py and objdump differ: {text}")
    last = min(2 * WHOLE, len(words) - (at or 0) // 4)
    rows = deck_rows(deck)
    for view, told in enumerate((text, seen(deck, at, text))):
        room = ROOM if (turn + view) % 2 else len(told)
        rows += [row("y", [view, len(told) - 1, number, place])]
        rows += [row("v", [view, room, number, place, len(told)]), *text_rows(told, max(8, last))]
    return rows


def deck_view_rows():
    rows = [row("s", text="eight hyphens in place of the digits of each half of a `bits`")]
    for turn, deck in enumerate(recorded(random.Random(SEED), SEED, DECKS)):
        rows += view_rows(deck, turn)
    return rows


def made():
    """The list, and what is printed."""
    rows = word_rows() + foreign_rows() + accepted_rows() + refused_rows() + deck_view_rows()
    words, codes, views = ([r for r in rows if r[0] in letters] for letters in ("w", "rx", "vy"))
    good = lambda found, column: sum(r[column : column + 8] == "0" * 8 for r in found)
    counts = good(words, 11), good(codes, 20), good(views, 20)
    refusals = len(words) + len(codes) + len(views) - sum(counts)
    return "".join(rows), f"{counts[0]} words, {refusals} refusals, {counts[1]} codes, {counts[2]} views, 0 mismatches\n"


def main():
    parser = argparse.ArgumentParser(description=__doc__, formatter_class=argparse.RawDescriptionHelpFormatter)
    parser.add_argument("--out", default="crates/test_listing", type=pathlib.Path)
    parser.add_argument("--check", action="store_true")
    given = parser.parse_args()
    rows, printed = made()
    for name, text in {"stdin": rows, "stdout": printed}.items():
        path = given.out / name
        if not given.check:
            path.write_text(text)
        elif path.read_text() != text:
            sys.exit(f"{path} is not what this script makes")
    print(f"{len(rows)} bytes; {printed}", end="")


if __name__ == "__main__":
    main()
