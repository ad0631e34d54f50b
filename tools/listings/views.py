"""Deck files for the two views of a listing (document 02, point 10), and the same files with other digits in their `bits` lines.

EXAMPLES are worked by hand from document 02: a file, and what maintainer and attendant see of it: the lines of its constants, or its
refusal, which is the same for both.
"""
import pathlib
import re
import struct
import sys

from reading import attended, code_of, listing

sys.path.append(str(pathlib.Path(__file__).resolve().parent.parent / "decks"))
from generate import RAW, SMALL_FLOATS, decks, line  # noqa: E402
from reference import Refused, routine, split  # noqa: E402

HYPHENS = "-" * 8
CHANGES = 5  # how often a file gets other digits


def by_reference(deck):
    """A deck's words, the constants' offset and the maintainer's listing by reading.py; or no words, None and the refusal."""
    try:
        answer = routine(deck)
    except Refused as r:
        return [], None, f"refused,{r.number},{r.line}\n"
    number, _, text = listing(code_of(answer.words), answer.offset)
    assert number == 0, deck
    return answer.words, answer.offset, text


def seen(deck, at, text):
    """The attendant's listing, or the refusal."""
    return text if at is None else attended(text, at, deck)


def data(at, *halves):
    return "".join(f"{at + 4 * i},data,{half}\n" for i, half in enumerate(halves))


# ---- worked examples

HEAD = "fast,0,2,0,0,0\n"  # its code has 88 bytes, and `load_const` 8
ODD = "fast,0,1,0,0,0\n"  # its code has 84, so that a `nop` comes before constants
POINTER = "bits,0000004000001234\n"
NEITHER = data(88, HYPHENS, HYPHENS)
EXAMPLES = [
    (HEAD + POINTER, data(88, "00001234", "00000040"), NEITHER),
    (HEAD + "float,3\n", data(88, "00000000", "40080000"), data(88, "00000000", "40080000")),
    (HEAD + "bits,4008000000000000\n", data(88, "00000000", "40080000"), NEITHER),
    (HEAD + "float,3\nbits,ffffffffffffffff\n", data(88, "00000000", "40080000", "ffffffff", "ffffffff"),
     data(88, "00000000", "40080000", HYPHENS, HYPHENS)),
    (HEAD + "bits,0000000000000001\nfloat,0\nbits,123456789abcdef0\n",
     data(88, "00000001", "00000000", "00000000", "00000000", "9abcdef0", "12345678"),
     data(88, HYPHENS, HYPHENS, "00000000", "00000000", HYPHENS, HYPHENS)),
    (HEAD, "", ""),
    (HEAD + "bits,00000000000000gg\n", "refused,12,2\n", None),
    (HEAD + "bits,FFFFFFFFFFFFFFFF\n", "refused,12,2\n", None),
    (HEAD + "bits,0000000000000001\n", data(88, "00000001", "00000000"), NEITHER),
    (HEAD + "bits,ffffffffffffffff\n", data(88, "ffffffff", "ffffffff"), NEITHER),
    (HEAD + "load_const,0,0\n" + POINTER, data(96, "00001234", "00000040"), data(96, HYPHENS, HYPHENS)),
    (POINTER, "refused,12,1\n", None),
    (HEAD + POINTER * 1009, "refused,9,1010\n", None),
    (HEAD + "load_const,0,1\n" + POINTER, "refused,5,2\n", None),
    (HEAD + POINTER + "\n" * (65537 - len(HEAD + POINTER)), "refused,7,1\n", None),
    (HEAD + POINTER[:-1], "refused,12,2\n", None),
    (HEAD + "bits,7ff8dead00000000\n", data(88, "00000000", "7ff8dead"), NEITHER),
    (HEAD + POINTER * 1000 + "float,3\n" * 8, data(88, *["00001234", "00000040"] * 1000, *["00000000", "40080000"] * 8),
     data(88, *[HYPHENS] * 2000, *["00000000", "40080000"] * 8)),
    (HEAD + "float,3\n" * 1000 + POINTER * 8, data(88, *["00000000", "40080000"] * 1000, *["00001234", "00000040"] * 8),
     data(88, *["00000000", "40080000"] * 1000, *[HYPHENS] * 16)),
    (ODD + POINTER, data(88, "00001234", "00000040"), NEITHER),
    (ODD + "bits,0000001300000013\n", data(88, "00000013", "00000013"), NEITHER),  # the word of a `nop`, in a constant
    (ODD + "load_const,0,1\nfloat,3\n" + POINTER, data(96, "00000000", "40080000", "00001234", "00000040"),
     data(96, "00000000", "40080000", HYPHENS, HYPHENS)),
    (ODD + "load_const,0,1\n" + POINTER, "refused,5,2\n", None),
]


def constants(text):
    return "".join(row for row in text.splitlines(keepends=True) if "data" in row or row.startswith("refused"))


def examples():
    """The files of EXAMPLES, of which reference.py and reading.py must say what stands there."""
    for file, shown, hidden in EXAMPLES:
        deck = file.encode()
        _, at, text = by_reference(deck)
        assert constants(text) == shown and constants(seen(deck, at, text)) == (shown if hidden is None else hidden), file[:200]
        yield deck


# ---- fresh files


def some_bits(r):
    return line("bits", f"{r.choice([*RAW, r.getrandbits(64), r.getrandbits(64)]):016x}")


def some_constants(r):
    """A `float` line, a `bits` line, or one of each with the same 64 bits."""
    n = r.choice([*SMALL_FLOATS, r.randint(-1000, 1000)])
    both = [line("float", n), line("bits", struct.pack(">d", n).hex())]
    return [told.encode() for told in r.choice([both, both[::-1], both[:1], [some_bits(r)], [some_bits(r)]])]


def with_constants(r, deck):
    """Constants more, anywhere behind line 1."""
    lines = split(deck)
    for _ in range(r.choice([0, 1, 1, 2, 6])):
        at = r.randint(1, max(1, len(lines)))
        lines[at:at] = some_constants(r)
    return b"".join(lines)


def spoiled(r, deck):
    """Lines more for which nearly every deck is refused, whatever digits its `bits` lines have."""
    raw = some_bits(r).encode()
    broken = r.choice([raw.upper(), raw[:-2] + b"\n", raw[:-1] + b"0\n", raw[:-1], b"bits,\n", b"float,0x3\n", b"label,1024\n"])
    many = b"".join(some_bits(r).encode() for _ in range(1009))
    return r.choice([raw + deck, deck + many, deck + b"load_const,1,1007\n" + raw, deck + b"branch,1,1023,0\n" + raw,
                     deck + raw + broken, deck + raw + broken, deck + broken + raw])


def fresh(r, seed, count):
    """Decks of the generator, good and bad ones, with constants more; every tenth is spoiled."""
    for i, deck in enumerate(decks(seed, count)):
        more = with_constants(r, deck)
        yield spoiled(r, more) if i % 10 == 8 else more


# ---- other digits

WELL_FORMED = re.compile(rb"^bits,[0-9a-f]{16}\n", re.M)


def others(r, deck):
    """The deck with other digits in all of its well-formed `bits` lines, some times; not at all where it has none."""
    for _ in range(CHANGES if WELL_FORMED.search(deck) else 0):
        yield WELL_FORMED.sub(lambda _: some_bits(r).encode(), deck)


# ---- for the gate


def recorded(r, seed, count):
    """The worked examples; so many short accepted decks with constants of both kinds, and a quarter as many refused ones."""
    plain = re.compile(rb"[ -}\n]{,700}")
    short = [deck for deck in fresh(r, seed, 10 * count) if plain.fullmatch(deck) and WELL_FORMED.search(deck)]
    good = [deck for deck in short if by_reference(deck)[1] is not None and b"\nfloat," in deck]
    bad = [deck for deck in short if by_reference(deck)[1] is None]
    return [*examples(), *good[:count], *bad[: count // 4]]
