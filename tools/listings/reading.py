#!/usr/bin/env python3
"""The listing once more, independent of the proved code and of objdump: a word's line by the ISA Manual, a code's text by document 02.

    reading.py [--data OFFSET [--attendant DECK]] < WORDS      WORDS as `deckwords` prints them; the constants start at OFFSET; with the
                                                               deck file the attendant's text

`line` gives a word's line behind its offset, or None where no accepted instruction has the word; `listing` gives a code's number of
refusal, its place and its text; `attended` gives the attendant's text from an accepted deck's lines and its listing.
"""
import argparse
import sys

# Every instruction: its name as `rvv!` spells it, its bits from the highest on as the Manual has them, and the operands in `rvv!` order.
# A dot is a bit of an operand, m one of a rounding field that may be any of ROUNDINGS; where macros.rs fixes the rounding, it stands there.
ROUNDINGS = (0, 1, 2, 3, 4, 7)
TABLE = [
    ("add", "0000000 ..... ..... 000 ..... 0110011", "rd rs1 rs2"),
    ("sub", "0100000 ..... ..... 000 ..... 0110011", "rd rs1 rs2"),
    ("sll", "0000000 ..... ..... 001 ..... 0110011", "rd rs1 rs2"),
    ("xor", "0000000 ..... ..... 100 ..... 0110011", "rd rs1 rs2"),
    ("srl", "0000000 ..... ..... 101 ..... 0110011", "rd rs1 rs2"),
    ("sra", "0100000 ..... ..... 101 ..... 0110011", "rd rs1 rs2"),
    ("or", "0000000 ..... ..... 110 ..... 0110011", "rd rs1 rs2"),
    ("and", "0000000 ..... ..... 111 ..... 0110011", "rd rs1 rs2"),
    ("addi", "............ ..... 000 ..... 0010011", "rd rs1 i"),
    ("xori", "............ ..... 100 ..... 0010011", "rd rs1 i"),
    ("ori", "............ ..... 110 ..... 0010011", "rd rs1 i"),
    ("andi", "............ ..... 111 ..... 0010011", "rd rs1 i"),
    ("slli", "000000 ...... ..... 001 ..... 0010011", "rd rs1 shift"),
    ("srli", "000000 ...... ..... 101 ..... 0010011", "rd rs1 shift"),
    ("srai", "010000 ...... ..... 101 ..... 0010011", "rd rs1 shift"),
    ("addiw", "............ ..... 000 ..... 0011011", "rd rs1 i"),
    ("jalr", "............ ..... 000 ..... 1100111", "rd rs1 i"),
    ("ld", "............ ..... 011 ..... 0000011", "rd rs1 i"),
    ("fld", "............ ..... 011 ..... 0000111", "rd rs1 i"),
    ("sd", "....... ..... ..... 011 ..... 0100011", "rs2 rs1 s"),
    ("fsd", "....... ..... ..... 011 ..... 0100111", "rs2 rs1 s"),
    ("beq", "....... ..... ..... 000 ..... 1100011", "rs1 rs2 b"),
    ("bne", "....... ..... ..... 001 ..... 1100011", "rs1 rs2 b"),
    ("blt", "....... ..... ..... 100 ..... 1100011", "rs1 rs2 b"),
    ("bge", "....... ..... ..... 101 ..... 1100011", "rs1 rs2 b"),
    ("bltu", "....... ..... ..... 110 ..... 1100011", "rs1 rs2 b"),
    ("bgeu", "....... ..... ..... 111 ..... 1100011", "rs1 rs2 b"),
    ("lui", ".................... ..... 0110111", "rd u"),
    ("auipc", ".................... ..... 0010111", "rd u"),
    ("jal", ".................... ..... 1101111", "rd j"),
    ("fadd.d", "0000001 ..... ..... mmm ..... 1010011", "rd rs1 rs2 rm"),
    ("fsub.d", "0000101 ..... ..... 111 ..... 1010011", "rd rs1 rs2 rm"),
    ("fmul.d", "0001001 ..... ..... 111 ..... 1010011", "rd rs1 rs2 rm"),
    ("fdiv.d", "0001101 ..... ..... 111 ..... 1010011", "rd rs1 rs2 rm"),
    ("fsqrt.d", "0101101 00000 ..... 111 ..... 1010011", "rd rs1 rm"),
    ("fsgnj.d", "0010001 ..... ..... 000 ..... 1010011", "rd rs1 rs2"),
    ("fsgnjn.d", "0010001 ..... ..... 001 ..... 1010011", "rd rs1 rs2"),
    ("fsgnjx.d", "0010001 ..... ..... 010 ..... 1010011", "rd rs1 rs2"),
    ("fmin.d", "0010101 ..... ..... 000 ..... 1010011", "rd rs1 rs2"),
    ("fmax.d", "0010101 ..... ..... 001 ..... 1010011", "rd rs1 rs2"),
    ("fle.d", "1010001 ..... ..... 000 ..... 1010011", "rd rs1 rs2"),
    ("flt.d", "1010001 ..... ..... 001 ..... 1010011", "rd rs1 rs2"),
    ("feq.d", "1010001 ..... ..... 010 ..... 1010011", "rd rs1 rs2"),
    ("fcvt.w.d", "1100001 00000 ..... 111 ..... 1010011", "rd rs1 rm"),
    ("fcvt.l.d", "1100001 00010 ..... mmm ..... 1010011", "rd rs1 rm"),
    ("fcvt.d.w", "1101001 00000 ..... 000 ..... 1010011", "rd rs1 rm"),
    ("fcvt.d.l", "1101001 00010 ..... 111 ..... 1010011", "rd rs1 rm"),
    ("fmv.x.d", "1110001 00000 ..... 000 ..... 1010011", "rd rs1"),
    ("fmv.d.x", "1111001 00000 ..... 000 ..... 1010011", "rd rs1"),
    ("fmadd.d", "..... 01 ..... ..... 111 ..... 1000011", "rd rs1 rs2 rs3 rm"),
    ("fmsub.d", "..... 01 ..... ..... 111 ..... 1000111", "rd rs1 rs2 rs3 rm"),
    ("fnmsub.d", "..... 01 ..... ..... 111 ..... 1001011", "rd rs1 rs2 rs3 rm"),
    ("fnmadd.d", "..... 01 ..... ..... 111 ..... 1001111", "rd rs1 rs2 rs3 rm"),
]


def bits(pattern):
    return pattern.replace(" ", "")


def mask(pattern):
    return int("".join("1" if c in "01" else "0" for c in bits(pattern)), 2)


def match(pattern):
    return int("".join("1" if c == "1" else "0" for c in bits(pattern)), 2)


ROWS = [(name, mask(pattern), match(pattern), "m" in pattern, operands.split()) for name, pattern, operands in TABLE]
assert len(ROWS) == 53 and all(len(bits(pattern)) == 32 for _, pattern, _ in TABLE)


# ---- operands: the Manual's fields of a word


def part(word, high, low):
    return word >> low & (1 << high - low + 1) - 1


def signed(value, width):
    return value - (1 << width) if value >> width - 1 else value


FIELD = {
    "rd": lambda w: part(w, 11, 7),
    "rs1": lambda w: part(w, 19, 15),
    "rs2": lambda w: part(w, 24, 20),
    "rs3": lambda w: part(w, 31, 27),
    "rm": lambda w: part(w, 14, 12),
    "shift": lambda w: part(w, 25, 20),
    "i": lambda w: signed(part(w, 31, 20), 12),
    "s": lambda w: signed(part(w, 31, 25) << 5 | part(w, 11, 7), 12),
    "b": lambda w: signed(part(w, 31, 31) << 12 | part(w, 7, 7) << 11 | part(w, 30, 25) << 5 | part(w, 11, 8) << 1, 13),
    "u": lambda w: part(w, 31, 12),
    "j": lambda w: signed(part(w, 31, 31) << 20 | part(w, 19, 12) << 12 | part(w, 20, 20) << 11 | part(w, 30, 21) << 1, 21),
}


def line(word):
    """The name and the operands of a word, parted by commas; None where it is no instruction."""
    for name, fixed, value, free, operands in ROWS:
        if word & fixed == value and (not free or FIELD["rm"](word) in ROUNDINGS):
            return ",".join([name, *(str(FIELD[o](word)) for o in operands)])
    return None


# ---- document 02, point 5


def refused(number, place):
    return number, place, f"refused,{number},{place}\n"


def word_at(code, offset):
    return int.from_bytes(code[offset : offset + 4], "little")


def listing(code, at):
    """The number of refusal (0 for none), its place, and the text."""
    if at > len(code) or at % 4:
        return refused(2, 0)
    text = []
    for offset in range(0, at, 4):
        told = line(word_at(code, offset))
        if told is None:
            return refused(14, offset)
        text.append(f"{offset},{told}\n")
    if len(code) % 4:
        return refused(14, len(code) // 4 * 4)
    text += [f"{offset},data,{word_at(code, offset):08x}\n" for offset in range(at, len(code), 4)]
    return 0, 0, "".join(text)


def code_of(words):
    return b"".join(w.to_bytes(4, "little") for w in words)


# ---- document 02, point 10: from the deck's own lines, which of its constants came from `bits`


def raw_constants(deck):
    """Of each constant of an accepted deck the digits of its `bits` line, or None for a `float` line."""
    lines = [told.split(",") for told in deck.decode().splitlines()]
    return [digits if name == "bits" else None for name, digits, *_ in lines if name in ("float", "bits")]


def rewritten(text, at, deck, halves):
    """An accepted deck's listing, whose constants start at `at`, with these digits for the low and the high half of a `bits` constant."""
    rows = text.splitlines()
    for k, digits in enumerate(raw_constants(deck)):
        for row, half in enumerate(halves(digits) if digits else (), at // 4 + 2 * k):
            rows[row] = rows[row][:-8] + half
    return "".join(row + "\n" for row in rows)


def attended(text, at, deck):
    """The listing as the attendant sees it: eight hyphens in place of the digits of each half of a `bits` constant."""
    return rewritten(text, at, deck, lambda digits: ("-" * 8, "-" * 8))


def main():
    parser = argparse.ArgumentParser(description=__doc__, formatter_class=argparse.RawDescriptionHelpFormatter)
    parser.add_argument("--data", type=int, metavar="OFFSET")
    parser.add_argument("--attendant", type=argparse.FileType("rb"), metavar="DECK")
    given = parser.parse_args()
    code = code_of(int(row.split(",")[1], 16) for row in sys.stdin)
    text = listing(code, len(code) if given.data is None else given.data)[2]
    sys.stdout.write(attended(text, given.data, given.attendant.read()) if given.attendant else text)


if __name__ == "__main__":
    main()
