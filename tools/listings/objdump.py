#!/usr/bin/env python3
"""Lines of a listing from what GNU objdump prints (Debian's binutils-riscv64-linux-gnu), by document 02's words.

    objdump.py [--data OFFSET] < WORDS      WORDS as `deckwords` prints them; the constants start at OFFSET

Names and operands are objdump's. Registers lose their letter, immediates become decimal, `8(x2)` becomes base and immediate, the target of
a branch or jump becomes the distance to it. objdump leaves out a rounding that is `dyn`, and fcvt.d.w's: there it is bits 14 to 12 of the
word. It knows more instructions than a listing has, and doesn't say which roundings macros.rs writes: it decides no refusal.
"""
import argparse
import pathlib
import re
import subprocess
import sys
import tempfile

OBJDUMP = ["riscv64-linux-gnu-objdump", "-D", "-z", "-b", "binary", "-m", "riscv:rv64", "-M", "no-aliases,numeric"]
ROUNDING = {"rne": 0, "rtz": 1, "rdn": 2, "rup": 3, "rmm": 4, "dyn": 7}

# The names of a listing by what objdump prints behind them.
PLAIN = "add sub sll xor srl sra or and fsgnj.d fsgnjn.d fsgnjx.d fmin.d fmax.d fle.d flt.d feq.d fmv.x.d fmv.d.x".split()
PLAIN += "addi xori ori andi addiw slli srli srai lui auipc".split()
BASED = "ld fld sd fsd jalr".split()
AIMED = "beq bne blt bge bltu bgeu jal".split()
ROUNDED = {"fadd.d": 3, "fsub.d": 3, "fmul.d": 3, "fdiv.d": 3, "fsqrt.d": 2, "fcvt.w.d": 2, "fcvt.l.d": 2, "fcvt.d.w": 2, "fcvt.d.l": 2}
ROUNDED |= {"fmadd.d": 4, "fmsub.d": 4, "fnmsub.d": 4, "fnmadd.d": 4}  # with how many registers


def whole(word):
    """The word has the length of one instruction: neither shorter nor longer ones begin so."""
    return word & 3 == 3 and word & 0x1F != 0x1F


def number(text):
    """A register's number, or an immediate."""
    register = re.fullmatch(r"[xf](\d+)", text)
    return int(register[1]) if register else int(text, 0)


def rounding(text, word):
    """The number of a rounding; where objdump has none for it, the field."""
    return ROUNDING.get(text, word >> 12 & 7)


def distance(target, address):
    away = (int(target, 16) - address) % 2**64
    return away - 2**64 if away >= 2**63 else away


def operands(name, texts, word, address):
    if name in BASED:
        offset, base = re.fullmatch(r"(-?\d+)\(x(\d+)\)", texts[1]).groups()
        return [number(texts[0]), int(base), int(offset)]
    if name in AIMED:
        return [*map(number, texts[:-1]), distance(texts[-1], address)]
    if name in ROUNDED:
        count = ROUNDED[name]
        return [*map(number, texts[:count]), rounding((texts + [""])[count], word)]
    return list(map(number, texts))


def translated(name, rest, word, address):
    """The line of what objdump prints for a word; None for a name that no listing has."""
    if name not in (*PLAIN, *BASED, *AIMED, *ROUNDED):
        return None
    texts = rest.split(" ")[0].split(",")
    return ",".join([name, *map(str, operands(name, texts, word, address))])


def printed(words):
    """objdump's text, a match for each word: address, word, name, operands."""
    with tempfile.TemporaryDirectory() as folder:
        path = pathlib.Path(folder, "words")
        path.write_bytes(b"".join(w.to_bytes(4, "little") for w in words))
        text = subprocess.run([*OBJDUMP, path], check=True, capture_output=True, text=True).stdout
    return re.findall(r"^ *([0-9a-f]+):\t([0-9a-f]{8}) +\t(\S+)(?:\t([^\n]*))?$", text, re.M)


def lines(words):
    """The line of each word behind its offset, or None."""
    asked = [w for w in words if whole(w)]
    rows = printed(asked) if asked else []
    if [int(row[1], 16) for row in rows] != asked:
        sys.exit("objdump's text has not a row for each word")
    told = iter([translated(name, rest, int(word, 16), int(address, 16)) for address, word, name, rest in rows])
    return [next(told) if whole(w) else None for w in words]


def listing(words, at):
    """The text of words that are accepted; those from the offset `at` on are constants."""
    told = lines(words[: at // 4])
    assert None not in told, "a word that is none of the listing's"
    coded = "".join(f"{4 * i},{line}\n" for i, line in enumerate(told))
    return coded + "".join(f"{4 * i},data,{words[i]:08x}\n" for i in range(at // 4, len(words)))


def main():
    parser = argparse.ArgumentParser(description=__doc__, formatter_class=argparse.RawDescriptionHelpFormatter)
    parser.add_argument("--data", type=int, metavar="OFFSET")
    at = parser.parse_args().data
    words = [int(row.split(",")[1], 16) for row in sys.stdin]
    sys.stdout.write(listing(words, 4 * len(words) if at is None else at))


if __name__ == "__main__":
    main()
