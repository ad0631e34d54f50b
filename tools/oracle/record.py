#!/usr/bin/env python3
"""Records the Rust's answers, and GNU as's where the Rust isn't asked: the list that the program `test_functions` reads, and what the
program must print.

    record.py RUSTDIR [--out crates/test_functions] [--check] [--differences]

RUSTDIR has the Rust's files as they are (riscv64/mod.rs, riscv64/macros.rs, assembler.rs, utils.rs, config.rs, symbol.rs, code.rs). They
are compiled unchanged with rustc (the list was made with 1.95.0) behind the driver in this folder, twice: with overflow checks and
optimized. Cases come from cases.py, with a fixed seed; both programs must give the same answer to each. What is refused comes from
refusals.py, with the numbers of documents 01 and 02, and the family `made`, document 02's point 2, from made.py. The Rust's `sign` is not
asked for, since document 01's words differ: the driver has those. Nor is the family `top`, document 02's point 6, whose words are GNU as's
(top.py).

A row of the list has a kind (two hexadecimal digits) and four numbers (eight each; negative ones in two's complement):
    00  a name of 16 bytes     the family of what follows, by its name in cases.FAMILIES, or `refusals`, or `made`
    01  four words             that stand next in the code
    02  n                      n zero words stand next
    03 to 07                   0 to 4 words stand next, and nothing behind them: the answer agrees
    08  n                      the last call answered this number
    09  number place           the last call was refused and left the record as it was; 0 and 0: it was accepted
    0a  label number low       so many jumps were made to the label; low is its place plus 1, or 0 where it is unset
    0b  length jumps closed    the record is this, and behind its length stand zeros, 1,024 bytes or to the end
    0c  n and three labels     n labels are set and never jumped to, these first; ffffffff is memory that the list leaves as it was
    0d  number place           the list of those labels is refused
    10 and above: operands     a call, by its number in CALLS; the first one behind an answer starts on fresh memory

--check writes nothing, and fails where the files in --out differ from what is made.
--differences prints what the Rust does with each refused input, and with some others that docs/DIFFERENCES.md tells of.
"""
import argparse
import pathlib
import struct
import sys
import tempfile

import build
import cases
import made
import refusals
import top
from orders import names

ROW = 39
# How many of cases.FAMILIES the program knows; refusals are listed where it knows their calls.
LISTED = 18

FAMILY, WORDS, ZEROS, LAST, VALUE, REFUSED = 0x00, 0x01, 0x02, 0x03, 0x08, 0x09
# made.py's checks of what a call left.
CHECKS = {"entry": 0x0A, "is": 0x0B, "listed": 0x0C, "unlisted": 0x0D}
# The first number of each block of calls. Orders of registers have 16 numbers a shape, so that a new one is the next of its block.
CALLS = {
    0x10: "append_word append_quad set_label add_const add_float apply_jumps align_stack pad".split()
    + "jumps beq bne load_x_from_label j made record jump".split(),
    0x20: "li load_float save_float load_int load_complex save_complex sub_stack add_stack allocate_stack".split(),
    0x30: names("unary"),
    0x40: names("scratched"),
    0x50: names("binary"),
    0x60: names("fused"),
    0x70: "ifelse load_const branch_if label load_const_in".split(),
    0x78: "load_mem load_stack load_param save_mem save_stack save_param".split(),
    0x80: "prologue_fast prologue_indirect epilogue_fast epilogue_indirect save_used_registers load_used_registers".split(),
}
NUMBERS = {name: first + i for first, called in CALLS.items() for i, name in enumerate(called)}
assert len(set(NUMBERS.values())) == len(NUMBERS), "a block of CALLS runs into the next"


def row(kind, numbers=()):
    columns = [f"{n % 2**32:08x}" for n in [*numbers, 0, 0, 0, 0][:4]]
    text = f"{kind:02x} {' '.join(columns)}\n"
    assert len(text) == ROW, text
    return text


def family_row(name):
    return row(FAMILY, struct.unpack(">IIII", f"{name:>16}".encode()))


def bits(call):
    """A constant's index and the halves of its bits."""
    name, operands, *_ = call
    if name == "add_float":
        return operands[0], [*struct.unpack("<II", struct.pack("<d", operands[1]))]
    return (operands[0], operands[1:]) if name == "add_const" else (None, [])


def asked(call):
    """The driver's step: a call's own, or the one beside it that the Rust has for the same words."""
    name, operands, *others = call
    return others[0] if others else (name, operands)


def steps(calls):
    """The driver's steps: constants from 0 on that come in a row are the Rust's `add_consts`."""
    told, i = [], 0
    while i < len(calls):
        run = 0
        while i + run < len(calls) and bits(calls[i + run])[0] == run:
            run += 1
        if run:
            told.append(("add_consts", [half for call in calls[i : i + run] for half in bits(call)[1]]))
        else:
            k, halves = bits(calls[i])
            told.append(asked(calls[i]) if k is None else ("add_const", [k, *halves]))
        i += max(run, 1)
    return told


def line(calls):
    """What the driver is asked."""
    return ";".join(" ".join([name, *map(str, operands)]) for name, operands in steps(calls))


def word_rows(code):
    """Rows of an answer: runs of four or more zero words in one row, others four to a row."""
    words = [int.from_bytes(code[i : i + 4], "little") for i in range(0, len(code), 4)]
    rows, held, i = [], [], 0
    while i < len(words):
        zeros = next((k for k in range(i, len(words)) if words[k]), len(words)) - i
        if not held and zeros >= 4:
            rows.append(row(ZEROS, [zeros]))
            i += zeros
            continue
        held.append(words[i])
        i += 1
        if len(held) == 4 and i < len(words):
            rows.append(row(WORDS, held))
            held = []
    return rows + [row(LAST + len(held), held)]


def answer_rows(answer):
    return word_rows(answer) if isinstance(answer, bytes) else [row(VALUE, [answer])]


def call_rows(calls):
    return [row(NUMBERS[name], operands) for name, operands, *_ in calls]


def rust_answers(programs, family):
    lines = [line(calls) for calls in family]
    checked, optimized = (build.ask(programs[mode], lines) for mode in ("checked", "optimized"))
    for text, calls, a, b in zip(lines, family, checked, optimized):
        if a is None or a != b or any(map(top.above, calls)):
            sys.exit(f"no single answer to: {text}")
    return checked


def recorded(programs):
    """Rows and the count of each family."""
    rows, counts = [], []
    for name, family in list(cases.families())[:LISTED]:
        answers = top.answers(family) if name == "top" else rust_answers(programs, family)
        rows.append(family_row(name))
        for calls, answer in zip(family, answers):
            rows += call_rows(calls) + answer_rows(answer)
        counts.append((name, len(family)))
    return rows, counts


def known():
    """The names of calls that the program knows."""
    listed = list(cases.families())[:LISTED]
    return {"jumps"} | {name for _, family in listed for calls in family for name, *_ in calls}


def refused():
    rows, count, names = [family_row("refusals")], 0, known()
    for calls, number, place, _ in refusals.refusals():
        if not {name for name, *_ in calls} <= names:
            continue
        rows += call_rows(calls) + [row(REFUSED, [number, place])]
        count += 1
    return rows, ("refusals", count)


def counted():
    """Rows and the count of the family `made`."""
    rows, told = [family_row("made")], list(made.family())
    for calls, checks, number, place, _ in told:
        rows += call_rows(calls) + [row(CHECKS[name], operands) for name, operands in checks] + [row(REFUSED, [number, place])]
    return rows, ("made", len(told))


def shown(answer):
    if answer is None:
        return "panics"
    if isinstance(answer, int):
        return f"{answer:#x}"
    words = [answer[i : i + 4][::-1].hex() for i in range(0, len(answer), 4)]
    return " ".join(words[-8:]) + (f" (last of {len(words)} words)" if len(words) > 8 else "") or "no word"


def both(programs, lines):
    """What each line's steps give, with overflow checks and without."""
    for answers in zip(*(build.ask(programs[mode], lines) for mode in build.MODES)):
        checked, optimized = map(shown, answers)
        yield checked if checked == optimized else f"{checked}; without overflow checks {optimized}"


def differences(programs):
    told = list(refusals.refusals())
    lines = [line(calls) for calls, _, _, _ in told]
    for (_, number, place, why), text, answer in zip(told, lines, both(programs, lines)):
        print(f"{number:2} at {place:<5} {why:45} {text:60} {answer}")
    for text, answer in zip(refusals.NOTED, both(programs, refusals.NOTED)):
        print(f"{text:60} {answer}")


def main():
    parser = argparse.ArgumentParser(description=__doc__, formatter_class=argparse.RawDescriptionHelpFormatter)
    parser.add_argument("rust", metavar="RUSTDIR")
    parser.add_argument("--out", default="crates/test_functions")
    parser.add_argument("--check", action="store_true")
    parser.add_argument("--differences", action="store_true")
    given = parser.parse_args()
    with tempfile.TemporaryDirectory() as folder:
        programs = build.build(given.rust, folder)
        if given.differences:
            return differences(programs)
        rows, counts = recorded(programs)
    for more, count in (refused(), counted()):
        rows += more
        counts.append(count)
    printed = "".join(f"{name:>16}: {n}\n" for name, n in counts) + "0 mismatches\n"
    files = {"stdin": "".join(rows), "stdout": printed}
    for name, text in files.items():
        path = pathlib.Path(given.out, name)
        if not given.check:
            path.write_text(text)
        elif path.read_text() != text:
            sys.exit(f"{path} is not what this script makes")
    print(printed, end="")


if __name__ == "__main__":
    main()
