#!/usr/bin/env python3
"""Makes the list of deck lines that the program `test_lines` reads, and what the program must print.

    decklines.py [--out crates/test_lines] [--check]

What is expected of a line is worked out here from document 01 ("The deck file", "Numbers of refusal"), by regular expressions;
tools/orders.py has the names and their fields. --check writes nothing, and fails where the files in --out differ from what is made.

A row has 128 bytes: what is expected (a tag of 2 hexadecimal digits, five numbers of 4, one of 16), the count of the line's bytes
(2 digits), the line with each byte outside 33..126, and the backslash, as a backslash and two hexadecimal digits, spaces, and byte 10.
Tags: 0 refused, 1 head, 2 to 11 the orders by their shape, 12 float, 13 bits, 14 a head and an order's line: is the cell within its count.
The first number of an order of registers alone is its place among those of its shape.
"""
import argparse
import itertools
import pathlib
import random
import re
import struct
import sys

sys.path.insert(0, str(pathlib.Path(__file__).resolve().parent.parent))
import orders  # noqa: E402
from orders import FIELDS  # noqa: E402

SEED = 20261115
ROW = 128
ROOM = 76  # bytes of an escaped line

PLACES = ["mem", "stack", "param"]
HEADS = ["fast", "indirect"]
NUMBER = "(?:0|[1-9][0-9]*)"
PATTERN = {c: NUMBER for c in "rlikcm"}
PATTERN |= {"p": "(?:mem|stack|param)", "e": "[01]", "z": f"(?:{NUMBER}|-[1-9][0-9]*)", "x": "[0-9a-f]{16}"}
PRESERVED = [8, 9] + list(range(18, 28))
REGISTER, VALUE, LABEL, COUNT, LINE = 1, 2, 3, 9, 12


def refused(n):
    return (0, n)


def bits_of(z):
    return struct.unpack("<Q", struct.pack("<d", float(z)))[0]


def head(name, v):
    """The head of a line's numbers, or its number of refusal."""
    cap, states, obs, last, mask = v
    if mask >= 2**32:
        return refused(VALUE)
    good = cap <= 4096 and states + obs <= 4096
    if name == "fast":
        good = good and states <= 8 and last <= 255 and last < states + obs
    else:
        good = good and last <= 4096
    if any(mask >> r & 1 for r in PRESERVED):
        good = good and cap >= 16
    return (1, HEADS.index(name), cap, states, obs, last, mask) if good else refused(COUNT)


def expected(line):
    """What document 01 says of one line, with no head known."""
    text = line.decode("latin-1")
    name = text.split(",")[0]
    if name not in FIELDS:
        return refused(LINE)
    kinds = FIELDS[name]
    if not re.fullmatch(name + "".join(f",{PATTERN[k]}" for k in kinds) + "\n", text) or text.count("\n") != 1:
        return refused(LINE)
    words = text[:-1].split(",")[1:]
    v = [PLACES.index(w) if k == "p" else int(w, 16) if k == "x" else int(w) for k, w in zip(kinds, words)]
    if name in HEADS:
        return head(name, v)
    for k, limit, number in (("r", 31, REGISTER), ("l", 1023, LABEL), ("z", 2**53, VALUE), ("k", 1007, COUNT), ("i", 4095, COUNT)):
        if any(abs(n) > limit for n, c in zip(v, kinds) if c == k):
            return refused(number)
    if name == "float":
        return (12, 0, 0, 0, 0, 0, bits_of(v[0]))
    if name == "bits":
        return (13, 0, 0, 0, 0, 0, v[0])
    shape = orders.shape(name)
    first = [orders.names(shape).index(name)] if set(kinds) == {"r"} else []
    return (list(orders.SHAPES).index(shape) + 2, *first, *v)


def within(first, line):
    """Is the cell of the order's line below its count, with the head of the first line."""
    h, o = expected(first), expected(line)
    fast, cap, states, obs, last = h[1] == 0, *h[2:6]
    counts = [states + obs, cap, 0 if fast else last]
    place, index = (1, o[4]) if o[0] == 6 else (o[2], o[3])
    return (14, int(index < counts[place]))


def escaped(line):
    return "".join(chr(b) if 33 <= b < 127 and b != 92 else f"\\{b:02x}" for b in line)


def row(want, line):
    want = tuple(want) + (0,) * (7 - len(want))
    text = escaped(line)
    assert len(text) <= ROOM and all(0 <= n < 65536 for n in want[1:6]), line
    out = f"{want[0]:02x} " + " ".join(f"{n:04x}" for n in want[1:6]) + f" {want[6]:016x} {len(line):02x} {text}"
    return out.ljust(ROW - 1) + "\n"


def good_fields(r, kinds):
    edge = {"r": [0, 1, 9, 10, 31], "l": [0, 1, 1023], "i": [0, 15, 255, 4095], "k": [0, 1007]}
    edge |= {"c": [0, 1, 8, 16, 4096], "m": [0, 1, 2**32 - 1]}
    top = {"r": 31, "l": 1023, "i": 4095, "k": 1007, "c": 20, "m": 2**32 - 1}
    out = []
    for k in kinds:
        if k in top:
            out.append(str(r.choice(edge[k]) if r.random() < 0.4 else r.randint(0, top[k])))
        elif k == "p":
            out.append(r.choice(PLACES))
        elif k == "e":
            out.append(r.choice("01"))
        elif k == "z":
            n = r.choice([0, 1, 2**53, 2**53 - 1, r.randint(0, 10**4), r.randint(0, 2**53)])
            out.append(str(-n if n and r.random() < 0.5 else n))
        else:
            out.append(f"{r.choice([0, 2**64 - 1, 2**63, 0x7FF8000000000001, r.getrandbits(64)]):016x}")
    return out


def line_of(name, fields):
    return (",".join([name] + fields) + "\n").encode("latin-1")


BIG = ["32", "99", "256", "1008", "1024", "4096", "4097", "9007199254740993", "4294967295", "4294967296", "18446744073709551615",
       "18446744073709551616", "1" + "0" * 30, "9" * 40]
BAD = ["", "00", "01", "0000", "-0", "-1", "+1", " 1", "1 ", "1.0", "0x1", "a", "1a", "a1", "1\r", "\0", "1\0", "\xb2", "1,",
       "99999999999999999999999x", "mem", "Mem", "2", "-00", "-", "--1"]


def lines(r):
    names = list(FIELDS)
    for name in names:
        for _ in range(20):
            yield line_of(name, good_fields(r, FIELDS[name]))
        for at in range(len(FIELDS[name])):
            for word in BIG + BAD:
                fields = good_fields(r, FIELDS[name])
                fields[at] = word
                yield line_of(name, fields)
        # two fields at fault
        for _ in range(12):
            fields = good_fields(r, FIELDS[name])
            for at in r.sample(range(len(fields)), min(2, len(fields))):
                fields[at] = r.choice(BIG + BAD)
            yield line_of(name, fields)
        f = good_fields(r, FIELDS[name])
        whole = line_of(name, f)
        yield from (line_of(name, f[:-1]), line_of(name, f + ["0"]), line_of(name, f + [""]), whole[:-1], whole[:-1] + b"\r\n")
        yield from (b" " + whole, whole[:-1] + b" \n", b"\n" + whole, whole + b"\n")
        yield from (line_of(name.upper(), f), line_of(name[:-1], f), line_of(name + "s", f), line_of("", f))
        yield from ((name + "\n").encode(), (name + ";" + ";".join(f) + "\n").encode(), whole[:-1] + b"\n\n")
    for other in ["plus", "branch_if", "set_label", "load", "save", "neg", "abs", "root", "#", "//"]:
        yield line_of(other, ["1", "2"])
    yield from (b"", b"\n", b",\n", b"\0\n", b"\r\n", b"fast", b"fast\n", b"\xff\xfe\n")
    yield from (b"bits,0123456789ABCDEF\n", b"bits,0123456789abcde\n", b"bits,0123456789abcdef0\n", b"bits,0123456789abcdeg\n")
    # heads at their limits
    for cap in (0, 15, 16, 17, 4096, 4097):
        for mask in [0, 1 << 7, 1 << 10, 1 << 17, 1 << 28, 2**32 - 1, 2**32] + [1 << b for b in PRESERVED]:
            yield line_of("fast", [str(cap), "1", "0", "0", str(mask)])
            yield line_of("indirect", [str(cap), "0", "0", "0", str(mask)])
    for states, obs in ((0, 0), (0, 1), (8, 0), (9, 0), (8, 4088), (8, 4089), (4096, 0), (0, 4096), (4097, 0), (2048, 2048), (2048, 2049),
                        (2**64 - 1, 1), (4096, 4096)):
        for last in (0, 1, 7, 8, 255, 256, 4095, 4096, 4097, 2**64):
            yield line_of("fast", ["16", str(states), str(obs), str(last), "0"])
            yield line_of("indirect", ["16", str(states), str(obs), str(last), "0"])


# Corners of the number reader (document 02, point 3), as lines.
ONCE = ["fmov,5,7", "fmov,5", "fmov,", "fmov,,5", "fmov,5,", "fmov,0,1", "fmov,00,1", "fmov,1,01", "fmov,01", "fmov,1x,2",
        "fmov,12 ,3", "fmov,-1,2", "fmov,7\n,1", "fmov,0x1f,", "fmov,18446744073709551615,x", "fmov,18446744073709551616,x",
        "fmov,99999999999999999999999", "get,31,mem,4", "get,31,", "get,31,,,x", "get,5,mem,4096", "get,32,mem,",
        "branch,0,1024,0", "branch,0,18446744073709551616,0", "label,7", "label,31", "label,255", "label,1000", "label,07",
        "label,", "label,,", "label,7,", "float,-9007199254740992", "float,-9007199254740993", "float,-0", "float,-", "float,--1",
        "float,1,", "float,-1,2"]
# and numbers of four digits, at the fields' limits
FOUR = ["get,1,mem,999", "get,1,stack,1000", "put,1,param,4095", "put,1,mem,9999", "put,1,mem,10000", "ifelse,1,2,3,1000",
        "ifelse,1,2,3,4095", "ifelse,1,2,3,4096", "load_const,1,1000", "load_const,1,1007", "load_const,1,1008", "label,999",
        "label,1023", "label,1024", "branch,1,999,0", "branch,1,1000,1", "branch,1,1023,0", "branch,1,1024,1"]


def long_numbers(r):
    """A number of 19 to 25 digits in each number's field, and one with another byte in front or at its end."""
    for name in FIELDS:
        for at, kind in enumerate(FIELDS[name]):
            if PATTERN[kind] != NUMBER and kind != "z":
                continue
            for count in range(19, 26):
                digits = str(r.randint(1, 9)) + "".join(r.choice("0123456789") for _ in range(count - 1))
                for word in (digits, r.choice(["0" + digits[1:], digits[:-1] + "x", digits[:-1] + " ", "-" + digits[1:]])):
                    fields = good_fields(r, FIELDS[name])
                    fields[at] = word
                    yield line_of(name, fields)


def once(r):
    yield from ((line + "\n").encode("latin-1") for line in ONCE + FOUR)
    yield from long_numbers(r)


def pairs():
    heads = [b"fast,16,8,2,0,0\n", b"fast,0,1,0,0,0\n", b"indirect,7,3,4,5,0\n", b"indirect,0,0,0,0,0\n", b"indirect,4096,4000,96,4096,0\n"]
    for first in heads:
        for i in (0, 1, 4, 5, 6, 7, 9, 10, 15, 16, 4094, 4095):
            for p in PLACES:
                yield first, b"get,1,%s,%d\n" % (p.encode(), i)
                yield first, b"put,1,%s,%d\n" % (p.encode(), i)
            yield first, b"ifelse,1,2,3,%d\n" % i


def main():
    p = argparse.ArgumentParser()
    p.add_argument("--out", default="crates/test_lines", type=pathlib.Path)
    p.add_argument("--check", action="store_true")
    a = p.parse_args()
    r = random.Random(SEED)
    seen, rows = set(), []
    tally = {"accepted": 0, "refused": 0, "cells": 0}
    for line in itertools.chain(lines(r), once(r)):
        if line not in seen and len(escaped(line)) <= ROOM:
            seen.add(line)
            want = expected(line)
            tally["refused" if want[0] == 0 else "accepted"] += 1
            rows.append(row(want, line))
    for first, line in pairs():
        tally["cells"] += 1
        rows.append(row(within(first, line), first + line))
    told = f"{tally['accepted']} accepted, {tally['refused']} refused, {tally['cells']} cells, 0 mismatches\n"
    out = {"stdin": "".join(rows), "stdout": told}
    for name, text in out.items():
        f = a.out / name
        if a.check:
            if f.read_text() != text:
                sys.exit(f"{f} differs")
        else:
            f.write_text(text)
    print(len(rows), "rows", out["stdout"].strip())


main()
