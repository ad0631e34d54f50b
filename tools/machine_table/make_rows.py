#!/usr/bin/env python3
"""Makes crates/machine/proofs/Rows.antt: what single instructions do on an outside machine.

    python3 tools/machine_table/make_rows.py            write Rows.antt anew
    python3 tools/machine_table/make_rows.py --check    only say whether Rows.antt is what would be written
    python3 tools/machine_table/make_rows.py --count    rows by instruction
    python3 tools/machine_table/make_rows.py --machine  compare the rows with tools/decks/machine.py, a machine of ours

Needs Debian's gcc-riscv64-linux-gnu, binutils-riscv64-linux-gnu and qemu-user. The rows were made with
qemu-riscv64 7.2.22 (Debian 1:7.2+dfsg-7+deb12u18), GNU as 2.40 and gcc 12.2.0.

Each test is one instruction in assembler text with the values of some registers and one cell. GNU as gives the word, and
harness.c (built here, run by qemu-riscv64) runs it once and says what all registers, the rounding mode, the pc and memory are
then. Nothing is computed here: a row's right side is what the outside machine gave. Three short lists are not run: words that are
no instruction of ours (`NOT`; docs/DECISIONS.md, 51: they have no next state), accesses at no multiple of 8 (`TRAPPED`; document 02,
point 7, says that they have none either; qemu does them), and what float instructions ask of any `Floats` (`ASKED`; the Manual
says it).
"""
import collections
import pathlib
import re
import struct
import subprocess
import sys
import tempfile

HERE = pathlib.Path(__file__).resolve().parent
sys.path.insert(0, str(HERE.parent / "decks"))
from machine import DO, Bytes, Machine, Stopped  # noqa: E402

TARGET = HERE.parent.parent / "crates" / "machine" / "proofs" / "Rows.antt"

PC = 0x40400000
CELL = 0x50000000
TOP = 1 << 64
MIN = 1 << 63
MAX = MIN - 1
ONES = TOP - 1
MIX = 0x8123456789ABCDEF


# what a register holds that a test does not name
def plain_x(r):
    return 7000 + r


def plain_f(r):
    return 9000 + r


def bits(v):
    return struct.unpack("<Q", struct.pack("<d", v))[0]


INF, NINF = bits(float("inf")), bits(float("-inf"))
ZERO, NZERO = bits(0.0), bits(-0.0)
NAN, PAYLOAD, NNAN, SIGNALLING = 0x7FF8000000000000, 0x7FF8DEADBEEF0001, 0xFFF8000000000123, 0x7FF0000000000001
TINY, LARGE, LEAST_NORMAL = 1, 0x7FEFFFFFFFFFFFFF, 0x0010000000000000
BOXED = 0xFFFFFFFF3F800000

Test = collections.namedtuple("Test", "text x f rm pc cell")
groups = []


def group(name, comment):
    groups.append((name, comment, []))


def test(text, x=None, f=None, rm=None, pc=PC, cell=(CELL, 0)):
    """An instruction that doesn't round gets one mode after another."""
    tests = groups[-1][2]
    tests.append(Test(text, x or {}, f or {}, len(tests) % 5 if rm is None else rm, pc, cell))


# ---------------------------------------------------------------- whole numbers

group("whole", "Whole numbers: R, I and U formats.")
for a, b in [(1, 2), (MAX, 1), (ONES, 1), (MIN, MIN)]:
    test("add x5, x6, x7", {6: a, 7: b})
test("add x5, x5, x5", {5: MIX})
test("add x0, x6, x7", {6: 1, 7: 2})
test("add x5, x0, x7", {7: MIX})
test("add x31, x30, x0", {30: MIX})
for a, b in [(5, 3), (0, 1), (MIN, 1), (1, MIN), (MIX, MIX), (3, ONES)]:
    test("sub x5, x6, x7", {6: a, 7: b})
test("sub x28, x0, x29", {29: 1})
test("sub x0, x6, x7", {6: 5, 7: 3})
for op in ["xor", "or", "and"]:
    test(f"{op} x5, x6, x7", {6: 0xFF00FF00FF00FF00, 7: 0x0FF00FF00FF00FF0})
    test(f"{op} x10, x11, x12", {11: ONES, 12: MIX})
    test(f"{op} x5, x5, x6", {5: MIN, 6: MAX})
    test(f"{op} x5, x6, x0", {6: MIX})
    test(f"{op} x0, x6, x7", {6: MIX, 7: 1})
for a, n in [(0, -2048), (1, -2048), (2048, -2048), (0, 2047), (ONES, 2047), (ONES, 1), (0, -1), (MAX, 1), (MIN, -1), (5, 0)]:
    test(f"addi x5, x6, {n}", {6: a})
test("addi x5, x0, -3")
test("addi x0, x6, 3")
test("addi x0, x0, 0")
test("addi x9, x9, 2047", {9: MIX})
for op in ["xori", "ori", "andi"]:
    for n in [-2048, 2047, -1, 0]:
        test(f"{op} x5, x6, {n}", {6: MIX})
    test(f"{op} x5, x0, -5")
    test(f"{op} x0, x6, 5")
for n in [0, 1, 0x7FFFF, 0x80000, 0xFFFFF]:
    test(f"lui x5, {n:#x}")
test("lui x0, 0x12345")
for n in [0, 1, 0x7FFFF, 0x80000, 0xFFFFF]:
    test(f"auipc x5, {n:#x}", pc=PC + 4 * n % 1024)
test("auipc x0, 0x12345")
# 32 bits: carries at bit 31 both ways, and an upper half that must not matter
for a, n in [
    (0x7FFFFFFF, 1),
    (0x7FFFF801, 2047),
    (0xFFFFFFFF80000000, -1),
    (0xFFFFFFFF800007FF, -2048),
    (0xFFFFFFFF80000000, -2048),
    (0x100000000, -1),
    (0x100000000, 0),
    (0xDEADBEEF00000005, -6),
    (0xDEADBEEF7FFFFFFF, 1),
    (0x1234567880000000, 0),
    (0xFFFFFFFF, 1),
    (ONES, 2047),
    (MIN, 5),
    (5, 0),
]:
    test(f"addiw x5, x6, {n}", {6: a})
test("addiw x5, x0, -2048")
test("addiw x5, x0, 2047")
test("addiw x0, x6, 3", {6: MIX})
test("addiw x0, x0, -1")
test("addiw x9, x9, 2047", {9: MIX})

# ---------------------------------------------------------------- shifts

group("shifts", "Shifts: by an immediate of 6 bits, and by the low 6 bits of a register.")
for op in ["slli", "srli", "srai"]:
    for n in [0, 1, 31, 32, 63]:
        test(f"{op} x5, x6, {n}", {6: MIX})
    test(f"{op} x5, x6, 33", {6: MAX})
    test(f"{op} x0, x6, 3", {6: MIX})
    test(f"{op} x5, x0, 3")
test("srai x5, x5, 63", {5: MAX})
test("srai x5, x6, 62", {6: MIN})
for op in ["sll", "srl", "sra"]:
    for n in [0, 1, 31, 32, 63, 64, 64 + 5, ONES, MIN + 4]:
        test(f"{op} x5, x6, x7", {6: MIX, 7: n})
    test(f"{op} x5, x6, x7", {6: MAX, 7: 33})
    test(f"{op} x5, x6, x0", {6: MIX})
    test(f"{op} x0, x6, x7", {6: MIX, 7: 3})
    test(f"{op} x7, x7, x7", {7: MIX})

# ---------------------------------------------------------------- branches and jumps

group("jumps", "Branches and jumps: where pc goes, and the link register.")
PAIRS = [(1, 2), (2, 1), (MIX, MIX), (ONES, 1), (1, ONES), (MIN, MAX), (MAX, MIN), (MIN, ONES), (ONES, MIN)]
OFFSETS = [8, -4, 4092, -4096, 2048, -2048, 32, -32, 1364]
for k, op in enumerate(["beq", "bne", "blt", "bge", "bltu", "bgeu"]):
    for j, (a, b) in enumerate(PAIRS):
        test(f"{op} x6, x7, .{OFFSETS[(j + k) % 9]:+d}", {6: a, 7: b})
    test(f"{op} x6, x7, .-4096", {6: 0, 7: 0})
    test(f"{op} x6, x0, .+4092", {6: 0})
    test(f"{op} x0, x7, .+8", {7: ONES})
    test(f"{op} x7, x7, .+16", {7: MIX})
for n in [4, 8, -4, 2048, -2048, 4096, -4096, 0x12344, -0x54324, 1048572, -1048576]:
    test(f"jal x1, .{n:+d}")
test("jal x0, .-1024")
test("jal x31, .+1024", pc=PC + 0x7C)
for base, n in [(PC + 256, 0), (PC + 256, -2048), (PC + 1, 2047), (PC + 257, 0), (PC + 256, 5), (PC + 259, -2), (PC + 258, -1)]:
    test(f"jalr x1, {n}(x6)", {6: base})
test("jalr x6, 8(x6)", {6: PC + 64})
test("jalr x0, 0(x1)", {1: PC + 1024})
test("jalr x5, 16(x0)")
test("jalr x1, 16(x6)", {6: TOP - 8})
test("jalr x1, -2048(x6)", {6: 2048 + 68})

# ---------------------------------------------------------------- loads and stores

group("memory", "Loads and stores: the cell is what is read or written, at any multiple of 8.")
OLD = 0x1122334455667788
for op, r in [("ld", "x5"), ("fld", "f5")]:
    test(f"{op} {r}, 0(x6)", {6: CELL + 16}, cell=(CELL + 16, MIX))
    test(f"{op} {r}, -2048(x6)", {6: CELL + 2048 + 8}, cell=(CELL + 8, OLD))
    test(f"{op} {r}, 2047(x6)", {6: CELL + 1}, cell=(CELL + 2048, MIX))
    test(f"{op} {r}, 2047(x6)", {6: CELL + 9}, cell=(CELL + 2056, OLD))
    test(f"{op} {r}, -1(x6)", {6: CELL + 4096 + 1}, cell=(CELL + 4096, ONES - 1))
    test(f"{op} {r}, 48(x0)", cell=(48, MIX))
    test(f"{op} {r}, 16(x6)", {6: TOP - 8}, cell=(8, OLD))
    test(f"{op} {r}, -8(x6)", {6: 24}, cell=(16, PAYLOAD))
test("ld x0, 0(x6)", {6: CELL + 16}, cell=(CELL + 16, MIX))
test("ld x6, 8(x6)", {6: CELL + 16}, cell=(CELL + 24, MIX))
test("fld f0, 0(x31)", {31: CELL + 16}, cell=(CELL + 16, SIGNALLING))
for op, r in [("sd", "x7"), ("fsd", "f7")]:
    new = {"x": {}, "f": {}}
    new[r[0]] = {7: MIX}
    for n, base, at in [(0, 16, 16), (-2048, 2056, 8), (2047, 1, 2048), (2047, 9, 2056), (-1, 4097, 4096), (5, 3, 8)]:
        test(f"{op} {r}, {n}(x6)", {6: CELL + base, **new["x"]}, new["f"], cell=(CELL + at, OLD))
    test(f"{op} {r}, 48(x0)", new["x"], new["f"], cell=(48, OLD))
    test(f"{op} {r}, 16(x6)", {6: TOP - 8, **new["x"]}, new["f"], cell=(8, OLD))
test("sd x0, 0(x6)", {6: CELL + 16}, cell=(CELL + 16, OLD))
test("sd x6, -5(x6)", {6: CELL + 21}, cell=(CELL + 16, OLD))
test("fsd f0, 0(x6)", {6: CELL + 16}, {0: SIGNALLING}, cell=(CELL + 16, OLD))
test("fsd f31, 3(x6)", {6: CELL + 13}, {31: NZERO}, cell=(CELL + 16, OLD))

group("parts", "Loads of a part of the cell and of bytes beside it.")
for op, r in [("ld", "x5"), ("fld", "f5")]:
    for at in [1, 7, 9, 15, 16]:
        test(f"{op} {r}, 8(x6)", {6: CELL + 8}, cell=(CELL + 8 + at, OLD))

# ---------------------------------------------------------------- bits of floats

group("moves", "Bits moved and signs injected: exact, whatever the bits stand for.")
for v in [NZERO, PAYLOAD, SIGNALLING, NNAN, BOXED, ONES]:
    test("fmv.x.d x5, f6", f={6: v})
    test("fmv.d.x f5, x6", {6: v})
test("fmv.x.d x0, f6", f={6: MIX})
test("fmv.x.d x31, f0", f={0: MIX})
test("fmv.d.x f5, x0", f={5: MIX})
test("fmv.d.x f0, x31", {31: MIX})
SIGNS = [(bits(1.5), bits(2.5)), (bits(1.5), bits(-2.5)), (bits(-1.5), bits(2.5)), (bits(-1.5), bits(-2.5)), (PAYLOAD, NZERO), (NNAN, ZERO), (SIGNALLING, NINF)]
for op in ["fsgnj.d", "fsgnjn.d", "fsgnjx.d"]:
    for a, b in SIGNS:
        test(f"{op} f5, f6, f7", f={6: a, 7: b})
    test(f"{op} f5, f6, f6", f={6: bits(-1.5)})
    test(f"{op} f5, f6, f6", f={6: SIGNALLING})
    test(f"{op} f6, f6, f7", f={6: TINY, 7: ONES})

# ---------------------------------------------------------------- floats, to nearest even

group("sums", "Sums and differences, to nearest even.")
E = 2.0**-53
for a, b in [(1.0, 2.0), (0.1, 0.2), (1.0, E), (1.0 + 2 * E, E), (1.0, E + 2.0**-80), (-1.0, -E), (1.0, -1.0), (0.0, -0.0), (-0.0, -0.0), (1e16, 1.0), (-0.3, 0.1)]:
    test("fadd.d f5, f6, f7", f={6: bits(a), 7: bits(b)}, rm=0)
for a, b in [(TINY, TINY), (LEAST_NORMAL, 0x8000000000000001), (LARGE, LARGE), (LARGE, bits(2.0**969)), (LARGE, bits(2.0**970)), (INF, bits(1.0)), (INF, NINF), (NINF, NINF), (PAYLOAD, bits(1.0)), (bits(1.0), NNAN), (SIGNALLING, bits(1.0))]:
    test("fadd.d f5, f6, f7", f={6: a, 7: b}, rm=0)
for m in [0, 1, 2, 3, 4]:
    test("fadd.d f5, f6, f7, rne", f={6: bits(0.1), 7: bits(0.2)}, rm=m)
# the other rounding fields and modes: an exact sum
for field in ["rtz", "rdn", "rup", "rmm", "dyn"]:
    test(f"fadd.d f5, f6, f7, {field}", f={6: bits(1.5), 7: bits(-4.0)})
test("fadd.d f6, f6, f6", f={6: bits(0.7)}, rm=0)
for a, b in [(5.0, 3.0), (0.3, 0.1), (0.1, 0.3), (1.0, E / 2), (1.0, 1.0), (-1.0, -1.0), (0.0, 0.0), (-0.0, 0.0), (0.0, -0.0), (1.0, 1.0 + 2 * E)]:
    test("fsub.d f5, f6, f7", f={6: bits(a), 7: bits(b)}, rm=0)
for a, b in [(LEAST_NORMAL, TINY), (INF, INF), (INF, NINF), (LARGE, 0xFFEFFFFFFFFFFFFF), (bits(1.0), PAYLOAD), (TINY, LEAST_NORMAL)]:
    test("fsub.d f5, f6, f7", f={6: a, 7: b}, rm=0)
test("fsub.d f0, f1, f1", f={1: INF}, rm=0)

group("products", "Products and quotients, to nearest even.")
for a, b in [(3.0, 5.0), (0.1, 0.1), (-0.1, 3.0), (1e200, 1e200), (-1e200, 1e200), (1e-200, 1e-200), (-1.0, 0.0), (-0.0, -1.0), (2.0**-1000, 2.0**-74), (2.0**-1000, 0.75 * 2.0**-73), (2.0**-600, -1.5 * 2.0**-475)]:
    test("fmul.d f5, f6, f7", f={6: bits(a), 7: bits(b)}, rm=0)
for a, b in [(TINY, bits(0.5)), (3, bits(0.5)), (LEAST_NORMAL, bits(0.75)), (INF, ZERO), (INF, bits(-2.0)), (PAYLOAD, ZERO), (LARGE, bits(1.0 + 2 * E))]:
    test("fmul.d f5, f6, f7", f={6: a, 7: b}, rm=0)
for a, b in [(6.0, 3.0), (1.0, 3.0), (-2.0, 3.0), (1.0, 10.0), (1.0, 0.0), (-1.0, 0.0), (1.0, -0.0), (0.0, 0.0), (0.0, -5.0), (1e300, 1e-300), (1e-300, 1e300)]:
    test("fdiv.d f5, f6, f7", f={6: bits(a), 7: bits(b)}, rm=0)
for a, b in [(TINY, bits(2.0)), (3, bits(2.0)), (LEAST_NORMAL, bits(3.0)), (INF, INF), (INF, bits(-2.0)), (bits(1.0), INF), (bits(-1.0), INF), (bits(1.0), NNAN), (LARGE, bits(0.5))]:
    test("fdiv.d f5, f6, f7", f={6: a, 7: b}, rm=0)

group("roots", "Square roots and the fused operations, to nearest even.")
for v in [4.0, 2.0, 3.0, 0.5, 0.0, -0.0, -1.0, 1e-300, 1e300, 2.0**53 + 2]:
    test("fsqrt.d f5, f6", f={6: bits(v)}, rm=0)
for v in [INF, NINF, PAYLOAD, SIGNALLING, TINY, 3, LARGE, LEAST_NORMAL, 0x8000000000000001]:
    test("fsqrt.d f5, f6", f={6: v}, rm=0)
test("fsqrt.d f6, f6", f={6: bits(0.7)}, rm=0)
FUSED = [(2.0, 3.0, 5.0), (-2.0, 3.0, 5.0), (1.0 + 2 * E, 1.0 - 2 * E, 1.0), (0.1, 10.0, 1.0), (0.1, 10.0, -1.0), (3.0, 4.0, 12.0), (0.0, 1.0, 0.0), (0.0, -1.0, 0.0), (0.0, 1.0, -0.0), (1e200, 1e200, 1.0), (1e-200, 1e-200, 1.0), (1e-200, 1e-200, 0.0), (2.0**-600, 1.5 * 2.0**-475, 0.0)]
FUSED = [tuple(map(bits, t)) for t in FUSED] + [(LARGE, bits(2.0), LARGE), (INF, ZERO, bits(1.0)), (INF, bits(1.0), INF), (INF, bits(1.0), NINF), (bits(1.0), bits(1.0), NINF), (PAYLOAD, bits(1.0), bits(1.0)), (bits(1.0), bits(1.0), NNAN), (bits(1e200), bits(1e200), NINF)]
for op in ["fmadd.d", "fmsub.d", "fnmsub.d", "fnmadd.d"]:
    for a, b, c in FUSED:
        test(f"{op} f5, f6, f7, f8", f={6: a, 7: b, 8: c}, rm=0)
    test(f"{op} f31, f30, f30, f31", f={30: bits(0.7), 31: bits(0.3)}, rm=0)

group("comparisons", "Comparisons, minimum and maximum.")
COMPARED = [(bits(1.0), bits(2.0)), (bits(2.0), bits(1.0)), (bits(1.0), bits(1.0)), (bits(-1.0), bits(-2.0)), (bits(-2.0), bits(-1.0)), (ZERO, NZERO), (NZERO, ZERO), (NAN, bits(1.0)), (bits(1.0), NNAN), (PAYLOAD, NAN), (SIGNALLING, bits(1.0)), (NINF, INF), (INF, INF), (TINY, LEAST_NORMAL), (INF, NAN), (bits(-1.0), TINY)]
for op in ["feq.d", "flt.d", "fle.d"]:
    for a, b in COMPARED:
        test(f"{op} x5, f6, f7", f={6: a, 7: b})
    test(f"{op} x0, f6, f7", f={6: bits(1.0), 7: bits(1.0)})
for op in ["fmin.d", "fmax.d"]:
    for a, b in COMPARED:
        test(f"{op} f5, f6, f7", f={6: a, 7: b})

group("conversions", "Conversions: from a whole number to nearest even, to a whole number in all five modes.")
for v in [0, 1, ONES, 2, 0x80000000, 0x7FFFFFFF, 0xFFFFFFFF, 0xDEADBEEF00000005, 0xFFFFFFFF00000001, 0x7FFFFFFF80000001, MIN]:
    test("fcvt.d.w f5, x6", {6: v})
test("fcvt.d.w f5, x0")
for v in [0, 1, ONES, MIN, 0xFFFFFFFF, 2**53 + 1, 2**53 + 3, TOP - 2**53 - 1, MAX, 0x7FFFFFFFFFFFFDFF, 0x8000000000000001, 10**18 + 1]:
    test("fcvt.d.l f5, x6", {6: v}, rm=0)
test("fcvt.d.l f31, x0", rm=0)
TO_W = [0.0, 1.0, 1.5, -1.5, 0.9999, -0.9999, -1.0, -0.0, 2147483647.9, -2147483648.9, 123456.7, -123456.7]
for v in TO_W:
    test("fcvt.w.d x5, f6", f={6: bits(v)}, rm=1)
for v in [bits(2147483648.0), bits(-2147483649.0), bits(4294967296.0), INF, NINF, NAN, NNAN, TINY]:
    test("fcvt.w.d x5, f6", f={6: v}, rm=1)
test("fcvt.w.d x0, f6", f={6: bits(7.0)}, rm=1)
for v in [0.0, 1.5, -1.5, 0.9999, -0.9999, -1.0, 2147483648.5, -4294967296.5, 2.0**62, 2.0**53 + 2, -(2.0**63), 1e15 + 0.5]:
    test("fcvt.l.d x5, f6, rtz", f={6: bits(v)})
for v in [bits(2.0**63), bits(-(2.0**63) - 2048), bits(1e300), INF, NINF, NAN, NNAN, 0x8000000000000001]:
    test("fcvt.l.d x5, f6, rtz", f={6: v})
for v in [2.5, 3.5, -2.5, -3.5, 2.7, -2.7, 2.2, -2.2, 0.5, -0.5, 2147483647.5]:
    for m, field in enumerate(["rne", "rtz", "rdn", "rup", "rmm"]):
        test("fcvt.w.d x5, f6", f={6: bits(v)}, rm=m)
        test(f"fcvt.l.d x5, f6, {field}", f={6: bits(v)})
        test("fcvt.l.d x5, f6, dyn", f={6: bits(v)}, rm=m)
test("fcvt.l.d x0, f6, rtz", f={6: bits(7.0)})

# ---------------------------------------------------------------- words that are no instruction

NOT = [
    ".word 0",
    ".word 0xffffffff",
    ".word 0x00010001",
    "ecall",
    "ebreak",
    "fence",
    "fence.i",
    "csrrs x5, frm, x0",
    "slliw x5, x6, 1",
    "srliw x5, x6, 1",
    "sraiw x5, x6, 1",
    ".word 0x0013229b",  # `addiw`'s opcode with funct3 2
    "addw x5, x6, x7",
    "slti x5, x6, 1",
    "sltiu x5, x6, 1",
    "slt x5, x6, x7",
    "sltu x5, x6, x7",
    "mul x5, x6, x7",
    "lw x5, 0(x6)",
    "sw x5, 0(x6)",
    "flw f5, 0(x6)",
    "fsw f5, 0(x6)",
    "fadd.s f5, f6, f7",
    "fmadd.s f5, f6, f7, f8",
    "fsub.d f5, f6, f7, rne",
    "fmul.d f5, f6, f7, rtz",
    "fdiv.d f5, f6, f7, rup",
    "fsqrt.d f5, f6, rne",
    "fmadd.d f5, f6, f7, f8, rne",
    "fcvt.w.d x5, f6, rtz",
    "fcvt.d.l f5, x6, rne",
    "fcvt.wu.d x5, f6",
    "fcvt.lu.d x5, f6",
    "fcvt.d.wu f5, x6",
    "fcvt.d.s f5, f6",
    "fclass.d x5, f6",
    # fadd.d and fcvt.l.d with a rounding field of 5 and 6, fcvt.d.w with 7
    ".insn r 0x53, 5, 0x01, f5, f6, f7",
    ".insn r 0x53, 6, 0x01, f5, f6, f7",
    ".insn r 0x53, 5, 0x61, x5, f6, f2",
    ".insn r 0x53, 7, 0x69, f5, x6, f0",
    # fmv.x.d with rs2 of 1, jalr with funct3 of 1, a branch with funct3 of 2, sll and sra with a wrong funct7
    ".insn r 0x53, 0, 0x71, x5, f6, f1",
    ".insn i 0x67, 1, x5, x6, 0",
    ".insn b 0x63, 2, x6, x7, .+8",
    ".insn r 0x33, 1, 0x20, x5, x6, x7",
    ".insn r 0x33, 5, 0x21, x5, x6, x7",
]
# at a pc that is a multiple of 4, and the word of an instruction at one that isn't
NOT = [(t, PC) for t in NOT] + [("add x5, x6, x7", PC + k) for k in (1, 2, 3)]

# ---------------------------------------------------------------- accesses that trap

# Not run: qemu does an access at any address. That these have no next state is what document 02 says: text, and what x6 holds.
TRAPPED = []
for op, r in [("ld", "x5"), ("sd", "x7"), ("fld", "f5"), ("fsd", "f7")]:
    # every distance from a multiple of 8, by the base alone
    TRAPPED += [(f"{op} {r}, 0(x6)", CELL + 16 + k) for k in range(1, 8)]
    # by the offset alone
    TRAPPED += [(f"{op} {r}, {n}(x6)", CELL + 2048) for n in (1, 4, 7, -1, -4, 2044, 2047, -2047)]
    # by both
    TRAPPED += [(f"{op} {r}, {n}(x6)", CELL + base) for n, base in [(2047, 6), (-2048, 2052), (-1, 4100), (8, 3)]]
    # at and around 2^64
    round_the_top = [(0, ONES), (0, TOP - 4), (0, TOP - 7), (12, TOP - 8), (2, ONES), (-8, 4), (-2048, 1)]
    TRAPPED += [(f"{op} {r}, {n}(x6)", x6) for n, x6 in round_the_top]
    TRAPPED += [(f"{op} {r}, 0(x6)", MIN + 4), (f"{op} {r}, 4(x0)", CELL), (f"{op} {r}, -4(x0)", CELL)]
TRAPPED += [("ld x0, 4(x6)", CELL), ("ld x6, 4(x6)", CELL), ("sd x0, 4(x6)", CELL), ("sd x6, 4(x6)", CELL)]
TRAPPED += [("fld f0, 4(x6)", CELL), ("ld x5, 0(x6)", 0x1001)]


def address(text, x6):
    offset, base = re.search(r"(-?[0-9]+)\(x([06])\)", text).groups()
    return (int(offset) + (x6 if base == "6" else 0)) % TOP


if not all(address(*t) % 8 for t in TRAPPED):
    sys.exit("an access at a multiple of 8 does not trap")


# ---------------------------------------------------------------- what float instructions ask of `Floats`

# Not run either. The rows leave open in which mode a sum is asked for (`binary64` has one rounding) and in which order the operands
# of a sum stand, so these say, by the Manual, which function each instruction applies to what: text, the state's mode, result.
# No register's number is a rounding field or a mode.
ASKED = {"f": [], "x": []}
MODES = ["rne", "rtz", "rdn", "rup", "rmm"]


def ask(text, function, modes, shape="w64 ({})"):
    """modes: a rounding field as it is written, the state's mode, and the mode asked for"""
    rd, *sources = text.replace(",", "").split()[1:]
    operands = [str((plain_x if r[0] == "x" else plain_f)(int(r[1:]))) for r in sources]
    for field, m, mode in modes:
        call = " ".join([f"Q.{function}", mode, *operands])
        ASKED[rd[0]].append((text + field, m, shape.format(call)))


FIXED = [("", 3, "0")]
DYNAMIC = [("", 3, "3")]
FREE = [(f", {name}", (k + 2) % 5, str(k)) for k, name in enumerate(MODES)] + [("", m, str(m)) for m in range(5)]
ask("fadd.d f5, f12, f13", "add", FREE)
for text, function in [("fsub.d f5, f12, f13", "sub"), ("fmul.d f5, f12, f13", "mul"), ("fdiv.d f5, f12, f13", "div"), ("fsqrt.d f5, f12", "sqrt"), ("fmadd.d f5, f12, f13, f14", "mul_add"), ("fmsub.d f5, f12, f13, f14", "mul_sub"), ("fnmsub.d f5, f12, f13, f14", "neg_mul_add"), ("fnmadd.d f5, f12, f13, f14", "neg_mul_sub"), ("fcvt.d.l f5, x12", "of_l")]:
    ask(text, function, DYNAMIC)
ask("fcvt.d.w f5, x12", "of_w", FIXED)
ask("fmin.d f5, f12, f13", "min", DYNAMIC)
ask("fmax.d f5, f12, f13", "max", DYNAMIC)
ask("fcvt.w.d x5, f12", "to_w", DYNAMIC, "sext 32 ({})")
ask("fcvt.l.d x5, f12", "to_l", FREE)
for text, function in [("fle.d x5, f12, f13", "le"), ("flt.d x5, f12, f13", "lt"), ("feq.d x5, f12, f13", "eq")]:
    ask(text, function, DYNAMIC, "bit ({})")

# ---------------------------------------------------------------- the tools

# isa's operations, by the names of GNU as
OPERATIONS = """add sub sll xor srl sra or and fsgnj.d fsgnjn.d fsgnjx.d fmin.d fmax.d fle.d flt.d feq.d fadd.d fsub.d fmul.d fdiv.d
fsqrt.d fcvt.w.d fcvt.l.d fcvt.d.w fcvt.d.l fmv.x.d fmv.d.x fmadd.d fmsub.d fnmsub.d fnmadd.d addi xori ori andi jalr ld fld
addiw slli srli srai sd fsd beq bne blt bge bltu bgeu lui auipc jal""".split()


def words_of(texts, folder):
    source, thing, linked, image = (folder / name for name in ("t.s", "t.o", "t.elf", "t.bin"))
    source.write_text(".option norvc\n.option norelax\n" + "".join(t + "\n" for t in texts))
    subprocess.run(["riscv64-linux-gnu-as", "-march=rv64g", "-o", thing, source], check=True)
    subprocess.run(["riscv64-linux-gnu-ld", "--no-relax", "-e", "0", "-Ttext", f"{PC:#x}", "-o", linked, thing], check=True)
    subprocess.run(["riscv64-linux-gnu-objcopy", "-O", "binary", "-j", ".text", linked, image], check=True)
    found = [w for (w,) in struct.iter_unpack("<I", image.read_bytes())]
    if len(found) != len(texts):
        sys.exit("not one word for each text")
    return found


def run(tests, words, folder):
    program = folder / "harness"
    subprocess.run(
        ["riscv64-linux-gnu-gcc", "-O1", "-static", "-fno-stack-protector", "-fno-delete-null-pointer-checks", "-o", program, HERE / "harness.c"],
        check=True,
    )
    lines = []
    for t, w in zip(tests, words):
        xs = [t.x.get(r, plain_x(r)) for r in range(1, 32)]
        fs = [t.f.get(r, plain_f(r)) for r in range(32)]
        lines.append(" ".join(f"{v:x}" for v in [w, t.pc, t.rm, *t.cell, *xs, *fs]))
    # -B: the program's address 0 is not the host's, so that the lowest addresses can be used
    done = subprocess.run(["qemu-riscv64", "-B", "0x100000000", program], input="\n".join(lines) + "\n", check=True, stdout=subprocess.PIPE, text=True)
    out = [[int(v, 16) for v in line.split()] for line in done.stdout.splitlines()]
    if len(out) != len(tests):
        sys.exit("not one answer for each test")
    return out


def on_ours(word, pc, x, f, rm, cell):
    """One step of tools/decks/machine.py, as harness.c tells of one; None where there is no next state."""
    memory = Bytes()
    memory.store(cell[0], cell[1].to_bytes(8, "little"))
    memory.store(pc, word.to_bytes(4, "little"))
    ours = Machine(memory, pc, [x.get(r, plain_x(r)) if r else 0 for r in range(32)], [f.get(r, plain_f(r)) for r in range(32)], rm)
    try:
        ours.step()
    except Stopped:
        return None
    return [ours.pc, ours.mode, cell[0], int.from_bytes(memory.read(cell[0], 8), "little"), *ours.x[1:], *ours.f]


def compare(tests, words, outs):
    """Our machine's steps with the outside one's; those of NOT and TRAPPED must be none."""
    known = [(t, w, out) for t, w, out in zip(tests, words, outs) if t.text.split()[0] in DO]
    wrong = [t.text for t, w, out in known if on_ours(w, t.pc, t.x, t.f, t.rm, t.cell) != out]
    starts = [(w, pc, {}) for (_, pc), w in zip(NOT, words[len(tests) :])]
    starts += [(w, PC, {6: x6}) for (_, x6), w in zip(TRAPPED, words[len(tests) + len(NOT) :])]
    wrong += [f"{w:#010x}" for w, pc, x in starts if on_ours(w, pc, x, {}, 0, (CELL, 0)) is not None]
    print(f"{len(known)} rows of {len(tests)}, {len(starts)} without a next state: differ {len(wrong)}", *wrong[:5])
    sys.exit(len(wrong) > 0)


def number(v):
    return str(v) if v < 10000 else f"{v:#x}"


def items(parts):
    return "(" + "".join(p + " ∷ " for p in parts) + "[])" if parts else "[]"


def row(t, w, out):
    pc, rm, cell, value, *rest = out
    xs, fs = [None, *rest[:31]], rest[31:]
    if rm != t.rm:
        sys.exit(f"{t.text}: the rounding mode changed")
    changes = [f"reg {r} {number(xs[r])}" for r in range(1, 32) if xs[r] != t.x.get(r, plain_x(r))]
    changes += [f"freg {r} {number(fs[r])}" for r in range(32) if fs[r] != t.f.get(r, plain_f(r))]
    changes += [f"bytes {number(value)}"] if value != t.cell[1] else []
    given = [items([f"({r}, {number(v)})" for r, v in sorted(d.items())]) for d in (t.x, t.f)]
    at = f"({number(t.cell[0])}, {number(t.cell[1])})"
    return f"row {w:#010x} {t.pc:#x} {t.rm} {given[0]} {given[1]} {at} {number(pc)} {items(changes)}"


HEAD = """\
-- What single instructions do on an outside machine (qemu-riscv64). Made by tools/machine_table/make_rows.py: not to be edited.
use mathlib.Core.List.{List, [], ◌∷◌}
use Prim.Native.Nat.{ℕ}
use Rattle.machine.specs.Word.{w64, sext}
use Rattle.machine.specs.Floats.{Floats}
use Rattle.machine.specs.Effect.{bit}

-- The floats of the test, `binary64`, round to nearest even in every mode, so a row whose result is a float that was rounded has mode 0.

-- What is changed afterwards: a register, a float register, the cell.
pub data Change : Type 0 where
  reg : (r v : ℕ) → Change
  freg : (r v : ℕ) → Change
  bytes : (v : ℕ) → Change

-- A word at a pc, the rounding mode, the registers and the float registers that are given, the cell (an address and its eight bytes),
-- and what the machine made of it: its pc then, and all that changed.
pub data Row : Type 0 where
  row : (word pc rm : ℕ) → (xs fs : List (ℕ × ℕ)) → (cell : ℕ × ℕ) → (pc' : ℕ) → List Change → Row
"""


def main():
    tests = [t for _, _, ts in groups for t in ts]
    count = collections.Counter(t.text.split()[0] for t in tests)
    if set(count) != set(OPERATIONS):
        sys.exit("not the instructions of isa")
    if not set(sys.argv[1:]) <= {"--check", "--count", "--machine"}:
        sys.exit(__doc__)
    if "--count" in sys.argv:
        print(" ".join(f"{k} {n}" for k, n in sorted(count.items())), "| total", sum(count.values()))
        return
    asked = [(k, *a) for k in ASKED for a in ASKED[k]]
    texts = [t.text for t in tests] + [t for t, _ in NOT + TRAPPED] + [a[1] for a in asked]
    with tempfile.TemporaryDirectory() as folder:
        words = words_of(texts, pathlib.Path(folder))
        outs = run(tests, words, pathlib.Path(folder))
    if "--machine" in sys.argv:
        compare(tests, words, outs)
    text = HEAD
    rows = iter(zip(tests, words, outs))
    for name, comment, ts in groups:
        text += f"\n-- {comment}\nunfoldable pub {name} : List Row\n{name} =\n"
        for k, (t, w, out) in enumerate(next(rows) for _ in ts):
            text += f"    -- {t.text}\n    {'∷ ' if k else ''}{row(t, w, out)}\n"
        text += "    ∷ []\n"
    text += "\n-- Words and pcs with no next state: words that are no instruction, and pcs that are no multiple of 4.\n"
    text += "unfoldable pub stopped : List (ℕ × ℕ)\nstopped =\n"
    for k, ((t, pc), w) in enumerate(zip(NOT, words[len(tests) :])):
        text += f"    -- {t}\n    {'∷ ' if k else ''}({w:#010x}, {pc:#x})\n"
    text += "    ∷ []\n"
    rest = iter(words[len(tests) + len(NOT) :])
    text += "\n-- Loads and stores at no multiple of 8, and what x6 holds, the base of nearly all: there is no next state. "
    text += "By document 02, point 7,\n"
    text += "-- not by the outside machine, which doesn't trap.\nunfoldable pub trapped : List (ℕ × ℕ)\ntrapped =\n"
    for k, (t, x6) in enumerate(TRAPPED):
        text += f"    -- {t}\n    {'∷ ' if k else ''}({next(rest):#010x}, {number(x6)})\n"
    text += "    ∷ []\n"
    for kind, name in [("f", "f5"), ("x", "x5")]:
        text += f"\n-- A word, the state's mode, and what {name} is then for any `Floats`: by the Manual, not by the outside machine.\n"
        text += f"unfoldable pub asked_{kind} : List (ℕ × ℕ × (Floats → ℕ))\nasked_{kind} =\n"
        for k, (t, m, result) in enumerate(ASKED[kind]):
            text += f"    -- {t}\n    {'∷ ' if k else ''}({next(rest):#010x}, {m}, λ Q. {result})\n"
        text += "    ∷ []\n"
    if "--check" in sys.argv:
        same = TARGET.read_text() == text
        print("Rows.antt is as made" if same else "Rows.antt differs")
        sys.exit(0 if same else 1)
    TARGET.parent.mkdir(parents=True, exist_ok=True)
    TARGET.write_text(text)
    print(len(tests), "rows,", len(NOT), "without a next state,", len(TRAPPED), "that trap,", len(asked), "for any `Floats`")


main()
