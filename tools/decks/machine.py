#!/usr/bin/env python3
"""A small RV64 machine by the ISA Manual, which traps as document 02's sign controller does (point 7). tools/emulate runs its calls on it.

    python3 tools/decks/machine.py        calls that break a term, and some that don't: each stops, or comes back, as it must

It stops at an 8-byte access that isn't at a multiple of 8, at a fetch that isn't at a multiple of 4, at a word that no instruction here
has, and outside its memory. Words are taken apart by tools/listings/reading.py, which objdump confirms; float arithmetic is floats.py's.
`fsqrt.d`, `fmin.d` and `fmax.d`, which no order has, are left out. qemu's single steps agree: tools/machine_table/make_rows.py --machine.
"""
import functools
import importlib.util
import pathlib
import sys

import floats
from floats import MINUS, ONE

HERE = pathlib.Path(__file__).resolve().parent
TOP = 2**64


def listing_reader():
    """tools/listings/reading.py, whose name another module here has too."""
    spec = importlib.util.spec_from_file_location("listing_reading", HERE.parent / "listings" / "reading.py")
    module = importlib.util.module_from_spec(spec)
    spec.loader.exec_module(module)
    return module


LINE = listing_reader().line


class Stopped(Exception):
    """There is no next state."""


class Bytes(dict):
    """Memory at all addresses; 0 where nothing was stored."""

    def read(self, at, n):
        return bytes(self.get((at + i) % TOP, 0) for i in range(n))

    def store(self, at, data):
        self.update(((at + i) % TOP, b) for i, b in enumerate(data))


class Machine:
    """`memory` has `read(at, n)` and `store(at, data)`; x and f are 32 numbers each, x[0] stays 0."""

    def __init__(self, memory, pc, x, f, mode):
        self.memory, self.pc, self.x, self.f, self.mode, self.count = memory, pc, list(x), list(f), mode, 0

    def run(self, until, limit):
        """Steps until pc is there."""
        while self.pc != until:
            if self.count == limit:
                raise Stopped(f"no end after {limit} instructions")
            self.step()

    def step(self):
        self.at, self.count = self.pc, self.count + 1
        if self.at % 4:
            raise Stopped(f"a fetch at {self.at:x}")
        name, operands = taken_apart(int.from_bytes(self.memory.read(self.at, 4), "little"))
        if name not in DO:
            raise Stopped(f"a foreign word at {self.at:x}")
        self.pc = (self.at + 4) % TOP
        DO[name](self, *operands)

    def put(self, d, value):
        if d:
            self.x[d] = value % TOP

    def put_float(self, d, value):
        self.f[d] = value

    def go(self, to):
        self.pc = to % TOP

    def rounding(self, field):
        return self.mode if field == 7 else field

    def address(self, base, n):
        at = (self.x[base] + n) % TOP
        if at % 8:
            raise Stopped(f"an access at {at:x}, of the word at {self.at:x}")
        return at

    def load(self, base, n):
        return int.from_bytes(self.memory.read(self.address(base, n), 8), "little")

    def store(self, value, base, n):
        self.memory.store(self.address(base, n), value.to_bytes(8, "little"))


@functools.cache
def taken_apart(word):
    """A word's name and operands, in the order of the listing; an empty name where it has none."""
    name, *operands = (LINE(word) or "").split(",")
    return name, [int(n) for n in operands]


# ---- what each instruction does: of the machine and its operands


def signed(value, width=64):
    return (value + 2 ** (width - 1)) % 2**width - 2 ** (width - 1)


def registers(value):
    return lambda m, d, a, b: m.put(d, value(m.x[a], m.x[b]))


def immediate(value):
    return lambda m, d, a, n: m.put(d, value(m.x[a], n))


def branch(test):
    return lambda m, a, b, n: test(m.x[a], m.x[b]) and m.go(m.at + n)


def arithmetic(value):
    """The last operand is the rounding field."""
    return lambda m, d, *given: m.put_float(d, value(m.rounding(given[-1]), *(m.f[r] for r in given[:-1])))


def signs(value):
    return lambda m, d, a, b: m.put_float(d, m.f[a] % MINUS | value(m.f[a], m.f[b]) & MINUS)


def comparison(test):
    return lambda m, d, a, b: m.put(d, int(test(m.f[a], m.f[b])))


def jump(m, d, to):
    m.put(d, m.at + 4)
    m.go(to)


def within(n, width):
    return max(-(2 ** (width - 1)), min(2 ** (width - 1) - 1, n))


WHOLE = {
    "add": lambda a, b: a + b,
    "xor": lambda a, b: a ^ b,
    "or": lambda a, b: a | b,
    "and": lambda a, b: a & b,
    "sll": lambda a, b: a << b % 64,
    "srl": lambda a, b: a >> b % 64,
    "sra": lambda a, b: signed(a) >> b % 64,
}
DO = {name: registers(value) for name, value in WHOLE.items()} | {f"{name}i": immediate(value) for name, value in WHOLE.items()}
DO |= {
    "sub": registers(lambda a, b: a - b),
    "addiw": immediate(lambda a, n: signed(a + n, 32)),
    "lui": lambda m, d, n: m.put(d, signed(n << 12, 32)),
    "auipc": lambda m, d, n: m.put(d, m.at + signed(n << 12, 32)),
    "ld": lambda m, d, base, n: m.put(d, m.load(base, n)),
    "fld": lambda m, d, base, n: m.put_float(d, m.load(base, n)),
    "sd": lambda m, s, base, n: m.store(m.x[s], base, n),
    "fsd": lambda m, s, base, n: m.store(m.f[s], base, n),
    "beq": branch(lambda a, b: a == b),
    "bne": branch(lambda a, b: a != b),
    "blt": branch(lambda a, b: signed(a) < signed(b)),
    "bge": branch(lambda a, b: signed(a) >= signed(b)),
    "bltu": branch(lambda a, b: a < b),
    "bgeu": branch(lambda a, b: a >= b),
    "jal": lambda m, d, n: jump(m, d, m.at + n),
    "jalr": lambda m, d, a, n: jump(m, d, (m.x[a] + n) // 2 * 2),
    "fadd.d": arithmetic(lambda mode, a, b: floats.fma(a, ONE, b, mode)),
    "fsub.d": arithmetic(lambda mode, a, b: floats.minus(a, b, mode)),
    "fmul.d": arithmetic(lambda mode, a, b: floats.times(a, b, mode)),
    "fdiv.d": arithmetic(lambda mode, a, b: floats.divide(a, b, mode)),
    "fmadd.d": arithmetic(lambda mode, a, b, c: floats.fma(a, b, c, mode)),
    "fmsub.d": arithmetic(lambda mode, a, b, c: floats.fma(a, b, c ^ MINUS, mode)),
    "fnmsub.d": arithmetic(lambda mode, a, b, c: floats.fma(a ^ MINUS, b, c, mode)),
    "fnmadd.d": arithmetic(lambda mode, a, b, c: floats.fma(a ^ MINUS, b, c ^ MINUS, mode)),
    "fsgnj.d": signs(lambda a, b: b),
    "fsgnjn.d": signs(lambda a, b: ~b),
    "fsgnjx.d": signs(lambda a, b: a ^ b),
    "feq.d": comparison(floats.equal),
    "flt.d": comparison(floats.less),
    "fle.d": comparison(lambda a, b: floats.less(a, b) or floats.equal(a, b)),
    "fcvt.l.d": lambda m, d, a, rm: m.put(d, floats.to_long(m.f[a], m.rounding(rm))),
    "fcvt.w.d": lambda m, d, a, rm: m.put(d, within(floats.to_long(m.f[a], m.rounding(rm)), 32)),
    "fcvt.d.l": lambda m, d, a, rm: m.put_float(d, floats.from_long(signed(m.x[a]), m.rounding(rm))),
    "fcvt.d.w": lambda m, d, a, rm: m.put_float(d, floats.from_long(signed(m.x[a], 32), 0)),
    "fmv.x.d": lambda m, d, a: m.put(d, m.f[a]),
    "fmv.d.x": lambda m, d, a: m.put_float(d, m.x[a]),
}


# ---- calls that break a term

CODE, RETURN, SP, BLOCK, TABLE, PARAMS, CELLS = 0x10000, 0x30004, 0x40000, 0x50000, 0x60000, 0x70000, 0x80000
FAST, FAST_LOAD = ["fast,0,1,0,0,0", "float,1"], ["fast,0,1,0,0,0", "load_const,0,0", "float,1"]
MEM, PARAM, BOTH = ["indirect,0,1,1,0,0", "get,0,mem,0"], ["indirect,0,0,0,1,0", "get,0,param,0"], ["indirect,0,1,1,0,0"]
LOOPS = ["indirect,0,17,17,0,0"]


def call(lines, off=0, a0=BLOCK, a1=0, a2=0, a3=PARAMS, sp=SP, pointers=(0, 0)):
    """None, or why a call stops: its code starts so far behind a multiple of 8, and `pointers` are off by so much, states' and others'."""
    from reference import routine

    told = routine("".join(line + "\n" for line in lines).encode())
    memory = Bytes()
    memory.store(CODE + off, b"".join(w.to_bytes(4, "little") for w in told.words))
    for i in range(told.head.states + told.head.obs):
        pointer = CELLS + 8 * i - 8 * a2 + pointers[i >= told.head.states]
        memory.store(a1 + 16 * i, (pointer % TOP).to_bytes(8, "little"))
    x = [0] * 32
    x[1], x[2], x[10:14] = RETURN, sp, [a0, a1, a2, a3]
    machine = Machine(memory, CODE + off, x, [ONE] * 32, 0)
    try:
        machine.run(RETURN, 10000)
    except Stopped as why:
        return str(why)
    return None if machine.x[2] == sp and machine.x[10] == 0 else "came back otherwise"


def stopping():
    """Calls that must stop at an access, or else at a fetch: what is off by k makes one that is."""
    for k in range(1, 8):
        yield "an access", call(MEM, a0=BLOCK + k)
        yield "an access", call(PARAM, a3=PARAMS + k)
        for table in (BOTH, LOOPS):
            yield "an access", call(table, a1=TABLE + k)
            yield "an access", call(table, a1=TABLE, pointers=(k, 0))
            yield "an access", call(table, a1=TABLE, pointers=(0, k), a2=5)
        yield "an access", call(FAST, sp=SP + k)
        yield "an access" if k == 4 else "a fetch", call(FAST_LOAD, off=k)


def returning():
    """Calls that come back: the terms hold, or nothing is accessed by what is off."""
    for k in range(8):
        yield call(FAST_LOAD, a0=k, a1=k, a3=k)
        yield call(BOTH, a0=BLOCK + k, a1=TABLE, a3=PARAMS + k)
        yield call(LOOPS, a0=k, a1=TABLE, a2=TOP - 3, a3=k)
        yield call(MEM, a0=BLOCK + 8 * k, a3=k)
        yield call(BOTH, a0=k)
    yield call(FAST, off=4)
    yield call(FAST_LOAD, sp=SP + 8)


def main():
    stop, back = list(stopping()), list(returning())
    wrong = sum(why is None or not why.startswith(want) for want, why in stop) + len(back) - back.count(None)
    print(f"{len(stop)} calls that must stop, {len(back)} that must come back: {wrong} wrong")
    sys.exit(wrong > 0)


if __name__ == "__main__":
    main()
