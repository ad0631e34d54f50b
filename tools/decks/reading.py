"""The plain reading of an accepted file, by document 01's "The machine and the terms of a call", with IEEE floats.

`Reading(accepted, call)` starts behind prologue and saves; `run` goes through the lines; `end` says what a call leaves.
"""
from typing import Callable, NamedTuple

import floats
from reference import CELL, FA0, align_stack, orders


class Call(NamedTuple):
    """What the reading needs of the state at the call."""

    sp: int
    a: list  # a0 to a3
    f: list  # bits of the 32 float registers
    mode: int
    load: Callable  # the eight bytes at an address, as a number


class End(NamedTuple):
    f: list
    cells: dict  # bits by the cell's address: mem, stack and param
    observed: list  # (address, bits), in turn
    lowest: int  # the frame's lowest address


def places(h, call):
    """The addresses of the first cells of mem, stack and param, and the frame's lowest."""
    frame, stack = align_stack(8 * (h.states + h.obs)), align_stack(8 * h.cap)
    if h.frame == "fast":
        mem = (call.sp - 32 - frame) % 2**64
        low = mem
    elif call.a[1]:
        mem = low = (call.sp - 64 - frame) % 2**64
    else:
        mem, low = call.a[0], (call.sp - 64) % 2**64
    low = (low - stack) % 2**64
    return {"mem": mem, "stack": low, "param": call.a[3]}, low


def pointer_cell(h, call, i):
    """The address of the i-th state or observation cell of the table."""
    return (call.load((call.a[1] + 16 * i) % 2**64) + 8 * call.a[2]) % 2**64


class Reading:
    def __init__(self, accepted, call):
        h = accepted.head
        self.h, self.call, self.lines, self.at = h, call, accepted.lines, accepted.labels
        self.constants = [constant(n, v) for n, v in accepted.lines if n in ("float", "bits")]
        self.base, self.lowest = places(h, call)
        self.table = h.frame == "indirect" and call.a[1] != 0
        self.f, self.mode, self.line, self.count = list(call.f), call.mode, 0, 0
        self.cells = {p: [call.load((self.base[p] + 8 * i) % 2**64) for i in range(h.cells(p))] for p in self.base}
        if h.frame == "fast":
            self.cells["mem"][: h.states] = call.f[FA0 : FA0 + h.states]
        elif self.table:
            states = [call.load(pointer_cell(h, call, i)) for i in range(h.states)]
            self.cells["mem"][: h.states] = states
            if states:
                self.f[FA0] = states[-1]
        for r in h.saved():
            self.cells["stack"][CELL[r]] = self.f[r]

    def run(self, limit):
        """True where the reading ends within `limit` lines."""
        while self.line < len(self.lines):
            if self.count >= limit:
                return False
            self.count += 1
            self.step(*self.lines[self.line])
        return True

    def step(self, name, v):
        self.line += 1
        f = self.f
        if name in ("label", "float", "bits"):
            return
        if name == "put":
            self.cells[v[1]][v[2]] = f[v[0]]
        elif name == "branch":
            if (f[v[0]] != 0) == (v[2] == 1):
                # lines are counted from 1, and the body's first is line 2
                self.line = self.at[v[1]] - 2
        elif name == "get":
            f[v[0]] = self.cells[v[1]][v[2]]
        elif name == "load_const":
            f[v[0]] = self.constants[v[1]]
        elif name == "ifelse":
            chosen = self.cells["stack"][v[3]]
            f[v[0]] = f[v[1]] & chosen | f[v[2]] & ~chosen & floats.ONES
        else:
            self.registers(orders.ORDERS[name], v)

    def registers(self, order, v):
        """An order of registers alone: f10 where `recip` works in it, the scratch register, the destination."""
        f = self.f
        if order.name == "recip":
            f[FA0] = floats.ONE
        if order.scratch:
            f[v[2]] = order.scratch(self.mode, f[v[1]])
        f[v[0]] = order.value(self.mode, *(f[r] for r in v[1:]))

    def end(self):
        h, call = self.h, self.call
        if h.frame == "fast":
            self.f[FA0] = self.cells["mem"][h.last]
        observed = []
        if self.table:
            observed = [(pointer_cell(h, call, i), self.cells["mem"][i]) for i in range(h.states, h.states + h.obs)]
        cells = {(self.base[p] + 8 * i) % 2**64: b for p in self.base for i, b in enumerate(self.cells[p])}
        return End(self.f, cells, observed, self.lowest)


def constant(name, v):
    return v[0] if name == "bits" else floats.from_long(v[0], 0)
