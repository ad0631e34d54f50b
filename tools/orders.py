"""The orders, one row each: the list that all Python tools share.

A row has an order's name in a deck, its shape, its words and, where it works on float registers alone, what it gives. Names, fields and
values are document 01's; which instructions an order has is the Rust's, since the bytes of accepted inputs are those of the
Rust, but for `sign`, which is document 01's. Nothing is taken from crates/. A new order is one row, the last of its shape, and the float
instruction it needs.
"""
import pathlib
import sys
from typing import Callable, NamedTuple

sys.path.insert(0, str(pathlib.Path(__file__).resolve().parent / "decks"))
import floats  # noqa: E402
from floats import MINUS, ONE, ONES  # noqa: E402
from instructions import FA0, S1, S4, S5, T0, T1, T2, ZERO  # noqa: E402
from instructions import access, addi, and_, beq, bne, fld, fsd, inv, ld, neg, or_, r_type, sub, xor  # noqa: E402

BASE = {"mem": S1, "stack": S5, "param": S4}
CONST = 1024  # the label of constant 0


# ---- float instructions: fmt is 01 for double precision; rounding 7 is the current mode

OP_FP = 0b1010011


def fsub(d, a, b): return r_type(0b0000101, b, a, 7, d, OP_FP)
def fmul(d, a, b): return r_type(0b0001001, b, a, 7, d, OP_FP)
def fdiv(d, a, b): return r_type(0b0001101, b, a, 7, d, OP_FP)
def fsgnj(d, a, b): return r_type(0b0010001, b, a, 0, d, OP_FP)
def feq(d, a, b): return r_type(0b1010001, b, a, 0b010, d, OP_FP)
def flt(d, a, b): return r_type(0b1010001, b, a, 0b001, d, OP_FP)
def fcvt_l_d(d, a, mode): return r_type(0b1100001, 2, a, mode, d, OP_FP)
def fcvt_d_l(d, a): return r_type(0b1101001, 2, a, 7, d, OP_FP)
def fcvt_d_w(d, a): return r_type(0b1101001, 0, a, 0, d, OP_FP)
def fmv_x_d(d, a): return r_type(0b1110001, 0, a, 0, d, OP_FP)
def fmv_d_x(d, a): return r_type(0b1111001, 0, a, 0, d, OP_FP)
def fused(op, d, a, b, c): return r_type(c << 2 | 1, b, a, 7, d, op)


# ---- words of more than one line: an item is a word, ("jump", kind, register, label) or ("label", n)


def pair(kind, r, label):
    return [("jump", "auipc", 0, label), ("jump", kind, r, label)]


def bitwise(operation):
    return lambda d, a, b: [fmv_x_d(T0, a), fmv_x_d(T1, b), operation(T0, T0, T1), fmv_d_x(d, T0)]


def xor_words(d, a, b):
    return [fmv_d_x(d, ZERO)] if a == b else bitwise(xor)(d, a, b)


def ifelse(d, yes, no, i):
    choose = [and_(T1, T1, T0), inv(T0, T0), and_(T2, T2, T0), or_(T0, T1, T2), fmv_d_x(d, T0)]
    return [*access(ld, T0, S5, 8 * i), fmv_x_d(T1, yes), fmv_x_d(T2, no), *choose]


def branch(c, label, otherwise):
    skip = beq if otherwise else bne
    return [fmv_x_d(T0, c), skip(T0, ZERO, 12), *pair("jalr", ZERO, label)]


# ---- values of more than one line: of the rounding mode and the operands' bits


def whole(to):
    """The whole number that rounding by mode `to` gives."""
    return lambda mode, a: floats.from_long(floats.to_long(a, to), mode)


def sign_of(mode, a, zero):
    return {-1: ONE | MINUS, 0: 0, 1: ONE}[floats.less(zero, a) - floats.less(a, zero)]


# ---- the list


class Order(NamedTuple):
    name: str
    shape: str
    words: Callable  # of the line's fields: the order's items
    value: Callable = None  # what it gives, of the rounding mode and its operands' bits
    scratch: Callable = None  # what the scratch register, the last operand, gets before that, of the mode and the first operand's bits


# The fields of a line of each shape. Orders of registers alone share the first four; each other order has a shape of its own.
# r register, l label, i cell index, k constant, c count, m mask, p place, e else, z whole number, x 16 hexadecimal digits.
SHAPES = {"unary": "rr", "scratched": "rrr", "binary": "rrr", "fused": "rrrr"}
SHAPES |= {"ifelse": "rrri", "load_const": "rk", "get": "rpi", "put": "rpi", "branch": "rle", "label": "l"}

ROWS = [
    Order("fmov", "unary", lambda d, a: [] if d == a else [fsgnj(d, a, a)], lambda mode, a: a),
    Order("recip", "unary", lambda d, a: [addi(T0, ZERO, 1), fcvt_d_w(FA0, T0), fdiv(d, FA0, a)],
          lambda mode, a: floats.divide(ONE, a, mode)),
    Order("round", "unary", lambda d, a: [fcvt_l_d(T0, a, 0), fcvt_d_l(d, T0)], whole(0)),
    Order("floor", "unary", lambda d, a: [fcvt_l_d(T0, a, 2), fcvt_d_l(d, T0)], whole(2)),
    Order("not", "unary", lambda d, a: [fmv_x_d(T0, a), inv(T0, T0), fmv_d_x(d, T0)], lambda mode, a: a ^ ONES),
    Order("sign", "scratched", lambda d, a, t: [fmv_d_x(t, ZERO), flt(T0, t, a), flt(T1, a, t), sub(T0, T0, T1), fcvt_d_w(d, T0)],
          sign_of, lambda mode, a: 0),
    Order("frac", "scratched", lambda d, a, t: [fcvt_l_d(T0, a, 2), fcvt_d_l(t, T0), fsub(d, a, t)],
          lambda mode, a, t: floats.minus(a, t, mode), whole(2)),
    Order("minus", "binary", lambda d, a, b: [fsub(d, a, b)], lambda mode, a, b: floats.minus(a, b, mode)),
    Order("times", "binary", lambda d, a, b: [fmul(d, a, b)], lambda mode, a, b: floats.times(a, b, mode)),
    Order("divide", "binary", lambda d, a, b: [fdiv(d, a, b)], lambda mode, a, b: floats.divide(a, b, mode)),
    Order("gt", "binary", lambda d, a, b: [flt(T0, b, a), neg(T0, T0), fmv_d_x(d, T0)],
          lambda mode, a, b: ONES if floats.less(b, a) else 0),
    Order("neq", "binary", lambda d, a, b: [feq(T0, a, b), neg(T0, T0), inv(T0, T0), fmv_d_x(d, T0)],
          lambda mode, a, b: 0 if floats.equal(a, b) else ONES),
    Order("and", "binary", bitwise(and_), lambda mode, a, b: a & b),
    Order("andnot", "binary", lambda d, a, b: [fmv_x_d(T0, a), inv(T0, T0), fmv_x_d(T1, b), and_(T0, T0, T1), fmv_d_x(d, T0)],
          lambda mode, a, b: (a ^ ONES) & b),
    Order("or", "binary", bitwise(or_), lambda mode, a, b: a | b),
    Order("xor", "binary", xor_words, lambda mode, a, b: a ^ b),
    Order("fused_mul_add", "fused", lambda d, a, b, c: [fused(0b1000011, d, a, b, c)],
          lambda mode, a, b, c: floats.fma(a, b, c, mode)),
    Order("fused_mul_sub", "fused", lambda d, a, b, c: [fused(0b1000111, d, a, b, c)],
          lambda mode, a, b, c: floats.fma(a, b, c ^ MINUS, mode)),
    Order("fused_neg_mul_add", "fused", lambda d, a, b, c: [fused(0b1001011, d, a, b, c)],
          lambda mode, a, b, c: floats.fma(a ^ MINUS, b, c, mode)),
    Order("fused_neg_mul_sub", "fused", lambda d, a, b, c: [fused(0b1001111, d, a, b, c)],
          lambda mode, a, b, c: floats.fma(a ^ MINUS, b, c ^ MINUS, mode)),
    Order("ifelse", "ifelse", ifelse),
    Order("load_const", "load_const", lambda d, k: pair("fld", d, CONST + k)),
    Order("get", "get", lambda d, place, i: access(fld, d, BASE[place], 8 * i)),
    Order("put", "put", lambda s, place, i: access(fsd, s, BASE[place], 8 * i)),
    Order("branch", "branch", branch),
    Order("label", "label", lambda n: [("label", n)]),
]
ORDERS = {o.name: o for o in ROWS}
# The fields of every line's name: line 1's, the orders', the constants'.
FIELDS = {"fast": "ccccm", "indirect": "ccccm"} | {o.name: SHAPES[o.shape] for o in ROWS} | {"float": "z", "bits": "x"}


def names(*shapes):
    """The names of orders of these shapes, in the list's order."""
    return [o.name for o in ROWS if o.shape in shapes]


def shape(name):
    """The shape of an order; of another line its name."""
    return ORDERS[name].shape if name in ORDERS else name
