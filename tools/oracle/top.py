"""The words of calls whose value, offset or size is above RUST_LIMIT, by GNU as. The Rust's `li` loads a negative number there, and isn't
asked: document 02's point 6 has `addiw` for its second word. The instructions are written out from that point and the ISA Manual."""
from cases import CELLS, LIMIT, PAIR, RUST_LIMIT, SINGLE, SIZES  # puts tools/ on the path
from assemble import assemble

BASES = {"mem": 9, "stack": 21, "param": 20}


def li(d, n):
    return [f"lui x{d}, 0x80000", f"addiw x{d}, x{d}, {n - 2**31}"]


def access(base, n, *instructions):
    """t0 is base + n, and the instructions go through it."""
    return [*li(5, n), f"add x5, x5, x{base}", *instructions]


def sub_stack(n):
    """t0 is -n, which is -2^31 and 1 to 2048 more: `lui` and `addi` load it."""
    upper, lower = (0x80001, -2048) if n == 0x7FFFF800 else (0x80000, 2**31 - n)
    return [f"lui x5, {upper:#x}", f"addi x5, x5, {lower}", "add x2, x2, x5"]


def ifelse(d, yes, no, i):
    choose = ["and x6, x6, x5", "xori x5, x5, -1", "and x7, x7, x5", "or x5, x6, x7", f"fmv.d.x f{d}, x5"]
    return access(21, 8 * i, "ld x5, 0(x5)", f"fmv.x.d x6, f{yes}", f"fmv.x.d x7, f{no}", *choose)


TEXTS = {
    "li": li,
    "load_float": lambda d, base, n: access(base, n, f"fld f{d}, 0(x5)"),
    "save_float": lambda s, base, n: access(base, n, f"fsd f{s}, 0(x5)"),
    "load_int": lambda d, base, n: access(base, n, f"ld x{d}, 0(x5)"),
    "load_complex": lambda d, base, n: access(base, n, f"fld f{d}, 0(x5)", f"fld f{d + 1}, 8(x5)"),
    "save_complex": lambda s, base, n: access(base, n, f"fsd f{s}, 0(x5)", f"fsd f{s + 1}, 8(x5)"),
    "sub_stack": sub_stack,
    "add_stack": lambda n: [*li(5, n), "add x2, x2, x5"],
    "allocate_stack": lambda n: [*li(5, n), "sub x2, x2, x5", "add x21, x2, x0"],
    "ifelse": ifelse,
    "pad": lambda n: [".word 0"] * n,
}


def text(call):
    """A call's instructions."""
    name, operands, *_ = call
    if name in CELLS:
        way, place = name.split("_")
        r, i = operands
        return TEXTS[f"{way}_float"](r, BASES[place], 8 * i)
    return TEXTS[name](*operands)


def above(call):
    """Whether the call is one of these."""
    name, operands, *_ = call
    if name in CELLS or name == "ifelse":
        n = 8 * operands[-1]
    else:
        n = operands[-1] if name in ["li", *SINGLE, *PAIR, *SIZES] else 0
    return RUST_LIMIT < n <= LIMIT


def answers(family):
    """The code of each case, in which all calls but pads are of these."""
    texts = [[line for call in calls for line in text(call)] for calls in family]
    words = iter(assemble([line for lines in texts for line in lines]))
    return [b"".join(next(words).to_bytes(4, "little") for _ in lines) for lines in texts]
