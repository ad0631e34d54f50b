"""Inputs that document 01 refuses: the calls (the last one is refused), the number and the place that document 01 gives, and why. The
limits of offsets, sizes and indexes are those of document 02's point 6, and no value of `li` is refused.
The Rust's answer to each is only looked at (record.py --differences): it is what docs/DIFFERENCES.md tells."""
from cases import ALIGN_LIMIT, CELLS, FINISH, LIMIT, PAIR, RUST_LIMIT, SINGLE, SIZES  # puts tools/ on the path
from orders import FIELDS, names

TOP = RUST_LIMIT + 1  # the first that document 01 refused and document 02 takes
BIG = LIMIT + 1
CELL = BIG // 8  # the first cell whose offset is beyond the limit
FULL = ("pad", [16384])


def one(name, *operands):
    return [(name, list(operands))]


def registers():
    """Number 1."""
    yield one("li", 32, 0), 1, "register"
    yield one("li", 32, LIMIT), 1, "register"
    for name in SINGLE:
        yield one(name, 32, 9, 0), 1, "register"
        yield one(name, 0, 32, 0), 1, "base"
        yield one(name, 32, 5, BIG), 1, "register before value and base"
    for name in PAIR:
        yield one(name, 31, 9, 0), 1, "a pair starting at 31"
        yield one(name, 31, 9, LIMIT), 1, "a pair starting at 31"
        yield one(name, 31, 9, BIG), 1, "register before value"
        yield one(name, 0, 32, 0), 1, "base"
        yield one(name, 31, 5, BIG), 1, "register before value and base"
    yield one("load_x_from_label", 32, 0), 1, "register"
    yield one("j", 0, 32), 1, "register"
    yield one("load_const", 32, 0), 1, "register"
    yield one("load_const", 32, 1008), 1, "register before count"
    for name in [*names("unary"), *names("binary"), *names("fused"), *sorted(names("scratched"))]:
        count = len(FIELDS[name])
        yield from ((one(name, *(32 if j == i else 0 for j in range(count))), 1, "register") for i in range(count))
    yield from ((one("ifelse", *row), 1, "register") for row in ([32, 0, 0, 0], [0, 32, 0, 0], [0, 0, 32, 0], [32, 0, 0, CELL]))
    yield from ((one(name, 32, 0), 1, "register") for name in CELLS)
    yield one("branch_if", 32, 0, 0), 1, "register"
    yield one("branch_if", 32, 1024, 0), 1, "register before label"
    yield one("fmov", 32, 32), 1, "register, even where both are one"


def values():
    """Number 2."""
    for name in [*SINGLE, *PAIR]:
        yield one(name, 10, 9, BIG), 2, "offset"
        yield one(name, 10, 9, 2**32 - 1), 2, "offset"
        yield one(name, 10, 5, BIG), 2, "offset before base"
    for name in SIZES:
        yield from ((one(name, n), 2, "size") for n in (BIG, 2**32 - 2048, 2**32 - 1))
    yield from ((one("align_stack", n), 2, "size, with a limit of its own") for n in (ALIGN_LIMIT + 1, LIMIT, BIG, 2**32 - 1))
    for name in CELLS:
        yield from ((one(name, *row), 2, "8 x index") for row in ([0, CELL], [0, CELL + 1], [11, CELL]))
        yield one(name, 0, 2**29), 2, "8 x index beyond 32 bits"
    yield from ((one("ifelse", *row), 2, "8 x index") for row in ([0, 1, 2, CELL], [11, 1, 2, CELL]))
    yield one("set_label", 2039), 2, "no such label"
    yield one("j", 2039, 0), 2, "no such label"
    yield one("beq", 2039), 2, "no such label"


def labels():
    """Numbers 3, 4 and 5."""
    yield one("label", 1024), 3, "user label"
    yield one("branch_if", 10, 1024, 0), 3, "user label"
    yield one("branch_if", 10, 1024, 1), 3, "user label"
    yield [("set_label", [7]), ("set_label", [7])], 4, "label set twice"
    yield [("label", [7]), ("append_word", [1]), ("label", [7])], 4, "label set twice"
    yield [("add_const", [0, 0, 0]), ("add_const", [0, 0, 0])], 4, "constant set twice"
    yield [("prologue_indirect", [0, 0, 0, 0]), ("prologue_indirect", [0, 0, 0, 0])], 4, "a frame's label set twice"
    yield [("epilogue_indirect", [0, 0, 0, 0]), ("epilogue_indirect", [0, 0, 0, 0])], 4, "a frame's label set twice"
    yield [("load_used_registers", [0]), ("load_used_registers", [0])], 4, "a frame's label set twice"
    yield [("j", [7, 0]), FINISH], 5, "label with no place"
    yield [("load_const", [10, 0]), FINISH], 5, "label with no place"


def unset_places():
    """Number 5, placed at the first such jump; 6 likewise. 5 comes first."""
    yield [("pad", [3]), ("load_const", [10, 0]), FINISH], 5, 12, "label with no place"
    yield [("set_label", [1]), ("beq", [1]), ("beq", [2]), FINISH], 5, 4, "label with no place"
    yield [("beq", [1]), ("pad", [1023]), ("set_label", [1]), FINISH], 6, 0, "4,096 ahead"
    yield [("bne", [1]), ("pad", [1023]), ("set_label", [1]), FINISH], 6, 0, "4,096 ahead"
    yield [("set_label", [1]), ("pad", [1025]), ("beq", [1]), FINISH], 6, 4100, "4,100 back"
    yield [("set_label", [1]), ("pad", [1025]), ("bne", [1]), FINISH], 6, 4100, "4,100 back"
    two = [("beq", [1]), ("bne", [1])]
    yield [("beq", [1]), ("pad", [1022]), *two, ("pad", [1022]), ("set_label", [1]), FINISH], 6, 0, "the first that is far"
    yield [("set_label", [1]), ("beq", [1]), ("pad", [1024]), ("bne", [1]), FINISH], 6, 4100, "the first that is far"
    yield [("beq", [1]), ("beq", [2]), ("pad", [1023]), ("set_label", [1]), FINISH], 5, 4, "unset before far"


def full():
    """Number 7."""
    yield [FULL, ("append_word", [1])], 7, "no room"
    yield [("pad", [16383]), ("append_quad", [1, 1])], 7, "room for one word of two"
    yield [("pad", [16383]), ("li", [10, 2048])], 7, "room for one word of two"
    yield [("pad", [16383]), ("li", [10, LIMIT])], 7, "room for one word of two"
    yield [("pad", [16383]), ("add_const", [0, 1, 1])], 7, "room for one word of two"
    yield [("pad", [16383]), ("load_const", [10, 0])], 7, "room for one word of two"
    yield [("pad", [16383]), ("load_complex", [10, 9, 0])], 7, "room for one word of two"
    yield [("pad", [16381]), ("load_float", [10, 9, 2048])], 7, "room for three words of four"
    yield [("pad", [16381]), ("load_float", [10, 9, TOP])], 7, "room for three words of four"
    yield [("pad", [16382]), ("add_stack", [LIMIT])], 7, "room for two words of three"
    yield [("pad", [16374]), ("ifelse", [12, 13, 14, LIMIT // 8])], 7, "room for all words but one"
    yield [("pad", [16381]), ("branch_if", [10, 0, 0])], 7, "room for three words of four"
    yield [FULL, ("beq", [1])], 7, "no room"
    yield [FULL, ("prologue_fast", [0, 1, 0])], 7, "no room"
    yield [("pad", [16376]), ("epilogue_fast", [0, 1, 0, 0])], 7, "room for all words but one"
    yield [FULL, ("load_used_registers", [0])], 7, "no room"
    yield [("pad", [16383]), ("save_used_registers", [0x300])], 7, "room for one word of two"
    yield [("jumps", [4096]), ("beq", [1])], 7, "4,096 jumps"
    yield [("jumps", [4095]), ("load_const", [10, 0])], 7, "two jumps and room for one"
    yield [("jumps", [4096]), ("epilogue_indirect", [0, 0, 0, 0])], 7, "4,096 jumps"


def closed():
    """Number 8, before all others."""
    calls = [("append_word", [1]), ("append_quad", [1, 1]), ("set_label", [2039]), ("beq", [2039]), FINISH, ("add_const", [1008, 0, 0])]
    calls += [("li", [32, 0]), ("li", [10, LIMIT]), ("load_float", [10, 9, 0]), ("load_complex", [31, 5, BIG])]
    calls += [("sub_stack", [BIG]), ("allocate_stack", [0])]
    calls += [("fmov", [32, 0]), ("load_const", [10, 1008]), ("branch_if", [0, 1024, 0]), ("label", [0]), ("load_mem", [0, CELL])]
    calls += [("prologue_fast", [0, 9, 0]), ("epilogue_fast", [0, 1, 0, 256]), ("save_used_registers", [0]), ("load_used_registers", [0])]
    yield from (([FINISH, call], 8, "after an accepted finish") for call in calls)


def counts():
    """Number 9."""
    yield one("load_const", 10, 1008), 9, "constant above 1,007"
    yield one("add_const", 1008, 0, 0), 9, "constant above 1,007"
    yield one("prologue_fast", 0, 9, 0), 9, "fast states"
    yield one("prologue_fast", 0, 23, 0), 9, "fast states"
    yield one("epilogue_fast", 0, 1, 256, 256), 9, "result cell"
    yield one("epilogue_fast", 0, 1, 0, 1), 9, "result cell is none of the cells"
    yield one("epilogue_fast", 0, 0, 0, 0), 9, "no result cell"
    for name in ["prologue_fast", "prologue_indirect"]:
        last = [0] if name == "prologue_indirect" else []
        yield one(name, 4097, 1, 0, *last), 9, "cap"
        yield one(name, 0, 1, 4096, *last), 9, "states + observations"
        yield one(name, 0, 1, 2**32 - 1, *last), 9, "states + observations, whose sum does not wrap"
    yield one("prologue_indirect", 0, 4097, 0, 0), 9, "states"
    yield one("prologue_indirect", 0, 0, 0, 4097), 9, "parameters"
    yield one("epilogue_indirect", 0, 0, 0, 4097), 9, "parameters"
    yield one("epilogue_indirect", 0, 0, 4097, 0), 9, "observations"
    yield one("epilogue_indirect", 4097, 0, 0, 0), 9, "cap"


def bases():
    """Number 10."""
    for name in SINGLE:
        yield from ((one(name, 10, 5, n), 10, "t0 as base") for n in (2048, TOP, LIMIT))
    for name in PAIR:
        yield from ((one(name, 10, 5, n), 10, "t0 as base") for n in (2040, TOP, LIMIT))


def refusals():
    """Calls, number, place and reason."""
    for make in [registers, values, labels, full, closed, counts, bases]:
        for calls, number, why in make():
            place = 0
            yield calls, number, place, why
    yield from unset_places()


# Other steps of the driver whose answers docs/DIFFERENCES.md tells: what document 02's point 6 has other words for, forms of `rvv!` beyond
# their fields, `hi` and `lo`, the Rust's own `sign`, two names of one register, and a constant that is a NaN with a payload.
NOTED = [
    f"li 10 {TOP}",
    f"li 10 {LIMIT}",
    f"load_float 10 9 {TOP}",
    f"load_complex 10 9 {TOP}",
    f"sub_stack {TOP}",
    f"sub_stack {LIMIT}",
    f"add_stack {TOP}",
    f"allocate_stack {TOP}",
    f"load_mem 0 {TOP // 8}",
    "rvv_add 32 0 0",
    "rvv_addi 1 0 2048",
    "rvv_sd 1 0 2048",
    "rvv_slli 1 1 64",
    "rvv_beq 1 2 4096",
    "rvv_beq 1 2 1",
    "rvv_jal 0 1048576",
    "rvv_jal 0 -1048578",
    "rvv_lui 1 1048576",
    "rvv_fcvt_l_d 1 1 5",
    "rvv_fcvt_l_d 1 1 8",
    "hi 4294965248",
    "lo 4095",
    "rust_sign 12 13",
    "xor 12 10 10",
    "xor_two_names",
    "fmov_two_names",
    "add_const 0 1 2146959360",
]
