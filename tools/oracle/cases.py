"""The calls that are recorded: families of cases, each a list of calls (the Rust's function name and operands) on a fresh assembler.
A third entry of a call is the step that the Rust is asked in its place."""
import pathlib
import random
import sys

sys.path.insert(0, str(pathlib.Path(__file__).resolve().parent.parent))
from orders import names  # noqa: E402

SEED = 20261115

REGISTERS = [0, 1, 5, 8, 10, 18, 27, 31]
FLOATS = [0, 7, 8, 9, 10, 11, 17, 18, 27, 28, 31]
BASES = [2, 9, 10, 20, 21, 31]
LIMIT = 0x7FFFFFFF  # the largest offset, stack size and value of li
RUST_LIMIT = 0x7FFFF7FF  # the largest that the Rust is asked; above it the words are GNU as's (top.py)
ALIGN_LIMIT = 0x7FFFF7FF  # the largest size of align_stack

SINGLE = ["load_float", "save_float", "load_int"]
PAIR = ["load_complex", "save_complex"]
SIZES = ["sub_stack", "add_stack", "allocate_stack"]
CELLS = ["load_mem", "save_mem", "load_stack", "save_stack", "load_param", "save_param"]
INDEXES = [0, 1, 15, 16, 254, 255, 256, 257, 511, 512, 4095]
SCRATCH = 11  # what the Rust takes for Reg::Temp
FINISH = ("apply_jumps", [])
PRESERVED = [8, 9, *range(18, 28)]


def unique(items):
    return list({repr(item): item for item in items}.values())


def around_powers(top):
    """0, and each power of two up to 2^top with its neighbours."""
    return sorted({0, *(2**k + d for k in range(top + 1) for d in (-1, 0, 1))})


# ---- accesses


def li(rng):
    edges = [*range(-2050, -2039), -1, 0, 1, *range(2040, 2051), RUST_LIMIT - 1, RUST_LIMIT]
    edges += [-(2**31), -(2**31) + 1, -RUST_LIMIT, -RUST_LIMIT - 1]
    yield from ([("li", [r, v])] for v in edges for r in REGISTERS)
    powers = [s * n for n in around_powers(31) for s in (1, -1) if -(2**31) <= s * n <= RUST_LIMIT]
    others = [rng.randint(-(2**31), RUST_LIMIT) for _ in range(150)] + [rng.randint(-10000, 10000) for _ in range(100)]
    yield from ([("li", [rng.randrange(32), v])] for v in powers + others)


def offsets(rng):
    edges = [8, 16, 2032, 2039, 2040, 2041, 2047, 2048, 2049, 2056, 4088, 4096, 6143, 6144, RUST_LIMIT - 7, RUST_LIMIT]
    return sorted({*edges, *(n for n in around_powers(30))}) + [rng.randint(2048, RUST_LIMIT) for _ in range(12)]


def accesses(rng):
    for name in SINGLE:
        for n in offsets(rng):
            yield from ([(name, [rng.choice(REGISTERS), rng.choice(BASES), n])] for _ in range(2))
            if n < 2048:
                yield [(name, [rng.choice(REGISTERS), 5, n])]
        for n in [0, 2047, 2048, RUST_LIMIT]:
            yield from ([(name, [r, b, n])] for r in REGISTERS for b in BASES)
    yield from ([("load_int", [r, b, n])] for r, b in [(5, 9), (5, 5), (9, 9), (0, 0)] for n in [0, 2047, 2048] if b != 5 or n < 2048)


def pairs(rng):
    firsts = [r for r in FLOATS if r < 31] + [30]
    for name in PAIR:
        for n in offsets(rng):
            yield [(name, [rng.choice(firsts), rng.choice(BASES), n])]
            if n < 2040:
                yield [(name, [rng.choice(firsts), 5, n])]
        for n in [0, 2032, 2039, 2040]:
            yield from ([(name, [r, b, n])] for r in firsts for b in (9, 31))
    for name, located in [("load_complex", "load_c_from_loc"), ("save_complex", "save_c_to_loc")]:
        for place, base in enumerate([9, 21, 20]):
            for i in INDEXES:
                r = rng.choice(firsts)
                yield [(name, [r, base, 8 * i], (located, [r, place, i]))]


def stack(rng):
    sizes = sorted({*range(2040, 2057), *around_powers(30), RUST_LIMIT - 1, RUST_LIMIT})
    sizes += [rng.randint(2048, RUST_LIMIT) for _ in range(20)]
    for name in SIZES:
        yield from ([(name, [n])] for n in sizes)


# ---- labels and jumps

PAIRS = [lambda rng, l: ("load_x_from_label", [rng.choice(REGISTERS), l]), lambda rng, l: ("j", [l, rng.choice([0, 1, 5, 31])])]
REACH = [2036, 2040, 2044, 2048, 2052, 4088, 4092, 4096, 4100, 6136, 6140, 6144, 6148, 8192, 16384, 32764, 32768, 32772, 49152, 65520]


def pad(n):
    """n bytes of zero words."""
    return [("pad", [n // 4])] if n else []


def ahead(jump, words, distance, before, label):
    """A jump of so many words whose label stands `distance` bytes behind its first word."""
    return [*pad(before), jump, *pad(distance - 4 * words), ("set_label", [label]), FINISH]


def back(jump, distance, before, label):
    return [*pad(before), ("set_label", [label]), *pad(distance), jump, FINISH]


def some_label(rng):
    return rng.choice([0, 1, 511, 1023, 2032, 2033, 2035, 2038])


def jumps(rng):
    for make in PAIRS:
        for d in [8, 12, 16, *REACH]:
            for before in [0, 4, 2044] if d < 60000 else [0]:
                label = some_label(rng)
                yield ahead(make(rng, label), 2, d, before, label)
        for d in [0, 4, 8, *REACH]:
            for before in [0, 4, 2044] if d < 60000 else [0]:
                label = some_label(rng)
                yield back(make(rng, label), d, before, label)
    yield from (several(rng) for _ in range(60))


def several(rng):
    """Pairs and branches to four labels, among zero words."""
    labels = rng.sample(range(1024), 4)
    calls = [("set_label", [l]) for l in labels]
    for _ in range(rng.randint(2, 8)):
        l = rng.choice(labels)
        calls.append(rng.choice([make(rng, l) for make in PAIRS] + [("beq", [l]), ("bne", [l])]))
    rng.shuffle(calls)
    return [c for call in calls for c in [*pad(4 * rng.randint(0, 60)), call]] + [FINISH]


def branches(rng):
    near = sorted({4, 8, 12, *(2**k + d for k in range(4, 12) for d in (-4, 0, 4)), 4088, 4092})
    for name in ["beq", "bne"]:
        for d in near:
            label = some_label(rng)
            yield ahead((name, [label]), 1, d, 0, label)
            yield ahead((name, [label]), 1, d, 8, label)
        for d in [0, *near, 4096]:
            label = some_label(rng)
            yield back((name, [label]), d, 0, label)
            yield back((name, [label]), d, 12, label)


def align(rng):
    top = ALIGN_LIMIT
    sizes = sorted({*range(34), *around_powers(30), top - 16, top - 15, top - 1, top}) + [rng.randint(0, top) for _ in range(20)]
    yield from ([("align_stack", [n])] for n in sizes)


def words(rng):
    values = [0, 1, 0x80, 0xFF, 0x100, 0x12345678, 0x80000000, 0xFFFFFFFF]
    yield from ([("append_word", [v])] for v in values)
    yield from ([("append_quad", [a, b])] for a in values for b in values)
    yield from ([("add_const", [k, a, b])] for k in [0, 1, 1007] for a, b in [(0, 0), (0xFFFFFFFF, 0x7FF00000), (1, 0xFFF80000)])
    yield from ([("add_float", [k, n])] for k in [0, 1007] for n in [0, 1, -1, 2, 3, 10, 1000, -(2**31), 2**31 - 1])


# ---- orders


def choices(rng, count):
    """Registers for so many places: all equal, each two equal, and different ones, over the edges."""
    rows = [[r] * count for r in FLOATS]
    rows += [rng.sample(FLOATS, count) for _ in range(10)]
    for i in range(count):
        for j in range(i):
            for _ in range(4):
                row = rng.sample(FLOATS, count)
                row[i] = row[j]
                rows.append(row)
    return rows + [[rng.randrange(32) for _ in range(count)] for _ in range(6)]


def orders(rng):
    for name in names("unary"):
        yield from ([(name, row)] for row in choices(rng, 2))
    yield from ([("recip", [d, s])] for d, s in [(10, 10), (10, 12), (12, 10), (11, 11)])
    yield from ([("frac", [*row, SCRATCH])] for row in choices(rng, 2) + [[11, 12], [12, 11], [11, 11]])
    for name in names("binary"):
        yield from ([(name, row)] for row in choices(rng, 3))
    for name in names("fused"):
        yield from ([(name, row)] for row in choices(rng, 4))


def sign(rng):
    """Document 01's words, by the Rust's instructions (driver.rs): the Rust's own order has others."""
    rows = [[d, s, SCRATCH] for d, s in choices(rng, 2)] + choices(rng, 3)
    yield from ([("sign", row)] for row in rows)


def cells(rng):
    far = RUST_LIMIT // 8
    for name in CELLS:
        yield from ([(name, [r, i])] for r in (0, 10, 11, 31) for i in INDEXES)
        yield from ([(name, [r, far])] for r in (rng.choice(FLOATS), 0))
    for row in choices(rng, 3):
        yield [("ifelse", [*row, rng.choice(INDEXES)])]
    yield from ([("ifelse", [12, 13, 14, i])] for i in [*INDEXES, far])


def constants(rng):
    """Constants behind and before the orders that load them."""
    for d in [8, 12, 2044, 2048, 2052, 4096, 32768]:
        k = rng.choice([0, 1, 255, 1007])
        load = ("load_const", [rng.choice(FLOATS), k])
        constant = ("add_const", [k, rng.getrandbits(32), rng.getrandbits(32)])
        for before in (0, 4, 2040):
            yield [*pad(before), load, *pad(d - 8), constant, FINISH]
            yield [*pad(before), constant, *pad(d - 8), load, FINISH]
    for n in (1, 2, 5, 20):
        loads = [("load_const", [rng.choice(FLOATS), rng.randrange(n)]) for _ in range(n + 2)]
        yield [*loads, *(("add_const", [k, rng.getrandbits(32), rng.getrandbits(32)]) for k in range(n)), FINISH]
        yield [*loads, *(("add_float", [k, rng.randint(-9999, 9999)]) for k in range(n)), FINISH]


def conditions(rng):
    for is_else in (0, 1):
        for c in FLOATS:
            label = rng.randrange(1024)
            yield [("branch_if", [c, label, is_else]), *pad(4 * rng.randrange(4)), ("label", [label]), FINISH]
        for d in [16, 20, 2044, 2048, 2052, 2056, 4096, 4104, 32768, 60000]:
            c, label = rng.choice(FLOATS), rng.choice([0, 1023])
            yield [("branch_if", [c, label, is_else]), *pad(d - 16), ("label", [label]), FINISH]
            yield [("label", [label]), *pad(d - 16), ("branch_if", [c, label, is_else]), FINISH]


# ---- frames

COUNTS = [0, 1, 8, 15, 16, 17, 18, 255, 256, 4096]
CAPS = [0, 15, 16, 255, 256, 4096]
SUMS = [(4095, 1), (1, 4095), (4096, 0), (0, 4096), (2048, 2048), (16, 4080), (17, 4079), (4080, 16), (4079, 17)]


def counts():
    return unique([(s, o) for s in COUNTS for o in COUNTS if s + o <= 4096] + SUMS)


def frames(rng):
    for i, (s, o) in enumerate(counts()):
        yield [("prologue_indirect", [CAPS[i % 6], s, o, rng.choice([0, 1, 4096])]), FINISH]
        yield [("epilogue_indirect", [CAPS[i % 6], s, o, rng.choice([0, 1, 4096])]), FINISH]
    for cap in CAPS:
        yield from ([("prologue_indirect", [cap, s, 1, 0]), FINISH] for s in (0, 1, 16, 17))
        yield from ([("prologue_fast", [cap, s, o])] for s in (0, 1, 7, 8) for o in (1, 8))
    for s in range(9):
        yield from ([("prologue_fast", [rng.choice(CAPS), s, o])] for o in [0, 1, 15, 16, 17, 255, 256, 4096 - s])
        yield from ([("epilogue_fast", [rng.choice(CAPS), s, 4000, r])] for r in (0, s, 254, 255))
    yield from ([("epilogue_fast", [0, s, o, s + o - 1])] for s in (0, 1, 8) for o in (0, 1, 247) if s + o)


def masks(rng):
    return (
        [0, 0xFFFFFFFF, sum(1 << r for r in PRESERVED), 0xFFFFFFFF - sum(1 << r for r in PRESERVED)]
        + [1 << r for r in range(32)]
        + [1 << q | 1 << r for q in PRESERVED for r in PRESERVED if q < r]
        + [rng.getrandbits(32) for _ in range(120)]
        + [sum(1 << r for r in PRESERVED if rng.random() < 0.5) for _ in range(40)]
    )


def saves(rng):
    yield from ([("save_used_registers", [mask])] for mask in unique(masks(rng)))


def reloads(rng):
    yield from ([("load_used_registers", [mask])] for mask in unique(masks(rng)))


# ---- everything called in turn, as a routine does


def body(rng, mem, stack, params, constants, label):
    """Some orders of every kind, and one branch ahead."""
    places = [p for p, n in (("mem", mem), ("stack", stack), ("param", params)) if n]
    sizes = {"mem": mem, "stack": stack, "param": params}

    def one():
        regs = [rng.choice([0, 7, 10, 11, 12, 17, 28, 31]) for _ in range(4)]
        kind = rng.randrange(8)
        if kind < 2 and places:
            place = rng.choice(places)
            return (rng.choice(["load_", "save_"]) + place, [regs[0], rng.randrange(sizes[place])])
        if kind == 2 and stack:
            return ("ifelse", [*regs[:3], rng.randrange(stack)])
        if kind == 3 and constants:
            return ("load_const", [regs[0], rng.randrange(constants)])
        if kind == 4:
            return ("frac", [regs[0], regs[1], SCRATCH])
        if kind == 5:
            return (rng.choice(names("fused")), regs)
        return (rng.choice(names("unary")), regs[:2]) if kind == 6 else (rng.choice(names("binary")), regs[:3])

    calls = [one() for _ in range(rng.randint(3, 20))]
    at, to = sorted(rng.randrange(len(calls) + 1) for _ in range(2))
    branch = ("branch_if", [rng.choice(FLOATS), label, rng.randrange(2)])
    return [*calls[:at], branch, *calls[at:to], ("label", [label]), *calls[to:]]


def routine(rng):
    fast = rng.random() < 0.4
    cap = rng.choice([16, 17, 40, 256, 300])
    states, obs = (rng.randint(0, 8), rng.randint(1, 20)) if fast else (rng.choice([0, 1, 3, 16, 17, 300]), rng.choice([0, 1, 16, 17, 300]))
    params, mask, constants = 0 if fast else rng.choice([0, 1, 300]), rng.getrandbits(32), rng.randrange(4)
    heads = [cap, states, obs]
    ends = [cap, states, obs, rng.randrange(states + obs)] if fast else [cap, states, obs, params]
    return [
        ("prologue_fast", heads) if fast else ("prologue_indirect", [*heads, params]),
        ("save_used_registers", [mask]),
        *body(rng, states + obs, cap, params, constants, rng.randrange(1024)),
        ("load_used_registers", [mask]),
        ("epilogue_fast" if fast else "epilogue_indirect", ends),
        *(("add_const", [k, rng.getrandbits(32), rng.getrandbits(32)]) for k in range(constants)),
        FINISH,
    ]


def routines(rng):
    yield from (routine(rng) for _ in range(60))


# ---- above RUST_LIMIT: the words are GNU as's (top.py)

# Worked examples of document 02's point 6, by their numbers in its plan. Up to RUST_LIMIT the Rust has them: 1, 6 and 7 in `li`, the last
# of 22 in `cells`. 9, 13, 14, 16, 20, 21 and 23 are refused (refusals.py), and 24 is a step of the machine (tools/machine_table).
EXAMPLES = [
    ("li", [10, 0x7FFFF800]),  # 2
    ("li", [10, 0x7FFFFC00]),  # 3
    ("li", [10, 0x7FFFFFFE]),  # 4
    ("li", [10, 0x7FFFFFFF]),  # 5
    ("li", [0, 0x7FFFFFFF]),  # 8
    ("load_float", [10, 9, 0x7FFFF800]),  # 10
    ("load_float", [10, 9, 0x7FFFFFFF]),  # 11
    ("save_float", [10, 9, 0x7FFFFFF8]),  # 12
    ("load_complex", [30, 9, 0x7FFFFFFF]),  # 15
    ("sub_stack", [0x7FFFF800]),  # 17
    ("sub_stack", [0x7FFFFFFF]),  # 17
    ("add_stack", [0x7FFFF800]),  # 18
    ("add_stack", [0x7FFFFFFF]),  # 18
    ("allocate_stack", [0x7FFFF800]),  # 19
    ("load_mem", [0, 0xFFFFFFF]),  # 22
    ("load_mem", [0, 0xFFFFF00]),  # 22
]
TOP = [0x7FFFF800, 0x7FFFF801, 0x7FFFF808, 0x7FFFFBFF, 0x7FFFFC00, 0x7FFFFFF7, 0x7FFFFFF8, 0x7FFFFFFE, 0x7FFFFFFF]
TOP_INDEXES = [0xFFFFF00, 0xFFFFF01, 0xFFFFF7F, 0xFFFFF80, 0xFFFFFFE, 0xFFFFFFF]
ROOMS = {"li": 2, "load_float": 4, "save_float": 4, "load_int": 4, "load_complex": 5, "save_complex": 5}
ROOMS |= {"sub_stack": 3, "add_stack": 3, "allocate_stack": 4, "ifelse": 11, "load_mem": 4, "save_param": 4}  # words of a call up there


def top_call(rng, name):
    """A call of this name with any registers, and a value, offset, size or index above RUST_LIMIT."""
    n, i = rng.randint(RUST_LIMIT + 1, LIMIT), rng.randint(RUST_LIMIT // 8 + 1, LIMIT // 8)
    base = rng.choice([b for b in range(32) if b != 5])
    if name in SIZES:
        return (name, [n])
    if name in CELLS:
        return (name, [rng.randrange(32), i])
    if name == "ifelse":
        return (name, [*(rng.randrange(32) for _ in range(3)), i])
    return (name, [rng.randrange(32), n]) if name == "li" else (name, [rng.randrange(31 if name in PAIR else 32), base, n])


def top(rng):
    yield from ([call] for call in EXAMPLES)
    yield from ([("li", [r, n])] for n in TOP for r in REGISTERS)
    for name in SINGLE:
        yield from ([(name, [rng.choice(REGISTERS), b, n])] for n in TOP for b in BASES)
        yield from ([(name, [r, 9, LIMIT])] for r in REGISTERS)
    yield from ([("load_int", [r, b, n])] for r, b in [(5, 9), (9, 9), (0, 0)] for n in (RUST_LIMIT + 1, LIMIT))
    for name in PAIR:
        yield from ([(name, [r, b, n])] for n in TOP for r, b in [(0, 9), (10, 21), (rng.randrange(31), rng.choice(BASES)), (30, 31)])
    yield from ([(name, [n])] for name in SIZES for n in TOP)
    yield from ([(name, [r, i])] for name in CELLS for i in TOP_INDEXES for r in (0, 11, rng.choice(FLOATS)))
    yield from ([("ifelse", [*row, i])] for i in TOP_INDEXES for row in ([12, 13, 14], rng.sample(FLOATS, 3), [31, 31, 31]))
    names = ["li", *SINGLE, *PAIR, *SIZES, *CELLS, "ifelse"]
    yield from ([top_call(rng, name)] for name in names for _ in range(24 if name == "li" else 8))
    yield from ([top_call(rng, name) for name in rng.choices(names, k=rng.randint(2, 6))] for _ in range(20))
    yield from ([*pad(65536 - 4 * n), top_call(rng, name)] for name, n in ROOMS.items())


# In the order of the list.
FAMILIES = [words, align, jumps, branches, li, accesses, pairs, stack]
FAMILIES += [orders, sign, cells, constants, conditions, saves, reloads, frames, routines, top]


def families():
    """The name of each family, and its cases."""
    for make in FAMILIES:
        rng = random.Random(f"{SEED} {make.__name__}")
        yield make.__name__, unique(make(rng))
