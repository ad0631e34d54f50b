"""Decks that document 01 accepts, for the recorded list: a fixed part that has every order, place and limit, and decks from a seed.

`accepted()` gives (bytes, size of the buffer). The scratch of `frac` and `sign` is f11, the one that the Rust has."""
import random

from generate import CELL, ends, filled, full, good, jumpy, large, line, long_file, rich, text
from reference import CODE, orders, routine

SEED = 20261115
HEADS = ["fast,300,2,300,1,0\n", "indirect,300,2,300,300,0\n"]


def every_order(head):
    """One deck for each order, its registers distinct and then alike, and one for each place at both sides of an access's limit."""
    all_saved = sum(1 << r for r in CELL)
    for name in orders.names("unary"):
        yield [head, line(name, 1, 2), line(name, 31, 0), line(name, 10, 10), line(name, 11, 10), line(name, 10, 11)]
    for name in orders.names("scratched"):
        yield [head, line(name, 1, 2, 11), line(name, 11, 11, 11), line(name, 1, 1, 11), line(name, 11, 3, 11), line(name, 4, 11, 11)]
    for name in orders.names("binary"):
        yield [head, *(line(name, *row) for row in ((1, 2, 3), (1, 1, 1), (31, 30, 29), (2, 3, 3), (2, 2, 3), (2, 3, 2)))]
    for name in orders.names("fused"):
        yield [head, line(name, 1, 2, 3, 4), line(name, 31, 31, 31, 31), line(name, 0, 10, 17, 28), line(name, 5, 5, 6, 5)]
    yield [head, *(line("ifelse", 1, 2, 3, i) for i in (0, 1, 255, 256, 257, 299)), "ifelse,7,7,7,8\n"]
    for place in ("mem", "stack") if head.startswith("fast") else ("mem", "stack", "param"):
        for name in ("get", "put"):
            yield [head, *(line(name, 1 + i % 7, place, i) for i in (0, 1, 4, 15, 254, 255, 256, 257, 299))]
    frame = head.split(",")[0]
    yield [line(frame, 16, 1, 0, 0, all_saved), *(line("minus", r, r, 1) for r in CELL), *(line("get", r, "stack", CELL[r]) for r in CELL)]
    for r in CELL:
        yield [line(frame, 16 + r, 1, 1, 0, 1 << r | 1), line("times", r, r, r), line("put", r, "stack", 3), line("put", r, "stack", 0)]
    # cells of registers that aren't saved are open; fmov of a register to itself writes nothing
    opened = [line("put", 8, "stack", i) for i in range(16) if i != 4]
    yield [line(frame, 16, 1, 1, 0, 1 << 8), *opened, *(line("fmov", r, r) for r in range(32))]


def flow(head):
    """Labels, branches both ways, constants of both kinds, with their limits."""
    yield [head, "branch,1,0,0\n", "minus,1,2,3\n", "label,0\n"]
    yield [head, "label,1023\n", "minus,1,2,3\n", "branch,1,1023,1\n"]
    yield [head, "branch,5,3,1\n", "branch,6,3,0\n", "label,4\n", "branch,7,4,1\n", "label,3\n", "label,2\n"]
    yield [head, "label,5\n", "branch,1,5,0\n"]
    yield [head, "branch,1,5,0\n", "label,5\n"]
    for n in (0, 1, -1, 255, -4096, 2**31, 2**53, -(2**53), 2**53 - 1, 9007199254740991):
        yield [head, "load_const,1,0\n", line("float", n), "load_const,31,0\n"]
    for n in (0, 1, 2**64 - 1, 2**63, 0x7FF8000000000000, 0x7FF0000000000001, 0xFFF8DEADBEEF0001, 0x3FF0000000000000):
        yield [head, "load_const,1,0\n", line("bits", f"{n:016x}"), "float,1\n", "load_const,2,1\n"]
    loads = [f"load_const,{k % 8},{k}\n" for k in range(0, 1008, 37)]
    yield [head, *loads, "load_const,1,1007\n", *["float,-7\n", "bits,0123456789abcdef\n"] * 504]
    # far apart, so that a pair's low part changes sign
    for n in (300, 509, 510, 511, 512, 513, 514, 515, 700, 1021, 1022, 1023, 1024, 1025):
        yield [head, "load_const,1,0\n", "branch,1,1,0\n", *["minus,1,2,3\n"] * n, "label,1\n", "branch,1,2,1\n", "float,1\n", "label,2\n"]
        yield [head, "label,1\n", *["minus,1,2,3\n"] * n, "branch,1,1,0\n"]


def limits():
    """The good side of each limit of line 1."""
    for cap in (0, 1, 2, 15, 16, 17, 252, 253, 254, 255, 256, 257, 510, 511, 4095, 4096):
        yield [line("fast", cap, 1, 0, 0, 0), "minus,10,10,1\n"]
        yield [line("indirect", cap, 1, 1, 1, 0), "minus,10,10,1\n"]
    for states, obs in ((0, 0), (0, 1), (1, 0), (15, 15), (16, 16), (17, 17), (16, 17), (17, 16), (18, 0), (0, 18), (255, 0), (256, 0),
                        (0, 256), (2047, 2049), (2048, 2048), (4096, 0), (0, 4096), (4095, 1), (1, 4095), (255, 17), (256, 17), (257, 17),
                        (512, 17), (4079, 17)):
        for params in (0, 4096) if states in (0, 17) else (3,):
            yield [line("indirect", 0, states, obs, params, 0)]
    for states in range(9):
        yield [line("fast", 0, states, 1, states, 0)]
    for states, obs, cell in ((8, 0, 7), (8, 248, 255), (8, 4088, 255), (0, 4096, 0), (0, 256, 255), (1, 253, 253), (1, 254, 254),
                              (1, 255, 3)):
        yield [line("fast", 5, states, obs, cell, 0)]
    for mask in (0, 1, 0xF003FCFF, 0xFFFFFFFF, 1 << 8, 1 << 9, 1 << 18, 1 << 27, 0x0FFC0300):
        yield [line("fast", 16, 1, 0, 0, mask), "put,1,stack,0\n"]
        yield [line("indirect", 16, 1, 0, 0, mask), "put,1,stack,3\n"]
    for mask in (0xF003FCFF, 1 << 7, 1 << 10, 1 << 17, 1 << 28):
        yield [line("indirect", 0, 1, 0, 0, mask)]


def buffers(r):
    """Full ones: code, jumps, file; and buffers that hold just the code, and more than counts."""
    for _ in range(6):
        yield full(r, 0), CODE
        yield full(r, 1), CODE
        yield jumpy(r, 0), CODE
    for frame in ("fast", "indirect"):
        yield full(r, 0, (frame, 300, 0, 17, 0, 0)), 70000
        yield jumpy(r, 0, (frame, 20, 8, 17, 0, 0)), CODE
    yield long_file(r, 65536), CODE
    yield long_file(r, 65535), CODE
    for count in (500, 1000, 3500):
        yield large(r, count, scratch=11), CODE
    yield large(r, 1500, scratch=11, backward=True), 65600
    for _ in range(12):
        lines = good(r, scratch=11, without=("sign",), count=10)
        # just room enough
        yield lines, 4 * len(routine(text(lines)).words)


def labels():
    """Labels that nobody jumps to (document 02, point 2): none, one, some, all."""
    fast, table = "fast,0,1,0,0,0\n", "indirect,0,17,17,0,0\n"
    yield from ([head] for head in (fast, table, "indirect,0,0,0,0,0\n"))
    yield [fast, "label,3\n", "branch,0,5,0\n", "label,5\n", "float,1\n"]
    for head, pairs in (fast, 2048), (table, 2046):
        yield [head, *(line("label", n) for n in range(1024))]
        yield [head, *(line("label", n) for n in reversed(range(1024))), "branch,0,0,0\n", "branch,0,1023,1\n"]
        yield [head, *(line("branch", 0, n, n % 2) for n in range(1024) if n != 511), *(line("label", n) for n in range(1024))]
        yield [head, *(line("label", n) + line("branch", 0, n, 1) for n in range(1024)), "float,1\n"]
        yield [head, *["float,1\n"] * 1008]
        yield [head, *(line("load_const", 1, k) for k in range(0, 1008, 2)), *["bits,0000000000000001\n"] * 1008]
        # with the frame's, 4,096 jumps
        yield [head, *["branch,0,9,0\n"] * pairs, "label,9\n", "label,8\n"]
    r = random.Random(f"{SEED} labels")
    yield from (rich(r) for _ in range(20))


FLOAT, BITS = "float,1\n", "bits,3ff0000000000000\n"
ONE, TWO = "fast,0,1,0,0,0\n", "fast,0,2,0,0,0\n"
LOAD, GET = "load_const,0,0\n", "get,0,mem,0\n"
# Document 02, point 7, by hand: a deck, its length, where its constants start (its end, where it has none), and where the `nop` stands.
EIGHTS = [
    ([ONE], 84, 84, None),
    ([ONE, FLOAT], 96, 88, 84),
    ([ONE, BITS], 96, 88, 84),
    ([ONE, FLOAT, BITS], 104, 88, 84),
    ([ONE, FLOAT * 3], 112, 88, 84),
    ([TWO], 88, 88, None),
    ([TWO, FLOAT], 96, 88, None),
    ([TWO, FLOAT, BITS], 104, 88, None),
    ([ONE, GET], 88, 88, None),
    ([ONE, FLOAT, GET], 96, 88, None),
    ([ONE, LOAD, FLOAT], 104, 96, 92),
    ([ONE, FLOAT, LOAD], 104, 96, 92),
    ([ONE, GET, LOAD, FLOAT], 104, 96, None),
    ([ONE, LOAD, "load_const,1,1\n", FLOAT * 2], 120, 104, 100),
    ([ONE, "branch,0,7,1\n", FLOAT, "label,7\n"], 112, 104, 100),
    ([TWO, "branch,0,7,1\n", "label,7\n", FLOAT], 112, 104, None),
    (["fast,16,1,0,0,256\n", FLOAT], 104, 96, 92),
    (["indirect,0,0,0,0,0\n", BITS], 136, 128, None),
    (["indirect,0,1,0,0,0\n"], 156, 156, None),
    (["indirect,0,1,0,0,0\n", "float,-3\n"], 168, 160, 156),
    (["indirect,16,2,1,1,0\n", LOAD, "float,-3\n"], 232, 224, 220),
]
# The same at the end of a whole buffer: bytes of code, constants, length.
BRINKS = [(65536, 0, 65536), (65532, 0, 65532), (65528, 1, 65536), (65524, 0, 65524), (65524, 1, 65536), (65520, 1, 65528),
          (65520, 2, 65536), (65516, 1, 65528), (65516, 2, 65536), (65512, 3, 65536), (65508, 3, 65536), (65508, 2, 65528)]


def filled_to(head, size, constants):
    """A deck of so many bytes of code, and constants."""
    before, behind, _ = ends(head)
    return [*filled(head, size // 4, before + behind), *[FLOAT] * constants]


def worked(lines, size, length, offset, nop):
    """The deck, of which the reference must say what was worked out."""
    told = routine(text(lines), size)
    place = offset - 4 if told.constants and told.words[offset // 4 - 1] == 0x13 else None
    assert (4 * len(told.words), told.offset, place) == (length, offset, nop), lines[:9]
    return lines, size


def eights():
    """Each in the whole buffer, in one just long enough, and in some of up to 8 bytes more."""
    for lines, length, offset, nop in EIGHTS:
        for size in (CODE, length, length + 1, length + 3, length + 7, length + 8 - length % 8):
            yield worked(lines, size, length, offset, nop)
    for size in range(97, 104):
        yield worked([ONE, FLOAT], size, 96, 88, 84)
    for head in (("fast", 300, 1, 0, 0, 0), ("indirect", 300, 2, 1, 1, 0)):
        for code, constants, length in BRINKS:
            offset = length - 8 * constants
            yield worked(filled_to(head, code, constants), CODE, length, offset, code if offset > code else None)


def accepted():
    r, rows = random.Random(SEED), []
    for head in HEADS:
        rows += [(lines, CODE) for part in (every_order, flow) for lines in part(head)]
    rows += [(lines, CODE) for lines in limits()]
    rows += buffers(r)
    for i in range(160):
        rows.append((good(r, scratch=11, without=("sign",) if i % 4 else (), count=r.choice([5, 15, 30]), backward=True), CODE))
    rows += [(lines, CODE) for lines in labels()]
    rows += eights()
    seen, told = set(), []
    for lines, size in rows:
        deck = text(lines)
        if (deck, size) not in seen:
            seen.add((deck, size))
            told.append((deck, size))
    return told
