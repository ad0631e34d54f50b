"""Decks that document 01 refuses. Number and line of each are written here by hand or by how the deck is made, from the sentence named
beside it (of document 01, or a point of docs/DECISIONS.md), and never computed by a reader of decks.

`refused()` gives (bytes, number, line, size of the buffer, sentence)."""
from accepted import FLOAT, GET, LOAD, ONE, TWO, filled_to
from generate import CELL, PLACES, ends, filled, line, text
from reference import CODE, FIELDS, orders

FAST, INDIRECT = "fast,16,2,3,1,0\n", "indirect,16,2,3,4,0\n"
# Functions of the Rust and other words that are no orders.
OTHERS = ["plus", "branch_if", "set_label", "neg", "abs", "abs2", "root", "half", "trunc", "ceiling", "geq", "lt", "leq", "eq",
          "load_mem", "save_mem", "load_stack", "save_stack", "load_param", "call", "fxchg", "ret", "li", "real", "", "#", "//",
          "fusedmuladd"]
GOOD = ["get,1,mem,0\n", "minus,2,1,1\n", "label,9\n", "put,2,mem,4\n", "float,3\n", "fmov,8,8\n", "branch,2,9,1\n"]
HUGE = ["32", "256", "4294967295", "4294967296", "4294967306", "18446744073709551616", "18446744073709551626", "9" * 40]
# One good line of each name under either head above.
REGISTERS = orders.names("unary", "scratched", "binary", "fused")
LINES = {n: line(n, *range(1, len(FIELDS[n]) + 1)) for n in REGISTERS}
LINES |= {"ifelse": "ifelse,1,2,3,5\n", "load_const": "load_const,1,0\n", "get": "get,1,stack,3\n", "put": "put,1,stack,3\n"}
LINES |= {"branch": "branch,1,9,0\n", "label": "label,8\n", "float": "float,-12\n", "bits": "bits,00ff00ff00ff00ff\n"}
WRITERS = [*REGISTERS, "ifelse", "load_const", "get"]
PARTS = ["", "00", "01", "-0", "-1", "+1", " 1", "1 ", "0x1", "a", "1\r", "\0", "\xb2", "007", "1.0"]

FIRST = "the first refused one decides"
FORM = "number 12: not of the form below"
FIELD = "a well-formed number too big for its field has that field's refusal"
DECIMAL = "numbers are decimal, no leading zero and no minus zero; only float takes a minus"
BEHIND = "code after the body that doesn't fit is placed at the last line"
ORDER = "order: 12, 8, 1, 3, 2, 9, 10, 11, 4, 7"
UNSET = "number 5: a jump's label has no place at finishing"
NO_CONSTANT = "decision 10: no such constant is 5 at its line"
SAVED = "count: cap at least 16 if the mask has a preserved register"
MALFORMED = "decision 7: a malformed field gives 12 before any other field's size"
EIGHTS = "02, point 7: one nop before the constants; code after the body that doesn't fit is placed at the last line"


def swapped(told, at, word):
    """A line with one field put in another's place."""
    fields = told.rstrip("\n").split(",")
    fields[at] = str(word)
    return ",".join(fields) + "\n"


class List:
    def __init__(self):
        self.rows, self.turn = [], 0

    def whole(self, lines, number, at, sentence, size=CODE):
        deck = lines if isinstance(lines, bytes) else text(lines)
        self.rows.append((deck, number, at, size, sentence))

    def put(self, told, number, sentence, head=None):
        """A deck with that line among good ones; frame and place go round."""
        self.turn += 1
        before = GOOD[: self.turn % 5]
        behind = [g for g in GOOD[5 : 5 + self.turn % 3] if "label" not in g]
        self.whole([head or (FAST, INDIRECT)[self.turn % 2], *before, told, *behind], number, len(before) + 2, sentence)


def registers(out):
    for name, told in LINES.items():
        for at, kind in enumerate(FIELDS[name], 1):
            if kind == "r":
                out.put(swapped(told, at, 32), 1, "number 1: above 31")
                out.put(swapped(told, at, HUGE[(out.turn + at) % len(HUGE)]), 1, FIELD + ": 1 register")


def values(out):
    for z in (2**53 + 1, -(2**53) - 1, 10**16, 2**63, -(2**63), 2**64, 2**64 + 1, -(2**64) - 1, 10**40):
        out.put(line("float", z), 2, "float,n (whole, magnitude at most 2^53)")
    for m in (2**32, 2**32 + 1, 2**33, 2**64 - 1, 2**64, 2**64 + 5, 10**40):
        out.whole([line("fast", 16, 1, 0, 0, m)], 2, 1, FIELD + ": 2 mask or float")
        out.whole([line("indirect", 16, 1, 0, 0, m), "minus,1,2,3\n"], 2, 1, FIELD + ": 2 mask or float")
    out.whole(["fast,9999,1,0,0,4294967296\n"], 2, 1, ORDER)
    out.whole(["indirect,9999,9999,0,9999,4294967296\n"], 2, 1, ORDER)


def labels(out):
    for n in (1024, 1031, 2032, 2038, 2039, 65536, 2**32, 2**32 + 3, 2**64, 2**64 + 3, 10**40):
        out.put(line("label", n), 3, "number 3: user label above 1,023")
        out.put(line("branch", 1, n, n % 2), 3, "number 3: user label above 1,023")
    for n in (0, 1, 9, 512, 1023):
        two = ["minus,1,2,3\n", line("label", n)]
        out.whole([FAST, *two, *two], 4, 5, "number 4: label already set")
        out.whole([INDIRECT, *two, "branch,1,5,0\n", line("label", n), "label,5\n"], 4, 5, "number 4: label already set")
    out.whole([FAST, "label,3\n", "label,4\n", "label,3\n", "label,4\n"], 4, 4, FIRST)


def unset(out):
    for head in (FAST, INDIRECT):
        for n in (0, 7, 1023):
            placed = "finishing comes after them, placed at the jump's line"
            out.whole([head, "minus,1,2,3\n", line("branch", 1, n, 0), "label,8\n"], 5, 3, placed)
            out.whole([head, line("branch", 1, 8, 1), line("branch", 1, n, 1), "label,8\n"], 5, 3, UNSET)
        for k in (0, 1, 1007):
            out.whole([head, line("load_const", 1, k)], 5, 2, NO_CONSTANT)
            out.whole([head, "float,1\n", "minus,1,1,1\n", line("load_const", 1, k + (k == 0))], 5, 4, NO_CONSTANT)
        out.whole([head, "branch,1,2,0\n", "branch,1,1,0\n", "load_const,1,3\n", "label,1\n"], 5, 2, "finishing: the first jump with 5")
        out.whole([head, "load_const,1,3\n", "branch,1,2,0\n", "bits,0000000000000000\n"], 5, 2, "finishing: the first jump with 5")
        out.whole([head, "branch,1,2,0\n", "minus,1,2,32\n"], 1, 3, "finishing comes after them")
        out.whole([head, "load_const,1,1\n", "float,1\n", "float,9007199254740993\n"], 2, 4, "finishing comes after them")


def unsaved(out):
    outside = "number 11: writes f8, f9 or f18..f27 outside the mask"
    for i, name in enumerate(WRITERS):
        for r in (list(CELL)[i % 12], list(CELL)[(i + 5) % 12]):
            out.put(swapped(LINES[name], 1, r), 11, outside)
            others = sum(1 << p for p in range(32) if p != r)
            out.put(swapped(LINES[name], 1, r), 11, outside, line("fast", 16, 2, 3, 1, others))
    for r in CELL:
        out.put(line("fmov", r, (r + 1) % 32), 11, outside)
        for name in orders.names("scratched"):
            out.put(line(name, 1, 2, r), 11, "decision 12: the scratch of sign and frac")
        held = "number 11: stores to a stack cell holding a saved one"
        out.put(line("put", 1, "stack", CELL[r]), 11, held, line("indirect", 16, 2, 3, 4, 1 << r))
        out.put(line("put", r, "stack", CELL[r]), 11, held, line("fast", 17, 2, 3, 1, 1 << r | 1))
    out.put("get,8,stack,99\n", 9, ORDER)
    out.put("get,32,stack,99\n", 1, ORDER)
    out.put("load_const,27,1008\n", 9, ORDER)
    out.put("ifelse,9,1,1,16\n", 9, ORDER)
    out.put("put,32,stack,4\n", 1, ORDER, "fast,16,2,3,1,256\n")
    out.put("branch,32,1024,0\n", 1, ORDER)
    out.put("fmov,8,32\n", 1, ORDER)
    out.put("sign,8,2,32\n", 1, ORDER)


def cells(out):
    index = "count: a cell index below its count"
    heads = ((FAST, (5, 16, 0)), (INDIRECT, (5, 16, 4)), ("fast,0,0,1,0,0\n", (1, 0, 0)), ("indirect,0,0,0,0,0\n", (0, 0, 0)))
    for name in ("get", "put"):
        for head, counts in heads:
            for place, n in zip(PLACES, counts):
                out.whole([head, line(name, 1, place, n)], 9, 2, index)
                far = n + (2**32, 2**29, 2**64)[n % 3]
                out.whole([head, "minus,1,2,3\n", line(name, 1, place, far)], 9, 3, FIELD + ": 9 count or index")
    for head, n in ((FAST, 16), (INDIRECT, 16), ("fast,0,1,0,0,0\n", 0), ("indirect,4096,0,0,0,0\n", 4096)):
        for i in (n, n + 1, 2**29, 2**32 + 3, 2**61, 10**30):
            out.whole([head, line("ifelse", 1, 2, 3, i)], 9, 2, index)
    for k in (1008, 1009, 1024, 4096, 2**32, 2**32 + 1, 2**64, 10**30):
        out.put(line("load_const", 1, k), 9, "count: k at most 1,007")


def counts(out):
    most = "count: cap, states + observations and parameters at most 4,096 each"
    for big in (4097, 4098, 65536, 2**29, 2**32, 2**32 + 16, 2**64, 2**64 + 16, 10**30):
        for frame in ("fast", "indirect"):
            out.whole([line(frame, big, 1, 0, 0, 0)], 9, 1, most)
            out.whole([line(frame, 16, 1, big, 0, 0)], 9, 1, most)
            out.whole([line(frame, 16, big, 0, 0, 0), "minus,1,2,3\n"], 9, 1, most)
        out.whole([line("indirect", 16, 1, 1, big, 0)], 9, 1, most)
    for states, obs in ((4096, 1), (1, 4096), (2048, 2049), (2**32 - 1, 1), (2**64 - 1, 1), (1, 2**64 - 1), (4096, 4096)):
        out.whole([line("indirect", 16, states, obs, 0, 0)], 9, 1, most)
    for states, obs in ((8, 4089), (0, 4097)):
        out.whole([line("fast", 16, states, obs, 0, 0)], 9, 1, most)
    for states in (9, 10, 22, 23, 256):
        out.whole([line("fast", 16, states, 0, 0, 0)], 9, 1, "count: fast frames at most 8 states")
    for states, obs, cell in ((1, 0, 1), (0, 1, 1), (8, 0, 8), (8, 2, 10), (3, 3, 6), (1, 0, 2**32), (1, 1, 2**64), (2, 0, 10**30)):
        out.whole([line("fast", 16, states, obs, cell, 0)], 9, 1, "count: a fast result cell below states + observations")
    for states, obs, cell in ((0, 300, 256), (8, 4088, 256), (8, 4088, 4095), (0, 257, 256)):
        out.whole([line("fast", 16, states, obs, cell, 0)], 9, 1, "count: a fast result cell at most 255")
    out.whole(["fast,16,0,0,0,0\n"], 9, 1, "decision 9: a fast frame with no cells is 9")
    for r in CELL:
        for cap in (0, 15):
            out.whole([line(("fast", "indirect")[r % 2], cap, 1, 0, 0, 1 << r)], 9, 1, SAVED)
    out.whole(["fast,15,1,0,0,4294967295\n"], 9, 1, SAVED)
    for kind in ("float,1\n", "bits,ffffffffffffffff\n"):
        out.whole([FAST, *["float,7\n"] * 1008, kind], 9, 1010, "count: at most 1,008 constants")
        out.whole([INDIRECT, *["bits,0000000000000007\n"] * 1008, kind, kind], 9, 1010, "count: at most 1,008 constants")
    big = "decision 10: 2 first, if its value is too big"
    out.whole([FAST, *["float,7\n"] * 1008, "minus,1,2,3\n", "float,9007199254740993\n"], 2, 1011, big)
    out.whole([FAST, *["float,7\n"] * 1008, "float,01\n"], 12, 1010, ORDER)


def rooms(out):
    """Number 7."""
    words = "number 7: the words don't fit"
    for frame in ("fast", "indirect"):
        head = (frame, 300, 2, 20, 1, 768)
        before, after, _ = ends(head)
        # the buffer is full, and each order that has words comes next
        whole = filled(head, CODE // 4, before)
        for name, told in LINES.items():
            if name not in ("label", "float", "bits"):
                out.whole([*whole, told, "minus,1,2,3\n"], 7, len(whole) + 1, words)
        for told, number in (("minus,1,2,32\n", 1), ("float,9007199254740993\n", 2), ("branch,1,1024,0\n", 3), ("get,1,mem,22\n", 9),
                             ("fmov,18,1\n", 11), ("put,1,stack,4\n", 11), ("label,1\n", 4), ("nop\n", 12)):
            out.whole([line(*head), "label,1\n", *whole[1:], told], number, len(whole) + 2, ORDER)
        # one word short for an order of two words, and then for the frame's end
        short = filled(head, CODE // 4 - 1, before)
        out.whole([*short, "floor,1,2\n"], 7, len(short) + 1, words)
        for spare in (0, 1, after - 1):
            close = filled(head, CODE // 4 - spare, before)
            out.whole(close, 7, len(close), BEHIND)
            out.whole([*close, "label,1\n", "fmov,3,3\n"], 7, len(close) + 2, BEHIND)
        for spare in (0, 1):
            for told in ("float,1\n", "bits,0000000000000001\n"):
                close = [*filled(head, CODE // 4 - spare, before + after), told]
                out.whole(close, 7, len(close), BEHIND)
        close = filled(head, CODE // 4, before + after)
        out.whole([*close[:2], "load_const,1,9\n", *close[2:]], 7, len(close) + 1, "decision 13: 7 at the last line, before any 5")
        # short buffers
        for size in (0, 3, 4, 4 * before - 4, 4 * before - 1):
            out.whole([line(*head), "minus,1,2,32\n"], 7, 1, "decision 13: prologue and saves that don't fit are 7 at line 1", size)
        for size in (4 * before, 4 * before + 3):
            out.whole([line(*head), "minus,1,2,3\n"], 7, 2, words, size)
            out.whole([line(*head), "label,1\n", "float,1\n"], 7, 3, BEHIND, size)
        out.whole([line(*head), "minus,1,2,3\n", "label,1\n"], 7, 3, BEHIND, 4 * (before + after))
        out.whole([line(*head), "minus,1,2,32\n"], 1, 2, FIRST, 4 * before)


def eights(out):
    """The `nop` before constants needs room too: a deck, the bytes of its code, of all, the line that has 5 where there is room, or 0."""
    rows = [([ONE, FLOAT], 84, 96, 0), ([ONE, FLOAT, FLOAT], 84, 104, 0), ([TWO, FLOAT], 88, 96, 0), ([ONE, LOAD, FLOAT], 92, 104, 0),
            ([ONE, GET, LOAD, FLOAT], 96, 104, 0), (["indirect,0,1,0,0,0\n", FLOAT], 156, 168, 0),
            ([ONE, "branch,0,0,0\n", FLOAT], 100, 112, 2), ([ONE, FLOAT, "branch,0,0,0\n"], 100, 112, 3),
            ([TWO, "branch,0,0,0\n", FLOAT], 104, 112, 2), ([ONE, "load_const,0,1\n", FLOAT], 92, 104, 2), ([ONE, LOAD], 92, 92, 2)]
    for lines, code, length, unset_at in rows:
        for size in range(code, length):
            out.whole(lines, 7, len(lines), EIGHTS if code % 8 else BEHIND, size)
        out.whole(lines, 7, len(lines), BEHIND, code - 1)
        if unset_at:
            for size in (length, length + 1, length + 8, CODE):
                out.whole(lines, 5, unset_at, UNSET, size)
    for head in (("fast", 300, 1, 0, 0, 0), ("indirect", 300, 2, 1, 1, 0)):
        for code, constants in ((65536, 1), (65532, 1), (65528, 2), (65524, 2), (65516, 3), (65512, 4), (65508, 4)):
            lines = filled_to(head, code, constants)
            out.whole(lines, 7, len(lines), BEHIND)
        # 5 of a label that is set nowhere comes where all fits
        before, after, _ = ends(head)
        for code, number in ((65524, 5), (65528, 5), (65532, 7), (65536, 7)):
            lines = [*filled(head, code // 4, before + after + 4), "branch,1,9,0\n", FLOAT]
            out.whole(lines, number, len(lines) - (number == 5), "decision 13: 7 at the last line, before any 5")


def jumps(out):
    most = "number 7: the jump doesn't fit (at most 4,096 jumps)"
    # the prologue has 0, 1 or 2 jumps, and each line here two
    for head, before in ((("fast", 20, 2, 1, 0, 0), 0), (("indirect", 20, 2, 1, 0, 0), 1), (("indirect", 20, 17, 1, 0, 0), 2)):
        fits = (4096 - before) // 2
        for told in ("branch,1,7,0\n", "load_const,1,0\n"):
            out.whole([line(*head), *[told] * fits, told, "minus,1,2,3\n"], 7, fits + 2, most)
            if before == 2:
                out.whole([line(*head), *[told] * fits, "label,7\n"], 7, fits + 2, BEHIND)


def files(out):
    for size in (65537, 65538, 70000):
        out.whole((b"fast,0,1,0,0,0\n" + b"fmov,1,1\n" * 8000)[:size], 7, 1, "a file too long is refused before all else at line 1")
    out.whole(b"x" * 65537, 7, 1, "a file too long is refused before all else at line 1")
    out.whole(b"\n" * 65537, 7, 1, "a file too long is refused before all else at line 1")


def forms(out):
    for name, told in LINES.items():
        body = told.rstrip("\n")
        for at, kind in enumerate(FIELDS[name], 1):
            word = PARTS[(out.turn + at) % len(PARTS)]
            if kind in "rlik":
                out.put(swapped(told, at, word), 12, DECIMAL)
                out.put(swapped(told, at, PARTS[(out.turn + 3 * at) % len(PARTS)]), 12, DECIMAL)
        out.put(body + ",0\n", 12, FORM)
        out.put(body.rsplit(",", 1)[0] + "\n", 12, FORM)
        out.put(name + "\n", 12, FORM)
        out.put(body + "\r\n", 12, "each line ends in byte 10; decision 6: CR is 12")
        out.put(" " + told, 12, "decision 6: a space is 12")
        out.put(body.replace(",", ", ", 1) + "\n", 12, "decision 6: a space is 12")
        out.put(body + " \n", 12, "decision 6: a space is 12")
        out.put(body.upper() + "\n", 12, "line words are compared with fixed byte strings")
        out.put(name[:-1] + "," + body.partition(",")[2] + "\n", 12, "line words are compared with fixed byte strings")
        out.whole([told], 12, 1, "line 1: fast or indirect")
        out.whole([FAST, told + "minus,1,2,3"], 12, 3, "each line ends in byte 10")
    for other in OTHERS:
        if other in FIELDS:
            continue
        out.put(line(other, 1, 2), 12, "decision 11: functions that document 01 doesn't list are no orders")
        out.put(line(other, 1, 2, 3), 12, "decision 11: functions that document 01 doesn't list are no orders")
    for head in (FAST, INDIRECT):
        out.put(head, 12, "line 1: fast or indirect; then an order's name")
    for odd in ("\n", "\r\n", " \n", "\0\n", ",\n", ",,,\n", "\xff\xfe\n", "\x1b\n", "\t\n", "#\n"):
        out.put(odd, 12, "decision 6: an empty line, CR, NUL, a space or a sign is 12")


def heads(out):
    for head in (FAST, INDIRECT):
        body = head.rstrip("\n")
        for at in range(1, 6):
            for word in ("", "00", "01", "-0", "-1", "+1", " 1", "1a", "\0", "x"):
                out.whole([swapped(head, at, word), "minus,1,2,3\n"], 12, 1, DECIMAL)
        for odd in (body + ",0\n", body.rsplit(",", 1)[0] + "\n", body + ",\n", body + "\r\n", " " + head, body + " \n",
                    body.upper() + "\n", "\n" + head, body.replace(",", ";") + "\n", body, "x" + head, body[1:] + "\n",
                    "\xef\xbb\xbf" + head):
            out.whole([odd], 12, 1, FORM)
        out.whole([swapped(head, 5, 4294967296).rstrip("\n") + ",\n"], 12, 1, ORDER)
        out.whole([swapped(head, 1, 4097).rstrip("\n")], 12, 1, ORDER)
    out.whole(b"", 12, 1, "an empty file is 12 at line 1")
    for odd in (b"\n", b"\n\n", b"\0", b"f", b"fast", b"fast\n", b"fast,\n", b"fast,,,,,\n", b"\r\n", b"indirect", b",", b"fast,0,1,0,0,0"):
        out.whole(odd, 12, 1, FORM)


def odd_fields(out):
    for name in ("get", "put"):
        for place in ("", "Mem", "memory", "mem ", "0", "stac", "params", "\0", "reg"):
            out.put(line(name, 1, place, 0), 12, "place mem, stack or param")
            out.put(line(name, 99, place, 99), 12, ORDER)
    for word in ("2", "3", "00", "01", "10", "-1", "", "true", "4294967296", "18446744073709551617", "9" * 40):
        out.put(line("branch", 1, 9, word), 12, "branch,cond,label,else (0 or 1, any other 12)")
        out.put(line("branch", 99, 9999, word), 12, ORDER)
    for word in ("", "0", "0123456789abcde", "0123456789abcdef0", "0123456789ABCDEF", "0123456789abcdeg", "0x23456789abcdef",
                 "-123456789abcdef", " 123456789abcdef", "0123456789abcde\0", "0123456789abcdé"):
        out.put(line("bits", word), 12, "bits, and 16 lowercase hex digits")
    for word in ("-0", "-00", "-01", "01", "00", "+1", "1.5", "1e3", "", "-", "--1", "1-", "inf", "nan", "0x10", "1 ", "-0001"):
        out.put(line("float", word), 12, DECIMAL)
    for name, told in LINES.items():
        kinds = FIELDS[name]
        if len(kinds) > 1:
            out.put(swapped(swapped(told, 1, 99), len(kinds), "x"), 12, MALFORMED)
    out.put("label,9999999999999999999999x\n", 12, MALFORMED)
    out.put("get,1,mem,99999999999999999999 \n", 12, MALFORMED)


def several(out):
    """More than one fault: the first line decides."""
    faults = [("minus,1,2,32\n", 1), ("float,9007199254740993\n", 2), ("label,1024\n", 3), ("label,9\nlabel,9\n", 4)]
    faults += [("get,1,mem,99\n", 9), ("fmov,8,1\n", 11), ("nop\n", 12)]
    for i, (a, n) in enumerate(faults):
        for j, (b, _) in enumerate(faults):
            if i != j:
                out.whole([(FAST, INDIRECT)[(i + j) % 2], "minus,1,2,3\n", a, b], n, 3 + (n == 4), FIRST)
    out.whole([FAST, "minus,1,2,3\n", "minus,1,2,32\n", "minus,1,2"], 1, 3, FIRST)
    out.whole([FAST, "branch,1,5,0\n", "minus,1,2"], 12, 3, "decision 6: bytes behind the last byte 10 are a line, refused 12 in its turn")
    out.whole([FAST, "minus,1,2,3\n", "\n"], 12, 3, "decision 6: an empty line is 12")
    out.whole([FAST, "\n", "minus,1,2,3\n"], 12, 2, "decision 6: an empty line is 12")
    out.whole([FAST, "minus,1,2,3\n", "\0"], 12, 3, "decision 6: bytes behind the last byte 10 are a line, refused 12 in its turn")


def refused():
    out = List()
    for part in (registers, values, labels, unset, unsaved, cells, counts, rooms, eights, jumps, files, forms, heads, odd_fields, several):
        part(out)
    seen, rows = set(), []
    for row in out.rows:
        if (row[0], row[3]) not in seen:
            seen.add((row[0], row[3]))
            rows.append(row)
    return rows
