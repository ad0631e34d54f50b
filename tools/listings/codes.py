"""Codes for the list of `test_listing`: accepted ones, and refused ones with the sentence of document 02 that each rests on.

A refused code is (code, the constants' offset, number, place, sentence), each written from the sentence; a foreign word is (word, note).
Which words are foreign follows from the ISA Manual and from the roundings that macros.rs writes (reading.py), never from the proved code.
"""
from reading import ROUNDINGS, TABLE, code_of, line, mask, match

NOP, RET = 0x00000013, 0x00008067
PAST = "2, place 0, a constants' offset past the end"
UNEVEN = "2, place 0, a constants' offset at no multiple of 4"
BEFORE = "before that with 2, place 0"
FIRST = "14, the first word outside the constants that no accepted instruction has"
CUT = "or a last word cut short, placed at that word's offset"
EARLIER = "14, the first word: it comes before a last word cut short"
DATA = "the first word outside the constants: those inside are data, a cut one not"

# Some code: addi, sd, fadd.d, bne, jalr.
GOOD = [0xFE010113, 0x00113023, 0x023170D3, 0xFE0298E3, RET]
# Words of no accepted instruction: zero, all ones, ecall, fsub.d with rounding 0, slli by 64, lw, c.nop in both halves.
BAD = [0x00000000, 0xFFFFFFFF, 0x00000073, 0x0A208053, 0x04009093, 0x00012083, 0x00010001]

# ---- worked examples

# Words, the constants' offset, text; by hand from document 02 and the Manual.
ACCEPTED_EXAMPLES = [
    ([], 0, ""),
    ([0xFE010113], 4, "0,addi,2,2,-32\n"),
    ([0x00113023], 4, "0,sd,1,2,0\n"),
    ([0x00A4B027], 4, "0,fsd,10,9,0\n"),
    ([0x00010433], 4, "0,add,8,2,0\n"),  # mv
    ([0x00008067], 4, "0,jalr,0,1,0\n"),  # ret
    ([0xA21112D3], 4, "0,flt.d,5,2,1\n"),  # fgt.d t0, f1, f2
    ([0x023100D3, 0x023170D3], 8, "0,fadd.d,1,2,3,0\n4,fadd.d,1,2,3,7\n"),
    ([0xC220A2D3, 0xD222F053, 0xD2028553], 12, "0,fcvt.l.d,5,1,2\n4,fcvt.d.l,0,5,7\n8,fcvt.d.w,10,5,0\n"),
    ([0x1A20F04F], 4, "0,fnmadd.d,0,1,2,3,7\n"),
    ([0x80000537, 0x8005051B], 8, "0,lui,10,524288\n4,addiw,10,10,-2048\n"),
    ([0xFE0298E3, 0x7FDFF06F], 8, "0,bne,5,0,-16\n4,jal,0,1048572\n"),
    ([0x43F55513], 4, "0,srai,10,10,63\n"),
    ([NOP, 0x00000000, 0x3FF00000], 4, "0,addi,0,0,0\n4,data,00000000\n8,data,3ff00000\n"),
    ([0x00000000, 0x3FF00000], 0, "0,data,00000000\n4,data,3ff00000\n"),
]
REFUSED_EXAMPLES = [
    (code_of([NOP, 0]), 8, 14, 4, FIRST),  # zero is no instruction
    (code_of([0x0A208053]), 4, 14, 0, FIRST),  # fsub.d with rounding 0
    (code_of([0x0230D0D3]), 4, 14, 0, FIRST),  # fadd.d with rounding 5
    (code_of([0x02059513, 0x04009093]), 8, 14, 4, FIRST),  # slli by 32; what the Rust writes for 64
    (code_of([0x00000073]), 4, 14, 0, FIRST),  # ecall
    (code_of([NOP]) + b"\x13\0", 4, 14, 4, CUT),
    (code_of([0]) + b"\x13\0", 4, 14, 0, EARLIER),
    (b"\x13\0\0", 0, 14, 0, CUT),
    (code_of([NOP]), 8, 2, 0, PAST),
    (code_of([0, 0]), 2, 2, 0, BEFORE),
    (code_of([NOP]) + b"\x13\0", 6, 2, 0, BEFORE),
]

# Document 01's sample, whose 21 words are its `fast,0,1,0,0,0`; and a routine with a constant (`load_const`, `minus`, `put`, `float,3`),
# before which a `nop` stands.
SAMPLE = [int(w, 16) for w in """
    fe010113 00113023 00813423 00913823 01513c23 00010433 ff010113 000104b3 ff010113 00010ab3 00a4b027
    00000513 0004b507 00040133 00013083 00813403 01013483 01813a83 02010113 00a54533 00008067""".split()]
CONSTANT = [*SAMPLE[:11], 0x00000297, 0x03C2B087, 0x0A157553, 0x00A4B027, *SAMPLE[11:], NOP, 0x00000000, 0x40080000]


def accepted():
    """Words and the constants' offset."""
    yield from ((words, at) for words, at, _ in ACCEPTED_EXAMPLES)
    yield SAMPLE, 84
    yield CONSTANT, 104
    for at in range(0, 24, 4):  # the constants may start at every word, and at the end
        yield GOOD, at
    yield [NOP, *BAD], 4  # words of no instruction, at the constants' offset and behind it
    yield BAD, 0
    yield [0x01234567, 0x89ABCDEF, 0xFEDCBA98, 0x0000000A, 0xA0000000], 0  # every digit
    yield [NOP] * 4, 8  # an instruction's word among the constants is data
    for count in (2, 24, 249, 2499, 16383, 24999):  # offsets of one digit more from here on
        yield [NOP] * count + [0xFBFFFFCF, RET, 0xFEF74AE3, NOP, 0xDEADBEEF, 0x00000000], 4 * count + 16
        yield [NOP] * count + [0x80000537, RET, 0xFFFFFFFF, RET], 4 * count


# ---- refused codes


def past():
    for words in ([], [NOP], GOOD, BAD):
        end = 4 * len(words)
        for at in (end + 1, end + 4, end + 8, 65536, 65540, 2**31 - 4, 2**31, 2**32 - 8, 2**32 - 4, 2**32 - 1):
            yield code_of(words), at, 2, 0, PAST
    yield code_of(GOOD) + b"\x13", 24, 2, 0, PAST  # past the cut word too
    yield code_of([NOP]) + b"\x13\0\0", 8, 2, 0, PAST


def uneven():
    for at in (1, 2, 3, 5, 6, 7, 9, 10, 11, 13, 17, 18, 19):
        yield code_of(GOOD), at, 2, 0, UNEVEN
    for at in (1, 2, 3):
        yield code_of([NOP]), at, 2, 0, UNEVEN
        yield code_of(GOOD) + b"\x13" * at, 20 + at, 2, 0, UNEVEN  # at the end of what is cut short


def before():
    for bad in BAD:
        yield code_of([bad]), 8, 2, 0, BEFORE
        yield code_of([NOP, bad]), 6, 2, 0, BEFORE
    for cut in (1, 2, 3):
        yield code_of([NOP]) + b"\x13" * cut, 8, 2, 0, BEFORE
        yield code_of([NOP]) + b"\x13" * cut, 2, 2, 0, BEFORE
        yield code_of([0]) + b"\x13" * cut, 4 + cut, 2, 0, BEFORE
        yield b"\0" * cut, 4, 2, 0, BEFORE
        yield b"\0" * cut, cut, 2, 0, BEFORE


def foreign():
    for n, bad in enumerate(BAD):
        yield code_of([bad, *GOOD]), 24, 14, 0, FIRST
        yield code_of([*GOOD, bad]), 24, 14, 20, FIRST
        yield code_of([*GOOD[:2], bad, *GOOD[2:]]), 12, 14, 8, FIRST  # the last before the constants
        yield code_of([NOP, bad, RET, BAD[n - 1]]), 16, 14, 4, FIRST  # the first of two
        yield code_of([NOP, RET, bad, bad]), 12, 14, 8, FIRST  # the second of them is data
    yield code_of([NOP] * 24 + [0]), 100, 14, 96, FIRST
    for count in (25, 250, 2500, 16383, 25000):
        yield code_of([NOP] * count + [0, 0xFFFFFFFF]), 4 * count + 4, 14, 4 * count, FIRST


def cut():
    for count in (1, 2, 3):
        part = b"\x13\0\0"[:count]
        for words in ([], [NOP], GOOD):
            end = 4 * len(words)
            yield code_of(words) + part, end, 14, end, CUT  # right at the constants' offset
            if words:
                yield code_of(words) + part, 0, 14, end, CUT  # inside the constants
        yield code_of(GOOD) + part, 8, 14, 20, CUT
        yield code_of([NOP, *BAD]) + part, 4, 14, 32, DATA
        yield code_of([NOP, 0, RET]) + part, 12, 14, 4, EARLIER
        yield code_of([NOP, RET, 0]) + part, 8, 14, 12, DATA
        yield code_of([NOP] * 2499) + part, 9996, 14, 9996, CUT
        yield code_of([NOP] * 25000) + part, 99996, 14, 100000, CUT
        yield code_of([NOP] * 16383 + [0]) + part, 65536, 14, 65532, EARLIER


def refused():
    for rows in (REFUSED_EXAMPLES, past(), uneven(), before(), foreign(), cut()):
        yield from rows


# ---- words of no accepted instruction

# The Manual's other instructions, by the names that objdump has for them.
OTHERS = [
    (0x00000073, "ecall"), (0x00100073, "ebreak"), (0x0000000F, "fence"), (0x0000100F, "fence.i"), (0x001110F3, "csrrw"),
    (0x0020A0B3, "slt"), (0x0020B0B3, "sltu"), (0x0010A093, "slti"), (0x0010B093, "sltiu"), (0x022080B3, "mul"), (0x0220C0B3, "div"),
    (0x002080BB, "addw"), (0x402080BB, "subw"), (0x002090BB, "sllw"), (0x0020D0BB, "srlw"), (0x4020D0BB, "sraw"),
    (0x0010909B, "slliw"), (0x0010D09B, "srliw"), (0x4010D09B, "sraiw"),
    (0x00010083, "lb"), (0x00011083, "lh"), (0x00012083, "lw"), (0x00014083, "lbu"), (0x00015083, "lhu"), (0x00016083, "lwu"),
    (0x00110023, "sb"), (0x00111023, "sh"), (0x00112023, "sw"), (0x00012087, "flw"), (0x00112027, "fsw"),
    (0x003170D3, "fadd.s"), (0x083170D3, "fsub.s"), (0x103170D3, "fmul.s"), (0x183170D3, "fdiv.s"), (0x580170D3, "fsqrt.s"),
    (0x203100D3, "fsgnj.s"), (0x283100D3, "fmin.s"), (0xA03120D3, "feq.s"), (0x203170C3, "fmadd.s"), (0xE0010053, "fmv.x.w"),
    (0xF0010053, "fmv.w.x"), (0xE2011053, "fclass.d"), (0x401170D3, "fcvt.s.d"), (0x420100D3, "fcvt.d.s"), (0xC21170D3, "fcvt.wu.d"),
    (0xC23170D3, "fcvt.lu.d"), (0xD21100D3, "fcvt.d.wu"), (0xD23170D3, "fcvt.d.lu"), (0xC00170D3, "fcvt.w.s"),
    (0x0031302F, "amoadd.d"), (0x1001302F, "lr.d"),
]
# Words that no instruction of four bytes has.
SHAPELESS = [
    (0x00000000, "zero"), (0xFFFFFFFF, "all ones"), (0x80000000, "the highest bit"), (0x0000006B, "a reserved opcode"),
    (0x00000001, "c.nop and zero"), (0x00010001, "c.nop twice"), (0x80828082, "c.jr twice"), (0x00000012, "addi, low bits 10"),
    (0x00001300, "addi a byte late"), (0x13000000, "addi with its bytes turned"),
    (0x0000001F, "the start of a longer one"), (0x0000003F, "the start of a longer one"), (0x0000007F, "the start of a longer one"),
]


def roundings():
    """5, 6 and those that macros.rs doesn't write."""
    for name, pattern, operands in TABLE:
        if "rm" in operands:
            word = match(pattern)
            written = ROUNDINGS if "m" in pattern else (word >> 12 & 7,)
            yield from ((word & ~0x7000 | rm << 12, f"{name}, rounding {rm}") for rm in range(8) if rm not in written)


def shifts():
    """Counts from 64 on, as far as the field above the count has them."""
    for name, word in (("slli", 0x00009093), ("srli", 0x0000D093), ("srai", 0x4000D093)):
        yield from ((word | count << 20, f"{name} by {count}") for count in (64, 65, 96, 127, 128, 255, 256, 512))


def turned():
    """Each instruction's word with one of its fixed bits turned, unless it is another instruction's."""
    for name, pattern, _ in TABLE:
        for bit in range(32):
            word = match(pattern) ^ 1 << bit
            if mask(pattern) >> bit & 1 and line(word) is None:
                yield word, f"{name}, bit {bit} turned"


def foreign_words():
    """Each word once, with the note it comes with first."""
    found = {}
    for rows in (OTHERS, SHAPELESS, roundings(), shifts(), turned()):
        for word, note in rows:
            found.setdefault(word, note)
    return found
