"""Instructions by the ISA Manual's formats, and the accesses that orders and frames share."""
ZERO, RA, SP, T0, T1, T2, S0, S1, A0, A1, A2, A3, S2, S3, S4, S5 = 0, 1, 2, 5, 6, 7, 8, 9, 10, 11, 12, 13, 18, 19, 20, 21
FA0 = 10

# ---- formats


def field(value, width):
    assert -(2 ** (width - 1)) <= value < 2**width, (value, width)
    return value % 2**width


def r_type(f7, rs2, rs1, f3, rd, op):
    return field(f7, 7) << 25 | field(rs2, 5) << 20 | field(rs1, 5) << 15 | field(f3, 3) << 12 | field(rd, 5) << 7 | op


def i_type(imm, rs1, f3, rd, op):
    assert -2048 <= imm <= 2047
    return field(imm, 12) << 20 | field(rs1, 5) << 15 | field(f3, 3) << 12 | field(rd, 5) << 7 | op


def s_type(imm, rs2, rs1, f3, op):
    assert -2048 <= imm <= 2047
    n = field(imm, 12)
    return r_type(n >> 5, rs2, rs1, f3, n & 31, op)


def b_type(imm, rs2, rs1, f3):
    assert -4096 <= imm <= 4094 and imm % 2 == 0
    n = imm % 2**13
    return r_type((n >> 12) << 6 | n >> 5 & 63, rs2, rs1, f3, (n >> 1 & 15) << 1 | n >> 11 & 1, 0b1100011)


def u_type(imm, rd, op):
    return field(imm, 20) << 12 | field(rd, 5) << 7 | op


# ---- whole numbers, loads and stores

OP, OP_IMM, OP_IMM_32, LOAD_FP, STORE_FP = 0b0110011, 0b0010011, 0b0011011, 0b0000111, 0b0100111


def add(d, a, b): return r_type(0, b, a, 0, d, OP)
def sub(d, a, b): return r_type(0b0100000, b, a, 0, d, OP)
def xor(d, a, b): return r_type(0, b, a, 0b100, d, OP)
def or_(d, a, b): return r_type(0, b, a, 0b110, d, OP)
def and_(d, a, b): return r_type(0, b, a, 0b111, d, OP)
def mv(d, a): return add(d, a, ZERO)
def neg(d, a): return sub(d, ZERO, a)
def addi(d, a, n): return i_type(n, a, 0, d, OP_IMM)
def addiw(d, a, n): return i_type(n, a, 0, d, OP_IMM_32)
def inv(d, a): return i_type(-1, a, 0b100, d, OP_IMM)
def slli(d, a, n): return i_type(n, a, 0b001, d, OP_IMM)
def ld(d, base, n): return i_type(n, base, 0b011, d, 0b0000011)
def sd(s, base, n): return s_type(n, s, base, 0b011, 0b0100011)
def jalr(d, base, n): return i_type(n, base, 0, d, 0b1100111)
def lui(d, n): return u_type(n, d, 0b0110111)
def auipc(d, n): return u_type(n, d, 0b0010111)
def beq(a, b, n): return b_type(n, b, a, 0b000)
def bne(a, b, n): return b_type(n, b, a, 0b001)
def fld(d, base, n): return i_type(n, base, 0b011, d, LOAD_FP)
def fsd(s, base, n): return s_type(n, s, base, 0b011, STORE_FP)


# ---- accesses


def hi(n):
    """The upper 20 bits that with `lo` give n modulo 2^32."""
    return (n % 2**32 + 2048 >> 12) % 2**20


def lo(n):
    return (n + 2048) % 4096 - 2048


def li(d, n):
    """From 0x7FFFF800 on `lui` gives a negative number, and `addiw` brings the sum back (document 02, point 6)."""
    if -2048 <= n <= 2047:
        return [addi(d, ZERO, n)]
    return [lui(d, hi(n)), (addiw if n >= 0x7FFFF800 else addi)(d, d, lo(n))]


def access(instruction, r, base, offset):
    """A load or store of one cell; far ones compute t0 first."""
    if offset < 2048:
        return [instruction(r, base, offset)]
    return [*li(T0, offset), add(T0, T0, base), instruction(r, T0, 0)]
