"""IEEE binary64 arithmetic on bits, exact and then rounded once, in the five rounding modes of the ISA Manual: 0 to nearest even,
1 to zero, 2 down, 3 up, 4 to nearest with ties away. A NaN that arithmetic gives is the canonical one."""
from fractions import Fraction

NAN = 0x7FF8000000000000
INF = 0x7FF0000000000000
MINUS = 1 << 63
ONE = 0x3FF0000000000000
ONES = 2**64 - 1


def is_nan(b):
    return b % MINUS > INF


def is_inf(b):
    return b % MINUS == INF


def value(b):
    """The number of finite bits."""
    e, m = b >> 52 & 2047, b % 2**52
    n = m if e == 0 else m + 2**52
    q = max(e, 1) - 1075
    x = Fraction(n << q) if q >= 0 else Fraction(n, 1 << -q)
    return -x if b & MINUS else x


def up(q, twice, odd, negative, mode):
    """Does the size q go up by one, where twice the rest compares to the unit as `twice` (-1, 0, 1) says and the rest isn't zero."""
    if mode == 0:
        return twice > 0 or (twice == 0 and odd)
    if mode == 4:
        return twice >= 0
    return mode == (2 if negative else 3)


def nearest(n, d, negative, mode):
    """n / d as a whole number."""
    q, rest = divmod(n, d)
    if rest and up(q, (2 * rest > d) - (2 * rest < d), q % 2 == 1, negative, mode):
        q += 1
    return q


def rounded(x, mode):
    """The bits of a number that isn't zero."""
    negative, n, d = x < 0, abs(x.numerator), x.denominator
    q = max(n.bit_length() - d.bit_length() - 53, -1074)
    while (n << max(-q, 0)) >= (d << max(q, 0)) << 53:
        q += 1
    m = nearest(n << max(-q, 0), d << max(q, 0), negative, mode)
    bits = m if q == -1074 and m < 2**52 else ((q + 1075) << 52) + (m - 2**52)
    if bits >= INF:
        bits = INF if mode in (0, 4) or mode == (2 if negative else 3) else INF - 1
    return bits | (MINUS if negative else 0)


def zero(mode):
    """The sign of an exact zero sum of numbers that aren't both zeros of one sign."""
    return MINUS if mode == 2 else 0


def fma(a, b, c, mode):
    """a × b + c."""
    sign = (a ^ b) & MINUS
    if is_nan(a) or is_nan(b) or is_nan(c):
        return NAN
    if is_inf(a) or is_inf(b):
        if a % MINUS == 0 or b % MINUS == 0 or (is_inf(c) and (c & MINUS) != sign):
            return NAN
        return INF | sign
    if is_inf(c):
        return c
    x = value(a) * value(b)
    total = x + value(c)
    if total == 0:
        return sign if x == 0 and c % MINUS == 0 and (c & MINUS) == sign else zero(mode)
    return rounded(total, mode)


def times(a, b, mode):
    sign = (a ^ b) & MINUS
    if is_nan(a) or is_nan(b):
        return NAN
    if is_inf(a) or is_inf(b):
        return NAN if a % MINUS == 0 or b % MINUS == 0 else INF | sign
    x = value(a) * value(b)
    return rounded(x, mode) if x else sign


def minus(a, b, mode):
    return fma(a, ONE, b ^ MINUS, mode) if not is_nan(b) else NAN


def divide(a, b, mode):
    sign = (a ^ b) & MINUS
    if is_nan(a) or is_nan(b) or (is_inf(a) and is_inf(b)) or (a % MINUS == 0 and b % MINUS == 0):
        return NAN
    if is_inf(a) or b % MINUS == 0:
        return INF | sign
    if is_inf(b) or a % MINUS == 0:
        return sign
    return rounded(value(a) / value(b), mode)


def less(a, b):
    if is_nan(a) or is_nan(b):
        return False
    if is_inf(a) or is_inf(b):
        size = lambda c: 0 if not is_inf(c) else -1 if c & MINUS else 1
        return size(a) < size(b)
    return value(a) < value(b)


def equal(a, b):
    if is_nan(a) or is_nan(b):
        return False
    return a == b or (a | b) % MINUS == 0


def to_long(a, mode):
    """The signed 64-bit whole number; a NaN gives the greatest."""
    if is_nan(a) or is_inf(a):
        return -(2**63) if a & MINUS and not is_nan(a) else 2**63 - 1
    x = value(a)
    n = nearest(abs(x.numerator), x.denominator, x < 0, mode)
    return max(-(2**63), min(2**63 - 1, -n if x < 0 else n))


def from_long(n, mode):
    return rounded(Fraction(n), mode) if n else 0
