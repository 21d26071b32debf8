"""The elementary functions of document 01, module 1, with change request 2, reckoned apart from the library.

    python3 reckon.py ARGUMENTS > LINES

Python's floats are binary64, and each +, -, * and / on them rounds once, so the paper's order of
operations is written down as it stands. The line of an argument is its pattern and then LN, LN1P,
EXP, the square root and the rounding up, each as 16 upper-case hex digits or `R5` for a refusal.
The first line is that of a NaN.
"""
import math
import struct
import sys

REFUSED = None  # refusal 5


def bits_of(x):
    return struct.unpack("<Q", struct.pack("<d", x))[0]


def float_of(bits):
    return struct.unpack("<d", struct.pack("<Q", bits))[0]


LOG2E = float_of(0x3FF71547652B82FE)
HI = float_of(0x3FE62E42FEE00000)
LO = float_of(0x3DEA39EF35793C76)
ODDS = [1.0 / (2 * j + 1) for j in range(12)]
FACTORIALS = [1.0 / math.factorial(j) for j in range(14)]


def horner(coefficients, z):
    """The sum of coefficients[j] * z^j, from the last one down."""
    total = coefficients[-1]
    for c in reversed(coefficients[:-1]):
        total = total * z
        total = total + c
    return total


def series(s):
    """(2 * s) * P."""
    z = s * s
    return (2.0 * s) * horner(ODDS, z)


def join(e, s):
    """e * HI + ((2 * s) * P + e * LO)."""
    return e * HI + (series(s) + e * LO)


def ln(x):
    if not math.isfinite(x) or x <= 0.0:
        return REFUSED
    half, e = math.frexp(x)  # x = half * 2^e, half in [0.5, 1)
    f, e = half * 2.0, e - 1
    if f > 1.5:
        f, e = f / 2.0, e + 1
    return join(float(e), (f - 1.0) / (f + 1.0))


def ln_1p(r):
    if not math.isfinite(r) or r <= 0.0:
        return REFUSED
    if r < 0.5:
        return series(r / (2.0 + r))
    return ln(1.0 + r)


def exp(x):
    if not math.isfinite(x):
        return REFUSED
    if x > 709.0:
        return math.inf
    if x < -708.0:
        return 0.0
    y = x * LOG2E
    n = int(y - 0.5) if x < 0.0 else int(y + 0.5)  # int() cuts toward zero
    r = (x - float(n) * HI) - float(n) * LO
    return horner(FACTORIALS, r) * math.ldexp(1.0, n)


def sqrt(x):
    if not math.isfinite(x) or x < 0.0:
        return REFUSED
    if x == 0.0:
        return x  # IEEE 754: the root of -0.0 is -0.0
    root = nearest_root(x)
    assert bits_of(root) == bits_of(math.sqrt(x)), x  # the processor's own
    return root


def nearest_root(x):
    """The float nearest to the root of a positive x, in whole numbers."""
    n, d = x.as_integer_ratio()  # d is a power of two
    k = d.bit_length() - 1
    if k % 2 == 1:
        n, k = 2 * n, k + 1
    # x = n / 2^k with k even: 54 digits or more of the root of n, and the half that decides
    shift = max(0, 112 - n.bit_length())
    shift += shift % 2
    whole = math.isqrt(n << shift)
    exact = whole * whole == n << shift
    drop = whole.bit_length() - 53
    kept, rest = whole >> drop, whole & ((1 << drop) - 1)
    middle = 1 << (drop - 1)
    assert not (rest == middle and exact)  # no root is halfway between two floats
    if rest >= middle:
        kept += 1
    return math.ldexp(float(kept), drop - (k + shift) // 2)


def ceil(x):
    if not math.isfinite(x):
        return REFUSED
    return math.copysign(float(math.ceil(x)), x)  # a zero keeps the argument's sign


def field(value):
    return "R5" if value is REFUSED else "%016X" % bits_of(value)


def line(name, x):
    return " ".join([name] + [field(f(x)) for f in (ln, ln_1p, exp, sqrt, ceil)])


def read(path):
    with open(path, "rb") as file:
        return [bits for (bits,) in struct.iter_unpack("<Q", file.read())]


def lines(path):
    yield line("NAN", math.nan)
    for bits in read(path):
        yield line("%016X" % bits, float_of(bits))


def main():
    for told in lines(sys.argv[1]):
        print(told)


if __name__ == "__main__":
    main()
