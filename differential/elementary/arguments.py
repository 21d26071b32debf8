"""Writes the arguments that the elementary functions are compared on.

    python3 arguments.py FILE

Each argument is a binary64 bit pattern: eight bytes, lowest first. The list is the same on every
machine: the generator is seeded, and no function of the platform's C library takes part. It has no
NaN: the program under test makes its own.
"""
import random
import struct
import sys

SIGN = 1 << 63
INFINITY = 0x7FF << 52
SMALLEST_NORMAL = 1 << 52
LN2 = 0x3FE62E42FEFA39EF

rng = random.Random(20130101)
patterns = {}  # keeps the order, and each pattern once


def bits_of(x):
    return struct.unpack("<Q", struct.pack("<d", x))[0]


def float_of(bits):
    return struct.unpack("<d", struct.pack("<Q", bits))[0]


def take(bits):
    """Adds a pattern, unless it is a NaN's."""
    if bits % SIGN <= INFINITY:
        patterns[bits] = True


def around(bits, n):
    """Adds a pattern and its n neighbours on each side, of the same sign."""
    for step in range(-n, n + 1):
        if 0 <= bits % SIGN + step <= INFINITY:
            take(bits + step)


def both(bits, n=0):
    """The same for both signs."""
    around(bits, n)
    around(bits ^ SIGN, n)


def two_to(e):
    """The pattern of 2^e, subnormal ones included."""
    return (e + 1023) << 52 if e >= -1022 else 1 << (e + 1074)


def nearest(n, e=0):
    """The pattern of n * 2^e rounded to the nearest float, ties to even; n is a whole number."""
    return bits_of(float(n) * float_of(two_to(e)))


def unit():
    return rng.random()


# ---- the ends of the format
both(0)
both(INFINITY)
both(1, 1)
both(5, 1)
both(SMALLEST_NORMAL, 3)
both(INFINITY - 2, 1)

# ---- powers of two over the whole range, both parities of the exponent, with neighbours
for e in range(-1074, 1024, 21):
    around(two_to(e), 1)
for e in range(-1070, 1024, 50):
    both(two_to(e))

# ---- where a function changes its way: LN at 1, 1.5 and 2, LN1P at 0.5, EXP at 709 and -708
for x in (1.0, 1.5, 2.0, 0.5, 0.75, 3.0, 709.0, -708.0):
    around(bits_of(x), 12)
both(bits_of(1.0), 2)
both(bits_of(709.0), 2)
both(bits_of(708.0), 2)
# where the exponential leaves the range of floats and of normal ones
for x in (709.782712893384, -708.3964185322641, -744.4400719213812, -745.1332191019412):
    around(bits_of(x), 2)

# ---- EXP where N changes: the halves (k + 0.5) * ln 2
for k in range(-1020, 1023, 34):
    around(bits_of((k + 0.5) * float_of(LN2)), 1)
for k in range(-48, 48):
    take(bits_of((k + 0.5) * float_of(LN2)))
# and where the rest r is smallest: k * ln 2
for k in range(-1021, 1024, 85):
    around(bits_of(k * float_of(LN2)), 1)
# tiny ones, of which the exponential is 1 or next to it
for e in (-30, -40, -51, -52, -53, -54, -55, -60, -1000):
    both(two_to(e), 1)

# ---- whole numbers and fractions, for rounding up
for e in (51, 52, 53, 62, 63, 64):
    both(two_to(e), 4)
for n in range(7):
    both(bits_of(n + 0.5), 1)
    both(bits_of(float(n)), 1)
for n in range(16):
    k = rng.getrandbits(4 + 2 * n % 48)
    both(bits_of(k + 0.25))
    both(bits_of(float(k)))

# ---- squares and their neighbours, also scaled by even and odd powers of two
for n in list(range(2, 17)) + [rng.getrandbits(26) | 1 for _ in range(24)]:
    around(bits_of(float(n * n)), 1)
for _ in range(16):
    n = rng.getrandbits(26) | 1
    around(nearest(n * n, rng.getrandbits(9) * 2 - 1020), 1)
    take(nearest(n * n, rng.getrandbits(9) * 2 - 1021))
for n in (2, 3, 1023, 8191, (1 << 26) - 1):
    around(nearest(n * n, -1074), 1)
# roots next to the middle of two floats: an odd number of 54 digits, squared
for _ in range(32):
    n = (1 << 53) | rng.getrandbits(53) | 1
    take(nearest(n * n))
    take(nearest(n * n, -201))

# ---- at random: all patterns, the exponential's range, subnormals, near 1, small
for _ in range(300):
    take(rng.getrandbits(64))
for _ in range(200):
    take(bits_of(unit() * 1600.0 - 800.0))
for _ in range(90):
    take(bits_of(unit() * 4.0 - 2.0))
for _ in range(60):
    both(rng.getrandbits(1 + rng.getrandbits(6) % 52))
for _ in range(90):
    take(bits_of(0.5 + unit() * 1.5))
for e in range(-60, 0):
    around(two_to(e) | rng.getrandbits(52), 0)
    take(bits_of(1.0) + (rng.getrandbits(52) >> (-e % 52)))

with open(sys.argv[1], "wb") as out:
    for bits in patterns:
        out.write(struct.pack("<Q", bits))
print(len(patterns), "arguments")
