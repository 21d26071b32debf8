"""Writes floats for roundrun.

    python3 floats.py SEED COUNT > FLOATS

A pattern has eight bytes, lowest first. The corner floats of cases.py come first, then COUNT that are
drawn, and at last one to seven bytes of a pattern. A seed gives the same floats on every machine.
"""
import random
import struct
import sys

import cases
from rounding import BILLION, MOST_AMOUNT

INFINITY = 0x7FF0000000000000
LIMIT = 0x41612A8800000000  # 9,000,000
LARGEST = 2**24  # from here on every count is beyond the limit


def bits_of(x):
    return struct.unpack("<Q", struct.pack("<d", x))[0]


class Floats:
    def __init__(self, seed):
        self.rng = random.Random(seed)

    def near(self, bits, most=3):
        """The float itself or a neighbour."""
        return max(0, bits + self.rng.choice((0, 0, -1, 1, self.rng.randint(-most, most))))

    def size(self, most):
        """A whole number from 1 to most, all counts of binary digits alike."""
        digits = self.rng.randint(1, most.bit_length())
        return min(most, self.rng.randint(2 ** (digits - 1), 2**digits - 1))

    # ---- kinds
    def billionth(self):
        """Near a whole number of billionths."""
        return self.near(bits_of(self.size(MOST_AMOUNT) / BILLION))

    def on(self):
        """A whole number of 512ths, which is one of billionths, or a neighbour."""
        return self.near(bits_of(self.size(LARGEST * 512) / 512))

    def half(self):
        """Halfway between two billionths, or a neighbour."""
        return self.near(bits_of((2 * self.size(LARGEST * 512) + 1) / 1024))

    def limit(self):
        """Around the limit, some floats or some units away."""
        return self.near(LIMIT + self.rng.randint(-1000, 1000) * self.rng.choice((0, 1, 2**20, 2**29)), 10)

    def ordinary(self):
        """From 2^-40 to 2^26."""
        return (self.rng.randint(983, 1048) << 52) + self.rng.getrandbits(52)

    def subnormal(self):
        return self.rng.getrandbits(self.rng.randint(1, 52))

    def any(self):
        """Any finite one."""
        return self.rng.randrange(INFINITY)

    def infinite(self):
        return INFINITY

    def drawn(self):
        """A float of some kind, by the shares, and of some sign."""
        bits = self.rng.choices(list(SHARES), list(SHARES.values()))[0](self)
        return bits + cases.SIGN * self.rng.getrandbits(1)


# of a thousand floats, so many of each kind
SHARES = {
    Floats.billionth: 200,
    Floats.on: 200,
    Floats.half: 100,
    Floats.limit: 100,
    Floats.ordinary: 200,
    Floats.subnormal: 50,
    Floats.any: 145,
    Floats.infinite: 5,
}


def packed(patterns):
    return struct.pack("<%dQ" % len(patterns), *patterns)


def main():
    seed, count = map(int, sys.argv[1:])
    floats = Floats(seed)
    drawn = [floats.drawn() for _ in range(count)]
    last = packed([floats.drawn()])[: floats.rng.randint(1, 7)]
    sys.stdout.buffer.write(packed(cases.patterns() + drawn) + last)


if __name__ == "__main__":
    main()
