"""Distances to billionths: change request 5's rule, reckoned apart from the library, from the bits of a float.

    python3 rounding.py < FLOATS > LINES

FLOATS and LINES are what roundrun reads and writes: patterns of eight bytes, lowest first, and a line for
each, the count of billionths, `R 11` for a float that is not finite, or `R 13` for a count beyond the amount
limit. Bytes that end inside a pattern are the last: `R 6`. No float takes part, only whole numbers.
"""
import sys

BILLION = 10**9
MOST_AMOUNT = 9 * 10**15
SIZE = 8


def count(bits):
    """The least count of billionths that is no smaller than a float; None where that is not finite."""
    sign, field, digits = bits >> 63, bits >> 52 & 2047, bits & 2**52 - 1
    if field == 2047:
        return None
    # the float is n * 2^e
    n, e = digits + 2**52 * (field > 0), max(field, 1) - 1075
    parts = (-n if sign else n) * BILLION
    return parts * 2**e if e >= 0 else -(-parts // 2**-e)


def line(bits):
    found = count(bits)
    if found is None:
        return "R 11\n"
    return "R 13\n" if abs(found) > MOST_AMOUNT else "%d\n" % found


def lines(data):
    """The line of each pattern."""
    parts = [data[at : at + SIZE] for at in range(0, len(data), SIZE)]
    return ["R 6\n" if len(part) < SIZE else line(int.from_bytes(part, "little")) for part in parts]


def main():
    sys.stdout.write("".join(lines(sys.stdin.buffer.read())))


if __name__ == "__main__":
    main()
