"""The first plan's count of steps, by document 01 and change requests 6 and 7, reckoned apart from the library.

    python3 counting.py < RECORDS > LINES

RECORDS are floatrun's, and LINES countrun's: `N` and the count; `C`, the steps needed and the budget left; or `R` and
a refusal's number. Python's floats are binary64, and each operation on them rounds once, so document 01's order of
operations is written down as it stands. All rows are read.
"""
import math
import struct
import sys

RECORD = struct.Struct("<4dQdqd")
MOST_LOTS = 200
CAP = 11000


def entry(alpha, beta, eta, lots):
    """The diagonal at so many lots."""
    q = float(lots)
    return ((alpha * q) * q - beta * q) + 2.0 * eta


def row_sums(alpha, beta, eta, bound):
    """Each row's size of the diagonal + eta × (left + right), from minus the bound to the bound."""
    for lots in range(-bound, bound + 1):
        left = 1.0 if lots > -bound else 0.0
        right = 1.0 if lots < bound else 0.0
        yield abs(entry(alpha, beta, eta, lots)) + eta * (left + right)


def plan(size):
    """The line of a plan for time × norm."""
    if not (math.isfinite(size) and size > 0.0):
        return "R 11"
    needed = max(float(math.ceil(size / 2.0)), 1.0)
    if needed > CAP:
        return "C %s %d" % (struct.pack(">d", needed).hex().upper(), CAP)
    return "N %d" % needed


def answer(k, alpha, eta, base, bound, tau, q, beta):
    """The line of a record's numbers."""
    if not all(math.isfinite(x) and x > 0.0 for x in (k, alpha, eta, base)):
        return "R 5"
    if not (math.isfinite(tau) and math.isfinite(beta)):
        return "R 5"
    if not 1 <= bound <= MOST_LOTS:
        return "R 1"
    if abs(q) > bound:
        return "R 4"
    if tau <= 0.0:
        return "N 0"
    if not all(math.isfinite(entry(alpha, beta, eta, lots)) for lots in range(-bound, bound + 1)):
        return "R 11"
    return plan(tau * max(0.0, *row_sums(alpha, beta, eta, bound)))


def line(record):
    return "R 6" if len(record) < RECORD.size else answer(*RECORD.unpack(record))


def main():
    while record := sys.stdin.buffer.read(RECORD.size):
        print(line(record))


if __name__ == "__main__":
    main()
