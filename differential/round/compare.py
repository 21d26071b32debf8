"""Compares what roundrun writes for seeded floats with rounding.py's lines.

    python3 compare.py SEED COUNT ROUNDRUN

COUNT is the number of floats at least. roundrun gets the corner floats of cases.py and then those of
floats.py, in runs around the 8,192 that 64 kB hold and in longer ones; half of the runs end inside a
pattern. Some reach the program a few bytes at a time. quoting.py's rounding, over fractions, has to give
the same counts. Prints what was met; the status is 1 where a line or a count differs.
"""
import collections
import itertools
import os
import sys

sys.path += [os.path.join(os.path.dirname(os.path.abspath(__file__)), "..", name) for name in ("quote", "sheet")]
import cases  # noqa: E402
import quoting  # noqa: E402
import rounding  # noqa: E402
from floats import Floats, packed  # noqa: E402
from pieces import SIZES, written  # noqa: E402

BLOCK = 8192
RUNS = (0, 1, BLOCK - 1, BLOCK, BLOCK + 1)
LONGER = 20000


def difference(told, ours):
    """The first line that differs."""
    pairs = enumerate(itertools.zip_longest(told, ours.decode("ascii", "replace").splitlines(True)), 1)
    return next("  line %d: told %r, ours %r" % (i, a, b) for i, (a, b) in pairs if a != b)


def alike(bits):
    """Whether quoting.py has the same count."""
    found = rounding.count(bits)
    return found is None or quoting.billionths(quoting.elementary.float_of(bits)) == found


def met(bits, line):
    """The names under which a float is counted."""
    if line[0] == "R":
        yield line.strip()
        return
    x = quoting.elementary.float_of(bits)
    yield "counts, %s" % ("negative floats" if x < 0.0 else "floats that are not negative")
    yield from ["counts of 0, negative floats"] * (x < 0.0 and line == "0\n")
    yield from ["counts, whole numbers of billionths"] * (x * 512.0 % 1.0 == 0.0)
    yield from ["counts, halfway between two"] * (x * 1024.0 % 2.0 == 1.0)
    yield from ["counts above a million units"] * (abs(x) > 1e6)


class Comparison:
    def __init__(self, seed):
        self.floats = Floats(seed)
        self.counts = collections.Counter()
        self.floats_met = self.differing = 0

    def take(self, program, patterns):
        """A run of floats, and then, or not, some bytes of one more."""
        rng = self.floats.rng
        data = packed(patterns) + packed([self.floats.drawn()])[: rng.choice((0, rng.randint(1, 7)))]
        told = rounding.lines(data)
        ours = written(program, data, rng.choice(SIZES))
        if ours != "".join(told).encode():
            self.differing += 1
            print("a run of %d floats:\n%s" % (len(patterns), difference(told, ours)))
        for bits, line in zip(patterns, told):
            self.counts.update(met(bits, line))
            if not alike(bits):
                self.differing += 1
                print("%016X: rounding.py has %s, and quoting.py another count" % (bits, line.strip()))
        self.counts["R 6"] += len(told) > len(patterns)
        self.counts["runs"] += 1
        self.floats_met += len(patterns)


def main():
    seed, count, program = int(sys.argv[1]), int(sys.argv[2]), sys.argv[3]
    comparison = Comparison(seed)
    comparison.take(program, cases.patterns())
    for length in itertools.chain(RUNS, itertools.repeat(LONGER)):
        if comparison.floats_met >= count:
            break
        comparison.take(program, [comparison.floats.drawn() for _ in range(length)])
    for name in sorted(comparison.counts):
        print("%7d  %s" % (comparison.counts[name], name))
    print("%d floats: %d differ" % (comparison.floats_met, comparison.differing))
    sys.exit(1 if comparison.differing else 0)


if __name__ == "__main__":
    main()
