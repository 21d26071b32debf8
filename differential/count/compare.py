"""Compares countrun's lines with glft.rs's and counting.py's, and counts what the records met.

    python3 compare.py RECORDS OURS ROUTED PLATFORM RECKONED

OURS is what countrun wrote, ROUTED and PLATFORM what `oracle routed` and `oracle platform` did, and RECKONED what
counting.py did. Every byte of the four has to agree, and of two where a record has a drift, to which glft.rs has no
answer; the first line that does not is printed, and the status is then 1. Which of the two rows is the larger is asked
of counting.py's row sums, and whether it decides: whether the smaller one alone would give another line. With a drift
it is asked whether the two rows of either end would give the line.
"""
import collections
import itertools
import math
import os
import sys

import counting

sys.path.insert(0, os.path.join(os.path.dirname(os.path.abspath(__file__)), "..", "vector"))
import compare  # noqa: E402, the float layer's

NAMES = ("countrun", "glft.rs", "as published", "counting.py")
SIZES = {0: "no time", 1: "1 step", 9: "2 to 9 steps", 99: "10 to 99", 999: "100 to 999", 10998: "1,000 to 10,998",
         10999: "10,999", 11000: "11,000"}


def larger(end, beside):
    return "equal rows" if end == beside else "the end row" if end > beside else "the row next to it"


def cause(end, beside, size):
    """Why a plan is refused."""
    if size == 0.0:
        return "time × norm zero"
    if max(end, beside) < math.inf:
        return "time × norm infinite"
    return "a row infinite: " + ("both" if end == beside else larger(end, beside) + " alone")


def met_drift(record, line):
    """The names under which a record with a drift is counted besides."""
    _, alpha, eta, _, bound, tau, _, beta = counting.RECORD.unpack(record)
    yield "drift, " + (line if line[0] == "R" else line[0])
    if line in ("R 5", "R 1", "R 4", "N 0"):
        return
    entries = [counting.entry(alpha, beta, eta, lots) for lots in range(-bound, bound + 1)]
    sums = list(counting.row_sums(alpha, beta, eta, bound))
    if any(map(math.isnan, entries)):
        yield "drift, an entry that is no number"
    elif not all(map(math.isfinite, entries)):
        yield "drift, an infinite entry"
    else:
        yield from ["drift, an entry below zero"] * (min(entries) < 0.0)
        yield "drift, the largest row " + ("at an end" if max(sums) in (sums[0], sums[-1]) else "inside")
        for name, two in ("lower", sums[:2]), ("upper", sums[-2:]):
            yield from ["drift, the %s two rows would not give it" % name] * (counting.plan(tau * max(two)) != line)


def met(record, line):
    """The names under which a record is counted."""
    kind, number = line.split()[:2]
    if line in ("R 5", "R 1", "R 4", "R 6"):
        yield line
        return
    if kind == "N":
        yield "N"
        yield "N, " + next(name for most, name in SIZES.items() if int(number) <= most)
    if line == "N 0" or compare.drifting(record):
        return
    _, alpha, eta, _, bound, tau, _, beta = counting.RECORD.unpack(record)
    end, beside, *_ = counting.row_sums(alpha, beta, eta, bound)
    if kind == "R":
        yield line
        yield "%s, %s" % (line, cause(end, beside, tau * max(end, beside)))
        return
    if kind == "C":
        yield "C"
        yield "C, 11,001 needed" if number == "40C57C8000000000" else "C, more needed"
    yield "larger: " + larger(end, beside)
    if counting.plan(tau * min(end, beside)) != line:
        yield "larger: %s, which decides" % larger(end, beside)


def main():
    counts, bounds = collections.Counter(), collections.Counter()
    files = [open(path) for path in sys.argv[2:]]
    total = differing = 0
    for record, *lines in itertools.zip_longest(compare.records(sys.argv[1]), *files):
        total += 1
        drift = record is not None and compare.drifting(record)
        if drift and lines[1:3] == ["-\n"] * 2:
            lines = [lines[0], lines[3]]
        if record is None or None in lines or len(set(lines)) > 1 or not lines[0].endswith("\n"):
            differing += 1
            if differing == 1:
                print("line %d differs: %s" % (total, "no record" if record is None else compare.shown(record)))
                for name, line in zip(NAMES if len(lines) == 4 else NAMES[::3], lines):
                    print("  %s: %s" % (name, "no line" if line is None else line.strip()))
            continue
        line = lines[0].strip()
        counts.update(met(record, line))
        if drift:
            counts.update(met_drift(record, line))
        if line[0] != "R" and line != "N 0":
            bounds[counting.RECORD.unpack(record)[4]] += 1
    for name in sorted(counts):
        print("%7d  %s" % (counts[name], name))
    if bounds:
        print("plans at %d bounds, from %d to %d, the fewest at one of them %d"
              % (len(bounds), min(bounds), max(bounds), min(bounds.values())))
    print("%d records, %d differ" % (total, differing))
    sys.exit(1 if differing else 0)


if __name__ == "__main__":
    main()
