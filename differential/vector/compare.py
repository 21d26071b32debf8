"""Compares floatrun's lines with the oracle's, and counts what the records met.

    python3 compare.py RECORDS OURS TOLD NOTES PLATFORM

OURS is what floatrun wrote, TOLD and NOTES what `oracle routed NOTES` did, and drifts.py for records with
a drift, and PLATFORM what `oracle platform` did. Every byte of OURS and TOLD has to agree; the first line
that does not is printed, and the status is then 1. PLATFORM is glft.rs as published: it is measured, not
held to.
"""
import collections
import math
import re
import struct
import sys

RECORD = struct.Struct("<4dQdqd")
PLANS = {0: "no run", 1: "a plan of 1 step", 11000: "a plan of 11,000 steps"}


def float_of(digits):
    return struct.unpack(">d", bytes.fromhex(digits))[0]


def records(path):
    with open(path, "rb") as file:
        while record := file.read(RECORD.size):
            yield record


def shown(record):
    if len(record) < RECORD.size:
        return "a record of %d bytes" % len(record)
    words = struct.unpack("<8Q", record)
    names = ("k", "alpha", "eta", "base", "bound", "tau", "q", "beta")
    q = words[6] - (words[6] >> 63 << 64)
    return ", ".join(
        "%s %s" % (name, word if name == "bound" else q if name == "q" else "%016X" % word)
        for name, word in zip(names, words)
    )


def times(n):
    if n < 2:
        return ("no rebalancing", "1 rebalancing")[n]
    return ("2" if n == 2 else "3 to 5" if n <= 5 else "6 or more") + " rebalancings"


def cause(words):
    """The words of a failure, without its numbers."""
    words = re.sub(r'^NumericalError\("glft: (.*)"\)$', r"\1", words)
    return re.sub(r"(not finite): .*", r"\1", words)


def kinds(line, note):
    """The names under which a case is counted."""
    fields = line.split()
    rebalancings, steps, *words = note.split(" ", 2)
    rebalancings, steps = int(rebalancings), int(steps)
    if fields[0] == "V":
        yield "V"
        yield "V, " + times(rebalancings)
        if rebalancings == 0 and steps in PLANS:
            yield "V, " + PLANS[steps]
        if fields[2] == "-":
            yield "V, no bid"
        if fields[3] == "-":
            yield "V, no ask"
    elif fields[0] == "C":
        yield "C"
        yield "C, " + ("at once" if rebalancings == 0 else "after " + times(rebalancings))
    else:
        yield "R " + fields[1]
        if fields[1] == "11":
            yield "R 11, %s (%s)" % (cause(words[0].strip()), times(rebalancings))


def drifting(record):
    """Whether a record has a drift."""
    return len(record) == RECORD.size and RECORD.unpack(record)[7] != 0.0


def drift_kinds(record, line):
    """The names under which a record with a drift is counted besides."""
    _, alpha, eta, _, bound, tau, _, beta = RECORD.unpack(record)
    yield "drift, " + (line[0] if line[0] in "VC" else line.strip())
    if line[:4] in ("R 5\n", "R 1\n", "R 4\n") or tau <= 0.0:
        return
    lots = [float(q) for q in range(-bound, bound + 1)]
    entries = [((alpha * q) * q - beta * q) + 2.0 * eta for q in lots]
    if any(map(math.isnan, entries)):
        yield "drift, an entry that is no number"
    elif not all(map(math.isfinite, entries)):
        yield "drift, an infinite entry"
    elif min(entries) < 0.0:
        yield "drift, an entry below zero: " + (line[0] if line[0] in "VC" else line.strip())


class Distances:
    """How far the platform's distances lie from the routed ones."""

    def __init__(self):
        self.relative = []
        self.same = 0
        self.otherwise = collections.Counter()

    def take(self, line, other):
        ours, theirs = line.split(), other.split()
        if theirs == ["-"]:
            return
        if ours[0] != "V" or theirs[0] != "V":
            if ours != theirs:
                self.otherwise["%s for %s" % (theirs[0], ours[0])] += 1
            return
        for a, b in zip(ours[2:4], theirs[2:4]):
            if a == b:
                self.same += a != "-"
                continue
            x, y = float_of(a), float_of(b)
            self.relative.append(abs(x - y) / abs(x) if x else float("inf"))

    def show(self):
        far = sorted(self.relative)
        count = len(far) + self.same
        print("glft.rs as published, against the routed one:")
        print("  %d distances, %d of them the same bit for bit" % (count, self.same))
        if far:
            print("  largest relative difference %.3g, mean %.3g, median of those that differ %.3g"
                  % (far[-1], sum(far) / count, far[len(far) // 2]))
            for limit in (1e-15, 1e-13, 1e-11):
                print("  above %g: %d" % (limit, sum(r > limit for r in far)))
        print("  calls that end otherwise: %d %s" % (sum(self.otherwise.values()), dict(self.otherwise) or ""))


def main():
    paths = sys.argv[1:]
    counts = collections.Counter()
    bounds = collections.Counter()
    distances = Distances()
    differing = 0
    files = [open(p) for p in paths[1:]]
    total = 0
    for number, record in enumerate(records(paths[0]), 1):
        ours, told, note, platform = (f.readline() for f in files)
        total = number
        if ours != told or not told.endswith("\n"):
            differing += 1
            if differing == 1:
                print("line %d differs: %s" % (number, shown(record)))
                print("  floatrun: " + ours[:400].rstrip())
                print("  %s: %s" % ("quoting.py" if drifting(record) else "glft.rs", told[:400].rstrip()))
        counts.update(kinds(told, note.rstrip("\n")))
        if drifting(record):
            counts.update(drift_kinds(record, told))
        if told[0] == "V":
            bounds[RECORD.unpack(record)[4]] += 1
        distances.take(told, platform)
    for f, path in zip(files, paths[1:]):
        if f.read(1):
            print("%s has more lines than there are records" % path)
            differing += 1
    for kind in sorted(counts):
        print("%7d  %s" % (counts[kind], kind))
    if bounds:
        print("V at %d bounds, from %d to %d, the fewest at one of them %d"
              % (len(bounds), min(bounds), max(bounds), min(bounds.values())))
    distances.show()
    print("%d cases, %d differ" % (total, differing))
    sys.exit(1 if differing else 0)


if __name__ == "__main__":
    main()
