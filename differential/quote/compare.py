"""Compares deskrun's lines with the oracle's and with quoting.py's, and counts what the desks met.

    python3 compare.py DESKS OURS ROUTED NOTES PLATFORM STEPS [MOST]

OURS is what deskrun wrote, ROUTED and NOTES what `oracle routed NOTES` did, and PLATFORM what `oracle
platform` did. The status is 1 where a desk is not as document 01 expects:

- both quote, on the same sides and with the same steps, and where the distances are below 1,000 no
  price is more than three billionths from the routed glft.rs's (at larger ones the prices are recorded);
- or both report the cap, with the same numbers; or both refuse, by the same number;
- or they part by design: by 2, at a number beyond document 01's limits, which the Rust does not have;
  or by 13 or 14, where module 5, with its limits and its rounding up to billionths, gives deskrun's line
  for the Rust's own distances (quoting.py reckons it); or by quotes where the Rust refuses by 14, if its
  distances add up to no spread: it widens that to a min spread of 0, and here half of it is rounded up.

How near the prices come is printed, by the size of the larger distance: the largest difference, and how many
are above three billionths.

Where the Rust has quoting.py's model floats and time, its distances are ours, and module 5 over them has to
be deskrun's line, whichever that is. rust_decimal's conversion is not always the nearest float, so the Rust
may have other floats. Such desks are counted apart; a cap report's steps needed may differ there, as the
prices may, but floats that differ by more than a conversion makes are a fault.

Beside that, each line of OURS has to be quoting.py's, byte for byte, but for runs of more than MOST
(4,000 if it is not given) rows and steps, multiplied. Where there is a drift, which the Rust has not,
that is the comparison, with runs of any length. STEPS is the library that is made of
differential/sheet/steps.c. PLATFORM is glft.rs as published: it is measured, not held to.
"""
import collections
import fractions
import os
import struct
import sys

import quoting
from quoting import BILLION, MOST_AMOUNT, MOST_TIME

sys.path.append(os.path.join(os.path.dirname(os.path.abspath(__file__)), "..", "sheet"))
import fast  # noqa: E402

ENTRIES = ("exact", "wrapper", "closed form", "configuration", "model")
HELD = 20  # one of so many plans is taken by Python as well
PLANS = {0: "no run", 1: "1 step", quoting.STEPS: "11,000 steps"}
NEAR = 1000.0
WITHIN = 3
SIZES = (NEAR, 1e4, 1e5, 1e6, 1e7)
FLOATS = (*quoting.Model._fields[:7], "tau")
# by how much of itself a float may differ: one that is converted, and one that is reckoned from such
CONVERTED, RECKONED = 1e-15, 1e-13
# by how much of the larger one the sum of two distances may differ, of which the Rust's decimals keep 15 digits
KEPT = 1e-14
MOST_APART = {name: CONVERTED if name in ("k", "a", "tau") else RECKONED for name in FLOATS}

Note = collections.namedtuple("Note", "rebalancings distances floats")


def float_of(digits):
    return struct.unpack(">d", bytes.fromhex(digits))[0]


def kind(line):
    fields = line.split()
    return " ".join(fields[:2]) if fields[0] == "R" else fields[0]


def note_of(line):
    """The Rust's distances, None for an absent one, and its floats, None for no time; no such where it has none."""
    count, *fields = line.split(" ", 11)[:11]
    distances, floats = ([None if f in "-." else float_of(f) for f in part] for part in (fields[:2], fields[2:]))
    return Note(int(count), None if "." in fields[:2] else distances, None if fields[2] == "." else floats)


def floats_of(desk, entry):
    """Document 01's model floats and time, None for no time; no such where there is no model."""
    timed = entry in (quoting.EXACT, quoting.WRAPPER)
    try:
        model, _ = quoting.model_of(desk, desk.current if timed else 0)
    except quoting.Refused:
        return None
    return [*model[:7], quoting.time_left(desk) if timed else None]


def near_cap(ours, routed):
    """Whether two cap reports differ in the steps needed alone, and there by no more than other floats make."""
    (a, *left), (b, *others) = ours.split()[1:], routed.split()[1:]
    return left == others and abs(float_of(a) - float_of(b)) <= 1.0 + RECKONED * float_of(a)  # both rounded up


def size_of(distances):
    return max(abs(d) for d in distances if d is not None)


def difference(ours, theirs):
    """The larger of the two sides' differences, in billionths; None where other sides are quoted."""
    pairs = [(a, b) for a, b in zip(ours.split()[1:3], theirs.split()[1:3]) if (a, b) != ("-", "-")]
    if any("-" in pair for pair in pairs):
        return None
    return max(abs(int(a) - fractions.Fraction(b) * BILLION) for a, b in pairs)


def no_spread(desk, distances):
    """Whether both sides are there and have no spread, to the digits of the Rust's decimals, nor need any."""
    both = None not in distances and desk.min_spread == 0
    return both and sum(map(fractions.Fraction, distances)) <= KEPT * size_of(distances)


def beyond_limits(desk, entry):
    amounts = [getattr(desk, name) for name in quoting.SIGNED]
    times = [desk.terminal] + [desk.current] * (entry in (quoting.EXACT, quoting.WRAPPER))
    return max(map(abs, amounts)) > MOST_AMOUNT or max(times) > MOST_TIME or desk.bound >= 2**32


def module_5(desk, distances, steps):
    """deskrun's line for the Rust's distances, None where it has none."""
    if distances is None:
        return None
    try:
        return " ".join([quoting.prices(*quoting.build_quotes(desk, distances))] + steps)
    except quoting.Refused as refusal:
        return "R %d" % refusal.number


class Prices:
    """How far deskrun's prices lie from the Rust's, by the size of the larger distance."""

    def __init__(self):
        self.sizes = collections.defaultdict(list)

    def take(self, distances, far):
        size = size_of(distances)
        self.sizes[next((s for s in SIZES if size < s), None)].append(far)

    def show(self, name):
        print("prices against %s, in billionths:" % name)
        for size in [s for s in (*SIZES, None) if s in self.sizes]:
            far = self.sizes[size]
            what = "below %s" % format(int(size), ",") if size else "larger"
            print("  distances %s: %d desks, the largest difference %.6g, above three %d"
                  % (what, len(far), float(max(far)), sum(f > WITHIN for f in far)))


class Comparison:
    def __init__(self, most, advance):
        self.most, self.advance = most, advance
        self.counts = collections.Counter()
        self.design = collections.Counter()
        self.otherwise = collections.Counter()
        self.others = collections.Counter()
        self.routed, self.published = Prices(), Prices()
        self.reckoned = self.exactly = self.drifts = 0

    def other_floats(self, desk, entry, ours, note):
        """Whether the Rust's floats are others than document 01's, and what is wrong with them, or None."""
        floats = floats_of(desk, entry)
        if floats is None or note.floats is None:
            return False, None if floats == note.floats else "a model on one side alone"
        others = [x for x in zip(FLOATS, floats, note.floats) if x[1] != x[2]]
        off = [name for name, a, b in others if abs(a - b) > MOST_APART[name] * a]
        self.others[kind(ours)] += bool(others) and not off
        return bool(others), "other floats: " + " ".join(off) if off else None

    def quotes(self, ours, routed, distances):
        """What is wrong with quotes where the Rust quotes, or None."""
        far = difference(ours, routed)
        if far is None or ours.split()[3:] != routed.split()[3:]:
            return "other sides or steps"
        self.routed.take(distances, far)
        return "a price is off" if size_of(distances) < NEAR and far > WITHIN else None

    def fault(self, desk, entry, ours, routed, note):
        """What is wrong with a line, or None."""
        ours_kind, routed_kind = kind(ours), kind(routed)
        if ours_kind == "R 2" and beyond_limits(desk, entry):
            if ours != routed:
                self.design["2, a limit, where the Rust gives %s" % routed_kind] += 1
            return None
        others, wrong = self.other_floats(desk, entry, ours, note)
        if wrong:
            return wrong
        line = module_5(desk, note.distances, (routed if routed_kind == "Q" else ours).split()[3:])
        if line and not others:
            if ours != line:
                return "module 5 over the Rust's distances is " + line
            self.exactly += ours_kind == "Q"
        if ours_kind == routed_kind == "Q":
            return self.quotes(ours, routed, note.distances)
        if ours == routed or others and ours_kind == routed_kind == "C" and near_cap(ours, routed):
            return None
        if ours_kind in ("R 13", "R 14") and ours == line:
            self.design["%s, where the Rust gives %s" % (ours_kind[2:], routed_kind)] += 1
            return None
        if (ours_kind, routed_kind) == ("Q", "R 14") and ours == line and no_spread(desk, note.distances):
            self.design["quotes, no spread before they are widened, where the Rust gives R 14"] += 1
            return None
        return "another end"

    def reckon(self, desk, entry, ours):
        try:
            line = quoting.line(desk, entry, self.most)
        except quoting.TooLong:
            return None
        self.reckoned += 1
        return None if ours == line else "quoting.py has " + line

    def drifting(self, desk, entry, ours, others):
        """The faults of a line with a drift."""
        before = self.advance.plans
        line = quoting.line(desk, entry)
        self.drifts += 1
        self.count(entry, line, max(0, self.advance.plans - before - (line[0] != "C")), "drift, ")
        return ["quoting.py has " + line] * (ours != line) + ["the Rust has a line"] * (set(others) != {"-"})

    def count(self, entry, ours, rebalancings, kinds=""):
        name = kinds + ENTRIES[entry]
        fields = ours.split()
        self.counts["%s: %s" % (name, kind(ours))] += 1
        if fields[0] == "Q":
            for side, price in zip(("bid", "ask"), fields[1:3]):
                if price == "-":
                    self.counts["%s: Q, no %s" % (name, side)] += 1
            if len(fields) > 3 and not rebalancings and int(fields[3]) in PLANS:
                self.counts["%s: Q, %s" % (name, PLANS[int(fields[3])])] += 1
        if fields[0] in "QC" and rebalancings:
            self.counts["%s: %s, after rebalancing" % (name, fields[0])] += 1

    def measure(self, ours, routed, note, platform):
        if kind(routed) != kind(platform):
            self.otherwise["%s for %s" % (kind(platform), kind(routed))] += 1
        elif kind(ours) == kind(platform) == "Q":
            far = difference(ours, platform)
            if far is None:
                self.otherwise["other sides"] += 1
            else:
                self.published.take(note.distances, far)

    def take(self, record, ours, routed, note, platform):
        """The faults of a line."""
        if "" in (ours, routed, note, platform):
            return ["no line"]
        if len(record) < quoting.RECORD.size:
            return [] if ours == routed == "R 6" else ["a record that is cut short"]
        desk, entry = quoting.unpack(record)
        if desk.drift:
            return self.drifting(desk, entry, ours, (routed, platform))
        note = note_of(note)
        self.count(entry, ours, note.rebalancings)
        self.measure(ours, routed, note, platform)
        faults = [self.fault(desk, entry, ours, routed, note), self.reckon(desk, entry, ours)]
        return [f for f in faults if f]

    def show(self):
        for name in sorted(self.counts):
            print("%7d  %s" % (self.counts[name], name))
        print("parted by design:")
        for name in sorted(self.design):
            print("%7d  %s" % (self.design[name], name))
        self.routed.show("the routed glft.rs")
        print("  quotes with the Rust's own floats, exactly module 5's over its distances: %d" % self.exactly)
        print("  desks whose model floats differ by the decimals' conversion: %d %s"
              % (sum(self.others.values()), dict(+self.others) or ""))
        self.published.show("glft.rs as published")
        print("  calls of it that end otherwise than the routed one's: %d %s"
              % (sum(self.otherwise.values()), dict(self.otherwise) or ""))
        print("lines that quoting.py reckoned again: %d, and %d with a drift" % (self.reckoned, self.drifts))
        print("steps.c against quoting.py: one of %d of %d plans: %d differ"
              % (HELD, self.advance.plans, self.advance.differing))


def main():
    paths, library, most = sys.argv[1:6], sys.argv[6], int(sys.argv[7]) if len(sys.argv) > 7 else 4000
    advance = quoting.advance = fast.Advance(library, HELD)
    comparison = Comparison(most, advance)
    differing = total = 0
    files = [open(p) for p in paths[1:]]
    with open(paths[0], "rb") as desks:
        for total, record in enumerate(quoting.records(desks), 1):
            lines = [f.readline().rstrip("\n") for f in files]
            faults = comparison.take(record, *lines)
            differing += bool(faults)
            if faults and differing <= 5:
                print("line %d: %s" % (total, "; ".join(faults)))
                print("  " + (str(quoting.unpack(record)) if len(record) == quoting.RECORD.size else "cut short"))
                for name, line in zip(("deskrun", "glft.rs", "notes", "published"), lines):
                    print("  %s: %s" % (name, line))
    for f, path in zip(files, paths[1:]):
        if f.read(1):
            print("%s has more lines than there are records" % path)
            differing += 1
    comparison.show()
    print("%d desks, %d differ" % (total, differing))
    sys.exit(1 if differing or advance.differing else 0)


if __name__ == "__main__":
    main()
