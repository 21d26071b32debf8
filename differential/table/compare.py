"""Compares what tablerun writes for seeded sequences of calls with table.py's lines, byte for byte.

    python3 compare.py SEED COUNT TABLERUN STEPS

COUNT is about the number of records, and STEPS the library that is made of differential/sheet/steps.c. A run has up to
150 of records.py's, and at the end there are some around 630, which 64 kB hold; half of the runs end in a record that
is cut short. Some input reaches the program a few bytes at a time. As long as nothing was set since a clearing, each of
the program's answers has to be quoting.py's without any table as well, and two calls whose holdings and drifts are
opposite have to face each other. Prints what was met; the status is 1 where a byte differs, where such an answer does
not hold, or where fast.py meets steps that are not quoting.py's.
"""
import collections
import math
import os
import sys

import table  # first: it says where sheet and quoting are

import fast
import mirror
import quoting
import sheet
from pieces import PIECES, SIZES, written
from quoting import EXACT, RECORD, OverCap, Refused, elementary, unpack
from records import Tables, turned
from table import BOUND, CLEAR, FILLED, LEAST, LEND, LENGTH, NEXT, OFFSET, QUOTE, ROWS, SET, STEPS

sys.path.insert(0, os.path.dirname(os.path.abspath(sheet.__file__)))  # for its compare.py, not the quotes'
import compare  # noqa: E402

BLOCK = 630
BLOCKS = (0, 1, BLOCK - 1, BLOCK, BLOCK + 1, 2 * BLOCK)
MOST_RUN = 150
MOST_KEPT = 500
ROLES = ("filled rows", "next row", "steps", "length", "bound", "alpha", "beta", "eta", "tau", "weight", "offset")
LENGTHS = {LEAST - 1: "below 4,096", LEAST: "4,096", table.ROOM: "4,097 to 4,200", math.inf: "above 4,200"}


# ---- vectors that were made before
def remembered(make):
    """The same function. What it gave is kept by the bits that it was given, a refusal or a report too."""
    kept = {}

    def ended(alpha, beta, eta, bound, tau, most):
        try:
            return make(alpha, beta, eta, bound, tau, most), None
        except (Refused, OverCap) as end:
            return None, end

    def again(alpha, beta, eta, bound, tau, most=math.inf):
        key = (bound, most, *map(elementary.bits_of, (alpha, beta, eta, tau)))
        if key not in kept:
            if len(kept) == MOST_KEPT:
                kept.clear()
            kept[key] = ended(alpha, beta, eta, bound, tau, most)
        vector, end = kept[key]
        if end is not None:
            raise end.with_traceback(None)
        return vector

    return again


# ---- what was met
class Watched(table.Table):
    """The table, and what a call did to it. Nothing that it answers is changed."""

    def __init__(self):
        super().__init__()
        self.makers, self.changed = [None] * ROWS, [True] * ROWS  # a row's desk, and whether it was set since
        self.begin(None)

    def begin(self, desk):
        """Before a quoting call."""
        self.desk, self.looked, self.row, self.stored, self.causes = desk, False, None, None, []

    def sound(self):
        sound = super().sound()
        if not sound:
            self.causes = sorted(set(causes(self)))
        return sound

    def agreeing(self, key):
        self.looked, self.row = True, super().agreeing(key)
        return self.row

    def store(self, *vector):
        self.stored = self.number(NEXT)
        self.makers[self.stored], self.changed[self.stored] = self.desk, False
        super().store(*vector)

    def set(self, role, row, place, bits):
        before = self.held()
        super().set(role, row, place, bits)
        if self.held() != before and role >= STEPS:
            self.changed[row] = True


def causes(rows):
    """What 24 finds."""
    filled, coming = rows.number(FILLED), rows.number(NEXT)
    if filled > ROWS:
        yield "filled rows"
    if coming >= ROWS:
        yield "next row"
    elif filled < ROWS and coming != filled:
        yield "next row that is not their count"
    for row in range(filled if filled <= ROWS else 0):
        steps, length, bound = (rows.number(role, row) for role in (STEPS, LENGTH, BOUND))
        if steps > quoting.STEPS:
            yield "steps"
        if not 1 <= bound <= quoting.MOST_LOTS:
            yield "bound"
        elif length != 2 * bound + 1:
            yield "length"


def met_quotes(watched, steps, before):
    """The names under which quotes are counted."""
    desk, row = watched.desk, watched.row
    yield "Q"
    yield from ["Q, a drift"] * (desk.drift != 0)
    if row is not None:
        yield "Q, reused"
        yield "Q, reused, row %d" % row
        if watched.changed[row]:
            yield "Q, reused, a row that was set"
        elif (desk.k, desk.lot_size) != (watched.makers[row].k, watched.makers[row].lot_size):
            yield "Q, reused, another k or lot size"
        return
    yield "Q, new"
    yield "Q, new, a row replaced" if before == ROWS else "Q, new, %d rows filled" % before
    yield "Q, new, bound " + compare.named(compare.BOUNDS, desk.bound)
    yield "Q, new, steps " + compare.named(compare.STEPS, steps)
    if any(watched.numbers[OFFSET][watched.stored]):
        yield "Q, new, rebalanced"


def met_call(watched, line, before):
    """The names of a quoting call."""
    fields = line.split()
    if len(fields) == 2:
        yield "R 2, no call"
        return
    yield fields[-1]
    if fields[0] == "Q":
        yield from met_quotes(watched, int(fields[3]), before)
    elif fields[0] == "C":
        yield "C, after a rebalancing" if int(fields[3]) else "C, at the first plan"
    else:
        name = "R " + fields[1]
        yield name
        if watched.looked:
            yield name + (", new" if watched.row is None else ", reused")
        if watched.causes:
            yield name + (", several" if len(watched.causes) > 1 else ", %s alone" % watched.causes[0])


def met_other(watched, words, line, before):
    """The names of a record that does not quote."""
    kind = words[11]
    if kind == CLEAR:
        yield "clearing, " + line
    elif kind == SET:
        if watched.lent < LEAST:
            yield "set, fewer than 4,096 numbers"
        elif watched.held() != before:
            yield "set, " + ROLES[words[0]]
        else:
            yield "set, nothing or the same"
    elif kind == LEND:
        yield "lent, " + compare.named(LENGTHS, words[0])
    else:
        yield "another kind"


# ---- the comparison
class Comparison:
    def __init__(self, seed, program):
        self.made, self.program = Tables(seed), program
        self.counts = collections.Counter()
        self.records = self.differing = self.apart = 0

    def told(self, records):
        """The lines of a run, and for each the desk whose answer does not depend on the table, if it is so."""
        watched, clean = Watched(), False
        for record in records:
            words = RECORD.unpack(record) if len(record) == RECORD.size else [None] * 13
            kind, desk = words[11], None
            if kind == QUOTE:
                desk, _ = unpack(record)
                watched.begin(desk)
                before = watched.number(FILLED)
                line = watched.line(record)
                self.counts.update(met_call(watched, line, before))
            else:
                before = watched.held()
                line = watched.line(record)
                self.counts.update(["R 6"] if kind is None else met_other(watched, words, line, before))
                clean = line == "Z" or (clean and kind != SET)
            yield line, desk if clean and watched.lent >= LEAST else None

    def tell(self, words):
        if self.differing + self.apart <= 10:
            print(words)

    def hold(self, desks, lines):
        """The program's answers on stretches where nothing was set: without a table, and mirrored."""
        seen = {}
        for desk, line in zip(desks, lines):
            if desk is None:
                continue
            answer = line if desk.bound > sheet.MOST_BOUND else line.rsplit(" ", 3)[0]
            alone = quoting.line(desk, EXACT)
            self.counts["held without a table"] += 1
            if answer != alone:
                self.apart += 1
                self.tell("with a table %s, without %s: %s" % (answer, alone, desk))
            seen[desk] = answer
            other = seen.get(turned(desk))
            if other is not None:
                self.counts["mirrored"] += 1
                if not mirror.mirrored(desk, answer, other):
                    self.apart += 1
                    self.tell("not mirrored: %s and %s: %s" % (answer, other, desk))

    def run(self, count):
        """One run of the program."""
        records = self.made.sequence(count)
        if self.made.chance(0.5):
            records.append(records[-1][: self.made.whole(1, RECORD.size - 1)] if records else b"\x01")
        told, desks = zip(*self.told(records)) if records else ((), ())
        size = self.made.rng.choice(SIZES)
        ours = written(self.program, b"".join(records), size).decode("ascii", "replace")
        told = [line + "\n" for line in told]
        if ours != "".join(told):
            self.differing += 1
            self.tell("a run of %d records:\n%s" % (len(records), compare.difference(told, ours)))
        self.hold(desks, ours.splitlines())
        self.records += len(records)
        self.counts["runs"] += 1
        self.counts["runs in pieces"] += size < min(len(records) * RECORD.size, PIECES)


def main():
    seed, count, program, library = int(sys.argv[1]), int(sys.argv[2]), sys.argv[3], sys.argv[4]
    advance = quoting.advance = fast.Advance(library)
    quoting.value_vector = remembered(quoting.value_vector)
    comparison = Comparison(seed, program)
    while comparison.records < count:
        comparison.run(comparison.made.whole(0, MOST_RUN))
    for size in BLOCKS:
        comparison.run(size)
    for name in sorted(comparison.counts, key=compare.in_order):
        print("%7d  %s" % (comparison.counts[name], name))
    differing, apart = comparison.differing, comparison.apart
    print("steps.c against quoting.py: the first steps of %d plans: %d differ" % (advance.plans, advance.differing))
    print("%d records: %d runs differ, %d answers do not hold" % (comparison.records, differing, apart))
    sys.exit(1 if differing or apart or advance.differing else 0)


if __name__ == "__main__":
    main()
