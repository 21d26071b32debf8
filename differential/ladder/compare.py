"""Compares what ladderrun and ladder write for seeded input with ladder.py's bytes.

    python3 compare.py SEED COUNT LADDERRUN LADDER STEPS

COUNT is about the number of lines for each of the two, not of ladders: most have few lines, some have
401. STEPS is the library that is made of differential/sheet/steps.c. ladderrun gets the records of
records.py, up to 40 at once, and at the end runs of brief ones around 630, which 64 kB hold; half of
the runs end in a record that is cut short. The same records with the opposite drift are its as well: each
ladder has to face the other's, read upward. ladder gets sheets of up to 8 such desks, two of five
damaged as in differential/sheet/compare.py, and at the end sheets around the longest. Some input
reaches the programs a few bytes at a time. Prints what was met; the status is 1 where a byte differs,
or where fast.py meets steps that are not quoting.py's.
"""
import collections
import io
import os
import sys

import ladder  # first: it says where sheet and quoting are

import fast
import quoting
import sheet
from facing import answers, faces, turned
from pieces import PIECES, SIZES, written
from quoting import MOST_AMOUNT, RECORD, Desk, unpack
from records import Ladders

sys.path.insert(0, os.path.dirname(os.path.abspath(sheet.__file__)))  # for its compare.py, not the quotes'
import compare  # noqa: E402

BLOCK = 630
BRIEF_RUNS = (0, 1, BLOCK - 1, BLOCK, BLOCK + 1, 2 * BLOCK)
MOST_RUN, MOST_SHEET = 40, 8
MOST_HOLDING = 2**55 - 1  # twice that is eight groups
LONG = (sheet.MOST_BYTES - 1, sheet.MOST_BYTES, sheet.MOST_BYTES + 1, sheet.MOST_BYTES + 1000)


class Sheets(compare.Sheets):
    """Sheets of a few desks, each with a ladder."""

    def __init__(self, seed):
        super().__init__(seed)
        self.desks = Ladders(seed)
        self.rng = self.desks.rng

    def desk(self):
        """A desk with no negative number but the holding, which a record cannot say."""
        desk = Desk(*map(abs, self.desks.desk()))
        return desk._replace(holding=self.rng.choice((1, -1)) * min(MOST_HOLDING, desk.holding))

    def sheet(self):
        s = b"".join(sheet.packed(self.desk()) for _ in range(self.rng.randint(0, MOST_SHEET)))
        if not s or self.rng.random() < 0.6:
            return s
        damage = (self.cut, self.byte_changed, self.byte_lost, self.zero_group, self.many_groups, self.noise)
        return self.rng.choice(damage)(s)

    def of_length(self, length):
        """One record again and again, the last cut off."""
        s = sheet.packed(self.desks.one_lot())
        return (s * (length // len(s) + 1))[:length]


# ---- what was met
def kind(line):
    """The first letter, and a refusal's number."""
    return line.strip() if line[0] == "R" else line[0]


def met(desk, lines, plans):
    """The names under which a ladder and its lines are counted. A plan after the first follows a rebalancing."""
    kinds = collections.Counter(map(kind, lines))
    yield "ladders"
    yield "ladders, bound " + compare.named(compare.BOUNDS, desk.bound)
    if abs(desk.holding) > MOST_AMOUNT:
        yield "ladders, holding beyond the limit"
    for name in kinds:
        yield from ["lines " + name] * kinds[name]
        if name[0] == "R":
            yield "ladders, %s on %s" % (name, "each line" if len(kinds) == 1 else "some lines")
    for line in lines:
        if line[0] == "Q":
            yield "lines Q, steps " + compare.named(compare.STEPS, int(line.split()[3]))
    if kinds["C"]:
        yield "ladders, cap " + ("after rebalancing" if plans else "at the first plan")
    elif plans > 1:
        yield "ladders, rebalanced"


def met_record(record, lines, plans):
    """The names of a record of ladderrun."""
    if len(record) < RECORD.size:
        yield "whole R 6"
        return
    desk, length = unpack(record)
    if lines[0][0] == "R":
        yield "whole " + lines[0].strip()
        if desk.bound > sheet.MOST_BOUND:
            yield "whole R 2, no call"
        return
    yield from met(desk, lines[1:-1], plans)
    if length == ladder.least_room(desk.bound):
        yield "ladders, buffer just long enough"
    if length > ladder.MOST_ROOM:
        yield "ladders, buffer above 32,768"
    if desk.drift:
        yield "ladders, a drift"
        yield from ["lines %s, a drift" % kind(line) for line in lines[1:-1]]


def met_sheet(desk, lines, plans):
    """The names of a record of a sheet, or of what ends it. A ladder has three lines at least."""
    if len(lines) == 1:
        return ["sheets, whole " + lines[0].strip()]
    return met(desk, lines, plans)


# ---- the comparisons
class Comparison:
    def __init__(self, seed, count, advance):
        self.seed, self.count, self.advance = seed, count, advance
        self.counts = collections.Counter()
        self.differing = self.plans = 0

    def new_plans(self):
        """The plans that were taken since the last call."""
        before, self.plans = self.plans, self.advance.plans
        return self.plans - before

    def hold(self, what, program, s, size, told):
        """Holds what the program writes to what is told: the count of lines."""
        ours = written(program, s, size)
        if ours != "".join(told).encode():
            self.differing += 1
            if self.differing <= 10:
                print("%s:\n%s" % (what, compare.difference(told, ours.decode("ascii", "replace"))))
        self.counts["input in pieces"] += size < min(len(s), PIECES)
        return len(told)

    def run(self, program, made, records):
        """One run of ladderrun."""
        if made.chance(0.5):
            records.append(made.record()[: made.whole(1, RECORD.size - 1)])
        told = []
        for record in records:
            (lines,) = ladder.lines(io.BytesIO(record))
            self.counts.update(met_record(record, lines, self.new_plans()))
            told += lines
        self.counts["runs"] += 1
        what = "a run of %d records" % len(records)
        self.mirror(program, records)
        return self.hold(what, program, b"".join(records), made.rng.choice(SIZES), told)

    def mirror(self, program, records):
        """Holds the program's ladders to those of the opposite drifts."""
        ours, others = (answers(written(program, b"".join(s), PIECES)) for s in (records, map(turned, records)))
        if len(ours) != len(records) or len(others) != len(records):
            self.differing += 1
            return
        for record, answer, other in zip(records, ours, others):
            self.counts["mirrored"] += 1
            if not faces(record, answer, other):
                self.differing += 1
                print("not mirrored: %s\n  %s\n  %s" % (unpack(record), answer, other))

    def sheet(self, program, made, s):
        """One sheet for ladder."""
        told = []
        for desk, lines in ladder.answers(s):
            self.counts.update(met_sheet(desk, lines, self.new_plans()))
            told += lines
        self.counts["sheets"] += 1
        return self.hold("a sheet of %d bytes: %s" % (len(s), s.hex()[:400]), program, s, made.rng.choice(SIZES), told)

    def ladderrun(self, program):
        made, done = Ladders(self.seed), 0
        while done < self.count:
            done += self.run(program, made, [made.record() for _ in range(made.whole(0, MOST_RUN))])
        for size in BRIEF_RUNS:
            done += self.run(program, made, [made.brief_record() for _ in range(size)])
        return done

    def ladder(self, program):
        made, done = Sheets(self.seed), 0
        while done < self.count:
            done += self.sheet(program, made, made.sheet())
        for length in LONG:
            done += self.sheet(program, made, made.of_length(length))
        return done


def main():
    seed, count, ladderrun, program, library = int(sys.argv[1]), int(sys.argv[2]), *sys.argv[3:]
    advance = quoting.advance = fast.Advance(library)
    comparison = Comparison(seed, count, advance)
    lines, printed = comparison.ladderrun(ladderrun), comparison.ladder(program)
    for name in sorted(comparison.counts, key=compare.in_order):
        print("%7d  %s" % (comparison.counts[name], name))
    print("steps.c against quoting.py: the first steps of %d plans: %d differ" % (advance.plans, advance.differing))
    differing = comparison.differing
    print("%d lines of ladderrun, %d of ladder: %d runs and sheets differ" % (lines, printed, differing))
    sys.exit(1 if differing or advance.differing else 0)


if __name__ == "__main__":
    main()
