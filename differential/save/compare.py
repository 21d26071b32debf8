"""Compares what saverun and resave write for seeded input with saving.py's bytes.

    python3 compare.py SEED COUNT SAVERUN RESAVE

COUNT is the number of records for each of the two. saverun gets those of records.py, in runs around the
size of its block and in longer ones; half of the runs end in a record that is cut short. resave gets
sheets as differential/sheet/compare.py makes them, two of five damaged; half of their desks are
records.py's. Some input reaches the programs a few bytes at a time. Prints what was met; the status is
1 where a byte differs.
"""
import collections
import io
import itertools
import os
import re
import sys

import saving  # first: it says where sheet and quoting are

import sheet
from pieces import PIECES, SIZES, written
from quoting import Desk
from records import Records
from saving import RECORD, unpack

sys.path.insert(0, os.path.dirname(os.path.abspath(sheet.__file__)))  # for its compare.py, not the quotes'
import compare  # noqa: E402

BLOCK = 682  # the records that saverun reads at once
RUNS = (0, 1, BLOCK - 1, BLOCK, BLOCK + 1, 2 * BLOCK)
LONGER = 2000
MOST_STORED = 2**55 - 1  # twice that is eight groups
BYTES = {11: "11", 40: "12 to 40", 60: "41 to 60", 84: "61 to 84", 88: "85 to 88"}
ENDS = {None: "saved without what 2 refuses", 6: "saved up to a 6", 7: "saved up to a 7", 9: "not saved, 9"}


class Sheets(compare.Sheets):
    """Sheets of which half of the desks have numbers of all counts of groups; some are beyond their limits."""

    def __init__(self, seed):
        super().__init__(seed)
        self.records = Records(seed, MOST_STORED)

    def desk(self):
        if self.rng.random() < 0.5:
            return super().desk()
        desk = self.records.bad() if self.rng.random() < 0.1 else self.records.good()
        return Desk(*(x if name == "holding" else abs(x) for name, x in zip(Desk._fields, desk)))


# ---- differences
def line_difference(told, ours):
    """The first line that differs."""
    pairs = enumerate(itertools.zip_longest(told, ours.decode("ascii", "replace").splitlines(True)), 1)
    return next("  line %d: told %r, ours %r" % (i, a, b) for i, (a, b) in pairs if a != b)


def byte_difference(told, ours):
    """The place of the first byte that differs."""
    at = len(os.path.commonprefix((told, ours)))
    return "  byte %d: told %s, ours %s" % (at, told[at:].hex()[:100] or "no more", ours[at:].hex()[:100] or "no more")


# ---- what was met
def met(record, line):
    """The names under which a record of saverun is counted."""
    fields = line.split()
    yield "W" if fields[0] == "W" else " ".join(fields[:2])
    if len(record) < RECORD:
        return
    desk, length = unpack(record)
    if fields[0] == "W":
        yield "W, bytes " + compare.named(BYTES, int(fields[1]))
        yield from ["W, holding below zero"] * (desk.holding < 0)
        for number in re.findall(rb"[\x80-\xff]*[\x00-\x7f]", sheet.packed(desk)):
            yield "W, numbers of %d groups" % len(number)
    elif fields[1] == "20":
        yield from ["R 20, and 2 as well"] * (not saving.within(desk))
    elif desk.bound > sheet.MOST_BOUND:
        yield "R 2, no call"
    if length > saving.MOST_ROOM:
        yield "buffers above 128"


def met_sheet(s, desks, number, told):
    """The names under which a sheet and its records are counted."""
    yield "sheets"
    yield "sheets, " + ("empty" if not s else "saved whole" if s == told else ENDS[number])
    for desk in desks:
        yield "sheets, records " + ("saved" if saving.within(desk) else "refused by 2")


# ---- the comparisons
class Comparison:
    def __init__(self, seed, count):
        self.seed, self.count = seed, count
        self.counts = collections.Counter()
        self.differing = 0

    def differ(self, what, difference):
        self.differing += 1
        if self.differing <= 10:
            print("%s:\n%s" % (what, difference))

    def saverun(self, program):
        made, done = Records(self.seed), 0
        runs = itertools.chain(RUNS, itertools.repeat(LONGER))
        while done < self.count:
            records = [made.record() for _ in range(next(runs))]
            if made.rng.random() < 0.5:
                records.append(made.record()[: made.between(1, RECORD - 1)])
            told = saving.lines(io.BytesIO(b"".join(records)))
            ours = written(program, b"".join(records), made.rng.choice(SIZES))
            if ours != "".join(told).encode():
                self.differ("a run of %d records" % len(records), line_difference(told, ours))
            for record, line in zip(records, told):
                self.counts.update(met(record, line))
            self.counts["runs"] += 1
            done += len(records)
        return done

    def resave(self, program):
        made, done = Sheets(self.seed), 0
        while done < self.count:
            s = made.sheet()
            told, size = saving.resaved(s), made.rng.choice(SIZES)
            ours = written(program, s, size)
            if ours != told:
                self.differ("a sheet of %d bytes: %s" % (len(s), s.hex()[:400]), byte_difference(told, ours))
            desks, number = saving.read(s)
            self.counts.update(met_sheet(s, desks, number, told))
            self.counts["sheets in pieces"] += size < min(len(s), PIECES)
            done += len(desks) + (number is not None)
        return done


def main():
    seed, count, saverun, resave = int(sys.argv[1]), int(sys.argv[2]), sys.argv[3], sys.argv[4]
    comparison = Comparison(seed, count)
    records, stored = comparison.saverun(saverun), comparison.resave(resave)
    for name in sorted(comparison.counts, key=compare.in_order):
        print("%7d  %s" % (comparison.counts[name], name))
    differing = comparison.differing
    print("%d records to save, %d records of sheets: %d runs and sheets differ" % (records, stored, differing))
    sys.exit(1 if differing else 0)


if __name__ == "__main__":
    main()
