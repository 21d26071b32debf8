"""Compares what horizon prints for seeded sheets with horizon.py's lines, byte for byte, and with quotesheet's.

    python3 compare.py SEED COUNT HORIZON QUOTESHEET

COUNT is about the number of lines. The sheets of differential/sheet/cases.py come first, then seeded ones of up to 40
desks, two of five damaged as in differential/sheet/compare.py, and at the end some around the longest. Some reach the
programs a few bytes at a time. Beside each line of horizon stands quotesheet's: the very same where it is a report or
a refusal, and one that such a plan can lead to where it is a count. Prints what was met; the status is 1 where a byte
differs, or where a line of quotesheet does not go with horizon's.
"""
import collections
import itertools
import os
import sys

import horizon  # first: it says where sheet and quoting are

import quoting
import sheet
import wide
from pieces import PIECES, SIZES, written
from quoting import STEPS, Desk

sys.path.insert(0, os.path.dirname(os.path.abspath(sheet.__file__)))  # for its files of these names, not the others'
import cases  # noqa: E402
import compare  # noqa: E402

LONG = (sheet.MOST_BYTES - 1, sheet.MOST_BYTES, sheet.MOST_BYTES + 1, sheet.MOST_BYTES + 1000)
NO_TIME = "N 0\n"
ONE_OVER = "C 40C57C8000000000 11000\n"


# ---- desks and sheets
class Horizons(wide.Wide):
    def any_bound(self):
        return self.plain()._replace(bound=self.pick(1, 2, 200, self.whole(1, 30), self.whole(1, 200)))

    def sloping(self):
        """Either of the two rows is the larger one, or both are about equal."""
        desk = self.any_bound()
        model, _ = quoting.model_of(desk)
        if self.chance(0.3):
            return self.stirred(desk, model.eta / (2.0 * desk.bound - 1.0))
        return self.turned(desk, -16, 6)

    def around(self, steps):
        """The last millisecond of so many steps, where there is one, or one of those next to it."""
        desk = self.timed(self.sloping(), steps)
        return self.held(desk._replace(terminal=max(1, desk.terminal + self.whole(-1, 2))))

    def whole_steps(self):
        return self.around(self.whole(1, self.pick(3, 30, 300, STEPS)))

    def cap(self):
        return self.around(STEPS + self.pick(-1, 0, 0, 1))

    def far_above(self):
        return self.around(STEPS * self.pick(1.0 + self.unit(), self.whole(2, 10**3), 2.0 ** self.whole(10, 40)))

    def desk(self):
        """A desk of some kind, by the shares, with no negative number but the holding, which a record cannot say."""
        desk = self.rng.choices(list(SHARES), list(SHARES.values()))[0](self)
        return Desk(*(x if name == "holding" else abs(x) for name, x in zip(desk._fields, desk)))


# of a thousand desks, so many of each kind
SHARES = {
    wide.drawn: 550,
    Horizons.whole_steps: 250,
    Horizons.cap: 60,
    Horizons.far_above: 60,
    Horizons.refused: 80,
}


class Sheets(compare.Sheets):
    def __init__(self, seed):
        super().__init__(seed)
        self.desks = Horizons(seed)
        self.rng = self.desks.rng

    def desk(self):
        return self.desks.desk()

    def of_length(self, length):
        """One record again and again, the last cut off."""
        s = sheet.packed(self.desks.no_time())
        return (s * (length // len(s) + 1))[:length]


def listed():
    """The sheets of differential/sheet/cases.py, but for the longest two, which of_length stands for."""
    kinds = (cases.document, cases.training, cases.refusals, cases.runs, cases.cuts, cases.lengths)
    return [s for kind in kinds for s, _ in kind()]


# ---- the lines
def goes_with(plan, quoted):
    """Whether such a plan can lead to quotesheet's line. Steps that are not the plan's follow a rebalancing."""
    if plan[0] != "N":
        return quoted == plan
    fields = quoted.split()
    if fields[0] == "Q":
        return (int(fields[3]) == 0) == (plan == NO_TIME)
    if fields[0] == "C":
        return plan != NO_TIME and int(fields[2]) < STEPS
    return quoted in ("R 11\n", "R 13\n", "R 14\n")


def met(desk, plan, quoted):
    """The names under which a line is counted."""
    if plan[0] == "R":
        yield plan.strip()
        return
    yield plan[0]
    yield "%s, bound %s" % (plan[0], compare.named(compare.BOUNDS, desk.bound))
    if plan[0] == "C":
        yield "C, 11,001 steps needed" if plan == ONE_OVER else "C, more needed"
        return
    steps = plan.split()[1]
    yield "N, steps " + compare.named(compare.STEPS, int(steps))
    if quoted[0] == "Q":
        yield "N, quotes with " + ("as many steps" if quoted.split()[3] == steps else "other steps")
    else:
        yield "N, and in quotesheet " + ("C" if quoted[0] == "C" else quoted.strip())


class Comparison:
    def __init__(self, made, program, quotesheet):
        self.made, self.program, self.quotesheet = made, program, quotesheet
        self.counts = collections.Counter()
        self.lines = self.differing = self.apart = 0

    def tell(self, s, words):
        if self.differing + self.apart <= 10:
            print("a sheet of %d bytes: %s\n%s" % (len(s), s.hex()[:400], words))

    def sheet(self, s):
        """Both programs on one sheet."""
        size = self.made.rng.choice(SIZES)
        desks, told = zip(*horizon.answers(s)) if s else ((), ())
        ours = written(self.program, s, size).decode("ascii", "replace")
        if ours != "".join(told):
            self.differing += 1
            self.tell(s, compare.difference(told, ours))
        quoted = written(self.quotesheet, s, PIECES).decode("ascii", "replace").splitlines(True)
        for desk, plan, line in itertools.zip_longest(desks, told, quoted, fillvalue=""):
            if plan and line and goes_with(plan, line):
                self.counts.update(met(desk, plan, line))
            else:
                self.apart += 1
                self.tell(s, "  horizon %r, quotesheet %r" % (plan, line))
        self.lines += len(told)
        self.counts["sheets"] += 1
        self.counts["sheets in pieces"] += size < min(len(s), PIECES)


def main():
    seed, count, program, quotesheet = int(sys.argv[1]), int(sys.argv[2]), *sys.argv[3:]
    made = Sheets(seed)
    comparison = Comparison(made, program, quotesheet)
    for s in listed():
        comparison.sheet(s)
    while comparison.lines < count:
        comparison.sheet(made.sheet())
    for length in LONG:
        comparison.sheet(made.of_length(length))
    for name in sorted(comparison.counts, key=compare.in_order):
        print("%7d  %s" % (comparison.counts[name], name))
    differing, apart = comparison.differing, comparison.apart
    print("%d lines: %d sheets differ, %d lines do not go with quotesheet's" % (comparison.lines, differing, apart))
    sys.exit(1 if differing or apart else 0)


if __name__ == "__main__":
    main()
