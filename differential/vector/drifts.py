"""Writes floatrun's lines by quoting.py, where glft.rs has none: it knows no drift.

    python3 drifts.py RECORDS ROUTED NOTES TOLD TOLD_NOTES [STEPS]

ROUTED and NOTES are what `oracle routed NOTES` wrote for RECORDS: `-` where a record has a drift. TOLD and
TOLD_NOTES get these lines and notes, but for records with a drift differential/quote/quoting.py's. Of the
others it reckons some as well, which have to be the Rust's; the status is 1 where one is not. STEPS is the
library that is made of differential/sheet/steps.c; without it the steps are Python's.
"""
import os
import sys

import compare

HERE = os.path.dirname(os.path.abspath(__file__))
sys.path += [os.path.join(HERE, "..", name) for name in ("quote", "sheet")]
import fast  # noqa: E402
import quoting  # noqa: E402

HELD = 20  # one of so many records without a drift is reckoned as well, and one of so many plans by Python alone


class Counted:
    """quoting.advance, its calls counted."""

    def __init__(self, advance):
        self.advance, self.plans, self.differing = advance, 0, 0

    def __call__(self, *plan):
        self.plans += 1
        return self.advance(*plan)


def digits(x):
    return "-" if x is None else "%016X" % quoting.elementary.bits_of(x)


def reckoned(record):
    """A record's line and the steps of its run."""
    if len(record) < compare.RECORD.size:
        return "R 6", 0
    k, alpha, eta, base, bound, tau, q, beta = compare.RECORD.unpack(record)
    try:
        distances, (weights, offsets, steps) = quoting.float_entry(k, alpha, beta, eta, base, bound, tau, q)
    except quoting.OverCap as report:
        return "C %s %d" % (digits(report.needed), report.budget), report.steps
    except quoting.Refused as refusal:
        return "R %d" % refusal.number, 0
    floats = " ".join(map(digits, weights + offsets))
    return "V %d %s %d %s" % (steps, " ".join(map(digits, distances)), len(weights), floats), steps


def noted(record, advance):
    """The line and the note: the rebalancings and the steps. Each plan but the first follows a rebalancing."""
    before = advance.plans
    line, steps = reckoned(record)
    return line, "%d %d by quoting.py" % (max(0, advance.plans - before - (line[0] != "C")), steps)


def main():
    records, routed, notes, told, told_notes, *library = sys.argv[1:]
    advance = fast.Advance(*library, HELD) if library else Counted(quoting.advance)
    quoting.advance = advance
    differing = 0
    with open(routed) as lines, open(notes) as words, open(told, "w") as out, open(told_notes, "w") as out_notes:
        for number, (record, line, note) in enumerate(zip(compare.records(records), lines, words)):
            line, note = line.rstrip("\n"), note.rstrip("\n")
            if line == "-":
                line, note = noted(record, advance)
            elif number % HELD == 0 and (ours := reckoned(record)[0]) != line:
                differing += 1
                print("quoting.py: %s\n  %s\n  glft.rs: %s" % (compare.shown(record), ours[:400], line[:400]))
            out.write(line + "\n")
            out_notes.write(note + "\n")
    if differing or advance.differing:
        sys.exit("drifts.py: %d lines differ from glft.rs's, %d plans of steps.c" % (differing, advance.differing))


if __name__ == "__main__":
    main()
