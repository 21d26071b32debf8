"""Holds countrun's lines to the runs that floatrun makes of the same records.

    python3 first.py RECORDS COUNTED RAN NOTES

COUNTED is what countrun wrote, RAN what floatrun did, and NOTES what drifts.py of differential/vector did, whose first
number is the rebalancings of a run. A cap report and a refusal of the first plan are the run's own line; a
count is the steps of a run that ends without rebalancing, and where it rebalances only a later plan may report the
cap. A distance may still be refused, by 11. The first line that is not so is printed, and the status is then 1.
"""
import collections
import os
import sys

sys.path.insert(0, os.path.join(os.path.dirname(os.path.abspath(__file__)), "..", "vector"))
import compare  # noqa: E402, the float layer's

CAP = 11000


def tied(counted, ran, rebalancings):
    """How a run follows its count; None where it does not."""
    kind, number = counted.split()[:2]
    fields = ran.split()
    if kind != "N":
        return "the same line: " + kind if ran == counted else None
    if ran == "R 11":
        return "a count, and 11 after the first plan"
    if rebalancings == 0:
        return "a count, and so many steps" if fields[:2] == ["V", number] else None
    if number != "0" and fields[0] == "V":
        return "a count, and steps after rebalancing"
    later = number != "0" and fields[0] == "C" and int(fields[2]) < CAP
    return "a count, and a later cap report" if later else None


def main():
    counts = collections.Counter()
    files = [open(path).read().splitlines() for path in sys.argv[2:]]
    records = list(compare.records(sys.argv[1]))
    if any(len(lines) != len(records) for lines in files):
        sys.exit("first.py: not a line for each record")
    differing = 0
    for record, counted, ran, note in zip(records, *files):
        how = tied(counted, ran, int(note.split(" ", 1)[0]))
        counts[how] += 1
        if how is None and (differing := differing + 1) == 1:
            print("not tied: %s\n  countrun: %s\n  floatrun: %s" % (compare.shown(record), counted, ran[:100]))
    for name in sorted(filter(None, counts)):
        print("%7d  %s" % (counts[name], name))
    print("%d runs, %d not as counted" % (len(records), differing))
    sys.exit(1 if differing else 0)


if __name__ == "__main__":
    main()
