"""Turns deskrun's desks, and holds the answers to each other: the mirror rule.

    python3 mirror.py DESKS > TURNED
    python3 mirror.py DESKS LINES TURNED_LINES

The first writes the same desks with the holding and the drift of the other sign. LINES and TURNED_LINES are
what deskrun wrote for both: where both quote, a bid and the other's ask add up to twice the mid, with the same
steps; a model has the drift and the lots of the other sign; 13 and 14 look at prices, and may refuse one of
the two alone; any other line is the same. The first that is not so is printed, and the status is then 1.
"""
import collections
import itertools
import sys

import quoting

PRICED = ("R 13", "R 14")
SIGN = 1 << 63


def turned(record):
    """The record with the holding and the drift of the other sign; one that is cut short as it is."""
    if len(record) < quoting.RECORD.size:
        return record
    desk, entry = quoting.unpack(record)
    return quoting.pack(desk._replace(holding=-desk.holding, drift=-desk.drift), entry)


def facing(mid, line):
    """The other desk's line, of quotes."""
    kind, bid, ask, *steps = line.split()
    return " ".join([kind, *("-" if x == "-" else str(2 * mid - int(x)) for x in (ask, bid)), *steps])


def model(drift, line):
    """The other desk's line, of a model; no drift is a zero without a sign."""
    *floats, beta, bound, lots = line.split()
    beta = int(beta, 16) ^ SIGN if drift else int(beta, 16)
    return " ".join([*floats, "%016x" % beta, bound, str(-int(lots))])


def mirrored(desk, line, other):
    """Whether two lines face each other."""
    if line[0] == other[0] == "Q":
        return other == facing(desk.mid, line)
    if line[0] == "M":
        return other == model(desk.drift, line)
    if line in PRICED or other in PRICED:
        return all(x[0] == "Q" or x in PRICED for x in (line, other))
    return line == other


def kind(line):
    return line if line[0] == "R" else line[0]


def main():
    path, *lines = sys.argv[1:]
    if not lines:
        with open(path, "rb") as file:
            for record in quoting.records(file):
                sys.stdout.buffer.write(turned(record))
        return
    counts, differing = collections.Counter(), 0
    files = [open(name).read().splitlines() for name in lines]
    with open(path, "rb") as file:
        for record, line, other in itertools.zip_longest(quoting.records(file), *files):
            whole = record is not None and len(record) == quoting.RECORD.size
            desk = quoting.unpack(record)[0] if whole else quoting.Desk(*[0] * len(quoting.STORED))
            if None not in (record, line, other) and mirrored(desk, line, other):
                counts["mirrored, %s: %s" % ("a drift" if desk.drift else "no drift", kind(line))] += 1
                continue
            differing += 1
            if differing == 1:
                print("not mirrored: %s\n  %s\n  %s" % (desk, line, other))
    for name in sorted(counts):
        print("%7d  %s" % (counts[name], name))
    print("%d desks, %d not mirrored" % (sum(counts.values()) + differing, differing))
    sys.exit(1 if differing else 0)


if __name__ == "__main__":
    main()
