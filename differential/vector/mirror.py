"""Turns the records of floatrun and countrun, and holds the answers to each other: the mirror rule.

    python3 mirror.py RECORDS > TURNED
    python3 mirror.py RECORDS LINES TURNED_LINES

The first writes the same records with q and beta of the other sign. LINES and TURNED_LINES are what a program
wrote for both: a vector's line has the same steps, both distances exchanged, and weights and offsets the other
way round; any other line is the same. The first that is not so is printed, and the status is then 1.
"""
import collections
import itertools
import struct
import sys

import compare

SIGN = 1 << 63
WORDS = struct.Struct("<8Q")


def turned(record):
    """The record with the holding and the drift of the other sign; one that is cut short as it is."""
    if len(record) < WORDS.size:
        return record
    *others, q, beta = WORDS.unpack(record)
    return WORDS.pack(*others, -q % (1 << 64), beta ^ SIGN)


def exchanged(line):
    """What the other record's line has to be."""
    fields = line.split()
    if fields[0] != "V":
        return line
    kind, steps, bid, ask, count, *floats = fields
    n = int(count)
    return " ".join([kind, steps, ask, bid, count, *reversed(floats[:n]), *reversed(floats[n:])])


def main():
    path, *lines = sys.argv[1:]
    if not lines:
        for record in compare.records(path):
            sys.stdout.buffer.write(turned(record))
        return
    counts = collections.Counter()
    files = [open(name).read().splitlines() for name in lines]
    for record, line, other in itertools.zip_longest(compare.records(path), *files):
        drift = "a drift" if record and compare.drifting(record) else "no drift"
        if None not in (record, line, other) and exchanged(line) == other:
            counts["mirrored, %s: %s" % (drift, line[0])] += 1
        elif (counts.update(["differ"]) or counts["differ"]) == 1:
            print("not mirrored: %s\n  %s\n  %s" % (record and compare.shown(record), line and line[:400],
                                                   other and other[:400]))
    differing = counts.pop("differ", 0)
    for name in sorted(counts):
        print("%7d  %s" % (counts[name], name))
    print("%d records, %d not mirrored" % (sum(counts.values()) + differing, differing))
    sys.exit(1 if differing else 0)


if __name__ == "__main__":
    main()
