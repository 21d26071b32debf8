"""The mirror rule of ladders: one of a drift faces that of the opposite drift, read upward."""
import ladder  # noqa: F401, first: it says where sheet and quoting are

from quoting import RECORD, pack, unpack
from sheet import price

PRICED = ("R 13\n", "R 14\n")


def turned(record):
    """The record with the opposite drift; one that is cut short as it is."""
    if len(record) < RECORD.size:
        return record
    desk, length = unpack(record)
    return pack(desk._replace(drift=-desk.drift), length)


def answers(out):
    """ladderrun's lines, those of each record by themselves."""
    parts = [[]]
    for line in out.decode("ascii", "replace").splitlines(True):
        parts[-1].append(line)
        if line in ("U\n", "X\n"):
            parts.append([])
    return parts[:-1] if parts[-1] == [] else parts


def opposite(mid, line):
    """The line of the opposite lot, of quotes."""
    kind, bid, ask, steps = line.split()
    sides = (None if x == "-" else 2 * mid - int(x.replace(".", "")) for x in (ask, bid))
    return "%s %s %s %s\n" % (kind, *map(price, sides), steps)


def line_faces(mid, line, other):
    """Whether two lines face each other. 13 and 14 look at prices, and may refuse one of them alone."""
    if line[0] == other[0] == "Q":
        return other == opposite(mid, line)
    if line in PRICED or other in PRICED:
        return all(x[0] == "Q" or x in PRICED for x in (line, other))
    return line == other


def faces(record, answer, other):
    """Whether two records' answers face each other."""
    if answer[0][0] != "L" or other[0][0] != "L":
        return answer == other
    desk, _ = unpack(record)
    lines, others = answer[1:-1], other[1:-1]
    return len(lines) == len(others) and all(
        line_faces(desk.mid, *pair) for pair in zip(lines, reversed(others)))
