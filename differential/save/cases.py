"""Writes crates/saverun/stdin, the records of the gate, and crates/resave/stdin, its damaged sheet.

    python3 cases.py > RECORDS
    python3 cases.py sheet > SHEET

A case is a record, the length of its buffer, and the line that the rule tells, with the bytes worked
by hand; saving.py is held to it, and to what is kept of the sheet. The stored outputs are saving.py's.
Nothing of the library takes part.
"""
import io
import itertools
import sys

import saving  # first: it says where sheet and quoting are

import quoting
from quoting import BILLION as ONE
from quoting import MOST_AMOUNT, MOST_TIME, STORED, Desk
from sheet import MOST_BOUND, packed

# a record of one byte for each number: a holding of 1 is stored as 2
PLAIN = Desk(1, 1, 3, 4, 5, 6, 7, 8, 9, 10, 11)
BYTES = dict(zip(STORED, "01 02 03 04 05 06 07 08 09 0A 0B".split()))
# 128^k is k groups of 0 and a 1, and 128^k - 1 is k groups of 127
EDGES = [(0, "00"), (1, "01"), (2, "02"), (129, "8101"), (1000, "E807"), (16385, "818001"), (ONE, "8094EBDC03")]
EDGES += [(128**k - 1, "FF" * (k - 1) + "7F") for k in range(1, 8)]
EDGES += [(128**k, "80" * k + "01") for k in range(1, 8)]
# the groups of 9 * 10^15 are 0, 0, 106, 87, 60, 46, 126, 15, and those of twice that 0, 0, 84, 47, 121, 92, 124, 31
LIMIT, BELOW_LIMIT = "8080EAD7BCAEFE0F", "FFFFE9D7BCAEFE0F"
HOLDING, BELOW_ZERO = "8080D4AFF9DCFC1F", "FFFFD3AFF9DCFC1F"
BOUND = "FFFFFFFF0F"
AMOUNTS = [name for name in quoting.SIGNED if name in STORED and name != "holding"]
TIMES = ["terminal", "current"]
LARGEST, LEAST, WORD = 2**63 - 1, -(2**63), 2**64 - 1
LENGTHS = (0, 1, 8, 87, 88, 89, 127, 128, 129, 255, 256, 2**32, 2**32 + 8, 2**63, WORD)
USUAL = Desk(100 * ONE, 0, ONE, ONE, ONE, ONE, 1, ONE, 1000, 1000, 0)
USUAL_BYTES = "80D0DBC3F402 00" + " 8094EBDC03" * 4 + " 01 8094EBDC03 E807 E807 00"
# the record that README.md takes apart
OPERATORS = Desk(1000 * ONE, 5 * ONE, 1684700000000, ONE // 100, 3 * ONE // 10, 9 * ONE // 10, 30, ONE, 600000, 0, 0)
OPERATORS_BYTES = "80A094A58D1D 80C8AFA025 80DEC7FF8331 80ADE204 80C6868F01 80D293AD03 1E 8094EBDC03 C0CF24 00 00"


# ---- the lines that the rule tells
def refused(number, length=88):
    """A refusal leaves the buffer as it is."""
    return " ".join(["R %d" % number] + ["A5" * length] * (length > 0)) + "\n"


def written(record, length=88):
    """The record's bytes, and after them the buffer as it was."""
    count = len(record) // 2
    return "W %d %s%s\n" % (count, record, "A5" * (length - count))


def changed(**numbers):
    """The plain record's bytes, with others for some numbers."""
    return "".join({**BYTES, **numbers}.values())


# ---- the cases
def worked():
    for length in (88, 128):
        yield PLAIN, length, written("0102030405060708090A0B", length)
        yield USUAL, length, written(USUAL_BYTES.replace(" ", ""), length)
        yield OPERATORS, length, written(OPERATORS_BYTES.replace(" ", ""), length)


def groups():
    """Each number at the edges of the counts of groups. A holding of -(n + 1) / 2 is stored as n, if that is odd."""
    for name in STORED:
        for number, told in EDGES:
            if name == "bound" and number > MOST_BOUND:
                continue
            value = number if name != "holding" else number // 2 if number % 2 == 0 else -(number + 1) // 2
            yield PLAIN._replace(**{name: value}), 88, written(changed(**{name: told}))


def limits():
    for name in AMOUNTS + TIMES:
        yield PLAIN._replace(**{name: MOST_AMOUNT}), 88, written(changed(**{name: LIMIT}))
        yield PLAIN._replace(**{name: MOST_AMOUNT - 1}), 88, written(changed(**{name: BELOW_LIMIT}))
    yield PLAIN._replace(holding=MOST_AMOUNT), 88, written(changed(holding=HOLDING))
    yield PLAIN._replace(holding=-MOST_AMOUNT), 88, written(changed(holding=BELOW_ZERO))
    yield PLAIN._replace(bound=MOST_BOUND), 88, written(changed(bound=BOUND))


def beyond():
    """Each number beyond its limit, below zero, and at the ends of 64 bits."""
    for name in AMOUNTS:
        for value in (MOST_AMOUNT + 1, 2**56, 2**62, LARGEST, -1, -128, -MOST_AMOUNT, -MOST_AMOUNT - 1, LEAST):
            yield PLAIN._replace(**{name: value}), 88, refused(2)
    for value in (MOST_AMOUNT + 1, -MOST_AMOUNT - 1, 2**62, -(2**62), LARGEST, LEAST):
        yield PLAIN._replace(holding=value), 88, refused(2)
    for name in TIMES:
        for value in (MOST_TIME + 1, LARGEST, 2**63, WORD):
            yield PLAIN._replace(**{name: value}), 88, refused(2)


def no_call():
    """A bound that 32 bits do not hold, before a short buffer too."""
    for value in (MOST_BOUND + 1, MOST_BOUND + 2, LARGEST, 2**63, WORD):
        for length in (0, 87, 88):
            yield PLAIN._replace(bound=value), length, "R 2\n"


def whole():
    """All numbers at once: the least, the most groups, the limits, and one beyond each."""
    yield Desk(*[0] * 11), 88, written("00" * 11)
    wide = "80" * 7 + "01"
    yield Desk(*[2**49] * 11)._replace(holding=2**48, bound=MOST_BOUND), 88, written(wide * 6 + BOUND + wide * 4)
    most = Desk(*[MOST_AMOUNT] * 11)._replace(bound=MOST_BOUND)
    for length in (88, 128):
        for sign, told in ((1, HOLDING), (-1, BELOW_ZERO)):
            record = LIMIT + told + LIMIT * 4 + BOUND + LIMIT * 4
            yield most._replace(holding=sign * MOST_AMOUNT), length, written(record, length)
    yield Desk(*[MOST_AMOUNT + 1] * 11)._replace(bound=MOST_BOUND), 88, refused(2)
    yield Desk(*[-1] * 11)._replace(bound=0, terminal=0, current=0), 88, refused(2)


def lengths():
    """A good record and one of each fault in buffers of all lengths: 20 comes before 2."""
    faults = {"mid": -1, "min_spread": MOST_AMOUNT + 1, "current": MOST_TIME + 1, "holding": LEAST}
    for length in LENGTHS:
        room = min(length, 128)
        short = refused(20, room) if room < 88 else None
        yield PLAIN, length, short or written(changed(), room)
        for name, value in faults.items():
            yield PLAIN._replace(**{name: value}), length, short or refused(2, room)


def both():
    """Each number beyond its limit in a buffer that is one byte too short."""
    for name in AMOUNTS + ["holding"] + TIMES:
        yield PLAIN._replace(**{name: MOST_AMOUNT + 1}), 87, refused(20, 87)


def damaged():
    """A damaged sheet, and what resave keeps of it: no record that is refused by 2, and none from the 7 on."""
    usual, operators = (bytes.fromhex(text) for text in (USUAL_BYTES, OPERATORS_BYTES))
    before = usual + b"".join(packed(USUAL._replace(**changes)) for changes in (
        {"holding": ONE}, {"holding": -ONE}, {"holding": 3 * ONE // 2}, {"bound": 201}))
    after = operators + packed(OPERATORS._replace(bound=200, terminal=3309000)) + packed(PLAIN)
    too_large = packed(USUAL._replace(mid=MOST_AMOUNT + 1))
    zero_group = bytes.fromhex(USUAL_BYTES.replace(" 01 ", " 8100 "))  # a bound of 1 in two groups
    return before + too_large + after + zero_group + usual, before + after


def listed():
    """The records and their lines; the last is cut short."""
    kinds = (worked, groups, limits, beyond, no_call, whole, lengths, both)
    cases = [case for kind in kinds for case in kind()]
    told = [line for _, _, line in cases]
    records = [saving.pack(desk, length) for desk, length, _ in cases]
    return b"".join(records) + records[0][:95], told + ["R 6\n"]


# ---- saving.py held to them
def hold(ours, told):
    if ours != told:
        sys.exit("cases.py: saving.py does not give what the rule tells:\n%s\n%s" % (ours, told))


def main():
    if sys.argv[1:] == ["sheet"]:
        out, kept = damaged()
        hold(saving.resaved(out).hex(), kept.hex())
    else:
        out, told = listed()
        for pair in itertools.zip_longest(saving.lines(io.BytesIO(out)), told):
            hold(*pair)
    sys.stdout.buffer.write(out)


if __name__ == "__main__":
    main()
