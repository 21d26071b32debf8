"""Writes crates/sheetrun/stdin: the sheets of the gate.

    python3 cases.py > SHEETS

A case is a sheet and, where document 01's text tells the lines, those; sheet.py is held to them. The
stored output is sheet.py's. Nothing of the library takes part.
"""
import os
import sys

import sheet
from quoting import BILLION as ONE
from quoting import MOST_AMOUNT, MOST_TIME, STORED, Desk
from sheet import MOST_BYTES, groups, packed

USUAL = Desk(100 * ONE, 0, ONE, ONE, ONE, ONE, 1, ONE, 1000, 1000, 0)
# glft.rs's own example, twelve seconds before its end
EXAMPLE = Desk(1000 * ONE, 0, 1684700000000, ONE // 100, 3 * ONE // 10, 9 * ONE // 10, 30, ONE, 600000, 588000, 0)
BEYOND = b"\xff" * 7 + b"\x7f"  # 8 groups, beyond every limit
QUOTE = "Q 99.306852819 100.693147181 0\n"
OPERATORS = os.path.join(os.path.dirname(os.path.abspath(__file__)), "..", "..", "docs", "operators")
# The usual record's model: gamma and k are 1, and LN1P(1) is LN2. EXP(-2 * LN2) is 1/4, for N is -2 and r below
# 10^-16; so eta is 1/4, and alpha is 1/63,072,000. The norm is the middle row's, 2 * eta + eta * (1 + 1) = 1, and
# tau seconds take tau / 2 steps, rounded up.


def changed(**changes):
    return packed(USUAL._replace(**changes))


def numbers(changes):
    """The usual record, with other bytes for the numbers at some places."""
    fields = [groups(2 * x if name == "holding" else x) for name, x in zip(STORED, USUAL)]
    for place, number in changes.items():
        fields[place] = number
    return b"".join(fields)


def document():
    """Document 01's own sheet, and the empty one."""
    records = (changed(), changed(holding=ONE), changed(holding=-ONE), changed(min_spread=2 * ONE),
               changed(holding=3 * ONE // 2), changed(bound=201))
    yield b"".join(records), (
        QUOTE
        + "Q - 100.693147181 0\n"
        + "Q 99.306852819 - 0\n"
        + "Q 99.000000000 101.000000000 0\n"
        + "R 4\n"
        + "R 1\n")
    yield b"", ""


def training():
    """The operators' sheet, whole and cut inside its third record."""
    with open(os.path.join(OPERATORS, "training.sheet"), "rb") as file:
        s = file.read()
    with open(os.path.join(OPERATORS, "training.lines")) as file:
        lines = file.readlines()
    yield s, "".join(lines)
    yield s[:100], "".join(lines[:2]) + "R 6\n"


def refusals():
    """Every refusal of a record that is read, each twice; reading goes on after it."""
    cases = (
        (2, {"mid": MOST_AMOUNT + 1}), (2, {"holding": MOST_AMOUNT + 1}), (2, {"holding": -MOST_AMOUNT - 1}),
        (2, {"min_spread": MOST_AMOUNT + 1}), (2, {"terminal": MOST_TIME + 1}), (2, {"current": MOST_TIME + 1}),
        (2, {"bound": 2**32}), (1, {"bound": 2**32 - 1}), (1, {"bound": 0}), (1, {"risk_aversion": 0}),
        (1, {"k": 0}), (1, {"a": 0}), (1, {"lot_size": 0}), (1, {"terminal": 0}), (1, {"mid": 0, "bound": 0}),
        (3, {"mid": 0}), (3, {"volatility": 0}), (4, {"holding": 2 * ONE}), (4, {"holding": -2 * ONE}),
        (13, {"risk_aversion": 1, "k": 1}), (13, {"mid": MOST_AMOUNT}), (14, {"mid": ONE // 2}),
        (14, {"min_spread": 200 * ONE}))
    told = ["R %d\n" % number for number, _ in cases]
    yield b"".join(changed(**changes) for _, changes in cases), "".join(told)
    yield b"".join(changed(**changes) + changed() for _, changes in cases), "".join(line + QUOTE for line in told)


def runs():
    """Lines with steps: quotes of a run, and the cap."""
    yield b"".join(packed(EXAMPLE._replace(holding=q * ONE)) for q in (0, 1, -1, 30, -30)), None
    yield packed(EXAMPLE._replace(bound=200, terminal=MOST_TIME, current=0)), None
    # 4.5 * 10^12 steps, which is 2^42 + 101,953,488,896: hex 429, and 101,953,488,896 * 2^10
    yield changed(terminal=MOST_TIME, current=0) + changed(), "C 42905EF39B200000 11000\n" + QUOTE


def cuts():
    """A record that ends inside itself at each of its bytes, and alike after a whole one."""
    record = packed(EXAMPLE)
    for at in range(1, len(record)):
        yield record[:at], "R 6\n"
    yield changed() + record[:7], QUOTE + "R 6\n"


def lengths():
    """Numbers of 8 groups, of 9, and with a zero last group, in each place; nothing is read after 7."""
    nine = b"\xff" * 8 + b"\x01"
    for place in range(11):
        yield numbers({place: BEYOND}) + changed(), "R 2\n" + QUOTE
        yield numbers({place: nine}) + changed(), "R 7\n"
        yield numbers({place: b"\x80\x00"}) + changed(), "R 7\n"
    # 8 groups and within the limit: 562,949.953421312 less and more 0.693147181
    yield numbers({0: groups(2**49)}), "Q 562949.260274131 562950.646568493 0\n"
    # 562,949,953,420.312 seconds take 281,474,976,711 steps, 2^38 + 6,597,069,767: hex 425, and 6,597,069,767 * 2^14
    yield numbers({8: b"\x80\x80\x80\x80\x80\x80\x80\x01"}), "C 4250624DD2F1C000 11000\n"
    # a zero of one group: one step of t = 0.001 seconds. To 10^-10 the middle weight is 1 - t^2/16, and those beside it
    # are 1 - t/4 + t^2/16; the logarithms are t/4 - 3t^2/32 apart: 0.00024990625 + 0.69314718056 = 0.69339708681, of
    # which the next billionth is the distance
    yield numbers({9: b"\x00", 8: b"\x01"}), "Q 99.306602913 100.693397087 1\n"
    yield numbers({0: b"\x80" * 7 + b"\x00"}), "R 7\n"
    # of 6 and 7 the first met decides
    yield b"\xff" * 7, "R 6\n"
    yield b"\xff" * 8, "R 7\n"
    yield b"\x80", "R 6\n"
    yield b"\x80\x00", "R 7\n"
    yield changed() + b"\xff" * 8 + changed(), QUOTE + "R 7\n"


def long():
    """The longest sheet, whose last record ends at its last byte, and one byte more."""
    wide = numbers({place: BEYOND for place in range(11)})
    big = 2**49
    last = changed(mid=2**52, volatility=big, risk_aversion=big, k=big, a=big, lot_size=big, current=2**21,
                   min_spread=big)
    longest = wide * (MOST_BYTES // len(wide)) + last
    assert len(longest) == MOST_BYTES
    # k is 562,949.95 and gamma k^2: base is LN1P(k) / k^2, about 13.2 / (3.2 * 10^11), and goes up to 1 billionth. The
    # prices are one beside mid, 16 * 2^48, and half the shortfall moves each by 2^48 - 1: to 15 * 2^48 and 17 * 2^48
    told = "Q 4222124.650659840 4785074.604081152 0\n"
    yield longest, "R 2\n" * (MOST_BYTES // len(wide)) + told
    yield longest + b"\0", "R 9\n"


def main():
    for kind in (document, training, refusals, runs, cuts, lengths, long):
        for record, told in kind():
            lines = "".join(sheet.lines(record))
            if told is not None and lines != told:
                sys.exit("cases.py: sheet.py does not give what document 01 tells:\n%s\n%s" % (lines[:200], told[:200]))
            sys.stdout.buffer.write(sheet.framed(record))


if __name__ == "__main__":
    main()
