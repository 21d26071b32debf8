"""Writes crates/horizon/stdin, the sheet of the gate.

    python3 records.py > SHEET

A case is a desk and the line that document 01 tells, or a short reckoning by hand that stands beside it; None stands
for a line that is not told. horizon.py is held to them. The stored output is horizon.py's. Nothing of the library takes
part. 5 and 11 are not among the cases: no desk within the limits is known that meets either (docs/DECISIONS.md says
why).
"""
import sys

import horizon  # first: it says where sheet and quoting are

from quoting import BILLION as ONE
from quoting import MOST_AMOUNT, MOST_TIME, Desk
from sheet import packed

# no time is left
USUAL = Desk(100 * ONE, 0, ONE, ONE, ONE, ONE, 1, ONE, 1000, 1000, 0)
# the record that README.md takes apart
OPERATORS = Desk(1000 * ONE, 5 * ONE, 1684700000000, ONE // 100, 3 * ONE // 10, 9 * ONE // 10, 30, ONE, 600000, 0, 0)
ONE_OVER = "C 40C57C8000000000 11000"  # 11,001 needed
# The usual record's model: eta is 1/4, and alpha is 1/63,072,000 (differential/sheet/cases.py says why). The row next
# to the end has the largest sum, 1 + (bound - 1)^2 / 63,072,000, and tau seconds take half of tau times that, rounded
# up. With a volatility of 8,000 it is the end row: alpha is 64,000,000 / 63,072,000, and the sum 3/4 + alpha * bound^2.
LIVELY = USUAL._replace(volatility=8000 * ONE)


def after(desk, milliseconds, **changes):
    """So long before its end."""
    return desk._replace(terminal=milliseconds, current=0, **changes)


# ---- plans
def no_time():
    """At the end, and past it; whatever the bound and the holding."""
    yield USUAL, "N 0"
    yield USUAL._replace(current=1001), "N 0"
    yield USUAL._replace(current=MOST_TIME), "N 0"
    for bound in (2, 30, 200):
        yield USUAL._replace(bound=bound, holding=-bound * ONE), "N 0"
        yield LIVELY._replace(bound=bound, holding=ONE), "N 0"


def short():
    """A step takes two seconds at most, and there is one at least."""
    for milliseconds, told in ((1, "N 1"), (1999, "N 1"), (2000, "N 1"), (2001, "N 2"), (10000, "N 5")):
        yield after(USUAL, milliseconds), told
    yield USUAL._replace(terminal=MOST_TIME, current=MOST_TIME - 2001), "N 2"
    # 2 / (1 + 1 / 63,072,000) = 1.99999997 seconds, 2 / (1 + 841 / 63,072,000) = 1.99997, and at bound 200 1.99874
    for bound, last in ((2, 1999), (30, 1999), (200, 1998)):
        yield after(USUAL, last, bound=bound), "N 1"
        yield after(USUAL, last + 1, bound=bound), "N 2"
    # 10 * (4 * 1.01471 + 0.75) / 2 = 24.04; the row next to the end alone would take 11
    yield after(LIVELY, 10000, bound=2), "N 25"
    # 0.1 * (40,000 * 1.014713 + 0.75) / 2 = 2,029.46; the row next to the end alone would take 2,010
    yield after(LIVELY, 100, bound=200), "N 2030"
    yield OPERATORS, None
    for bound in (1, 2, 200):
        yield OPERATORS._replace(bound=bound, holding=0), None


def the_cap():
    """The last millisecond of 11,000 steps, and the next one."""
    # 22,000 / 1; 22,000 / (1 + 1 / 63,072,000) = 21,999.99965; 22,000 / (1 + 841 / 63,072,000) = 21,999.70666;
    # 22,000 / (1 + 39,601 / 63,072,000) = 21,986.19553
    for bound, last in ((1, 22000000), (2, 21999999), (30, 21999706), (200, 21986195)):
        yield after(USUAL, last, bound=bound), "N 11000"
        yield after(USUAL, last + 1, bound=bound), ONE_OVER
        yield after(USUAL, last + 1, bound=bound, holding=bound * ONE), ONE_OVER
    # 22,000 / (0.75 + 1.014713 * bound^2) = 12,466.6140, 4,574.8952 and 24.0702
    for bound, last in ((1, 12466613), (2, 4574895), (30, 24070)):
        yield after(LIVELY, last, bound=bound), "N 11000"
        yield after(LIVELY, last + 1, bound=bound), ONE_OVER
    # 0.542 and 0.543 * (40,000 * 1.014713 + 0.75) / 2 = 10,999.70 and 11,019.99; 11,020 is 2^13 + 2,828: hex 40C, and
    # 2,828 * 2^39
    yield after(LIVELY, 542, bound=200), "N 11000"
    yield after(LIVELY, 543, bound=200), "C 40C5860000000000 11000"
    # searched for with horizon.py: the last millisecond
    for bound, last in ((1, 16887827), (2, 16886077), (30, 15534009), (200, 3308867)):
        yield OPERATORS._replace(bound=bound, holding=0, terminal=last), None
        yield OPERATORS._replace(bound=bound, holding=0, terminal=last + 1), None


def far_above():
    """4.5 * 10^12 steps, which is 2^42 + 101,953,488,896: hex 429, and 101,953,488,896 * 2^10."""
    yield after(USUAL, MOST_TIME), "C 42905EF39B200000 11000"
    yield after(USUAL, MOST_TIME, holding=-ONE), "C 42905EF39B200000 11000"
    for bound in (1, 2, 30, 200):
        yield after(OPERATORS, MOST_TIME, bound=bound, holding=0), None
        yield after(LIVELY, MOST_TIME, bound=bound), None


def no_prices():
    """What 13 and 14 would refuse is not met: no price is made."""
    for changes in ({"mid": ONE // 2}, {"mid": MOST_AMOUNT}, {"risk_aversion": 1, "k": 1}, {"min_spread": 200 * ONE}):
        yield USUAL._replace(**changes), "N 0"


# ---- refusals
REFUSALS = (
    (2, {"mid": MOST_AMOUNT + 1}), (2, {"holding": MOST_AMOUNT + 1}), (2, {"holding": -MOST_AMOUNT - 1}),
    (2, {"volatility": MOST_AMOUNT + 1}), (2, {"min_spread": MOST_AMOUNT + 1}), (2, {"terminal": MOST_TIME + 1}),
    (2, {"current": MOST_TIME + 1}), (2, {"bound": 2**32}), (1, {"bound": 2**32 - 1}), (1, {"bound": 201}),
    (1, {"bound": 0}), (1, {"risk_aversion": 0}), (1, {"k": 0}), (1, {"a": 0}), (1, {"lot_size": 0}),
    (1, {"terminal": 0}), (3, {"mid": 0}), (3, {"volatility": 0}), (4, {"holding": 3 * ONE // 2}),
    (4, {"holding": 2 * ONE}), (4, {"holding": -2 * ONE}))
# of two, the first in the order 2, 1, 3, 4
PAIRS = (
    (2, {"current": MOST_TIME + 1, "bound": 0}), (2, {"mid": MOST_AMOUNT + 1, "volatility": 0}),
    (2, {"holding": MOST_AMOUNT + 1, "mid": 0}), (1, {"bound": 0, "mid": 0}), (1, {"bound": 201, "holding": 1}),
    (3, {"mid": 0, "holding": 1}))


def refusals():
    """Each with no time left, and each but those of a time above the cap."""
    for number, changes in REFUSALS + PAIRS:
        yield USUAL._replace(**changes), "R %d" % number
        if not {"terminal", "current"} & set(changes):
            yield after(USUAL, 22000001, **changes), "R %d" % number


def main():
    cases = [case for kind in (no_time, short, the_cap, far_above, no_prices, refusals) for case in kind()]
    cases.append((USUAL, "N 0"))
    cut = packed(OPERATORS)[:-1]
    out = b"".join(packed(desk) for desk, _ in cases) + cut
    told = [line for _, line in cases] + ["R 6"]
    lines = [line.strip() for _, line in horizon.answers(out)]
    if len(lines) != len(told):
        sys.exit("records.py: %d lines, and not %d" % (len(lines), len(told)))
    for i, (line, hand) in enumerate(zip(lines, told), 1):
        if hand not in (None, line):
            sys.exit("records.py: line %d: %s, and not %s" % (i, line, hand))
    sys.stdout.buffer.write(out)


if __name__ == "__main__":
    main()
