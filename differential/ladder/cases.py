"""Writes crates/ladderrun/stdin, the records of the gate, and crates/ladder/stdin, its sheet.

    python3 cases.py > RECORDS
    python3 cases.py sheet > SHEET

A case is a desk, the length of its buffer, and what the rule tells: the number of a refusal, or a line
for each lot, worked by hand; None stands for a line that is not. ladder.py is held to them, and every
ladder to its count of bytes, its number of lines and the mirror rule, which pairs a ladder with that of
the opposite drift, and so with itself where there is none. The stored outputs are ladder.py's. Nothing of
the library takes part. 5 and 11 are not among the cases: no desk within the limits is known that meets
either (docs/DECISIONS.md says why).
"""
import io
import itertools
import sys

import ladder  # first: it says where sheet and quoting are

import quoting
from listed import STEEP  # a run that rebalances, and with more time passes the cap after it
from quoting import BILLION as ONE
from quoting import MOST_AMOUNT, MOST_TIME, Desk
from sheet import packed

ROOM = 32768
WORD = 2**64 - 1
USUAL = Desk(100 * ONE, 0, ONE, ONE, ONE, ONE, 1, ONE, 1000, 1000, 0)
# document 01's default at holdings -1, 0 and 1
DEFAULT = ["Q 99.306852819 - 0\n", "Q 99.306852819 100.693147181 0\n", "Q - 100.693147181 0\n"]
# the record that README.md takes apart
OPERATORS = Desk(1000 * ONE, 5 * ONE, 1684700000000, ONE // 100, 3 * ONE // 10, 9 * ONE // 10, 30, ONE, 600000, 0, 0)
# what each number refuses with, alone
BEYOND = [(name, value) for name in quoting.SIGNED if name != "holding" for value in (
    MOST_AMOUNT + 1, -MOST_AMOUNT - 1, 2**63 - 1, -(2**63))]
BEYOND += [(name, value) for name in ("terminal", "current") for value in (MOST_TIME + 1, 2**63, WORD)]
CONFIGURATION = [(name, value) for name in ("risk_aversion", "k", "a", "lot_size") for value in (0, -1, -MOST_AMOUNT)]
CONFIGURATION += [("bound", 0), ("bound", 201), ("bound", 2**32 - 1), ("terminal", 0), ("min_spread", -1)]
MARKET = [(name, value) for name in ("mid", "volatility") for value in (0, -1, -MOST_AMOUNT)]
LENGTHS = (0, 1, 63, 64, 191, 192, 193, 25663, 25664, 32767, 32768, 32769, 2**63, WORD)


# ---- the lines that the rule tells
def level(bound, bid="99.306852819", ask="100.693147181"):
    """With no time left all lines quote alike; the lowest has no ask, and the highest no bid."""
    return ["Q %s - 0\n" % bid] + ["Q %s %s 0\n" % (bid, ask)] * (2 * bound - 1) + ["Q - %s 0\n" % ask]


def within(bound, lots, line):
    """A line alike for so many lots on both sides; the holdings of the others are beyond the limit."""
    beyond = ["R 2\n"] * (bound - lots)
    return beyond + [line] * (2 * lots + 1) + beyond


def untold(bound):
    return [None] * (2 * bound + 1)


# ---- the ladders
def bounds():
    """The default at several bounds, in buffers that are just long enough and one byte short."""
    yield USUAL, ROOM, DEFAULT
    for bound in (1, 2, 200):
        desk, least = USUAL._replace(bound=bound), 64 * (2 * bound + 1)
        yield desk, least, level(bound)
        yield desk, least - 1, 21
    yield USUAL._replace(bound=7), ROOM, level(7)
    yield USUAL._replace(bound=200), WORD, level(200)


def lengths():
    """Buffers of all lengths. More than 32,768 bytes count as that."""
    for length in LENGTHS:
        yield USUAL, length, DEFAULT if length >= 192 else 21
        if length <= 25663:
            yield USUAL._replace(bound=200), length, 21
    for length in (319, 320, 321):
        yield USUAL._replace(bound=2), length, level(2) if length >= 320 else 21


def holdings():
    """The holding is left aside: whole lots or not, beyond the bound and beyond the limit."""
    for holding in (ONE, -ONE, 3 * ONE // 2, 2 * ONE, 1, -1, MOST_AMOUNT, MOST_AMOUNT + 1, -MOST_AMOUNT - 1,
                    2**63 - 1, -(2**63)):
        yield USUAL._replace(holding=holding), ROOM, DEFAULT
    yield USUAL._replace(holding=-(2**63)), 191, 21


def lots():
    """Holdings within the amount limit and beyond it."""
    # ln(9,000,001) is 16.0127352; over gamma, 9,000,000, that is 1,779.19 billionths, which go up to 1,780
    most = USUAL._replace(lot_size=MOST_AMOUNT)
    quote = "Q 99.999998220 100.000001780 0\n"
    yield most._replace(bound=1), ROOM, level(1, "99.999998220", "100.000001780")
    for bound in (2, 200):
        yield most._replace(bound=bound), ROOM, within(bound, 1, quote)
    # 24 lots are just the limit: ln(375,001) is 12.8346840, and over 375,000 that is 34,225.82 billionths
    exact = USUAL._replace(lot_size=MOST_AMOUNT // 24)
    yield exact._replace(bound=25), ROOM, within(25, 24, "Q 99.999965774 100.000034226 0\n")
    yield exact._replace(bound=24), ROOM, level(24, "99.999965774", "100.000034226")
    # 23 lots are one billionth beyond it: ln(391,305.348) is 12.8772435, and over 391,304.348 that is 32,908.51
    # billionths
    beyond = USUAL._replace(lot_size=(MOST_AMOUNT + 1) // 23)
    yield beyond._replace(bound=23), ROOM, within(23, 22, "Q 99.999967091 100.000032909 0\n")
    # half the limit and one billionth: ln(4,500,001) is 15.3195882, and over 4,500,000 that is 3,404.35 billionths
    over = USUAL._replace(lot_size=MOST_AMOUNT // 2 + 1, bound=3)
    yield over, ROOM, within(3, 1, "Q 99.999996595 100.000003405 0\n")
    # a cap report is the line of the holdings that pass
    late = most._replace(bound=3, terminal=MOST_TIME, current=0)
    yield late, ROOM, within(3, 1, None)
    # gamma is the lot size, and ln(1 + gamma) / gamma is 1 - gamma / 2: 999,999,998.5 and 999,999,999.5 billionths
    yield USUAL._replace(lot_size=3, bound=3), ROOM, level(3, "99.000000001", "100.999999999")
    yield USUAL._replace(lot_size=1, bound=3), ROOM, level(3, "99.000000000", "101.000000000")


def prices():
    """Refusals of prices, line by line, and the min spread, which moves no line with one side."""
    yield USUAL._replace(mid=ONE // 2), ROOM, ["R 14\n", "R 14\n", "Q - 1.193147181 0\n"]
    yield USUAL._replace(mid=ONE // 2, bound=3), ROOM, ["R 14\n"] * 6 + ["Q - 1.193147181 0\n"]
    yield USUAL._replace(mid=693147182), ROOM, level(1, "0.000000001", "1.386294363")
    yield USUAL._replace(mid=693147181), ROOM, ["R 14\n", "R 14\n", "Q - 1.386294362 0\n"]
    yield USUAL._replace(risk_aversion=1, k=1), ROOM, ["R 13\n"] * 3
    yield USUAL._replace(mid=MOST_AMOUNT), ROOM, ["Q 8999999.306852819 - 0\n", "R 13\n", "R 13\n"]
    yield USUAL._replace(mid=MOST_AMOUNT, bound=2), ROOM, ["Q 8999999.306852819 - 0\n"] + ["R 13\n"] * 4
    edge = MOST_AMOUNT - 693147181
    yield USUAL._replace(mid=edge), ROOM, level(1, "8999998.613705638", "9000000.000000000")
    yield USUAL._replace(mid=edge + 1), ROOM, ["Q 8999998.613705639 - 0\n", "R 13\n", "R 13\n"]
    yield USUAL._replace(min_spread=2 * ONE), ROOM, [DEFAULT[0], "Q 99.000000000 101.000000000 0\n", DEFAULT[2]]
    yield USUAL._replace(min_spread=200 * ONE), ROOM, [DEFAULT[0], "R 14\n", DEFAULT[2]]
    yield USUAL._replace(min_spread=MOST_AMOUNT, bound=2), ROOM, [DEFAULT[0]] + ["R 14\n"] * 3 + [DEFAULT[2]]
    # prices fall from lot to lot: those of the higher ones below zero, those of the lower ones from beyond the limit
    yield OPERATORS._replace(mid=6 * ONE, volatility=16847 * ONE, bound=12, current=540000), ROOM, untold(12)
    yield STEEP._replace(mid=400000 * ONE), ROOM, untold(8)
    yield STEEP._replace(mid=MOST_AMOUNT - 500000 * ONE), ROOM, untold(8)


def runs():
    """Lines with steps: the default's, README.md's desk, and a rebalancing."""
    # one step of t = 0.001 seconds: the middle weight is 1 - t^2/16, and those beside it are 1 - t/4 + t^2/16; the
    # logarithms are t/4 - 3t^2/32 apart, 0.00024990625, by which 0.69314718056 grows or falls: to 0.69339708681 and
    # 0.69289727431, of which the next billionths are the distances
    yield USUAL._replace(terminal=1, current=0), ROOM, [
        "Q 99.307102725 - 1\n", "Q 99.306602913 100.693397087 1\n", "Q - 100.692897275 1\n"]
    yield USUAL._replace(terminal=1000, current=0, bound=5), ROOM, untold(5)
    yield OPERATORS, ROOM, untold(30)
    yield OPERATORS._replace(holding=0), 64 * 61, untold(30)
    yield OPERATORS, 64 * 61 - 1, 21
    yield OPERATORS._replace(bound=200), 25664, untold(200)
    yield STEEP, ROOM, untold(8)


def caps():
    """The first plan above the cap, and a later one. A tau of 9 * 10^12 seconds takes 4.5 * 10^12 steps."""
    longest = USUAL._replace(terminal=MOST_TIME, current=0)
    yield longest, ROOM, ["C 42905EF39B200000 11000\n"] * 3
    yield longest, 191, 21
    # the norm is 1: 22,000 seconds are 11,000 steps, and a millisecond more are 11,001, hex 40C57C80 and zeros
    yield USUAL._replace(terminal=22000001, current=0), ROOM, ["C 40C57C8000000000 11000\n"] * 3
    yield OPERATORS._replace(bound=200, terminal=3400000), ROOM, untold(200)
    yield STEEP._replace(terminal=30000), ROOM, untold(8)


# ---- the refusals
def whole():
    """What 2, 1 or 3 refuses, in a long buffer and in none; 2 comes before 1, 1 before 3, and 3 before 21."""
    for number, kind in ((2, BEYOND), (1, CONFIGURATION), (3, MARKET)):
        for name, value in kind:
            for length in (ROOM, 0):
                yield USUAL._replace(**{name: value}), length, number


def pairs():
    """Two refusals of one desk: the first of them in the order is the answer."""
    for (first, kind), (_, others) in (((2, BEYOND), (1, CONFIGURATION)), ((1, CONFIGURATION), (3, MARKET)),
                                       ((2, BEYOND), (3, MARKET))):
        for one, other in itertools.product(kind[::5], others[::2]):
            if one[0] != other[0]:
                yield USUAL._replace(**dict((one, other))), ROOM, first
    every = USUAL._replace(current=WORD, bound=0, mid=0)
    yield every, 0, 2
    yield every._replace(current=0), 0, 1
    yield every._replace(current=0, bound=1), 0, 3
    yield every._replace(current=0, bound=1, mid=1), 0, 21


def no_call():
    """A bound that 32 bits do not hold."""
    for bound in (2**32, 2**32 + 1, 2**63, WORD):
        for length in (0, 192, ROOM, WORD):
            yield USUAL._replace(bound=bound), length, 2


def drifts():
    """A drift moves nothing where no time is left; it is refused beyond the limit alone, and a ladder has no 22."""
    for drift in (1, -1, ONE, MOST_AMOUNT, -MOST_AMOUNT):
        yield USUAL._replace(drift=drift), ROOM, DEFAULT
    yield USUAL._replace(drift=ONE, bound=0), ROOM, 1
    yield USUAL._replace(drift=ONE, mid=0), ROOM, 3
    yield USUAL._replace(drift=-ONE), 191, 21
    # the ladder of each drift and of its opposite: all rows lean to one side, and prices face each other
    for sign in (1, -1):
        yield USUAL._replace(terminal=1000, current=0, bound=5, drift=sign * MOST_AMOUNT), ROOM, untold(5)
        yield USUAL._replace(terminal=3000, current=0, bound=3, k=10 * ONE, drift=sign * MOST_AMOUNT), ROOM, untold(3)
        yield OPERATORS._replace(bound=8, current=500000, drift=sign * 123456789012345), ROOM, untold(8)
        yield STEEP._replace(drift=sign * 40000 * ONE), ROOM, untold(8)
        yield STEEP._replace(terminal=30000, drift=sign * 40000 * ONE), ROOM, untold(8)
        # the norm is 1.0354: 22,000 seconds are 11,390 steps, hex 40C63F00
        longest = USUAL._replace(terminal=22000000, current=0, drift=sign * MOST_AMOUNT)
        yield longest, ROOM, ["C 40C63F0000000000 11000\n"] * 3
        yield longest._replace(lot_size=MOST_AMOUNT, bound=2, terminal=MOST_TIME), ROOM, within(2, 1, None)


def limits():
    """Numbers at their limits are taken."""
    for name in ("volatility", "a", "current"):
        yield USUAL._replace(**{name: MOST_AMOUNT}), ROOM, DEFAULT
    for name in ("risk_aversion", "k"):
        yield USUAL._replace(**{name: MOST_AMOUNT}), ROOM, untold(1)
    yield USUAL._replace(terminal=MOST_TIME, current=MOST_TIME), ROOM, DEFAULT


KINDS = (bounds, lengths, holdings, lots, prices, runs, caps, whole, pairs, no_call, limits, drifts)


# ---- ladder.py held to them
def stop(what, ours, told):
    sys.exit("cases.py: ladder.py does not give what the rule tells, %s:\n%s\n%s" % (what, ours, told))


def hold(what, ours, told):
    if ours != told:
        stop(what, ours, told)


def counts(line):
    """A quote's bid and ask, in billionths."""
    return [None if x == "-" else int(x.replace(".", "")) for x in line.split()[1:3]]


def hold_mirror(mid, lines, others):
    """A bid and the ask of the opposite lot in the other ladder add up to twice the mid; 2, reports and steps agree."""
    for line, opposite in zip(lines, reversed(others)):
        if line[0] == opposite[0] == "Q":
            bid, ask = counts(line)[0], counts(opposite)[1]
            hold("steps", line.split()[3], opposite.split()[3])
            hold("absent sides", bid is None, ask is None)
            if bid is not None:
                hold("mirrored quotes", bid + ask, 2 * mid)
        elif line[0] == "C" or line == "R 2\n":
            hold("mirrored lines", opposite, line)


def hold_ladder(desk, lines, told):
    hold("lines", len(lines), len(told))
    for line, hand in zip(lines, told):
        if hand is not None:
            hold("a line", line, hand)
    ends = {line for line in lines if line[0] == "C"} or {line.split()[3] for line in lines if line[0] == "Q"}
    if len(ends) > 1:
        stop("one run", ends, "one report, or one count of steps")
    hold_mirror(desk.mid, lines, ladder.ladder(desk._replace(drift=-desk.drift)) if desk.drift else lines)


def hold_answer(desk, ours, told):
    """An answer of ladderrun. Nothing but the ladder is written."""
    hold("the bytes past it", ours[-1], "U\n")
    if isinstance(told, int):
        hold("a refusal", ours[:-1], ["R %d\n" % told])
    else:
        hold_ladder(desk, ours[1:-1], told)
        hold("the count", ours[0], "L %d\n" % len("".join(ours[1:-1])))


def listed():
    """The records; the last is cut short."""
    cases = [case for kind in KINDS for case in kind()]
    packs = [quoting.pack(desk, length) for desk, length, _ in cases]
    out = b"".join(packs) + packs[0][:103]
    answers = ladder.lines(io.BytesIO(out))
    hold("answers", len(answers), len(cases) + 1)
    for (desk, _, told), ours in zip(cases, answers):
        hold_answer(desk, ours, told)
    hold_answer(USUAL, answers[-1], 6)
    return out


# ---- the sheet
def records():
    """The sheet's desks and their lines: the holding is left aside, a refusal is one line, and reading goes on."""
    yield USUAL, DEFAULT
    yield USUAL._replace(holding=3 * ONE // 2), DEFAULT
    yield USUAL._replace(holding=2 * ONE), DEFAULT
    yield USUAL._replace(min_spread=2 * ONE), [DEFAULT[0], "Q 99.000000000 101.000000000 0\n", DEFAULT[2]]
    yield USUAL._replace(bound=201), ["R 1\n"]
    yield USUAL._replace(mid=0), ["R 3\n"]
    yield USUAL._replace(mid=MOST_AMOUNT + 1), ["R 2\n"]
    yield USUAL._replace(bound=2**32), ["R 2\n"]
    for holding in (MOST_AMOUNT + 1, -MOST_AMOUNT - 1, 2**55 - 1, -(2**55)):
        yield USUAL._replace(holding=holding), DEFAULT
    yield USUAL._replace(holding=MOST_AMOUNT + 1, current=MOST_TIME + 1), ["R 2\n"]
    yield USUAL._replace(mid=ONE // 2), ["R 14\n", "R 14\n", "Q - 1.193147181 0\n"]
    yield OPERATORS._replace(bound=3), untold(3)
    yield USUAL._replace(terminal=MOST_TIME, current=0), ["C 42905EF39B200000 11000\n"] * 3
    yield USUAL._replace(lot_size=MOST_AMOUNT, bound=2), within(2, 1, "Q 99.999998220 100.000001780 0\n")


def sheet_of_the_gate():
    """Those, a record with a zero last group, and one that is not read any more."""
    cases = list(records())
    before = b"".join(packed(desk) for desk, _ in cases)
    one = bytes.fromhex("8094EBDC03")
    zero_group = packed(USUAL).replace(one + b"\x01" + one, one + b"\x81\x00" + one)  # a bound of 1 in two groups
    out = before + zero_group + packed(USUAL)
    answers = [lines for _, lines in ladder.answers(out)]
    hold("answers", len(answers), len(cases) + 1)
    for (desk, told), ours in zip(cases, answers):
        if len(told) == 1:
            hold("a refusal", ours, told)
        else:
            hold_ladder(desk, ours, told)
    hold("the end", answers[-1], ["R 7\n"])
    return out


def main():
    sys.stdout.buffer.write(sheet_of_the_gate() if sys.argv[1:] == ["sheet"] else listed())


if __name__ == "__main__":
    main()
