"""Writes crates/tablerun/stdin, the records of the gate.

    python3 cases.py > RECORDS

A case is a record and its line. One table goes through all of them, and each group but the first begins by clearing
it. Where nothing but quoting calls wrote the table, the answer is the one that quoting.py gives without any table; what
the call does to the table, its filled rows and its next row are told by the rule. Where a row was set, the answer is
told by hand. table.py is held to every line. The stored output is table.py's. Nothing of the library takes part. 5 is
in no case, and 11 only for a row that was set: no desk within the limits is known that meets either
(docs/DECISIONS.md).
"""
import itertools
import sys

import table  # first: it says where quoting is

import quoting
from listed import EXAMPLE, STEEP
from quoting import BILLION as ONE
from quoting import EXACT, MOST_AMOUNT, MOST_TIME, RECORD, Desk, elementary
from table import ALPHA, BETA, BOUND, ETA, FILLED, LENGTH, NEXT, OFFSET, STEPS, TAU, WEIGHT  # the roles
from table import CLEAR, LEND, QUOTE, SET, START

WORD = 2**64 - 1
# No time left, and a bound of 1: all weights are 1, and the distances the logarithm of 2, 0.693147180559945
USUAL = Desk(100 * ONE, 0, ONE, ONE, ONE, ONE, 1, ONE, 1000, 1000, 0)
FLAT = "Q 99306852819 100693147181 0"
NO_BID, NO_ASK = "Q - 100693147181 0", "Q 99306852819 - 0"
# one millisecond left: differential/ladder/cases.py works these distances out, 0.69339708681 after the only step
MOMENT = USUAL._replace(current=999)
MOMENT_LINE = "Q 99306602913 100693397087 1"
RUN = USUAL._replace(bound=3, terminal=9000, current=0)
PAPER = EXAMPLE._replace(bound=8, current=590000)
LEANT = USUAL._replace(bound=2, current=0, drift=MOST_AMOUNT)
# the norm is 1, and 22,000.001 seconds are 11,001 steps
OVER_CAP = USUAL._replace(terminal=22000001, current=0)
CAP_LINE = "C 40c57c8000000000 11000 0"
LONGEST = OVER_CAP._replace(terminal=22000000)
WIDE = USUAL._replace(bound=200)


# ---- cases
def words(kind, *first):
    return RECORD.pack(*first, *[0] * (11 - len(first)), kind, 0)


def clear():
    return words(CLEAR), "Z"


def put(role, number, row=0, place=0):
    return words(SET, role, row, place, number), "P"


def lend(length):
    return words(LEND, length), "P"


def call(desk, line, filled, coming, mark="S"):
    """A quoting call and its line; the filled rows and the next row after it, and whether the table changed."""
    return quoting.pack(desk, QUOTE), "%s %s %s %s" % (line, filled, coming, mark)


def alone(desk):
    """The answer without a table."""
    return quoting.line(desk, EXACT)


def play(desks, script):
    """Calls of desks by their letters, each with its mark, the filled rows and the next row."""
    for letter, mark, filled, coming in script.split():
        yield call(desks[letter], alone(desks[letter]), filled, coming, mark)


def no_call(bound):
    """32 bits do not hold the bound."""
    return quoting.pack(USUAL._replace(bound=bound), QUOTE), "R 2"


def flat(steps):
    """USUAL's quotes with such steps."""
    return FLAT[:-1] + str(steps)


# ---- bits
def bits(x):
    return elementary.bits_of(x)


def floats(desk):
    """The bits of the floats that a desk's vector comes from."""
    model, _ = quoting.model_of(desk, desk.current)
    return {ALPHA: bits(model.alpha), BETA: bits(model.beta), ETA: bits(model.eta), TAU: bits(quoting.time_left(desk))}


UNIT = bits(1.0)
SIGN = bits(-0.0)
MOST = bits(sys.float_info.max)
INFINITE = [bits(float("inf")), bits(float("-inf"))]
NANS = [0x7FF8 << 48, (0xFFF0 << 48) + 1, 2**63 - 1, WORD]
NOT_POSITIVE = [0, SIGN, bits(-1.0), *INFINITE, *NANS]


# ---- the other desk
def scaled(desk, by):
    """The same floats with another k. k and gamma are so many times as large, a power of two, volatility and drift so
    many times smaller. Alpha is k * gamma * sigma^2 / 2, eta is made of k / gamma, and beta is k * drift: all are as
    they were. Distances are so many times smaller."""
    assert desk.volatility % by == 0 and desk.drift % by == 0
    return desk._replace(k=by * desk.k, risk_aversion=by * desk.risk_aversion, volatility=desk.volatility // by,
                         drift=desk.drift // by)


def in_lots(desk, by):
    """The same floats with lots so many times as large, a power of two: gamma is risk aversion * lot size."""
    assert desk.risk_aversion % by == 0
    return desk._replace(risk_aversion=desk.risk_aversion // by, lot_size=by * desk.lot_size)


FIRST = {"a": USUAL, "b": MOMENT, "c": RUN, "d": PAPER, "e": LEANT}
# the same vectors, asked for by another desk
SECOND = {
    "A": USUAL._replace(mid=250 * ONE, holding=-ONE, min_spread=2 * ONE, terminal=7, current=MOST_TIME),
    "B": scaled(MOMENT, 2)._replace(mid=7 * ONE, min_spread=ONE, terminal=5001, current=5000),
    "C": in_lots(RUN, 2)._replace(mid=31 * ONE, holding=-4 * ONE, min_spread=3 * ONE, terminal=9100, current=100),
    "D": scaled(PAPER, 4)._replace(mid=1001 * ONE, holding=-3 * ONE),
    "E": scaled(in_lots(LEANT, 4), 2)._replace(mid=9 * ONE, holding=8 * ONE, min_spread=1),
}
BOTH = {**FIRST, **SECOND}


# ---- from a cleared table
def begins():
    """Every number is hex A5A5A5A5A5A5A5A5 at first, the count of filled rows too: 24, before 2, 1, 3 and 4."""
    for changes in ({}, {"mid": MOST_AMOUNT + 1}, {"bound": 0}, {"mid": 0}, {"holding": 1}):
        yield call(USUAL._replace(**changes), "R 24", START, START)
    # with both numbers of the head 0 the rows may hold what they do, and the first vector takes row 0
    yield put(FILLED, 0)
    yield call(USUAL, "R 24", 0, START)
    yield put(NEXT, 0)
    yield from play(BOTH, "aW11 aS11 cW22 CS22 dW33 bW40 eW41 aW42 dS42 BS42")
    yield clear()
    yield from play(BOTH, "aW11 aS11")


def turns():
    """Rows are taken in turn. With four filled the oldest goes first, and reuse makes no row newer."""
    yield clear()
    yield from play(FIRST, "aW11 bW22 cW33 dW40 eW41 aW42 cS42 dS42 eS42 aS42 bW43 dS43 eS43 aS43 bS43 cW40 dW41 eW42")
    yield clear()
    yield from play(FIRST, "aW11 bW22 aS22 cW33 dW40 aS40 eW41 aW42 cS42 bW43")


def others():
    """A vector is any desk's that comes to the same bound and floats, whatever its mid, holding, spread, k and lots."""
    yield clear()
    yield from play(BOTH, "aW11 AS11 BW22 bS22 cW33 CS33 DW40 dS40 aS40 eW41 ES41 AW42 bW43 CW40")
    # half of 0.693147180559945 is 0.346573590279973, and a quarter 0.173286795139986
    yield clear()
    yield call(scaled(USUAL, 4), "Q 99826713204 100173286796 0", 1, 1, "W")
    yield call(USUAL, FLAT, 1, 1)
    yield call(scaled(USUAL, 2), "Q 99653426409 100346573591 0", 1, 1)
    yield call(in_lots(USUAL, 2)._replace(holding=2 * ONE), NO_BID, 1, 1)
    yield call(in_lots(USUAL, 2)._replace(holding=ONE), "R 4", 1, 1)
    yield call(in_lots(USUAL, 512)._replace(holding=-512 * ONE), NO_ASK, 1, 1)
    yield call(USUAL._replace(min_spread=2 * ONE), "Q 99000000000 101000000000 0", 1, 1)
    yield call(USUAL._replace(mid=ONE), "Q 306852819 1693147181 0", 1, 1)


def beside():
    """Another bound, or other floats: no row agrees. Each of the five differs alone; beta once by its sign."""
    desk = RUN._replace(drift=ONE)
    for three in (({"bound": 2}, {"bound": 4}, {"terminal": 9001}),
                  ({"current": 1}, {"volatility": ONE + 1}, {"a": ONE + 1}),
                  ({"drift": ONE + 1}, {"drift": -ONE}, {"drift": 0})):
        yield clear()
        desks = dict(zip("abcd", (desk, *(desk._replace(**changes) for changes in three))))
        yield from play(desks, "aW11 bW22 cW33 dW40 aS40 cS40")


def amounts():
    """Floats are compared, not the amounts behind them: amounts of one float have one vector, of two floats two."""
    yield clear()
    # 8,999,999.999999998 and 8,999,999.999999999 are one float, 9,000,000 is the next: 2^-29 is 1.9 billionths
    for less, mark, filled in ((2, "W", 1), (1, "S", 1), (0, "W", 2)):
        yield call(USUAL._replace(volatility=MOST_AMOUNT - less), FLAT, filled, filled, mark)
    # the same of as many milliseconds in seconds: 2^-9 is 1.95 milliseconds
    slow = USUAL._replace(a=1, risk_aversion=1000 * ONE, volatility=1, current=0)
    yield from play({x: slow._replace(terminal=MOST_TIME - int(x)) for x in "210"}, "2W33 1S33 0W40")


def ended():
    """With no time left a vector is one like any other, and past the end it is the same, whatever the times."""
    yield clear()
    yield call(USUAL, FLAT, 1, 1, "W")
    for terminal, current in ((1000, 1001), (1, MOST_TIME), (MOST_TIME, MOST_TIME)):
        yield call(USUAL._replace(terminal=terminal, current=current, holding=ONE), NO_BID, 1, 1)
    yield from play(FIRST, "bW22 bS22 aS22")
    # the other floats count, though no step looks at them
    yield call(USUAL._replace(a=2 * ONE), FLAT, 3, 3, "W")
    yield call(USUAL._replace(drift=1), FLAT, 4, 0, "W")
    yield call(USUAL._replace(drift=-1), FLAT, 4, 1, "W")
    yield call(USUAL._replace(drift=1), FLAT, 4, 1)
    yield clear()
    yield call(WIDE, FLAT, 1, 1, "W")
    yield call(WIDE._replace(holding=200 * ONE), NO_BID, 1, 1)
    yield call(WIDE._replace(bound=199), FLAT, 2, 2, "W")
    yield call(WIDE._replace(bound=199, holding=-199 * ONE), NO_ASK, 2, 2)
    yield from play({"a": WIDE._replace(current=0), "b": WIDE._replace(current=0, holding=-200 * ONE)}, "aW33 bS33")


def drifts():
    """A drift and its opposite are two vectors; half the drift with twice the k is the same. STEEP is rebalanced."""
    yield clear()
    turned = LEANT._replace(drift=-LEANT.drift)
    desks = {"a": LEANT, "b": turned, "c": LEANT._replace(drift=0), "A": scaled(LEANT, 2)._replace(holding=ONE),
             "B": scaled(turned, 2)._replace(holding=-ONE), "d": STEEP._replace(drift=40000 * ONE),
             "D": STEEP._replace(drift=40000 * ONE, holding=3 * STEEP.lot_size)}
    yield from play(desks, "aW11 bW22 cW33 AS33 BS33 aS33 dW40 DS40 dS40")


# ---- what leaves the table as it is
REFUSED = (
    (2, {"mid": MOST_AMOUNT + 1}), (2, {"holding": -MOST_AMOUNT - 1}), (2, {"drift": MOST_AMOUNT + 1}),
    (2, {"current": MOST_TIME + 1}), (1, {"bound": 0}), (1, {"bound": 201}), (1, {"bound": 2**32 - 1}), (1, {"k": 0}),
    (3, {"mid": 0}), (3, {"volatility": -1}), (4, {"holding": ONE // 2}), (4, {"holding": 2 * ONE}),
    (2, {"mid": MOST_AMOUNT + 1, "bound": 0}), (1, {"k": 0, "mid": 0}), (3, {"mid": 0, "holding": 1}),
    (13, {"mid": MOST_AMOUNT}), (13, {"mid": MOST_AMOUNT // 2 + 1, "min_spread": MOST_AMOUNT}),
    (14, {"mid": ONE // 2}), (14, {"min_spread": 200 * ONE}))


def between():
    """Every refusal and a report between reuses. Those of prices come after the row was read."""
    yield clear()
    yield from play(FIRST, "aW11 bW22")
    last = None
    for number, changes in REFUSED:
        if number != last:
            yield call(USUAL, FLAT, 2, 2)
        yield call(USUAL._replace(**changes), "R %d" % number, 2, 2)
        last = number
    yield call(USUAL, FLAT, 2, 2)
    yield call(OVER_CAP, CAP_LINE, 2, 2)
    yield from play({**FIRST, "f": STEEP._replace(terminal=30000)}, "aS22 fS22 aS22")  # the cap after a rebalancing
    for bound in (2**32, 2**32 + 1, WORD):
        yield no_call(bound)
    yield from play(FIRST, "aS22 bS22")


def priced():
    """13 and 14 after a new vector: it is not stored, and the same without them makes it anew."""
    yield clear()
    for mid, number in ((ONE // 2, 14), (MOST_AMOUNT, 13)):
        yield call(USUAL._replace(mid=mid), "R %d" % number, 0, 0)
    yield call(USUAL, FLAT, 1, 1, "W")
    for changes, number in (({"mid": ONE // 2}, 14), ({"mid": MOST_AMOUNT}, 13), ({"min_spread": 200 * ONE}, 14)):
        yield call(MOMENT._replace(**changes), "R %d" % number, 1, 1)
    # the bid alone at the largest mid; the ask alone, though a bid would be below zero
    yield from play({"b": MOMENT._replace(mid=MOST_AMOUNT, holding=-ONE), "B": MOMENT}, "bW22 BS22")
    yield call(RUN._replace(mid=ONE // 2), "R 14", 2, 2)
    yield from play({"c": RUN._replace(mid=ONE // 2, holding=3 * ONE), "C": RUN}, "cW33 CS33")
    # distances of 693,147,180 with a k of one billionth, and of 676,901 with 1,024 of them: one vector
    least = USUAL._replace(mid=5 * 10**15, risk_aversion=1, k=1, volatility=1024 * ONE)
    yield call(least, "R 13", 3, 3)
    yield from play({"e": scaled(least, 1024)}, "eW40 eS40")
    yield call(least, "R 13", 4, 0)
    # with four filled the oldest stays
    yield call(PAPER._replace(mid=1), "R 14", 4, 0)
    yield call(LEANT._replace(mid=MOST_AMOUNT), "R 13", 4, 0)
    yield call(OVER_CAP, CAP_LINE, 4, 0)
    yield from play(FIRST, "aS40 bS40 cS40 dW41 bS41 cS41 aW42")


# ---- 24
def probe(sound, filled, coming):
    """A call that 3 refuses where the table passes, and 24 where it does not."""
    return call(USUAL._replace(mid=0), "R 3" if sound else "R 24", filled, coming)


def heads():
    """At most four filled rows, and a next row of at most 3; with fewer than four filled, it is their count."""
    yield clear()
    yield put(FILLED, 4)
    yield probe(False, 4, 0)  # a cleared row has no bound
    yield put(FILLED, 0)
    yield from play(FIRST, "aW11 bW22 cW33 dW40")
    for coming in (3, 4, 2**32, WORD, 0):
        yield put(NEXT, coming)
        yield probe(coming <= 3, 4, coming)
    for filled in (5, 2**32 + 4, WORD):
        yield put(FILLED, filled)
        yield probe(False, filled, 0)
    for filled, nexts in ((0, (0, 1, 3)), (1, (1, 0)), (2, (2, 3)), (3, (3, 2, 0, 4))):
        yield put(FILLED, filled)
        for coming in nexts:
            yield put(NEXT, coming)
            yield probe(coming == filled, filled, coming)
    # nothing else has changed. A new vector goes to the next row, and no row past the filled ones counts
    yield put(NEXT, 3)
    yield put(FILLED, 4)
    yield from play(FIRST, "aS43 cS43 dS43")
    yield put(NEXT, 2)
    yield from play(FIRST, "eW43 bS43 dS43")
    yield put(FILLED, 2)
    yield put(NEXT, 2)
    yield from play(FIRST, "bS22 dW33 dS33")
    yield put(FILLED, 0)
    yield put(NEXT, 0)
    yield from play(FIRST, "bW11 aW22")


# lengths and bounds of a row; twice some of the bounds, and one, wraps around 64 bits, and some have such low bits
SIZES = ((3, 1, True), (2, 1, False), (4, 1, False), (2**32 + 3, 1, False), (3, 2, False), (3, 2**32 + 1, False),
         (3, 2**63 + 1, False), (1, 2**63, False), (1, 0, False), (0, 0, False), (401, 200, True), (400, 200, False),
         (402, 200, False), (403, 201, False), (WORD, WORD, False), (7, 3, True))


def rows():
    """A filled row's steps, its bound, and its length."""
    yield clear()
    yield from play(FIRST, "aW11 bW22 cW33 dW40")
    for steps in (11000, 11001, 2**32 + 5, WORD, 5):
        yield put(STEPS, steps, 2)
        yield probe(steps <= 11000, 4, 0)
    last = None, None
    for length, bound, sound in SIZES:
        if length != last[0]:
            yield put(LENGTH, length, 2)
        if bound != last[1]:
            yield put(BOUND, bound, 2)
        yield probe(sound, 4, 0)
        last = length, bound
    # in the other rows
    for row, role, bad, good in ((0, STEPS, 11001, 0), (1, LENGTH, 4, 3), (3, BOUND, 7, 8)):
        yield put(role, bad, row)
        yield probe(False, 4, 0)
        yield put(role, good, row)
    # a vector of 11,000 steps is one like any other
    yield from play({**FIRST, "f": LONGEST}, "aS40 bS40 cS40 dS40 fW41 fS41 bS41")


def first_of_all():
    """24 comes before 2, 1, 3, 4, a report, 13 and 14, and before a row that agrees. Clearing does not ask."""
    yield clear()
    yield call(USUAL, FLAT, 1, 1, "W")
    yield put(STEPS, 11001)
    for desk in (USUAL, MOMENT, OVER_CAP, *(USUAL._replace(**changes) for _, changes in REFUSED[::3])):
        yield call(desk, "R 24", 1, 1)
    yield no_call(2**32)
    yield clear()
    yield call(USUAL, FLAT, 1, 1, "W")


def unfilled():
    """A row that is not filled may hold anything, and does not agree. A new vector leaves nothing of it."""
    yield clear()
    yield call(USUAL, FLAT, 1, 1, "W")
    for role, number, row in ((STEPS, 11001, 1), (LENGTH, WORD, 2), (BOUND, 2**63, 3), (ALPHA, NANS[0], 1)):
        yield put(role, number, row)
    yield probe(True, 1, 1)
    # row 1 would be MOMENT's, with other steps, weights and offsets
    for role, number in {STEPS: 777, LENGTH: 3, BOUND: 1, **floats(MOMENT)}.items():
        yield put(role, number, 1)
    for place in (1, 3, 4, 5, 8):
        yield put(WEIGHT, UNIT, 1, place)
        yield put(OFFSET, bits(5.0 + place), 1, place)
    yield call(MOMENT, MOMENT_LINE, 2, 2, "W")
    yield call(MOMENT, MOMENT_LINE, 2, 2)
    # a bound of 4 shows what is past the length: weights of 0.0, and offsets of 0.0
    yield put(LENGTH, 9, 1)
    yield put(BOUND, 4, 1)
    wide = MOMENT._replace(bound=4)
    yield call(wide, "R 11", 2, 2)
    yield call(wide._replace(holding=4 * ONE), "R 11", 2, 2)
    for place in (3, 4, 5, 7, 8):
        yield put(WEIGHT, UNIT, 1, place)
    yield call(wide, flat(1), 2, 2)
    yield call(wide._replace(holding=4 * ONE), NO_BID[:-1] + "1", 2, 2)
    yield call(wide._replace(holding=-3 * ONE), MOMENT_LINE, 2, 2)  # the first three weights are the vector's
    # rows 2 and 3 are refused as soon as they are filled
    for filled, coming in ((3, 3), (4, 0)):
        yield put(FILLED, filled)
        yield put(NEXT, coming)
        yield probe(False, filled, coming)


# ---- rows that were set
def agreeing():
    """Of rows that agree the first by its place is taken, with its steps, whichever is the oldest."""
    yield clear()
    desks = [USUAL._replace(volatility=i * ONE) for i in range(1, 7)]
    for i, desk in enumerate(desks[:4], 1):
        yield call(desk, FLAT, i, i % 4, "W")
    for row in range(4):
        yield put(STEPS, 10 * row + 10, row)
        yield put(ALPHA, floats(desks[1])[ALPHA], row)
    for coming in (0, 3, 1):
        yield put(NEXT, coming)
        yield call(desks[1], flat(10), 4, coming)
    yield call(desks[0], FLAT, 4, 2, "W")  # row 1
    for row, steps in ((0, 30), (2, 40)):  # these agree no longer
        yield put(ALPHA, floats(desks[5])[ALPHA], row)
        yield call(desks[1], flat(steps), 4, 2)
    yield call(desks[5], flat(10), 4, 2)
    yield put(TAU, 1, 3)
    yield call(desks[1], FLAT, 4, 3, "W")
    # of two rows, with a count of filled ones that leaves the second out
    yield clear()
    yield from play(FIRST, "aW11 bW22")
    yield put(STEPS, 5, 0)
    yield put(STEPS, 7, 1)
    yield put(TAU, 0, 1)
    yield call(USUAL, flat(5), 2, 2)
    yield put(TAU, floats(MOMENT)[TAU], 0)
    yield call(MOMENT, flat(5), 2, 2)
    yield call(USUAL, MOMENT_LINE[:-1] + "7", 2, 2)
    yield put(FILLED, 1)
    yield put(NEXT, 1)
    yield call(USUAL, FLAT, 2, 2, "W")


def keys():
    """A row agrees by its five numbers: with another desk's, too, but not with a zero of the other sign or a NaN."""
    yield clear()
    yield call(USUAL, FLAT, 1, 1, "W")
    own = floats(USUAL)
    for role, desk in ((ALPHA, USUAL._replace(volatility=2 * ONE)), (BETA, USUAL._replace(drift=ONE)),
                       (ETA, USUAL._replace(a=2 * ONE)), (TAU, MOMENT), (TAU, OVER_CAP)):
        yield put(role, floats(desk)[role])
        yield call(desk, FLAT, 1, 1)  # as it stands: no step, no report
        yield put(role, own[role])
    # the row is read where 11 is the answer; where it is not, a mid of 0.5 is refused and nothing stored
    yield put(WEIGHT, 0, 0, 1)
    low = USUAL._replace(mid=ONE // 2)
    for role in (ALPHA, BETA, ETA, TAU):
        for number in (own[role] ^ 1, own[role] ^ SIGN, NANS[role % 4]):
            yield put(role, number)
            yield call(low, "R 14", 1, 1)
        yield put(role, own[role])
        yield call(low, "R 11", 1, 1)
    # a bound and its length
    yield put(LENGTH, 5)
    yield put(BOUND, 2)
    yield call(low, "R 14", 1, 1)
    yield call(low._replace(bound=2, holding=2 * ONE), "R 11", 1, 1)
    yield put(WEIGHT, UNIT, 0, 1)
    yield call(USUAL._replace(bound=2, holding=-ONE), FLAT, 1, 1)  # the three weights of a bound of 1
    yield call(USUAL._replace(bound=2), "R 11", 1, 1)  # the fourth is 0.0


def weights():
    """The distances read the weight at the holding and those beside it; one that is not finite and positive is 11."""
    yield clear()
    yield call(USUAL, FLAT, 1, 1, "W")
    for number in NOT_POSITIVE:
        yield put(WEIGHT, number, 0, 1)
        yield call(USUAL, "R 11", 1, 1)
    yield put(WEIGHT, UNIT, 0, 1)
    for place, holding, line in ((0, ONE, NO_BID), (2, -ONE, NO_ASK)):
        for number in (SIGN, NANS[1]):
            yield put(WEIGHT, number, 0, place)
            yield call(USUAL, "R 11", 1, 1)
        yield call(USUAL._replace(holding=-holding), "R 11", 1, 1)
        yield call(USUAL._replace(holding=holding), line, 1, 1)  # there the place is not read
        yield put(WEIGHT, UNIT, 0, place)
    # 2 ln 2 is 1.386294361120; ln 2 - ln 2 is 0, and both prices the mid; ln 2 - ln 4 goes up to -0.693147180; of the
    # largest float the distance is 1,025 ln 2, 710.475860073944, and of the least 1,075 ln 2, 745.133219101941
    for place, number, mid, line in (
            (1, bits(2.0), 100, "Q 98613705638 101386294362 0"), (1, bits(0.5), 100, "R 14"),
            (1, MOST, 1000, "Q 289524139926 1710475860074 0"), (1, MOST, 710, "R 14"), (1, UNIT, 100, FLAT),
            (0, bits(2.0), 100, "Q 99306852819 100000000000 0"), (0, 1, 100, "Q 99306852819 845133219102 0"),
            (0, UNIT, 100, FLAT), (2, bits(2.0), 100, "Q 100000000000 100693147181 0"),
            (2, bits(4.0), 100, "Q 100693147180 100693147181 0"), (2, bits(4.0), 9000000, "R 13"), (2, 1, 100, "R 14")):
        yield put(WEIGHT, number, 0, place)
        yield call(USUAL._replace(mid=mid * ONE), line, 1, 1)


def offsets():
    """An offset may be any float. A distance that it makes not finite is 11; then 13 and 14 are asked as always."""
    yield clear()
    yield call(USUAL, FLAT, 1, 1, "W")
    for place in range(3):
        for number in (*INFINITE, NANS[1]):
            yield put(OFFSET, number, 0, place)
            yield call(USUAL, "R 11", 1, 1)
        yield call(USUAL._replace(holding=ONE), NO_BID if place == 0 else "R 11", 1, 1)
        yield call(USUAL._replace(holding=-ONE), NO_ASK if place == 2 else "R 11", 1, 1)
        yield put(OFFSET, 0, 0, place)
    # 1 more than 0.693147180560 is 1.693147180560, and 1 less goes up to -0.306852819. On both sides that leaves a
    # spread below zero, which is widened to one price, or to the min spread. Over half the k the largest float is twice
    # as large, which is not finite
    spread = USUAL._replace(min_spread=2 * ONE)
    half = USUAL._replace(risk_aversion=ONE // 2, k=ONE // 2, volatility=2 * ONE)
    for place, x, desk, line in (
            (0, 1.0, USUAL, "Q 99306852819 99693147181 0"), (0, -0.0, USUAL, FLAT),
            (2, 1.0, USUAL, "Q 100306852819 100693147181 0"), (2, 5e-324, USUAL, FLAT),
            (1, 1.0, USUAL, "Q 98306852819 101693147181 0"), (1, -1.0, USUAL, "R 14"),
            (1, -1.0, spread, "Q 99000000000 101000000000 0"), (1, 100.0, USUAL, "R 14"), (1, 1e7, USUAL, "R 13"),
            (1, 8999999.0, USUAL, "R 13"), (1, 8999999.0, USUAL._replace(mid=ONE // 10), "R 14"),
            (1, sys.float_info.max, USUAL, "R 13"), (1, sys.float_info.max, half, "R 11")):
        yield put(OFFSET, bits(x), 0, place)
        yield call(desk, line, 1, 1)
    # alike at all three places they take no part; the largest and the least are too far apart
    yield put(STEPS, 11000)
    yield put(OFFSET, MOST, 0, 0)
    yield put(OFFSET, MOST, 0, 2)
    yield call(USUAL, flat(11000), 1, 1)
    yield put(OFFSET, MOST + SIGN, 0, 1)
    yield call(USUAL, "R 11", 1, 1)


def places():
    """In rows of all lengths each place is by itself: the last of a row, too, and the first of the next."""
    yield clear()
    # five places, of which a holding of 0 reads the middle three
    yield call(USUAL._replace(bound=2), FLAT, 1, 1, "W")
    for role, place in itertools.product((WEIGHT, OFFSET), (0, 4, 5)):
        yield put(role, NANS[0], 0, place)
    yield call(USUAL._replace(bound=2), FLAT, 1, 1)
    for lots in (-2, -1, 1, 2):
        yield call(USUAL._replace(bound=2, holding=lots * ONE), "R 11", 1, 1)
    yield clear()
    desks = [WIDE._replace(volatility=i * ONE) for i in (1, 2, 3, 4)]
    for i, desk in enumerate(desks, 1):
        yield call(desk, FLAT, i, i % 4, "W")
    # each row gets steps of its own, weights of 2 at its ends, and an offset of 1 at 1, 2, 4 or 8 lots
    for row in range(4):
        yield put(STEPS, row + 1, row)
        yield put(WEIGHT, bits(2.0), row, 0)
        yield put(WEIGHT, bits(2.0), row, 400)
        yield put(OFFSET, UNIT, row, 200 + 2**row)
    for i, desk in enumerate(desks):
        side, line = (1, "Q - 101386294362 %d") if i % 2 == 0 else (-1, "Q 98613705638 - %d")
        yield call(desk._replace(holding=side * 200 * ONE), line % (i + 1), 4, 0)
        yield call(desk._replace(holding=2**i * ONE), "Q 98306852819 101693147181 %d" % (i + 1), 4, 0)
    yield call(WIDE._replace(holding=16 * ONE), flat(1), 4, 0)


def set_prices():
    """13, 14 and 11 of a row that was set: the table stays, and the row agrees as before."""
    yield clear()
    yield from play(FIRST, "aW11 bW22 cW33 dW40")
    for role, number, refusal in ((OFFSET, bits(1e7), 13), (OFFSET, bits(-1000.0), 14), (WEIGHT, 0, 11)):
        yield put(role, number, 2, 3)
        yield call(RUN, "R %d" % refusal, 4, 0)
    yield from play(FIRST, "aS40 dS40 eW41 bS41")
    yield call(RUN, "R 11", 4, 1)


# ---- 23
def lengths():
    """Fewer than 4,096 numbers are refused before all else, and by clearing. More do no harm, and are cleared too."""
    yield clear()
    yield from play(FIRST, "aW11 bW22")
    yield lend(4095)
    for changes in ({"mid": MOST_AMOUNT + 1}, {"bound": 0}, {"mid": ONE // 2}):
        yield call(USUAL._replace(**changes), "R 23", "-", "-")
    yield call(OVER_CAP, "R 23", "-", "-")
    yield no_call(2**32)
    for length in (4095, 0):
        yield lend(length)
        yield call(USUAL, "R 23", "-", "-")
        yield words(CLEAR), "R 23"
        yield put(FILLED, 5)
        yield lend(4096)
        yield from play(FIRST, "aS22 bS22")
    # 23 before 24
    yield put(FILLED, 5)
    for length in (4095, 4096):
        yield lend(length)
        yield call(USUAL, *(("R 23", "-", "-") if length == 4095 else ("R 24", 5, 2)))
    yield put(FILLED, 2)
    # longer ones, of which 4,200 are there; the low bits of some would be too few
    for length in (4097, 4201, 2**32, 2**63 + 1, WORD):
        yield lend(length)
        yield call(USUAL, FLAT, 2, 2)
    yield from play(FIRST, "cW33 dW40 eW41")
    for length in (WORD, 4097, 4200):
        yield lend(length)
        yield clear()
        yield from play(FIRST, "bW11 aW22 bS22")


# ---- sets that set nothing, and other kinds
def nothing():
    """No such role, row or place: nothing is set. A role with no rows or no places does not look at them."""
    yield lend(4096)
    yield clear()
    desks = [WIDE._replace(volatility=i * ONE) for i in (1, 2, 3, 4)]
    for i, desk in enumerate(desks, 1):
        yield call(desk, FLAT, i, i % 4, "W")
    for role in (11, 2**32, WORD):
        yield put(role, WORD)
    for role, row in itertools.product((STEPS, BOUND, TAU, WEIGHT, OFFSET), (4, WORD)):
        yield put(role, WORD, row)
    for role, place in itertools.product((WEIGHT, OFFSET), (401, 2**32, WORD)):
        yield put(role, WORD, 3 if place == 401 else 0, place)
    for desk in desks:
        for lots, line in ((200, NO_BID), (-200, NO_ASK)):
            yield call(desk._replace(holding=lots * ONE), line, 4, 0)
    yield put(NEXT, 3, WORD, WORD)
    yield put(FILLED, 3, 4, 401)
    yield put(STEPS, 9, 2, WORD)
    yield put(TAU, bits(0.001), 2, 401)
    yield call(desks[2]._replace(current=999), flat(9), 3, 3)


def other_kinds():
    """Any other kind does nothing, whatever the record holds."""
    yield clear()
    yield call(USUAL, FLAT, 1, 1, "W")
    for kind in (4, 256, 2**32, 2**32 + 1, 2**32 + 2, 2**63 + 3, WORD):
        yield quoting.pack(MOMENT, kind), "P"
    yield words(2**32 + 2, FILLED, 0, 0, 5), "P"
    yield call(USUAL, FLAT, 1, 1)
    # clearing looks at no other word, a set at none after the fourth, a length at none after the first
    yield RECORD.pack(*[WORD] * 11, CLEAR, WORD), "Z"
    yield RECORD.pack(NEXT, 7, 500, 1, *[WORD] * 7, SET, WORD), "P"
    yield call(USUAL, "R 24", 0, 1)
    yield RECORD.pack(4096, *[WORD] * 10, LEND, WORD), "P"
    yield clear()
    yield call(USUAL, FLAT, 1, 1, "W")


KINDS = (begins, turns, others, beside, amounts, ended, drifts, between, priced, heads, rows, first_of_all, unfilled,
         agreeing, keys, weights, offsets, places, set_prices, lengths, nothing, other_kinds)


# ---- table.py held to them
def main():
    cases = [(kind.__name__, *case) for kind in KINDS for case in kind()]
    cases.append(("the record that is cut short", quoting.pack(USUAL, QUOTE)[:103], "R 6"))
    ours = table.Table()
    for i, (name, record, told) in enumerate(cases, 1):
        line = ours.line(record)
        if line != told:
            sys.exit("cases.py: line %d, %s: table.py gives %s, and the rule tells %s" % (i, name, line, told))
    sys.stdout.buffer.write(b"".join(record for _, record, _ in cases))


if __name__ == "__main__":
    main()
