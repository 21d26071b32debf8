"""Writes the listed desks of the gate: document 01's cases, a sweep of the refusals, and desks with a drift.

    python3 listed.py > DESKS
    python3 listed.py names

A case is a name, what it changes of the usual desk, and, where document 01's text tells the answer
of `exact_quotes`, that: a refusal's number, or bid and ask in billionths, and the steps where there
are some. A fourth part, where there is one, is the answer of `closed_form_quotes`. quoting.py is held
to both. Distances go up to the next billionth, as change request 5 has it, and the drift is change request
7's. Each desk is written five
times, once for each entry; with `names`, a line shows a case's name and the five answers by
quoting.py. Nothing of the library takes part.
"""
import sys

import quoting
from quoting import BILLION as ONE
from quoting import MOST_AMOUNT as LIMIT
from quoting import MOST_TIME as LAST
from quoting import CLOSED_FORM, CONFIGURATION, EXACT, MODEL, WRAPPER, Desk

MILLION = 10**6 * ONE
LARGEST, LEAST = 2**63 - 1, -(2**63)
BASE = 693147181  # the logarithm of 2, 0.693147180559, rounded up
CAP = "cap"
USUAL = Desk(100 * ONE, 0, ONE, ONE, ONE, ONE, 1, ONE, 1000, 1000, 0)
EXAMPLE = Desk(1000 * ONE, 0, 1684700000000, ONE // 100, 3 * ONE // 10, 9 * ONE // 10, 30, ONE, 600000, 0, 0)
STEEP = Desk(4 * MILLION, 0, 8 * ONE, MILLION, 100000, 1, 8, 100000 * ONE, 5000, 0, 0)
NAMES = {"risk_aversion": "risk aversion", "a": "A", "lot_size": "lot size", "min_spread": "min spread"}
ENTRIES = (CONFIGURATION, MODEL, EXACT, WRAPPER, CLOSED_FORM)


def around(distance):
    return 100 * ONE - distance, 100 * ONE + distance


# ---- the cases in amounts
def document():
    yield "usual", {}, around(BASE)
    yield "bound 0 and mid 0", {"bound": 0, "mid": 0}, 1
    yield "risk aversion and k one billionth", {"risk_aversion": 1, "k": 1}, 13
    yield "mid 0.5", {"mid": ONE // 2}, 14


def at_the_limit():
    told = {"mid": 13, "volatility": around(BASE), "a": around(BASE), "min_spread": 14}
    for field in ("mid", "volatility", "risk_aversion", "k", "a", "lot_size", "min_spread"):
        yield NAMES.get(field, field) + " at the limit", {field: LIMIT}, told.get(field)
    yield "one lot at the limit", {"holding": LIMIT, "lot_size": LIMIT}, None
    yield "minus one lot at the limit", {"holding": -LIMIT, "lot_size": LIMIT}, None
    yield "current at the limit", {"current": LAST}, around(BASE)
    yield "terminal and current at the limit", {"terminal": LAST, "current": LAST}, around(BASE)
    yield "terminal at the limit", {"terminal": LAST, "current": 0}, CAP


def beyond_the_limit():
    for field in ("mid", "holding", "volatility", "risk_aversion", "k", "a", "lot_size", "min_spread"):
        name = NAMES.get(field, field)
        yield name + " one above the limit", {field: LIMIT + 1}, 2
        yield name + " one below minus the limit", {field: -LIMIT - 1}, 2
        yield name + " the largest", {field: LARGEST}, 2
        yield name + " the least", {field: LEAST}, 2
    yield "terminal one above the limit", {"terminal": LAST + 1, "current": 0}, 2
    yield "terminal the largest", {"terminal": 2**64 - 1}, 2
    yield "current one above the limit", {"current": LAST + 1}, 2
    yield "current the largest", {"current": 2**64 - 1}, 2


def not_positive(fields, number):
    for field in fields:
        name = NAMES.get(field, field)
        yield name + " 0", {field: 0}, number
        yield name + " minus one billionth", {field: -1}, number
        yield name + " minus the limit", {field: -LIMIT}, number


def configurations():
    yield from not_positive(("risk_aversion", "k", "a", "lot_size"), 1)
    yield "bound 0", {"bound": 0}, 1
    yield "bound 201", {"bound": 201}, 1
    yield "bound the largest", {"bound": 2**32 - 1}, 1
    yield "terminal and current 0", {"terminal": 0, "current": 0}, 1
    yield "terminal 0", {"terminal": 0}, 1
    yield "min spread minus one billionth", {"min_spread": -1}, 1
    yield "min spread minus the limit", {"min_spread": -LIMIT}, 1


def markets():
    yield from not_positive(("mid", "volatility"), 3)


def held(lot, holding):
    return {"lot_size": lot, "holding": holding}


def fractions():
    yield "one billionth of a lot", held(ONE, 1), 4
    yield "minus one billionth of a lot", held(ONE, -1), 4
    yield "half a lot", held(ONE, ONE // 2), 4
    yield "minus half a lot", held(ONE, -ONE // 2), 4
    yield "one billionth less than a lot", held(ONE, ONE - 1), 4
    yield "one billionth more than a lot", held(ONE, ONE + 1), 4
    yield "minus 1.5 lots", held(ONE, -3 * ONE // 2), 4
    yield "1 in lots of 3", held(3 * ONE, ONE), 4
    # a third of the logarithm of 4 is 0.462098120373, and twice that of 1.5 is 0.810930216216
    yield "3 in lots of 3", held(3 * ONE, 3 * ONE), (None, 100462098121)
    yield "minus 3 in lots of 3", held(3 * ONE, -3 * ONE), (99537901879, None)
    yield "4 in lots of 3", held(3 * ONE, 4 * ONE), 4
    yield "0.5 in lots of 0.5", held(ONE // 2, ONE // 2), (None, 100810930217)
    yield "one billionth in lots at the limit", held(LIMIT, 1), 4


def bounds():
    yield "minus 2 lots at bound 1", held(ONE, -2 * ONE), 4
    yield "1 in lots of 0.5 at bound 1", held(ONE // 2, ONE), 4
    yield "2^32 + 1 lots at bound 1", held(1, 2**32 + 1), 4
    yield "minus 2^32 - 1 lots at bound 1", held(1, -(2**32) - 1), 4
    yield "the limit in lots of one billionth", held(1, LIMIT), 4
    yield "minus the limit in lots of one billionth", held(1, -LIMIT), 4
    yield "199 lots at bound 200", {"bound": 200, "holding": 199 * ONE}, around(BASE)
    yield "200 lots at bound 200", {"bound": 200, "holding": 200 * ONE}, (None, 100 * ONE + BASE)
    yield "minus 200 lots at bound 200", {"bound": 200, "holding": -200 * ONE}, (100 * ONE - BASE, None)
    yield "201 lots at bound 200", {"bound": 200, "holding": 201 * ONE}, 4
    yield "minus 201 lots at bound 200", {"bound": 200, "holding": -201 * ONE}, 4


def caps():
    # A quarter of a fill a second, the norm is 1: 11,000 steps take 22,000 seconds
    yield "11,000 steps", {"terminal": 22000000, "current": 0}, None
    yield "one millisecond more", {"terminal": 22000001, "current": 0}, CAP
    yield "a long time", {"terminal": 10**9, "current": 0}, CAP
    yield "a rebalancing", STEEP, None
    yield "over the cap after a rebalancing", STEEP._replace(terminal=30000), CAP


def both(x):
    return {"risk_aversion": x, "k": x}


def too_far():
    yield "an ask at the limit", {"mid": LIMIT - BASE}, (LIMIT - 2 * BASE, LIMIT)
    yield "an ask one above the limit", {"mid": LIMIT - BASE + 1}, 13
    yield "an ask alone beyond the limit", {"mid": LIMIT, "holding": ONE}, 13
    yield "a bid alone at the largest mid", {"mid": LIMIT, "holding": -ONE}, (LIMIT - BASE, None)
    yield "k one billionth", {"k": 1}, None
    yield "risk aversion one billionth", {"risk_aversion": 1}, None
    yield "risk aversion and k 70 billionths", both(70), 13
    yield "risk aversion and k 100 billionths", both(100), 14
    yield "the same at mid 7,000,000", dict(both(100), mid=7 * MILLION), 13
    yield "the same, no ask", dict(both(100), mid=7 * MILLION, holding=-ONE), None


def widened_too_far():
    yield "widened to an ask one above the limit", {"mid": LIMIT // 2 + 1, "min_spread": LIMIT}, 13
    yield "widened to a bid of 0 and an ask at the limit", {"mid": LIMIT // 2, "min_spread": LIMIT}, 14
    yield "widened to the same by rounding up", {"mid": LIMIT // 2, "min_spread": LIMIT - 1}, 14
    yield "widened to a bid of one billionth", {"mid": LIMIT // 2, "min_spread": LIMIT - 2}, (1, LIMIT - 1)


def one_side_too_far():
    wild = {"volatility": MILLION, "a": 1, "bound": 2, "mid": 8 * MILLION}
    yield "a bid's distance beyond the limit", dict(wild, holding=ONE), None
    yield "an ask's distance beyond the limit", dict(wild, holding=-ONE), None
    yield "a bid above the limit", dict(wild, bound=1, holding=-ONE), None


def crossed():
    long = {"volatility": LIMIT, "holding": ONE}
    yield "a bid of minus one billionth", {"mid": BASE - 1}, 14
    yield "a bid of 0", {"mid": BASE}, 14
    yield "a bid of one billionth", {"mid": BASE + 1}, (1, 2 * BASE + 1)
    yield "mid 0.5, no ask", {"mid": ONE // 2, "holding": -ONE}, 14
    yield "mid 0.5, no bid", {"mid": ONE // 2, "holding": ONE}, (None, ONE // 2 + BASE)
    yield "an ask far below 0", long, (None, 100 * ONE + BASE)
    yield "an ask far below 0 before the end", dict(long, k=ONE // 100, current=999), 14


def few_billionths():
    averse = {"risk_aversion": LIMIT}
    least = dict(averse, lot_size=LIMIT)
    yield "a distance of 2.5 billionths", dict(averse, lot_size=1000 * ONE), around(3)
    yield "a distance of 0.55 billionths", dict(averse, lot_size=5000 * ONE), around(1)
    yield "a distance of 0.28 billionths", dict(averse, lot_size=10000 * ONE), around(1)
    yield "a distance of nearly 0", least, around(1)
    yield "the same, min spread one billionth", dict(least, min_spread=1), around(1)
    yield "the same, min spread 3 billionths", dict(least, min_spread=3), around(2)
    yield "the same, mid one billionth", dict(least, mid=1), 14
    yield "the same, mid two billionths", dict(least, mid=2), (1, 3)


def same_price():
    # Logarithms of weights that are 1 less a last digit or none: over k they are 111.02 billionths apart, and the base
    # distance is 0.006. With 2 lots the distances are 0.006 and -111.017 billionths, which go up to 1 and -111; the
    # spread of -110 is widened by 55 a side, and both prices are 56 below the mid
    noise = {"volatility": 10000, "risk_aversion": LIMIT, "k": 1, "bound": 5, "lot_size": MILLION, "terminal": 1,
             "current": 0}
    yield "bid and ask the same", dict(noise, holding=2 * MILLION), 14
    yield "the same, with minus 2 lots", dict(noise, holding=-2 * MILLION), 14
    below = 100 * ONE - 57, 100 * ONE - 55, 1
    yield "the same, min spread one billionth", dict(noise, holding=2 * MILLION, min_spread=1), below
    # distances of 4.4 and -106.6 billionths, which go up to 5 and -106: the spread of -101, widened by 51 a side, is 1
    lot, odd = 10**5 * ONE, (100 * ONE - 56, 100 * ONE - 55, 1)
    noise = {"volatility": 10000, "risk_aversion": lot, "k": 1, "bound": 3, "lot_size": lot, "current": 0}
    yield "a spread below zero, widened to one billionth", dict(noise, holding=2 * lot), odd


def two_faults():
    cap = {"terminal": 10**9, "current": 0}
    yield "2 by mid, and 1", {"mid": LIMIT + 1, "bound": 0}, 2
    yield "2 by terminal, and 1", {"terminal": LAST + 1, "current": 0, "min_spread": -1}, 2
    yield "2 by current, and 1", {"current": LAST + 1, "bound": 0}, 2
    yield "2 by current, and 3", {"current": LAST + 1, "mid": 0}, 2
    yield "2 by volatility, and 3", {"volatility": LIMIT + 1, "mid": 0}, 2
    yield "2 by current, and 4", {"current": LAST + 1, "holding": 1}, 2
    yield "1 by k, and 3", {"k": 0, "mid": 0}, 1
    yield "1 by min spread, and 4", {"min_spread": -1, "holding": 1}, 1
    yield "1 by lot size 0, and a holding", {"lot_size": 0, "holding": ONE}, 1
    yield "3 by volatility, and 4", {"volatility": 0, "holding": 1}, 3
    yield "3 by mid, and 4", {"mid": 0, "holding": 2 * ONE}, 3
    yield "4 and 13", dict(both(1), holding=1), 4
    yield "4 and 14", {"mid": ONE // 2, "holding": 2 * ONE}, 4
    yield "4 and the cap", dict(cap, holding=1), 4
    yield "the cap and 13", dict(cap, **both(1)), CAP
    yield "the cap and 14", dict(cap, mid=ONE // 2), CAP
    yield "13 by the ask, and 14 by the bid", dict(both(100), mid=4 * MILLION), 13


def prices():
    # half the logarithm of 3 is 0.549306144334, that of 1.5 is 0.405465108108, and twice that 0.810930216216
    yield "risk aversion 2", {"risk_aversion": 2 * ONE}, around(549306145)
    yield "k 2", {"k": 2 * ONE}, around(405465109)
    yield "lot size 0.5", {"lot_size": ONE // 2}, around(810930217)
    yield "min spread that of the quotes", {"min_spread": 2 * BASE}, around(BASE)
    yield "min spread one billionth more", {"min_spread": 2 * BASE + 1}, around(BASE + 1)
    yield "min spread two billionths more", {"min_spread": 2 * BASE + 2}, around(BASE + 1)
    yield "min spread three billionths more", {"min_spread": 2 * BASE + 3}, around(BASE + 2)
    yield "min spread 2 with no bid", {"min_spread": 2 * ONE, "holding": ONE}, (None, 100 * ONE + BASE)
    yield "min spread 2 with no ask", {"min_spread": 2 * ONE, "holding": -ONE}, (100 * ONE - BASE, None)


def halfway():
    odd = {"risk_aversion": 5, "k": 112, "lot_size": 1102600000}  # 8,715,779.8779296875
    even = {"risk_aversion": 5, "k": 115, "lot_size": 1088200000}  # 8,496,209.9072265625
    far, near = 8715779877929688, 8496209907226563
    yield "halfway above an odd count, no ask", dict(odd, mid=LIMIT, holding=-1102600000), (LIMIT - far, None)
    yield "halfway above an odd count, no bid", dict(odd, holding=1102600000), (None, 100 * ONE + far)
    yield "halfway above an even count, no ask", dict(even, mid=LIMIT, holding=-1088200000), (LIMIT - near, None)
    yield "halfway above an even count, no bid", dict(even, holding=1088200000), (None, 100 * ONE + near)


# ---- distances on a billionth and next to one: a float is a whole number of billionths where it is one of 512ths
def outward():
    # 257/512 = 0.501953125, and with 2^-53 more and less: 501,953,125.0000001 and 501,953,124.9999999 billionths
    averse = {"risk_aversion": 1000}
    yield "on a billionth", dict(averse, lot_size=2490178505363152), around(501953125)
    yield "the next float above it", dict(averse, lot_size=2490178505363150), around(501953126)
    yield "the next float below it", dict(averse, lot_size=2490178505363153), around(501953125)


def negative():
    # -513/512 = -1.001953125, and with 2^-52 more and less, after two steps: -1,001,953,124.9999998 billionths, which
    # go up to -1,001,953,124, and -1,001,953,125.0000002, which go up to -1,001,953,125
    steep = {"risk_aversion": 2000000, "a": 1, "holding": ONE, "terminal": 1, "current": 0}
    on, above = 100 * ONE - 1001953125, 100 * ONE - 1001953124
    yield "minus, on a billionth", dict(steep, volatility=7943683008218277), (None, on, 2)
    yield "minus, the next float above", dict(steep, k=2 * ONE, volatility=6881694195624682), (None, above, 2)
    yield "minus, the next float below", dict(steep, k=2 * ONE, volatility=6881694195624683), (None, on, 2)
    # Theorem 1 of the 2013 paper gives -0.892342418266979
    slope = {"volatility": 10000 * ONE, "a": 1, "holding": ONE, "terminal": 1000, "current": 0}
    yield "minus, between two billionths", slope, (None, 100 * ONE - 892342418, 1)
    yield "the same, no ask", dict(slope, holding=-ONE), (100 * ONE + 892342418, None, 1)


def negative_forms():
    # the closed form's -1025/512 = -2.001953125, and with 2^-51 more and less: -2,001,953,124.9999996 billionths, which
    # go up to -2,001,953,124, and -2,001,953,125.0000004, which go up to -2,001,953,125
    steep, flat = {"a": 50000 * ONE, "holding": ONE}, (None, 100 * ONE + BASE)
    on, above = 100 * ONE - 2001953125, 100 * ONE - 2001953124
    yield "a form on a billionth", dict(steep, volatility=4786061079427177), flat, (None, on)
    yield "a form at the next float above", dict(steep, volatility=4786061079427176), flat, (None, above)
    yield "a form at the next float below", dict(steep, volatility=4786061079427178), flat, (None, on)
    mirrored = dict(steep, holding=-ONE, volatility=4786061079427176)
    yield "the same, no ask", mirrored, (100 * ONE - BASE, None), (200 * ONE - above, None)


def distance_limits():
    # a bid's distance of 9,000,000, and with 2^-29 less and more: 8,999,999,999,999,998.1 billionths, which go up to
    # one less than the limit, and 9,000,000,000,000,001.9; beside the former the ask's is -2,999,977,585,009,492.5
    long = {"mid": LIMIT, "k": 50, "a": 1, "bound": 2, "holding": ONE, "terminal": 5000, "current": 0}
    yield "a bid's distance at the limit", dict(long, volatility=6151676951213053), 14
    below = dict(long, volatility=6151676951213052)
    yield "the next float below, a bid of one billionth", below, (1, LIMIT - 2999977585009492, 1)
    yield "the next float above, 13", dict(long, volatility=6151676951213054), 13
    # an ask's distance of -9,000,000, and with 2^-29 more and less
    late = {"mid": LIMIT, "k": 80, "a": 1, "holding": ONE, "terminal": 10000, "current": 0}
    yield "an ask's distance at minus the limit", dict(late, volatility=7534248673057214), 14
    yield "the next float above, an ask of two billionths", dict(late, volatility=7534248673057213), (None, 2, 1)
    yield "the next float below, 13", dict(late, volatility=7534248673057215), 13


def form_limits():
    # the same distances by the closed form; beside the bid's that is less the ask's is -2,999,999,075,803,758.6
    # billionths. With no time left an ask is above the limit
    long = {"mid": LIMIT, "a": 50, "bound": 2, "holding": ONE}
    yield "a form's bid at the limit", dict(long, volatility=5327513080995885), 13, 14
    below = dict(long, volatility=5327513080995884)
    yield "a form's bid at the next float below", below, 13, (1, LIMIT - 2999999075803758)
    yield "a form's bid at the next float above", dict(long, volatility=5327513080995886), 13, 13
    late = {"mid": LIMIT, "a": 10, "holding": ONE}
    yield "a form's ask at minus the limit", dict(late, volatility=7147609941041307), 13, 14
    yield "a form's ask at the next float above", dict(late, volatility=7147609941041305), 13, (None, 2)
    yield "a form's ask at the next float below", dict(late, volatility=7147609941041308), 13, 13


# ---- change request 7
def drift_limits():
    # with no time left a drift moves nothing; the closed form has no quotes with one
    for size in (1, ONE, LIMIT):
        yield "drift %d" % size, {"drift": size}, around(BASE), 22
        yield "drift minus %d" % size, {"drift": -size}, around(BASE), 22
    for size in (LIMIT + 1, -LIMIT - 1, LARGEST, LEAST):
        yield "drift %d" % size, {"drift": size}, 2, 2


def drift_refusals():
    drift = {"drift": -ONE}
    yield "drift and mid one above the limit", dict(drift, mid=LIMIT + 1), 2, 2
    yield "drift and current one above the limit", dict(drift, current=LAST + 1), 2, 22
    yield "drift one above the limit, and bound 0", {"drift": LIMIT + 1, "bound": 0}, 2, 2
    yield "drift one above the limit, and mid 0", {"drift": LIMIT + 1, "mid": 0}, 2, 2
    yield "drift and bound 0", dict(drift, bound=0), 1, 1
    yield "drift and min spread below 0", dict(drift, min_spread=-1), 1, 1
    yield "drift, bound 0 and mid 0", dict(drift, bound=0, mid=0), 1, 1
    yield "drift and mid 0", dict(drift, mid=0), 3, 22
    yield "drift and volatility 0", dict(drift, volatility=0), 3, 22
    yield "drift and half a lot", dict(drift, holding=ONE // 2), 4, 22
    yield "drift and 2 lots at bound 1", dict(drift, holding=2 * ONE), 4, 22
    yield "drift and 13", dict(drift, **both(1)), 13, 22
    yield "drift and 14", dict(drift, mid=ONE // 2), 14, 22
    yield "drift and the cap", dict(drift, terminal=10**9, current=0), CAP, 22


def drift_caps():
    # A quarter of a fill a second and a drift of 3,942,000: beta is 1/8, and the end row, 3/4 + 1/8, is below the
    # centre's 1. With 9,000,000 it is 0.285, and the end row's sum 1.035
    yield "drift 3,942,000, 11,000 steps", {"drift": 3942 * 1000 * ONE, "terminal": 22000000, "current": 0}, None
    yield "one millisecond more", {"drift": 3942 * 1000 * ONE, "terminal": 22000001, "current": 0}, CAP
    yield "drift minus 9,000,000 there", {"drift": -LIMIT, "terminal": 22000000, "current": 0}, CAP
    yield "drift and a rebalancing", STEEP._replace(drift=40000 * ONE), None
    yield "drift and a rebalancing, the other way", STEEP._replace(drift=-40000 * ONE), None
    yield "drift and over the cap after a rebalancing", STEEP._replace(drift=40000 * ONE, terminal=30000), CAP


def drift_runs():
    # the largest beta is 0.285 a second, and 2.85 with k 10, where one side's entries are below zero
    for size in (LIMIT, -LIMIT, ONE, -1):
        for lots in (-2, 0, 1):
            desk = {"bound": 2, "holding": lots * ONE, "current": 0, "drift": size}
            yield "drift %d, %d lots" % (size, lots), desk, None
    leant = {"k": 10 * ONE, "bound": 3, "current": 0, "terminal": 3000}
    for size in (LIMIT, -LIMIT):
        for lots in (-1, 3):
            yield "k 10, drift %d, %d lots" % (size, lots), dict(leant, drift=size, holding=lots * ONE), None
    odd = {"k": 314159265, "drift": 271828182845904, "volatility": 5000 * ONE, "bound": 4, "current": 0, "terminal": 9000}
    yield "odd numbers", dict(odd, holding=ONE), None
    yield "odd numbers, mirrored", dict(odd, holding=-ONE, drift=-odd["drift"]), None
    yield "the example with a drift", EXAMPLE._replace(current=590000, drift=100000 * ONE, bound=8), None
    yield "the example with a drift, mirrored", EXAMPLE._replace(current=590000, drift=-100000 * ONE, bound=8), None
    yield "a min spread and a drift", dict(odd, min_spread=9 * ONE), None


def runs():
    yield "one millisecond left", {"current": 999}, None
    yield "one second left", {"current": 0}, None
    yield "one millisecond past the end", {"current": 1001}, around(BASE)
    yield "the example of glft.rs", EXAMPLE, None
    yield "the example with 5 lots", EXAMPLE._replace(holding=5 * ONE), None
    yield "the example with minus 30 lots", EXAMPLE._replace(holding=-30 * ONE), None
    yield "lots of 0.7 at bound 200", {"lot_size": 7 * ONE // 10, "bound": 200}, None


TABLES = (document, at_the_limit, beyond_the_limit, configurations, markets, fractions, bounds, caps, too_far,
          widened_too_far, one_side_too_far, crossed, few_billionths, same_price, two_faults, prices, halfway, outward,
          negative, negative_forms, distance_limits, form_limits, runs, drift_limits, drift_refusals, drift_caps,
          drift_runs)


def hold(name, line, told, steps=()):
    """A line against what document 01's text tells, with such steps where it tells none."""
    if told is None:
        return
    if told == CAP:
        agrees = line.startswith("C ")
    elif isinstance(told, int):
        agrees = line == "R %d" % told
    else:
        agrees = line == " ".join([quoting.prices(*told[:2]), *map(str, told[2:] or steps)])
    if not agrees:
        sys.exit("listed.py: %s: %s, and not %s" % (name, line, told))


def cases():
    for table in TABLES:
        for name, changes, told, *form in table():
            desk = changes if isinstance(changes, Desk) else USUAL._replace(**changes)
            hold(name, quoting.line(desk, EXACT), told, (0,))
            for answer in form:
                hold(name, quoting.line(desk, CLOSED_FORM), answer)
            yield name, desk


def main():
    for name, desk in cases():
        if "names" in sys.argv[1:]:
            print(name + ": " + " | ".join(quoting.line(desk, entry) for entry in ENTRIES))
        else:
            sys.stdout.buffer.write(b"".join(quoting.pack(desk, entry) for entry in ENTRIES))


if __name__ == "__main__":
    main()
