"""What LN in two parts changes: LN in one part, as document 01 had it before change request 2, beside it.

Prices of both are rounded as change request 5 has it.
"""
import contextlib
import functools

from mpmath import mp, mpf

import exact
import papers
import quoting
from asked import ONE, Desk, float_of, price, shown
from distance import TRUE, units

elementary = quoting.elementary
LN2 = elementary.float_of(0x3FE62E42FEFA39EF)
# the last is the stored one at which LN in one part was worst, of those far from 1
FAR = (1e-200, 1e-100, 1e100, 1.4037445273686534e-93)
# a whole day left, with weights down to 1e-95 and distances of hundreds of thousands
LONG = Desk(5 * 10**6 * ONE, 0, 8 * 10**6 * ONE, 1000, 10000, ONE // 2000, 60, ONE, 86400000, 0, 0)
HELD = (29, 42, 43, 50)


@contextlib.contextmanager
def in_one_part():
    """LN is e * LN2 + (2 * s) * P."""
    two_parts = elementary.join
    elementary.join = lambda e, s: e * LN2 + elementary.series(s)
    try:
        yield
    finally:
        elementary.join = two_parts


def lines(floats):
    """What LN and LN1P in one part give for floats, in the form of elementary_bits's lines."""
    with in_one_part():
        return [["%016X" % elementary.bits_of(x)] + [elementary.field(f(x)) for f in (elementary.ln, elementary.ln_1p)]
                for x in floats]


# ---- arguments far from 1
def off(digits, true):
    return "%s, %.2f" % (digits, units(float_of(digits), true))


def far_rows(ask):
    """LN's bits and how many units in the last place they are off, in one part and in two."""
    for x, before, now in zip(FAR, lines(FAR), ask.elementary(FAR)[1:]):
        true = TRUE["LN"](mpf(x))
        yield [shown(x), mp.nstr(true, 20), off(before[1], true), off(now[1], true)]


# ---- a desk with a long horizon
def before():
    """Both distances at each holding, in billionths, None for one that is withheld."""
    found = {}
    with in_one_part():
        model, _ = quoting.model_of(LONG, LONG.current)
        tau = quoting.time_left(LONG)
        weights, offsets, _ = quoting.value_vector(model.alpha, model.beta, model.eta, LONG.bound, tau)
        for q in range(-LONG.bound, LONG.bound + 1):
            sides = quoting.exact_distances(weights, offsets, model.k, model.base, q)
            found[q] = [None if d is None else quoting.billionths(d) for d in sides]
    return found


@functools.cache
def long(ask):
    """The desk's distances in one part, in two, and the paper's."""
    found = before()
    with mp.workdps(exact.DIGITS):
        theirs = exact.exact(papers.case(LONG))
    return found, {q: papers.distances(ask, LONG._replace(holding=q * ONE)) for q in found}, theirs


def long_rows(ask):
    """Bids at some holdings, the paper's with 40 digits."""
    one, two, theirs = long(ask)
    for q in HELD:
        with mp.workdps(exact.DIGITS):
            bid = mp.nstr(mpf(LONG.mid) / ONE - theirs[q][0], exact.KEPT)
        yield [str(q)] + [price(LONG.mid - found[q][0]) for found in (one, two)] + [bid]


def noise_rows(ask):
    """Over every holding and both sides: how many are the paper's, rounded outward, and errors in billionths."""
    one, two, theirs = long(ask)
    with mp.workdps(exact.DIGITS):
        for name, found in ("one part", one), ("two parts", two):
            pairs = [(a, b * ONE) for q in found for a, b in zip(found[q], theirs[q]) if a is not None]
            right = sum(a == mp.ceil(b) for a, b in pairs)
            apart = [abs(a - b) for a, b in pairs]
            yield [name, str(len(apart)), str(right), "%.2f" % max(apart), "%.2f" % (sum(apart) / len(apart))]
