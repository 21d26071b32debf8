"""Writes the listed records of the gate for floatrun: the refusals of the float entry, and what is next to them.

    python3 listed.py > RECORDS

A case changes some of: k, alpha, eta, base and tau 1.0, bound 1, q 0, beta 0.0. Where document 01's
text, or change request 7's, tells the refusal, the reckoning of differential/quote/quoting.py is held to it.
The stored lines are the routed glft.rs's, and for records with a drift quoting.py's.
"""
import math
import os
import sys

import cases

sys.path.insert(0, os.path.join(os.path.dirname(os.path.abspath(__file__)), "..", "quote"))
import quoting  # noqa: E402

USUAL = {"k": 1.0, "alpha": 1.0, "eta": 1.0, "base": 1.0, "bound": 1, "tau": 1.0, "q": 0, "beta": 0.0}
FLOATS = ("k", "alpha", "eta", "base")


def unfit():
    """Refusal 5, before 1 and 4."""
    for name in FLOATS:
        for x in (0.0, -0.0, -1.0, math.inf, math.nan):
            yield {name: x}, 5
    for x in (math.inf, -math.inf, math.nan):
        yield {"tau": x}, 5
    yield {"bound": 0, "tau": math.nan}, 5
    yield {"q": 2, "tau": math.inf}, 5


def bounds():
    """Refusal 1, before 4."""
    for bound in (0, 201, 2**32 - 1):
        yield {"bound": bound}, 1
    yield {"bound": 0, "q": 1}, 1


def holdings():
    """Refusal 4, before any reckoning."""
    for q in (2, -2, 2**32, 2**63 - 1, -(2**63)):
        yield {"q": q}, 4
    yield {"bound": 200, "q": 201}, 4
    yield {"q": 2, "tau": 1e10}, 4


def numerical():
    """Refusal 11, and cases next to it."""
    yield {"alpha": 1e300, "tau": 1e300}, 11
    yield {"alpha": 1e308, "bound": 2, "tau": 1e-300}, 11
    yield {"alpha": 1e-300, "eta": 1e-300, "tau": 1e-300}, 11
    yield {"alpha": 1e100, "eta": 1e-300, "tau": 1e-97}, 11
    yield {"alpha": 1e100, "eta": 1e-300, "tau": 9e-98}, None
    yield {"k": 1e-308, "alpha": 1e10, "tau": 1e-8}, 11
    yield {"k": 1e-300, "alpha": 1e10, "tau": 1e-8}, None


def answered():
    """No refusal: the sides, the end, the cap."""
    for q in (-1, 0, 1):
        yield {"q": q}, None
        yield {"q": q, "tau": -1.0}, None
        yield {"q": q, "tau": 5500.5}, None


# ---- change request 7
def unfit_drifts():
    """Refusal 5 by beta, with no time too, and before 1 and 4."""
    for x in (math.inf, -math.inf, math.nan):
        yield {"beta": x}, 5
        yield {"beta": x, "tau": -1.0}, 5
    yield {"beta": math.nan, "bound": 0}, 5
    yield {"beta": math.inf, "q": 2}, 5
    yield {"beta": 1.0, "bound": 0, "q": 1}, 1
    yield {"beta": 1.0, "q": 2}, 4
    yield {"beta": 1e308, "bound": 2, "q": 3}, 4


def no_diagonals():
    """Refusal 11 by an entry that is infinite or no number, for a tau above zero alone, and what is next to it."""
    infinite = {"bound": 2, "tau": 1e-308}  # with a beta of 1e308 beta × 2 is infinite, with an alpha of 1e308 alpha × 4
    for sign in (1.0, -1.0):
        yield dict(infinite, beta=sign * 1e308), 11
        yield dict(infinite, beta=sign * 1e308, alpha=1e308), 11
        yield dict(infinite, beta=sign * 1e308, bound=200, q=200), 11
        yield dict(infinite, beta=sign * 1e308, tau=0.0), None
        yield dict(infinite, beta=sign * 1e308, alpha=1e308, tau=-1.0, q=1), None
        yield dict(infinite, beta=sign * cases.LARGEST / 2.0), None
        yield dict(infinite, beta=sign * cases.two_to(1023)), 11
        yield {"beta": sign * 1e308, "tau": 1e-308}, None
        yield {"beta": sign * 1e308}, None  # over the cap
        yield {"beta": sign * 1e308, "tau": 1e300}, 11
        yield {"beta": sign, "eta": cases.LARGEST, "tau": 1e-308}, 11
        yield {"beta": sign, "eta": cases.two_to(1022), "tau": 1e-308}, 11


def turned_drifts():
    """The drift and the holding, and both turned: the same steps, sides exchanged."""
    leant = ({"beta": 1.0}, {"beta": 0.25, "alpha": 0.1, "eta": 0.7, "bound": 3, "tau": 2.0},
             {"beta": 4.0, "bound": 2},  # an entry of 4 - 8 + 2
             {"beta": 9.0, "alpha": 0.001, "eta": 0.3, "bound": 4, "tau": 0.5},  # four below zero
             {"beta": 2.0, "eta": 10.0, "bound": 2},  # the largest row is not at the end
             {"beta": 2.0, "eta": 10.0, "tau": 25.0},
             {"beta": cases.SMALLEST}, {"beta": 1e-9, "bound": 2}, {"beta": 0.3, "alpha": 1e-300, "bound": 2},
             {"beta": 1.5, "eta": 1e-80, "alpha": 1e-3, "bound": 4, "tau": 150.0})  # rebalanced
    for changes in leant:
        bound = changes.get("bound", 1)
        for q in (-bound, 0, 1):
            yield dict(changes, q=q), None
            yield dict(changes, q=-q, beta=-changes["beta"]), None
    for beta in (1.0, -1.0):  # a norm of 5: 11,000 steps, and more
        yield {"beta": beta, "tau": 4400.0}, None
        yield {"beta": beta, "tau": 4400.5}, None
    yield {"beta": 9.0, "k": 1e-308, "eta": 0.001}, 11  # a distance


def no_drift():
    """Minus zero is no drift."""
    for q in (-1, 0, 1):
        yield {"beta": -0.0, "q": q}, None
    yield {"beta": -0.0, "tau": 5500.5}, None
    yield {"beta": -0.0, "alpha": 1e300, "tau": 1e300}, 11


def refusal(case):
    try:
        quoting.float_entry(**case)
    except quoting.Refused as refused:
        return refused.number
    except quoting.OverCap:
        pass
    return None


def main():
    for kind in (unfit, bounds, holdings, numerical, answered, unfit_drifts, no_diagonals, turned_drifts, no_drift):
        for changes, told in kind():
            case = dict(USUAL, **changes)
            if refusal(case) != told:
                sys.exit("listed.py: %s: %s, and not %s" % (changes, refusal(case), told))
            sys.stdout.buffer.write(cases.pack(**case))


if __name__ == "__main__":
    main()
