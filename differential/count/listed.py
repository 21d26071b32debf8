"""Writes the listed records of the gate for countrun, each with its line.

    python3 listed.py > RECORDS

A line is told by document 01 or worked by hand; cases that were searched for, with counting.py, are marked.
A case changes some of: k, alpha, eta, base and tau 1.0, bound 1, q 0, beta 0.0. The end row's sum is alpha × bound² +
3 × eta, and that of the row next to it alpha × (bound - 1)² + 4 × eta; the steps are half of tau times the larger one,
rounded up. With a drift the end of the other sign than beta's has beta's size × bound more, and the row next to it beta's
size × (bound - 1). counting.py is held to every line. The stored lines are counting.py's; where there is no drift
the routed glft.rs has the same.
"""
import math
import os
import sys

import counting

sys.path.insert(0, os.path.join(os.path.dirname(os.path.abspath(__file__)), "..", "vector"))
import listed  # noqa: E402, the float entry's
from cases import LARGEST, SMALLEST, bits_of, float_of, pack, two_to  # noqa: E402

ONE_OVER = "C 40C57C8000000000 11000"  # 11,001 needed
HALF_LARGEST = "C 7FDFFFFFFFFFFFFF 11000"


def near(x, n):
    """The float n places above a positive one."""
    return float_of(bits_of(x) + n)


# bound, alpha, eta, tau, the line, and what the smaller of the two rows would give alone
ROWS = [
    # eta far above alpha, far below it, and on either side of alpha × (2 × bound - 1)
    (1, 1.0, 1024.0, 1.0, "N 2048", "N 1537"),
    (2, 1.0, 1024.0, 1.0, "N 2049", "N 1538"),
    (200, 1.0, 1024.0, 0.25, "N 5463", "N 5384"),
    (1, 1024.0, 1.0, 1.0, "N 514", "N 2"),
    (2, 1024.0, 1.0, 1.0, "N 2050", "N 514"),
    (200, 1024.0, 1.0, 1 / 4096, "N 5001", "N 4951"),
    (1, 1.0, 2.0, 2.0, "N 8", "N 7"),
    (2, 1.0, 4.0, 1.0, "N 9", "N 8"),
    (200, 1.0, 400.0, 0.25, "N 5151", "N 5150"),
    (1, 1.0, 0.5, 1.0, "N 2", "N 1"),
    (2, 1.0, 2.0, 2.0, "N 10", "N 9"),
    (200, 1.0, 393.0, 0.25, "N 5148", "N 5147"),
    # there, where both are equal, and at floats beside it, of which some part them by a bit: tau was searched for
    (1, 1.0, 1.0, 0.5, "N 1", "N 1"),
    (1, 1.0, 1.0, near(0.5, 1), "N 2", "N 2"),
    (1, 1.0, near(1.0, 1), 0.5, "N 2", "N 2"),
    (1, 1.0, near(1.0, -1), near(0.5, 1), "N 2", "N 1"),
    (1, 1.0, near(1.0, 3), near(0.5, -4), "N 2", "N 1"),
    (1, 1.0, near(1.0, 4), near(0.5, -5), "N 2", "N 1"),
    (2, 1.0, 3.0, 2 / 13, "N 1", "N 1"),
    (2, 1.0, 3.0, near(2 / 13, 1), "N 2", "N 2"),
    (2, 1.0, near(3.0, -1), near(2 / 13, 1), "N 2", "N 1"),
    (2, 1.0, near(3.0, 1), 2 / 13, "N 2", "N 1"),
    (2, 1.0, near(3.0, 4), near(2 / 13, -2), "N 2", "N 1"),
    (200, 1.0, 399.0, 2 / 41197, "N 1", "N 1"),
    (200, 1.0, 399.0, near(2 / 41197, 1), "N 2", "N 2"),
    (200, 1.0, near(399.0, -1), near(2 / 41197, 1), "N 2", "N 2"),
    (200, 1.0, near(399.0, 1), near(2 / 41197, 1), "N 2", "N 2"),
    (200, 1.0, near(399.0, -128), near(2 / 41197, 5), "N 2", "N 1"),
    (200, 1.0, near(399.0, 128), near(2 / 41197, -4), "N 2", "N 1"),
    # searched for: the next float parts them
    (200, 1.1, 438.9, 4.4133840284045394e-05, "N 2", "N 1"),
    (200, 4.9, 1955.1, 2.972279039537751e-05, "N 4", "N 3"),
    (200, 8.2, 3271.8, 5.92039320883536e-06, "N 2", "N 1"),
    (200, 2.3, 917.7, 2.1107488831499977e-05, "N 2", "N 1"),
    # searched for: by rounding, the row is the larger that is the smaller one over fractions
    (2, 2.43, 7.29, 0.06331117442228554, "N 2", "N 1"),
    (2, 0.29, 0.87, 1.5915119363395227, "N 4", "N 3"),
    (3, 3.9, 19.49999999999999, 0.02136752136752138, "N 2", "N 1"),
    (3, 0.9, 4.500000000000003, 0.09259259259259256, "N 2", "N 1"),
    (200, 2.1, 837.9, 2.31177258630714e-05, "N 2", "N 1"),
    (200, 6.6, 2633.4, 7.3556400473409e-06, "N 2", "N 1"),
]
# searched for: alpha × (q × q), or 3 × eta and 4 × eta added at once or before alpha's part, give one step more or less
ORDERS = [
    (3, 7.3, 0.3, 0.18018018018018023, "N 6"),
    (3, 6.9, 0.9, 0.18518518518518517, "N 7"),
    (200, 5.1, 0.5, 7.84307958519913e-05, "N 8"),
    (200, 8.8, 0.2, 4.545446797533867e-05, "N 9"),
    (200, 8.2, 18000.0, 1.0082469559764092e-05, "N 3"),
    (1, 5.6, 0.9, 1.4457831325301205, "N 6"),
    (2, 0.5, 0.4, 2.5000000000000004, "N 4"),
    (200, 6.3, 0.1, 5.555548941806816e-05, "N 8"),
    (1, 9.3, 0.4, 0.9523809523809524, "N 6"),
    (2, 9.0, 0.1, 0.44077134986225897, "N 9"),
    (200, 9.5, 0.7, 1.5789386427075008e-05, "N 4"),
]
# bound, alpha, eta and a norm that is a power of two: the end row's, then that of the row next to it
POWERS = [
    (1, 2.5, 0.5, 4.0),
    (1, 0.5, 1.0, 4.0),
    (2, 3.25, 1.0, 16.0),
    (2, 1.0, 3.75, 16.0),
    (200, 1.6328125, 74.5, 65536.0),
    (200, 1.0, 6483.75, 65536.0),
]


def paper():
    """Document 01's cases, which have bound 1: the norm is 4."""
    yield {}, "N 2"
    yield {"tau": 5500.0}, "N 11000"
    yield {"tau": 5500.5}, ONE_OVER
    yield {"alpha": 1e300, "tau": 1e300}, "R 11"


def no_time():
    """No plan, however large the rows are."""
    for tau in (0.0, -0.0, -SMALLEST, -1.0, -LARGEST):
        yield {"tau": tau}, "N 0"
        yield {"alpha": 1e308, "bound": 200, "tau": tau}, "N 0"
    yield {"eta": LARGEST, "tau": 0.0}, "N 0"


def rows():
    for bound, alpha, eta, tau, told, smaller in ROWS:
        end, beside, *_ = counting.row_sums(alpha, 0.0, eta, bound)
        if counting.plan(tau * min(end, beside)) != smaller:
            sys.exit("listed.py: the smaller row of %s does not give %s" % ((bound, alpha, eta, tau), smaller))
        yield {"bound": bound, "alpha": alpha, "eta": eta, "tau": tau}, told


def orders():
    for bound, alpha, eta, tau, told in ORDERS:
        yield {"bound": bound, "alpha": alpha, "eta": eta, "tau": tau}, told


def wholes():
    """Half of tau × norm is a whole number, or the float next to it: 11,000 is the last plan that is taken."""
    for bound, alpha, eta, norm in POWERS:
        usual = {"bound": bound, "alpha": alpha, "eta": eta}
        for steps in (1, 2, 7, 4096, 10999, 11000):
            tau = 2.0 * steps / norm
            yield dict(usual, tau=near(tau, -1)), "N %d" % steps
            yield dict(usual, tau=tau), "N %d" % steps
            yield dict(usual, tau=near(tau, 1)), "N %d" % (steps + 1) if steps < 11000 else ONE_OVER


def caps():
    """The norm is 7: the float above 22,000 / 7 times 7 is 22,000 and half a unit, and goes to the even 22,000."""
    for n, told in ((-1, "N 11000"), (0, "N 11000"), (1, "N 11000"), (2, ONE_OVER)):
        yield {"bound": 2, "tau": near(22000.0 / 7.0, n)}, told
    yield {"tau": 5500.25}, ONE_OVER
    yield {"tau": 2.0**31}, "C 41F0000000000000 11000"
    yield {"tau": 2.0**31 + 2500.0}, "C 41F0000138800000 11000"  # 2^32 + 5000
    yield {"tau": 2.0**60}, "C 43C0000000000000 11000"
    yield {"tau": 2.0**63}, "C 43F0000000000000 11000"


def overflows():
    """A row sum that is infinite, and one next to it that is not: tau times the largest float is then just below 4."""
    tau = two_to(-1022)
    # the end row alone
    for eta, told in ((two_to(969), "R 11"), (near(two_to(969), -1), "N 2")):
        yield {"alpha": LARGEST, "eta": eta, "tau": tau}, told
    for alpha, told in ((two_to(1022), "R 11"), (near(two_to(1022), -1), "N 2")):
        yield {"alpha": alpha, "bound": 2, "tau": tau}, told
    for alpha, told in ((4.5e303, "R 11"), (4.4e303, "N 11")):
        yield {"alpha": alpha, "bound": 200, "tau": 1.14e-307}, told
    # the row next to it alone, by 4 × eta
    for bound in (1, 2, 200):
        for eta, told in ((two_to(1022), "R 11"), (near(two_to(1022), -1), "N 4")):
            yield {"eta": eta, "bound": bound, "tau": 2.0 * tau}, told
    # both, by 3 × eta, by 2 × eta and by alpha
    for eta in (near(two_to(1023), -1), two_to(1023), LARGEST):
        yield {"eta": eta, "tau": SMALLEST}, "R 11"
    for bound in (3, 200):
        yield {"alpha": LARGEST, "bound": bound, "tau": SMALLEST}, "R 11"


def products():
    """Norms that are finite and positive, and tau × norm that is infinite, or rounds to zero, or is next to that."""
    yield {"tau": LARGEST}, "R 11"
    for bound, alpha, eta, norm in POWERS:
        usual = {"bound": bound, "alpha": alpha, "eta": eta}
        tau = two_to(1023) / norm * 2.0
        yield dict(usual, tau=tau), "R 11"
        yield dict(usual, tau=near(tau, -1)), HALF_LARGEST
        # 2^-900 of the norm: half of the smallest float, the next one above, the smallest, and twice that
        usual.update(alpha=alpha * two_to(-900), eta=eta * two_to(-900))
        tau = two_to(-175) / norm
        for x, told in ((tau, "R 11"), (near(tau, 1), "N 1"), (2.0 * tau, "N 1"), (4.0 * tau, "N 1")):
            yield dict(usual, tau=x), told
    for tau, told in ((SMALLEST, "R 11"), (1.0, "N 1"), (LARGEST, "N 1")):
        yield {"alpha": SMALLEST, "eta": SMALLEST, "tau": tau}, told


def unread():
    """The count does not depend on q, nor on k or base."""
    for bound, tau, told in ((1, 1.0, "N 2"), (2, 1.0, "N 4"), (200, 0.25, "N 5001")):
        for q in (-bound, 0, bound):
            yield {"bound": bound, "tau": tau, "q": q}, told
    yield {"k": SMALLEST, "base": LARGEST}, "N 2"
    yield {"k": LARGEST, "base": SMALLEST}, "N 2"


def refusals():
    """5, 1 and 4 as the float entry has them, in that order, before 11 and before 0 steps."""
    for kind in (listed.unfit, listed.bounds, listed.holdings):
        for changes, number in kind():
            yield changes, "R %d" % number
    for bound in (2**32, 2**32 + 1, 2**32 + 200, 2**63 + 1, 2**64 - 1):
        yield {"bound": bound}, "R 1"
    for bound, q in ((1, -(2**32)), (1, 2**32 + 1), (2, 3), (2, -3), (200, -201)):
        yield {"bound": bound, "q": q}, "R 4"
    for tau in (1e300, 0.0, -1.0):
        wrong = {"alpha": 1e300, "tau": tau}
        yield dict(wrong, q=2), "R 4"
        yield dict(wrong, q=2, bound=0), "R 1"
        yield dict(wrong, q=2, bound=2**32 + 1), "R 1"
        yield dict(wrong, q=2, bound=0, k=0.0), "R 5"
        yield dict(wrong, base=math.nan), "R 5"


# ---- change request 7: bound, alpha, eta, beta's size, tau, and the line
DRIFTS = [
    # a norm of 1 + 1 + 3: the end row; of 0 + 40: the centre, which 1 + 2 + 30 is below
    (1, 1.0, 1.0, 1.0, 1.0, "N 3"),
    (1, 1.0, 1.0, 1.0, 0.4, "N 1"),
    (1, 1.0, 1.0, 1.0, near(0.4, 1), "N 2"),
    (1, 1.0, 10.0, 2.0, 1.0, "N 20"),
    # 4 + 4 + 3, where the other end has 4 - 4 + 3; 4 + 80 + 3, where that has an entry of 4 - 80 + 2; 1 + 5 + 40 next to
    # the end, where 4 + 10 + 30 is below
    (2, 1.0, 1.0, 2.0, 1.0, "N 6"),
    (2, 1.0, 1.0, 40.0, 1.0, "N 44"),
    (2, 1.0, 10.0, 5.0, 1.0, "N 23"),
    (2, 1.0, 10.0, 7.0, 1.0, "N 24"),  # both 48
    (2, 1.0, 10.0, 9.0, 1.0, "N 26"),
    # 40,000 + 200 + 3 and, next to the end, 39,601 + 199 + 4,000
    (200, 1.0, 1.0, 1.0, 0.25, "N 5026"),
    (200, 1.0, 1000.0, 1.0, 0.25, "N 5475"),
    # most of it beta's: 1/64 × 40,000 + 64 × 200 + 3/16
    (200, 1 / 64, 1 / 16, 64.0, 0.5, "N 3357"),
    (1, 1.0, 1.0, 21996.0, 1.0, "N 11000"),
    (1, 1.0, 1.0, near(21996.0, 1), 1.0, ONE_OVER),
    (200, 1.0, 1.0, two_to(996), two_to(-996), "N 100"),
    (200, 1.0, 1.0, 1e9, 1.0, "C 4237487736220000 11000"),  # 10^11 + 20,001.5, and so 100,000,020,002
    # a drift that is lost beside the rest
    (1, 1.0, 1.0, SMALLEST, 1.0, "N 2"),
    (1, 1.0, 1.0, 1e-17, 1.0, "N 2"),
]


def drifts():
    """With either sign, at any holding: all rows are read, and the largest is at one end or the other."""
    for bound, alpha, eta, beta, tau, told in DRIFTS:
        for sign in (1.0, -1.0):
            case = {"bound": bound, "alpha": alpha, "eta": eta, "tau": tau, "beta": sign * beta}
            yield case, told
            yield dict(case, q=bound), told


def no_diagonals():
    """An entry that is infinite or no number is 11 for a tau above zero; rows next to it are not."""
    for sign in (1.0, -1.0):
        for alpha in (1.0, 1e308):
            for tau, told in ((SMALLEST, "R 11"), (1.0, "R 11"), (0.0, "N 0"), (-1.0, "N 0")):
                yield {"bound": 2, "alpha": alpha, "beta": sign * 1e308, "tau": tau}, told
        yield {"bound": 2, "beta": sign * near(two_to(1023), -1), "tau": two_to(-1022)}, "N 2"
        yield {"bound": 2, "beta": sign * two_to(1023), "tau": two_to(-1022)}, "R 11"
        yield {"beta": sign * LARGEST, "tau": two_to(-1022)}, "N 2"
        yield {"beta": sign * LARGEST, "alpha": two_to(970), "tau": two_to(-1022)}, "R 11"
        yield {"beta": sign * LARGEST, "alpha": near(two_to(970), -1), "tau": two_to(-1022)}, "N 2"
        yield {"beta": sign * LARGEST, "eta": two_to(1022), "tau": SMALLEST}, "R 11"
        yield {"beta": sign * 1e308, "tau": 1e300}, "R 11"
        yield {"beta": sign * two_to(1023)}, "C 7FD0000000000000 11000"


def drift_refusals():
    """5 by beta, before 1 and 4, with no time too; minus zero is no drift."""
    for beta in (math.inf, -math.inf, math.nan):
        yield {"beta": beta}, "R 5"
        yield {"beta": beta, "bound": 0, "q": 2}, "R 5"
        yield {"beta": beta, "tau": 0.0}, "R 5"
    yield {"beta": 1e308, "bound": 0}, "R 1"
    yield {"beta": 1e308, "bound": 2, "q": 3}, "R 4"
    yield {"beta": -0.0}, "N 2"
    yield {"beta": -0.0, "bound": 200, "eta": 399.0, "tau": 2 / 41197}, "N 1"


GROUPS = (paper, no_time, rows, orders, wholes, caps, overflows, products, unread, refusals, drifts, no_diagonals,
          drift_refusals)


def main():
    for group in GROUPS:
        for changes, told in group():
            case = dict(listed.USUAL, **changes)
            found = counting.answer(**case)
            if found != told:
                sys.exit("listed.py: %s: %s, and not %s" % (changes, found, told))
            sys.stdout.buffer.write(pack(**case))


if __name__ == "__main__":
    main()
