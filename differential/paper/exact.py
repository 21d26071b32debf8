"""Theorem 1 and the closed form of the 2013 paper, with forty digits or more.

    python3 exact.py

For a desk of the paper (sigma per root second, A, k, gamma, T - t in seconds, Q, and the drift mu of the price per
second), every step is over mpmath's numbers of DIGITS digits:

    alpha = k gamma sigma^2 / 2,  beta = k mu,  eta = A (1 + gamma/k)^-(1 + k/gamma)
    M tridiagonal over q = -Q .. Q: alpha q^2 - beta q on the diagonal, -eta beside it
    v = exp(-M (T - t)) 1
    bid's distance = ln(v_q / v_(q+1)) / k + ln(1 + gamma/k) / gamma, ask's with q - 1

The paper's orders are of one unit. A desk of lots is the paper's with one lot as the unit: the price of a
lot is the lot size times that of a unit, so sigma and mu are multiplied by the lot size and k, per unit of
price, is divided by it; gamma, per unit of money, stays, as A and the time do. The distances are then prices of
a lot, and the lot size divides them in the end.

The exponential is its power series. With s = alpha Q^2 + |beta| Q, sI - M has no negative entry, and exp(-M t) is
exp(-s t) exp((sI - M) t): the factor drops out of every ratio, and what is left is a sum of positive
terms, in which nothing cancels. Run as a program, this file holds the distances to those of longer
numbers and of mpmath's own exponential of a matrix.
"""
import collections

from mpmath import mp, mpf

DIGITS = 50
KEPT = 40

Case = collections.namedtuple("Case", "name sigma a k gamma seconds bound lot mu", defaults=["0"])
CASES = [
    Case("the paper", "0.3", "0.9", "0.3", "0.01", "600", 30, "1"),
    Case("its last minute", "0.3", "0.9", "0.3", "0.01", "60", 30, "1"),
    Case("its last second", "0.3", "0.9", "0.3", "0.01", "1", 30, "1"),
    Case("sigma 0.05", "0.05", "0.9", "0.3", "0.01", "600", 30, "1"),
    Case("sigma 1.5", "1.5", "0.9", "0.3", "0.01", "600", 30, "1"),
    Case("A 0.05", "0.3", "0.05", "0.3", "0.01", "600", 30, "1"),
    Case("A 10", "0.3", "10", "0.3", "0.01", "600", 30, "1"),
    Case("k 0.05", "0.3", "0.9", "0.05", "0.01", "600", 30, "1"),
    Case("k 3", "0.3", "0.9", "3", "0.01", "600", 30, "1"),
    Case("gamma 0.0001", "0.3", "0.9", "0.3", "0.0001", "600", 30, "1"),
    Case("gamma 0.5", "0.3", "0.9", "0.3", "0.5", "600", 30, "1"),
    Case("Q 3", "0.3", "0.9", "0.3", "0.01", "600", 3, "1"),
    Case("Q 100, two minutes", "0.3", "0.9", "0.3", "0.01", "120", 100, "1"),
    Case("lots of 0.25, five minutes", "0.8", "2.5", "0.7", "0.04", "300", 12, "0.25"),
    Case("sigma 5, Q 100, rebalanced", "5", "0.9", "0.3", "0.01", "10", 100, "1"),
    Case("mu 0.001", "0.3", "0.9", "0.3", "0.01", "600", 30, "1", "0.001"),
    Case("mu -0.001", "0.3", "0.9", "0.3", "0.01", "600", 30, "1", "-0.001"),
    Case("mu 0.02", "0.3", "0.9", "0.3", "0.01", "600", 30, "1", "0.02"),
    Case("mu 0.02, its last second", "0.3", "0.9", "0.3", "0.01", "1", 30, "1", "0.02"),
    Case("mu 0.2, k 3, below zero", "0.05", "0.9", "3", "0.01", "60", 30, "1", "0.2"),
    Case("mu -0.2, k 3, below zero", "0.05", "0.9", "3", "0.01", "60", 30, "1", "-0.2"),
    Case("mu 0.1, lots of 0.25", "0.8", "2.5", "0.7", "0.04", "300", 12, "0.25", "0.1"),
    Case("mu 0.2, sigma 5, Q 100", "5", "0.9", "0.3", "0.01", "10", 100, "1", "0.2"),
]

Scales = collections.namedtuple("Scales", "lot k gamma a sigma2 alpha beta eta base tau")


def scales(case):
    """The paper's numbers, with one lot as the unit."""
    lot, a, gamma, seconds = map(mpf, (case.lot, case.a, case.gamma, case.seconds))
    k = mpf(case.k) / lot
    sigma2 = (mpf(case.sigma) * lot) ** 2
    beta = k * (mpf(case.mu) * lot)
    eta = a * (1 + gamma / k) ** -(1 + k / gamma)
    return Scales(lot, k, gamma, a, sigma2, k * gamma * sigma2 / 2, beta, eta, mp.log(1 + gamma / k) / gamma, seconds)


def vector(s, bound):
    """v, up to a factor that every entry has."""
    shift = s.alpha * bound * bound + abs(s.beta) * bound
    diagonal = [(shift - s.alpha * q * q + s.beta * q) * s.tau for q in range(-bound, bound + 1)]
    beside = s.eta * s.tau
    term = [mpf(1)] * len(diagonal)
    total = list(term)
    least = mpf(10) ** -(mp.dps + 5)
    norm = max(diagonal) + 2 * beside
    j = 0
    while True:
        j += 1
        padded = [mpf(0)] + term + [mpf(0)]
        term = [(d * padded[i + 1] + beside * (padded[i] + padded[i + 2])) / j for i, d in enumerate(diagonal)]
        total = [x + t for x, t in zip(total, term)]
        if j > 2 * norm and all(t < least * x for x, t in zip(total, term)):
            return total


def sides(s, bound, bid, ask):
    """Both distances for each q, as prices of a unit; None for the one that is withheld."""
    return {q: (bid(q) / s.lot if q < bound else None, ask(q) / s.lot if q > -bound else None)
            for q in range(-bound, bound + 1)}


def theorem_1(s, bound, v):
    logs = {q: mp.log(x) for q, x in zip(range(-bound, bound + 1), v)}
    return sides(s, bound,
                 lambda q: (logs[q] - logs[q + 1]) / s.k + s.base,
                 lambda q: (logs[q] - logs[q - 1]) / s.k + s.base)


def closed_form(s, bound):
    c = mp.sqrt(s.sigma2 * s.gamma / (2 * s.k * s.a) * (1 + s.gamma / s.k) ** (1 + s.k / s.gamma))
    return sides(s, bound, lambda q: s.base + (2 * q + 1) * c / 2, lambda q: s.base - (2 * q - 1) * c / 2)


def exact(case, digits=DIGITS):
    """The distances of Theorem 1."""
    with mp.workdps(digits):
        s = scales(case)
        return theorem_1(s, case.bound, vector(s, case.bound))


def by_matrix(case):
    """The same by mpmath's exponential of a matrix."""
    with mp.workdps(DIGITS + 20):
        s = scales(case)
        n = 2 * case.bound + 1
        m = mp.matrix(n, n)
        for i in range(n):
            q = i - case.bound
            m[i, i] = s.alpha * q**2 - s.beta * q
            if i + 1 < n:
                m[i, i + 1] = m[i + 1, i] = -s.eta
        v = mp.expm(m * -s.tau) * mp.ones(n, 1)
        return theorem_1(s, case.bound, list(v))


def apart(these, those):
    """The largest relative difference of two lists of distances."""
    with mp.workdps(2 * DIGITS):
        pairs = [(a, b) for q in these for a, b in zip(these[q], those[q]) if a is not None]
        return max(abs(a - b) / abs(b) for a, b in pairs)


def main():
    for case in CASES:
        far = apart(exact(case), exact(case, 2 * DIGITS))
        assert far < mpf(10) ** -KEPT, case
        print("%-28s against twice as many digits: %s" % (case.name, mp.nstr(far, 3)))
        if case.bound <= 12 or case.name in ("the paper", "mu 0.02"):
            far = apart(exact(case), by_matrix(case))
            assert far < mpf(10) ** -KEPT, case
            print("%-28s against the exponential of the matrix: %s" % ("", mp.nstr(far, 3)))


if __name__ == "__main__":
    main()
