"""The Rust's quotes and ours beside the 2013 paper's, which exact.py of differential/paper reckons."""
from mpmath import mp, mpf

import exact
import quoting
from asked import CLOSED_FORM, EXACT, ONE, USUAL, described, grouped, plain, price
from distances import LEAST_OUT, MOST_OUT

YEAR = 31536000
# sigma 0.3 per root of a second, A 0.9, k 0.3, gamma 0.01, Q 30, and 600 seconds
SIGMA = "0.3"
HELD = (0, 10, 20, 25, 29, 30)


def case(desk):
    sigma = mpf(desk.volatility) / ONE / mp.sqrt(YEAR)
    a, k, gamma, lot = (mpf(x) / ONE for x in (desk.a, desk.k, desk.risk_aversion, desk.lot_size))
    seconds = mpf(max(0, desk.terminal - desk.current)) / 1000
    return exact.Case("", sigma, a, k, gamma, seconds, desk.bound, lot)


def prices(desk, distances):
    """To the billionth, outward as ours are."""
    bid, ask = (mp.ceil(d * ONE) for d in distances)
    return "%s / %s" % (price(desk.mid - int(bid)), price(desk.mid + int(ask)))


def theorem(desk):
    """Theorem 1, of unit orders: exact.py takes one lot for the unit."""
    with mp.workdps(exact.DIGITS):
        return prices(desk, exact.exact(case(desk))[desk.holding // desk.lot_size])


def form(desk):
    """The closed form without a bound in its way."""
    with mp.workdps(exact.DIGITS):
        distances = exact.closed_form(exact.scales(case(desk)), desk.bound + 1)
        return prices(desk, distances[desk.holding // desk.lot_size])


def both(ask, desk, entry):
    """The Rust's answer, as ours has it; an error's kind beside the refusal's number."""
    theirs, ours = ask.theirs(desk, entry), ask.ours(desk, entry)
    if " / " not in ours:
        return ours if theirs == ours else "%s, %s" % (theirs, ours)
    for a, b in zip(theirs.split(" / "), ours.split(" / ")):
        assert a == b == "-" or abs(mpf(a) - mpf(b)) <= 3e-9, desk
    return ours


def row(ask, where, paper, entry=EXACT, **changes):
    desk = USUAL._replace(**changes)
    return [where, described(desk, entry), paper(desk), both(ask, desk, entry)]


def rows(ask):
    yield row(ask, "The lot size", theorem, lot_size=ONE // 2, current=0)
    yield row(ask, "The step cap", theorem, terminal=22000001, current=0)
    yield row(ask, "The closed form at the end", theorem, CLOSED_FORM)
    yield row(ask, "The closed form at a bound", form, CLOSED_FORM, holding=ONE)
    yield row(ask, "A min spread", theorem, min_spread=2 * ONE)
    yield row(ask, "Positive prices", theorem, mid=ONE // 2)
    yield row(ask, "A time past the end", lambda _: "none", current=1001)
    yield row(ask, "A bound above 200", theorem, bound=201)
    yield ["The unit of sigma", "sigma %s" % SIGMA, "per root of a second",
           "volatility %s, per root of a year of %s s" % (grouped(plain(volatility())), grouped(str(YEAR)))]


# ---- the paper's own desk
def volatility():
    with mp.workdps(exact.DIGITS):
        return int(mp.nint(mpf(SIGMA) * mp.sqrt(YEAR) * ONE))


def own_desk(seconds, q):
    return quoting.Desk(1000 * ONE, q * ONE, volatility(), ONE // 100, 3 * ONE // 10, 9 * ONE // 10, 30, ONE,
                        600000, 600000 - 1000 * seconds, 0)


def distances(ask, desk, entry=EXACT):
    """Ours in billionths, None for a side that is withheld."""
    bid, given = ask.desk(desk, entry)[1:3]
    return [None if bid == "-" else desk.mid - int(bid), None if given == "-" else int(given) - desk.mid]


def held(found, papers):
    """Distances as far outside the paper's as the comparison with it allows, about a billionth."""
    assert all(a is None or LEAST_OUT <= a - b * ONE <= MOST_OUT for a, b in zip(found, papers))
    return found


def short(count):
    return "-" if count is None else "%.4f" % (count / ONE)


def distance_rows(ask):
    long, late = (exact.Case("", SIGMA, "0.9", "0.3", "0.01", seconds, 30, "1") for seconds in ("600", "1"))
    theorem_1 = [(600, exact.exact(long)), (1, exact.exact(late))]
    form_of = exact.closed_form(exact.scales(long), 30)
    for q in HELD:
        columns = [held(distances(ask, own_desk(seconds, q)), papers[q]) for seconds, papers in theorem_1]
        columns.append(held(distances(ask, own_desk(600, q), CLOSED_FORM), form_of[q]))
        yield [str(q)] + [short(column[side]) for side in (0, 1) for column in columns]


def error_rows(ask):
    """The largest difference of the closed form from the exact distances, over q from minus a number to it."""
    for seconds in 600, 60, 1:
        gaps = {}
        for q in range(-30, 31):
            desk = own_desk(seconds, q)
            pairs = zip(distances(ask, desk), distances(ask, desk, CLOSED_FORM))
            gaps[q] = max(abs(a - b) for a, b in pairs if a is not None)
        yield ["%d s" % seconds] + [short(max(gaps[q] for q in gaps if abs(q) <= most)) for most in (10, 20, 25, 30)]
