"""The quotes of document 01, modules 2 to 5, with change request 7's drift, reckoned apart from the library.

    python3 quoting.py < DESKS > LINES

DESKS and LINES are what deskrun reads and writes. Python's floats are binary64, and each +, -, * and
/ on them rounds once, so the paper's order of operations is written down as it stands. Its
elementary functions are those of differential/elementary/reckon.py. Amounts are whole numbers of
billionths, and a distance is rounded up to one over fractions, by change request 5.
"""
import collections
import fractions
import math
import os
import struct
import sys

sys.path.insert(0, os.path.join(os.path.dirname(os.path.abspath(__file__)), "..", "elementary"))
import reckon as elementary  # noqa: E402

MOST_LOTS = 200
MOST_AMOUNT = 9 * 10**15
MOST_TIME = 9 * 10**15
BILLION = 10**9
STEPS = 11000
TERMS = 100

# the numbers that a sheet stores; a stored desk has no drift
STORED = "mid holding volatility risk_aversion k a bound lot_size terminal current min_spread".split()
SIGNED = "mid holding volatility risk_aversion k a lot_size min_spread drift".split()
Desk = collections.namedtuple("Desk", STORED + ["drift"], defaults=[0])
Model = collections.namedtuple("Model", "k gamma a sigma2 alpha eta base beta bound")
RECORD = struct.Struct("<13Q")
EXACT, WRAPPER, CLOSED_FORM, CONFIGURATION, MODEL = range(5)


class Refused(Exception):
    """A refusal, by its number."""

    def __init__(self, number):
        super().__init__(number)
        self.number = number


class OverCap(Exception):
    """The cap report: steps needed, budget left, steps spent."""

    def __init__(self, needed, budget):
        super().__init__(needed, budget)
        self.needed, self.budget, self.steps = needed, budget, STEPS - budget


class TooLong(Exception):
    """A run with more rows and steps than were allowed."""


def need(held, number):
    if not held:
        raise Refused(number)


def positive(x):
    return x is not None and math.isfinite(x) and x > 0.0


def or_nan(x):
    return math.nan if x is None else x


# ---- module 2: operator and series
def factors(offsets):
    """Left and right factors; a factor not finite is 11."""
    gaps = [b - a for a, b in zip(offsets, offsets[1:])]
    right = [or_nan(elementary.exp(gap)) for gap in gaps] + [0.0]
    left = [0.0] + [or_nan(elementary.exp(-gap)) for gap in gaps]
    need(all(map(math.isfinite, left + right)), 11)
    return left, right


def operator(x, diagonal, eta_dt, left, right):
    below = [0.0] + x[:-1]
    above = x[1:] + [0.0]
    return [eta_dt * (lf * lo + rf * up) - d * c
            for lf, lo, rf, up, d, c in zip(left, below, right, above, diagonal, x)]


def series(weights, diagonal, eta_dt, left, right):
    term, total = weights, weights
    for j in range(1, TERMS + 1):
        share = 1.0 / j
        term = [x * share for x in operator(term, diagonal, eta_dt, left, right)]
        total = [s + t for s, t in zip(total, term)]
        need(all(map(math.isfinite, term)) and all(map(math.isfinite, total)), 11)
        if all(abs(t) <= 1e-16 * abs(s) for t, s in zip(term, total)):
            need(all(s > 0.0 for s in total), 11)
            return total
    raise Refused(11)


# ---- module 3: plan and value vector
def plan(tau, diagonal, eta, left, right, budget):
    norm = max(abs(d) + eta * (lf + rf) for d, lf, rf in zip(diagonal, left, right))
    need(positive(tau * norm), 11)
    steps = max(elementary.ceil(tau * norm / 2.0), 1.0)
    if steps > budget:
        raise OverCap(steps, budget)
    return int(steps), tau / steps


def advance(weights, scaled, eta_dt, left, right, steps):
    """A plan's steps, until they end or a weight is below 1e-200: the weights, and the steps that remain."""
    while steps > 0:
        weights = series(weights, scaled, eta_dt, left, right)
        steps -= 1
        largest = max(weights)
        weights = [w / largest for w in weights]
        if min(weights) < 1e-200:
            break
    return weights, steps


def value_vector(alpha, beta, eta, bound, tau, most=math.inf):
    """Weights, offsets and steps spent."""
    lots = [float(q) for q in range(-bound, bound + 1)]
    weights, offsets = [1.0] * len(lots), [0.0] * len(lots)
    if tau <= 0.0:
        return weights, offsets, 0
    diagonal = [((alpha * q) * q - beta * q) + 2.0 * eta for q in lots]
    need(all(map(math.isfinite, diagonal)), 11)
    left, right = factors(offsets)
    budget = STEPS
    steps, dt = plan(tau, diagonal, eta, left, right, budget)
    while steps > 0:
        if steps * len(lots) > most:
            raise TooLong
        planned, scaled = steps, [d * dt for d in diagonal]
        weights, steps = advance(weights, scaled, eta * dt, left, right, planned)
        for _ in range(planned - steps):
            budget, tau, most = budget - 1, tau - dt, most - len(lots)
        if steps > 0:
            need(all(map(positive, weights)), 11)
            offsets = [o + elementary.ln(w) for o, w in zip(offsets, weights)]
            weights = [1.0] * len(lots)
            left, right = factors(offsets)
            need(positive(tau), 11)
            steps, dt = plan(tau, diagonal, eta, left, right, budget)
    return weights, offsets, STEPS - budget


# ---- module 4: model and distances
def amount(count):
    return float(count) / 1e9


def check_limits(desk, current):
    times = [desk.terminal, current]
    amounts = [getattr(desk, name) for name in SIGNED]
    need(all(abs(x) <= MOST_AMOUNT for x in amounts) and max(times) <= MOST_TIME, 2)


def check_configuration(desk):
    need(min(desk.risk_aversion, desk.k, desk.a, desk.lot_size) > 0, 1)
    need(1 <= desk.bound <= MOST_LOTS and desk.terminal != 0 and desk.min_spread >= 0, 1)


def model_of(desk, current=0, closed_form=False):
    """The model and the holding in lots. The closed form has no current time, and no drift."""
    check_limits(desk, current)
    check_configuration(desk)
    need(desk.drift == 0 or not closed_form, 22)
    need(desk.mid > 0 and desk.volatility > 0, 3)
    need(desk.holding % desk.lot_size == 0, 4)
    q = desk.holding // desk.lot_size
    need(abs(q) <= desk.bound, 4)
    k, a, sigma = amount(desk.k), amount(desk.a), amount(desk.volatility)
    gamma = amount(desk.risk_aversion) * amount(desk.lot_size)
    sigma2 = sigma * sigma / 31536000.0
    log = elementary.ln_1p(gamma / k)
    need(log is not None, 5)
    decay = elementary.exp(-(1.0 + k / gamma) * log)
    need(decay is not None, 5)
    beta = k * (amount(desk.drift) / 31536000.0)
    model = Model(k, gamma, a, sigma2, k * gamma * sigma2 / 2.0, a * decay, log / gamma, beta, desk.bound)
    need(all(map(positive, model[:7])) and math.isfinite(beta), 5)
    return model, q


def time_left(desk):
    """Tau, in seconds."""
    return float(max(0, desk.terminal - desk.current)) / 1000.0


def sides(q, bound, bid, ask):
    """The distances that are present; one not finite is 11."""
    both = bid() if q < bound else None, ask() if q > -bound else None
    need(all(math.isfinite(d) for d in both if d is not None), 11)
    return both


def exact_distances(weights, offsets, k, base, q):
    bound = len(weights) // 2

    def log(i):
        need(positive(weights[i]), 11)
        return elementary.ln(weights[i])

    def distance(other):
        i, j = q + bound, other + bound
        return ((log(i) - log(j)) + (offsets[i] - offsets[j])) / k + base

    return sides(q, bound, lambda: distance(q + 1), lambda: distance(q - 1))


def closed_form_distances(model, q):
    ratio = model.gamma / model.k
    growth = elementary.exp((1.0 + model.k / model.gamma) * or_nan(elementary.ln_1p(ratio)))
    c = elementary.sqrt(model.sigma2 * model.gamma / (2.0 * model.k * model.a) * or_nan(growth))
    need(positive(c), 11)
    return sides(q, model.bound,
                 lambda: model.base + (2.0 * q + 1.0) / 2.0 * c,
                 lambda: model.base - (2.0 * q - 1.0) / 2.0 * c)


def float_entry(k, alpha, beta, eta, base, bound, tau, q):
    """The distances, and the vector with its steps."""
    need(all(map(positive, (k, alpha, eta, base))) and math.isfinite(beta) and math.isfinite(tau), 5)
    need(1 <= bound <= MOST_LOTS, 1)
    need(abs(q) <= bound, 4)
    weights, offsets, steps = value_vector(alpha, beta, eta, bound, tau)
    return exact_distances(weights, offsets, k, base, q), (weights, offsets, steps)


# ---- module 5: quotes
def billionths(d):
    """The least count that is no smaller than a distance, which may be negative."""
    return math.ceil(fractions.Fraction(d) * BILLION)


def build_quotes(desk, distances):
    bid, ask = (None if d is None else billionths(d) for d in distances)
    counts = [d for d in (bid, ask) if d is not None]
    need(all(abs(d) <= MOST_AMOUNT for d in counts), 13)
    bid = None if bid is None else desk.mid - bid
    ask = None if ask is None else desk.mid + ask
    if None not in (bid, ask) and ask - bid < desk.min_spread:
        half = -((ask - bid - desk.min_spread) // 2)  # rounded up
        bid, ask = bid - half, ask + half
    prices = [x for x in (bid, ask) if x is not None]
    need(all(abs(x) <= MOST_AMOUNT for x in prices), 13)
    need(all(x > 0 for x in prices) and prices == sorted(set(prices)), 14)
    return bid, ask


def exact_quotes(desk, most=math.inf):
    """The two prices and the steps."""
    model, q = model_of(desk, desk.current)
    weights, offsets, steps = value_vector(model.alpha, model.beta, model.eta, model.bound, time_left(desk), most)
    return build_quotes(desk, exact_distances(weights, offsets, model.k, model.base, q)), steps


def closed_form_quotes(desk):
    model, q = model_of(desk, closed_form=True)
    return build_quotes(desk, closed_form_distances(model, q))


# ---- deskrun's records and lines
def pack(desk, entry):
    """A record: the stored numbers, the entry, and the drift."""
    *stored, drift = (x % 2**64 for x in desk)
    return RECORD.pack(*stored, entry, drift)


def unpack(record):
    *stored, entry, drift = RECORD.unpack(record)
    words = zip(Desk._fields, [*stored, drift])
    return Desk(*(w - (w >> 63 << 64) if name in SIGNED else w for name, w in words)), entry


def prices(bid, ask):
    return "Q %s %s" % tuple("-" if x is None else x for x in (bid, ask))


def new_configuration(desk):
    """The configuration's own numbers alone."""
    check_limits(desk._replace(mid=0, holding=0, volatility=0), 0)
    check_configuration(desk)


def line(desk, entry, most=math.inf):
    try:
        need(desk.bound < 2**32, 2)
        if entry == CONFIGURATION:
            new_configuration(desk)
            return "P"
        if entry == MODEL:
            model, q = model_of(desk)
            return "M %s %d %d" % (" ".join("%016x" % elementary.bits_of(x) for x in model[:8]), model.bound, q)
        if entry == CLOSED_FORM:
            return prices(*closed_form_quotes(desk))
        (bid, ask), steps = exact_quotes(desk, most)
        return "%s %d" % (prices(bid, ask), steps)
    except OverCap as report:
        if entry == WRAPPER:
            return "R 12"
        return "C %016x %d %d" % (elementary.bits_of(report.needed), report.budget, report.steps)
    except Refused as refusal:
        return "R %d" % refusal.number


def records(file, size=RECORD.size):
    while record := file.read(size):
        yield record


def main():
    for record in records(sys.stdin.buffer):
        print("R 6" if len(record) < RECORD.size else line(*unpack(record)))


if __name__ == "__main__":
    main()
