"""Writes records for floatrun and the oracle.

    python3 cases.py SEED COUNT [MOST] > RECORDS

A record is 64 bytes: the bits of k, alpha, eta and base, the bound, the bits of tau, q, and the bits of
beta, each a word of eight bytes, lowest first. After COUNT of them comes one that is cut short. MOST,
200 if it is not given, is the largest bound of a record that is not refused for it. A seed gives the
same records on every machine: no function of the platform's C library takes part. Each kind below aims
at one way a call can go. The kinds of the drift have a beta of their own; of the others one of four
gets one, and a quarter of the rest has a beta of minus zero.
"""
import random
import struct
import sys

LARGEST = sys.float_info.max
SMALLEST = 5e-324
CAP = 11000
MANTISSA = (1 << 52) - 1
INFINITY = 0x7FF << 52
SIGN = 1 << 63
WORDS = struct.Struct("<8Q")


def float_of(bits):
    return struct.unpack("<d", struct.pack("<Q", bits))[0]


def bits_of(x):
    return struct.unpack("<Q", struct.pack("<d", x))[0]


def two_to(e):
    """2^e as a float, subnormal ones included."""
    return float_of((e + 1023) << 52 if e >= -1022 else 1 << (e + 1074))


def exponent(x):
    """e where a positive x is in [2^e, 2^(e+1)); -1023 for a subnormal one."""
    return (bits_of(x) >> 52) - 1023


def pack(k, alpha, eta, base, bound, tau, q, beta=0.0):
    k, alpha, eta, base, tau, beta = (x if isinstance(x, int) else bits_of(x) for x in (k, alpha, eta, base, tau, beta))
    return WORDS.pack(k, alpha, eta, base, bound, tau, q % (1 << 64), beta)


def with_beta(record, beta):
    """The record with another drift."""
    return pack(*WORDS.unpack(record)[:7], beta)


class Cases:
    def __init__(self, seed, most=200):
        self.rng = random.Random(seed)
        self.most = most

    # ---- numbers
    def whole(self, low, high):
        return self.rng.randint(low, high)

    def unit(self):
        return self.rng.random()

    def chance(self, share):
        return self.rng.random() < share

    def about(self, low, high):
        """A float of any size from 2^low to 2^high."""
        return (1.0 + self.unit()) * two_to(self.whole(low, high - 1))

    def near(self, x):
        """x, or a float next to it."""
        return float_of(bits_of(x) + self.whole(-2, 2))

    def pattern(self):
        """A positive finite float with any bits."""
        return float_of(self.whole(1, INFINITY - 1))

    def scale(self):
        """k and base: mostly of ordinary size."""
        if self.chance(0.8):
            return self.about(-8, 8), self.about(-8, 8)
        return self.about(-500, 500), self.about(-500, 500)

    def rows(self, low, high):
        """A bound from low to high, and no more than the most."""
        return self.whole(min(low, self.most), min(high, self.most))

    def small_bound(self):
        return min(self.most, self.rng.choice((1, 1, 2, 2, 3, 4, 5, 6, 8, 10, 12)))

    def bound(self):
        return self.small_bound() if self.chance(0.5) else self.rows(1, 200)

    def holding(self, bound):
        return self.rng.choice((bound, -bound, self.whole(-bound, bound), self.whole(-bound, bound)))

    # ---- a run of about so many steps, and the paper's own
    def paper(self):
        """The cases of document 01: k, base, alpha and eta 1, or alpha and tau 10^300."""
        alpha, tau = self.rng.choice(((1.0, 1.0), (1.0, 5500.0), (1.0, 5500.5), (1.0, 0.0), (1e300, 1e300)))
        return pack(1.0, alpha, 1.0, 1.0, 1, tau, self.whole(-2, 2))

    def record(self, alpha, eta, bound, tau, beta=0.0):
        k, base = self.scale()
        return pack(k, alpha, eta, base, bound, tau, self.holding(bound), beta)

    def norm(self, alpha, eta, bound, beta=0.0):
        def row(q, factors):
            return alpha * q * q + abs(beta) * q + (2.0 + factors) * eta

        return max(row(bound, 1.0), row(bound - 1, 2.0))

    def time(self, alpha, eta, bound, steps, beta=0.0):
        """The time that so many steps take, steps being any number."""
        return 2.0 * steps / self.norm(alpha, eta, bound, beta)

    def shift(self, tau, *rates):
        """A power of two that scales a run to another unit of time, where one fits."""
        sizes = [exponent(abs(x)) for x in rates if x]
        low = max(-1022 - min(sizes), exponent(tau) - 1000)
        high = min(1000 - max(sizes), exponent(tau) + 1000)
        return two_to(self.whole(low, high)) if low < high else 1.0

    def timed(self, alpha, eta, bound, steps, beta=0.0):
        tau = self.time(alpha, eta, bound, steps, beta)
        s = self.shift(tau, alpha, eta, beta) if self.chance(0.2) else 1.0
        return self.record(alpha * s, eta * s, bound, tau / s, beta * s)

    def apart_by(self, low, high):
        """alpha, and eta from 2^low to 2^high times it."""
        e = self.whole(max(-8, -1070 - low), max(4, -1060 - low))
        return self.about(e, e + 1), self.about(e + low, e + high)

    def ordinary(self):
        return self.about(-20, 4), self.about(-12, 6)

    def plain(self):
        """Some steps, few where the bound is large."""
        alpha, eta = self.ordinary()
        bound = self.bound()
        most = max(4, 9000 // (2 * bound + 1))
        return self.timed(alpha, eta, bound, self.unit() * self.whole(1, most))

    def longer(self):
        """Some hundred steps at any bound, too flat to rebalance."""
        eta = self.about(-6, 6)
        return self.timed(eta * self.about(-20, -8), eta, self.bound(), self.whole(100, 400))

    def one_step(self):
        alpha, eta = self.ordinary()
        steps = self.rng.choice((1.0, self.unit(), self.about(-40, 0), self.about(-900, 0)))
        return self.timed(alpha, eta, self.bound(), steps)

    def least_plan(self):
        """Time × norm is one of the smallest floats, or rounds to zero: half of it may be zero."""
        s = self.whole(-900, -10)
        tau = two_to(self.whole(-1075, -1072) - 2 - s) * self.rng.choice((1.0, 1.0 + self.unit()))
        return self.record(two_to(s), two_to(s), 1, tau)

    def whole_plan(self):
        """Time × norm / 2 is a whole number of steps, or next to one."""
        s = two_to(self.whole(-30, 30))
        bound = self.small_bound()
        steps = self.whole(1, 40)
        tau = float(2 * steps) / (self.norm(1.0, 1.0, bound) * s)
        return self.record(s, s, bound, self.near(tau))

    def full_plan(self):
        """11,000 steps, or next to it: the last plan that is taken and the first that is not."""
        s = two_to(self.whole(-300, 300)) if self.chance(0.3) else 1.0
        bound = 1 if self.chance(0.8) else self.rows(2, 4)
        steps = self.rng.choice((CAP, CAP, CAP - 0.5, CAP + 0.5, CAP - 1, CAP + 1))
        tau = 2.0 * steps / (self.norm(1.0, 1.0, bound) * s)
        return self.record(s, s, bound, self.near(tau) if self.chance(0.4) else tau)

    def full_wide_plan(self):
        """11,000 steps at any bound."""
        alpha, eta = self.about(-12, 0), 1.0
        bound = self.rows(2, 40) if self.chance(0.8) else self.rows(41, 200)
        return self.record(alpha, eta, bound, self.time(alpha, eta, bound, CAP - self.unit()))

    def over_cap(self):
        alpha, eta = self.ordinary()
        steps = CAP * self.rng.choice((1.0 + self.unit(), self.about(0, 20), self.about(0, 900)))
        return self.timed(alpha, eta, self.bound(), steps)

    # ---- rebalancing: the ends fall below 1e-200 of the centre after 231 steps or more
    def natural(self):
        """A wide bound, over which the weights fall by themselves."""
        bound = self.rows(60, 200)
        alpha, eta = self.apart_by(-4, 2)
        return self.timed(alpha, eta, bound, self.whole(235, 700))

    def steep(self):
        """So small an eta that each row falls alone."""
        bound = self.small_bound()
        alpha, eta = self.apart_by(*self.rng.choice(((-900, -640), (-1300, -900), (-1900, -1300))))
        steps = self.rng.choice((self.whole(231, 420), self.whole(231, 900), self.whole(400, 2500)))
        return self.timed(alpha, eta, bound, steps)

    def several(self):
        """Three rows or more on each side, which fall far before two neighbours are 709 apart."""
        bound = self.rows(3, 12)
        alpha, eta = self.apart_by(-1400, -900)
        return self.timed(alpha, eta, bound, self.whole(500, 200 * bound))

    def leaning(self):
        """Rows that lean on their neighbours: after the rebalancing, other plans."""
        bound = self.rows(2, 30)
        alpha, eta = self.apart_by(-700 // bound - 20, -640 // bound)
        return self.timed(alpha, eta, bound, self.whole(240, 1200))

    def late_cap(self):
        """A first plan close below the cap, and after the rebalancing one above what is left."""
        if self.chance(0.5):
            bound = self.rows(60, 200)
            alpha, eta = self.apart_by(-4, 1)
            steps = self.whole(8000, CAP)
        else:
            bound = self.rows(1, 8)
            alpha, eta = self.apart_by(-700 // bound - 3, -660 // bound)
            steps = self.whole(10700, CAP)
        return self.timed(alpha, eta, bound, steps)

    # ---- refusal 11
    def no_norm(self):
        """Time × norm is infinite, or rounds to zero."""
        if self.chance(0.6):
            alpha, eta, tau = self.about(400, 1023), self.about(400, 1023), self.about(624, 1023)
        else:
            alpha, eta, tau = self.about(-1074, -640), self.about(-1074, -640), self.about(-1074, -450)
        return self.record(alpha, eta, self.bound(), tau)

    def apart(self):
        """Two neighbours more than 709 apart: a factor is infinite."""
        bound = self.rows(1, 6)
        alpha, eta = self.apart_by(-1900, -1400)
        steps = 400 * bound * bound // (2 * bound - 1) + self.whole(0, 400)
        return self.timed(alpha, eta, bound, steps)

    def far_distance(self):
        """A distance divided by so small a k, or added to so large a base, that it is infinite."""
        alpha, eta = self.about(-4, 4), self.about(-4, 4)
        bound = self.rows(1, 20)
        tau = self.time(alpha, eta, bound, self.whole(1, 30))
        if self.chance(0.1):
            tau = 0.0
        k = self.about(-1074, -1015)
        base = self.rng.choice((LARGEST, self.about(1015, 1023), self.about(-5, 5)))
        if base > 1.0 and self.chance(0.3):
            k = self.about(-1030, -980)
        return pack(k, alpha, eta, base, bound, tau, self.holding(bound))

    # ---- no run, and the refusals before it
    def no_time(self):
        alpha, eta = self.ordinary()
        tau = self.rng.choice((0.0, -0.0, -self.about(-5, 5), -SMALLEST, -LARGEST, -self.pattern()))
        return self.record(alpha, eta, self.bound(), tau)

    def bad_float(self):
        """One float or more that is not taken; the bound and q at random, bad ones among them."""
        nan = INFINITY | self.whole(1, MANTISSA)
        bad = (nan, nan | SIGN, INFINITY, INFINITY | SIGN, 0, SIGN, bits_of(-self.pattern()))
        bad_tau = (nan, nan | SIGN, INFINITY, INFINITY | SIGN)
        floats = [self.about(-8, 8) for _ in range(5)]
        for _ in range(self.rng.choice((1, 1, 1, 2))):
            i = self.whole(0, 4)
            floats[i] = self.rng.choice(bad_tau if i == 4 else bad)
        bound = self.rng.choice((self.bound(), 0, 201, 1 << 32, self.whole(0, (1 << 64) - 1)))
        return pack(*floats[:4], bound, floats[4], self.whole(-3, 3))

    def bad_bound(self):
        low = self.whole(1, 200)
        bound = self.rng.choice((0, 201, self.whole(201, 500), (1 << 32) - 1, 1 << 32, (1 << 32) + low,
                                 (self.whole(1, (1 << 32) - 1) << 32) + low, (1 << 63) + low, (1 << 64) - low))
        floats = [self.about(-8, 8) for _ in range(4)]
        return pack(*floats, bound, self.about(-8, 8), self.whole(-300, 300))

    def bad_holding(self):
        bound = self.bound()
        over = self.rng.choice((bound + 1, bound + 1, self.whole(bound + 1, 500), (1 << 32) + bound, 1 << 62,
                                (1 << 63) - 1))
        q = self.rng.choice((over, -over, -(1 << 63), -(1 << 63) + bound))
        alpha, eta = self.ordinary()
        k, base = self.scale()
        return pack(k, alpha, eta, base, bound, self.about(-8, 8), q)

    def wild(self):
        """Any positive floats, of which some runs come."""
        alpha, eta = self.pattern(), self.pattern()
        bound = self.bound()
        tau = self.pattern()
        if self.chance(0.6):
            norm = self.norm(alpha, eta, bound)
            tau = 2.0 * self.unit() * 40.0 / norm if norm < LARGEST else 1.0
        if not tau <= LARGEST:
            tau = LARGEST
        return pack(self.pattern(), alpha, eta, self.pattern(), bound, tau, self.holding(bound))


    # ---- the drift: beta × q leans the diagonal to one side
    def turned(self, x):
        return x * self.rng.choice((1.0, -1.0))

    def any_beta(self):
        """Of any size; one of twelve is no number."""
        nan = INFINITY | self.whole(1, MANTISSA)
        return self.rng.choice((
            self.pattern(), -self.pattern(), self.turned(SMALLEST), self.turned(LARGEST), self.turned(1e308),
            self.turned(self.about(-1074, -900)), self.turned(self.about(900, 1023)), self.turned(self.about(-60, 60)),
            self.turned(self.about(-8, 8)), self.turned(self.about(1000, 1023)), self.turned(1.0),
            self.rng.choice((nan, nan | SIGN, INFINITY, INFINITY | SIGN)),
        ))

    def beta(self, alpha, eta, bound):
        """A beta beside these: about as large as the diagonal, as alpha's part of it or as eta's."""
        size = self.rng.choice((self.norm(alpha, eta, bound), alpha * bound * bound, eta))
        return self.turned(size / bound * self.about(*self.rng.choice(((-1, 1), (-4, 4), (-30, 0)))))

    def drifted(self, record):
        """The record with a drift, of which most fit its other floats."""
        _, alpha, eta, _, bound, *_ = WORDS.unpack(record)
        alpha, eta = float_of(alpha), float_of(eta)
        usual = 0.0 < alpha <= LARGEST and 0.0 < eta <= LARGEST and 1 <= bound <= 200
        beta = self.beta(alpha, eta, bound) if usual and self.chance(0.8) else self.any_beta()
        return with_beta(record, beta)

    def leant(self):
        """A drift beside which alpha is small: one side's entries are below zero."""
        eta = self.about(-12, 2)
        bound = self.bound()
        beta = self.turned(eta * self.about(-2, 8))
        alpha = abs(beta) / bound * self.about(-30, 1)
        return self.timed(alpha, eta, bound, self.unit() * self.whole(1, max(4, 9000 // (2 * bound + 1))), beta)

    def falling(self):
        """The weights fall to one side, so far that the run is rebalanced."""
        bound = self.rows(4, 60)
        beta = self.turned(self.about(-8, 4))
        alpha = abs(beta) / bound * self.about(-40, 1)
        eta = abs(beta) * self.about(-700 // bound - 30, -300 // bound)
        return self.timed(alpha, eta, bound, self.whole(235, 1500), beta)

    def whole_drift(self):
        """Time × norm / 2 is a whole number of steps, or next to one, or about the cap."""
        alpha, eta = self.ordinary()
        bound = self.small_bound()
        beta = self.beta(alpha, eta, bound)
        steps = self.rng.choice((self.whole(1, 40), self.whole(1, 40), CAP + self.rng.choice((-1, -0.5, 0, 0.5, 1))))
        return self.record(alpha, eta, bound, self.near(self.time(alpha, eta, bound, steps, beta)), beta)

    def no_diagonal(self):
        """An entry that is infinite or no number, or next to it; half of the times are tiny."""
        bound = self.bound()
        end, slope = LARGEST / bound / bound, LARGEST / bound
        alpha = self.rng.choice((self.near(end), end * self.about(0, 8), end * self.about(-4, 0), self.about(-4, 4)))
        beta = self.turned(self.rng.choice((self.near(slope), slope * self.about(-2, 0), slope * self.about(0, 8),
                                            self.about(960, 1000))))
        alpha, beta = min(alpha, LARGEST), max(-LARGEST, min(LARGEST, beta))
        eta = self.rng.choice((1.0, self.about(960, 1000), two_to(1022), LARGEST))
        tau = self.about(-1074, -1000) if self.chance(0.5) else self.about(-1074, 1023)
        return self.record(alpha, eta, bound, tau, beta)

    def no_time_drift(self):
        """No time, with a diagonal of any size: there is no refusal."""
        tau = self.rng.choice((0.0, -0.0, -SMALLEST, -self.pattern()))
        return self.record(self.pattern(), self.pattern(), self.small_bound(), tau, self.turned(self.pattern()))


# of a thousand records, so many of each kind
SHARES = {
    Cases.paper: 10,
    Cases.plain: 230,
    Cases.longer: 30,
    Cases.one_step: 90,
    Cases.least_plan: 10,
    Cases.whole_plan: 40,
    Cases.full_plan: 40,
    Cases.full_wide_plan: 2,
    Cases.over_cap: 50,
    Cases.natural: 50,
    Cases.steep: 70,
    Cases.several: 50,
    Cases.leaning: 60,
    Cases.late_cap: 30,
    Cases.no_norm: 30,
    Cases.apart: 20,
    Cases.far_distance: 40,
    Cases.no_time: 28,
    Cases.bad_float: 40,
    Cases.bad_bound: 25,
    Cases.bad_holding: 25,
    Cases.wild: 30,
}
# and beside each thousand so many of the kinds with a drift of their own
DRIFTING = {
    Cases.leant: 60,
    Cases.falling: 30,
    Cases.whole_drift: 40,
    Cases.no_diagonal: 40,
    Cases.no_time_drift: 10,
}


def drawn(cases, shares, drifting):
    """A record of some kind, by the shares."""
    kinds = {**shares, **drifting}
    kind = cases.rng.choices(list(kinds), list(kinds.values()))[0]
    record = kind(cases)
    if kind in drifting:
        return record
    if cases.chance(0.25):
        return cases.drifted(record)
    return with_beta(record, cases.rng.choice((0.0, 0.0, 0.0, -0.0)))


def write(cases, shares, drifting, count):
    """Writes so many records, and one that is cut short."""
    for _ in range(count):
        sys.stdout.buffer.write(drawn(cases, shares, drifting))
    sys.stdout.buffer.write(cases.plain()[: cases.whole(1, WORDS.size - 1)])


def main():
    seed, count, *most = map(int, sys.argv[1:])
    write(Cases(seed, *most), SHARES, DRIFTING, count)


if __name__ == "__main__":
    main()
