"""Writes desks for deskrun and the oracle.

    python3 desks.py SEED COUNT [MOST] > DESKS

A record is deskrun's: thirteen words of eight bytes, lowest first. After COUNT of them comes one that
is cut short. MOST, if it is given, is the largest bound of a desk that is not refused for it, and
then no run has many steps. A seed gives the same desks on every machine: no function of the
platform's C library takes part but the square root, which IEEE 754 fixes. Each kind below aims at
one way a call can go; most desks take few steps. A third of the desks gets a drift.
"""
import math
import random
import sys

import quoting
from quoting import (
    BILLION, CLOSED_FORM, CONFIGURATION, EXACT, MODEL, MOST_AMOUNT, MOST_TIME, STORED, WRAPPER, Desk)

ONE = BILLION
YEAR = 31536000.0
CAP = 11000
WORD = 2**64
AMOUNTS = [name for name in quoting.SIGNED if name in quoting.STORED]
POSITIVE = ("risk_aversion", "k", "a", "lot_size")


class Desks:
    def __init__(self, seed, most=None):
        self.rng = random.Random(seed)
        self.most = most or 200
        self.brief = most is not None

    # ---- numbers
    def whole(self, low, high):
        return self.rng.randint(low, high)

    def unit(self):
        return self.rng.random()

    def pick(self, *choices):
        return self.rng.choice(choices)

    def chance(self, share):
        return self.rng.random() < share

    def amount(self, low, high):
        """From 10^low to 10^high units, all sizes alike: often of few digits, as one is typed."""
        e = self.whole(low + 9, high + 8)
        digits = self.pick(0, 1, 1, 2, 3, 9)
        step = 10 ** max(0, e - digits)
        return self.whole(10**e // step, 10 ** (e + 1) // step - 1) * step

    def time(self):
        return self.pick(0, 0, self.whole(0, 10**6), self.whole(0, 10**10))

    def bound(self):
        rows = self.pick(1, 1, 2, 2, 3, 4, 5, 6, 8, 10, 12, 20, 30, self.whole(1, 60))
        return min(self.most, rows)

    def steps(self, low, high):
        """A number of steps, few where few are wanted."""
        return min(high, 40) * self.unit() if self.brief else self.whole(low, high) - self.unit()

    def entry(self, desk):
        """One that quotes; with a drift, of which the closed form has no quotes, one that does not as well."""
        if desk.drift:
            return self.pick(*[EXACT] * 6, WRAPPER, WRAPPER, CLOSED_FORM, self.pick(CONFIGURATION, MODEL))
        return self.pick(EXACT, EXACT, EXACT, EXACT, WRAPPER, WRAPPER, CLOSED_FORM, CLOSED_FORM, CLOSED_FORM)

    # ---- desks
    def plain(self):
        """An ordinary desk, with no time left."""
        lot = self.pick(ONE, ONE, self.amount(-3, 2))
        gamma = self.amount(-4, 1)
        bound = self.bound()
        t = self.whole(1, 10**9)
        return Desk(
            mid=self.amount(2, 6),
            holding=0,
            volatility=self.amount(0, 5),
            risk_aversion=max(1, min(MOST_AMOUNT, gamma * ONE // lot)),
            k=self.amount(-2, 2),
            a=self.amount(-2, 2),
            bound=bound,
            lot_size=lot,
            terminal=t,
            current=t,
            min_spread=self.pick(0, 0, 0, self.amount(-9, -2), self.amount(-2, 2)),
        )

    def held(self, desk):
        """With a holding of whole lots."""
        q = self.pick(0, desk.bound, -desk.bound, self.whole(-desk.bound, desk.bound))
        q = max(-(MOST_AMOUNT // desk.lot_size), min(MOST_AMOUNT // desk.lot_size, q))
        return desk._replace(holding=q * desk.lot_size)

    def norm(self, desk):
        model, _ = quoting.model_of(desk)

        def row(q, factors):
            return (model.alpha * q + abs(model.beta)) * q + (2.0 + factors) * model.eta

        return max(row(model.bound, 1.0), row(model.bound - 1, 2.0))

    def timed(self, desk, steps):
        """With the time that so many steps take."""
        tau = min(float(MOST_TIME // 2), 2000.0 * steps / self.norm(desk))
        current = self.time()
        return desk._replace(terminal=current + max(1, int(tau)), current=current)

    def stirred(self, desk, alpha):
        """With the volatility that makes such an alpha, or the nearest that there is."""
        model, _ = quoting.model_of(desk)
        sigma = math.sqrt(2.0 * YEAR * alpha / (model.k * model.gamma))
        return desk._replace(volatility=max(1, min(MOST_AMOUNT, int(min(sigma, 1e7) * 1e9))))

    def turned(self, desk, low, high):
        """With an alpha from 2^low to 2^high times eta."""
        model, _ = quoting.model_of(desk)
        return self.stirred(desk, (1.0 + self.unit()) * 2.0 ** self.whole(low, high - 1) * model.eta)

    def some_steps(self):
        return self.held(self.timed(self.plain(), self.steps(1, self.pick(4, 10, 30, 40))))

    def more_steps(self):
        return self.held(self.timed(self.plain(), self.steps(40, 400)))

    def one_step(self):
        return self.held(self.timed(self.plain(), self.unit()))

    def no_time(self):
        """At or past the end."""
        desk = self.held(self.plain())
        return desk._replace(current=self.pick(desk.terminal, desk.terminal + 1, desk.terminal + self.time(), MOST_TIME))

    def paper(self):
        """The 2013 paper's desk and glft.rs's own example, at any time, bound and holding."""
        desk = Desk(1000 * ONE, 0, self.pick(1684700000000, 1684707692363), ONE // 100, 3 * ONE // 10, 9 * ONE // 10,
                    min(self.most, self.pick(30, 30, 5, 12)), ONE, 600000, 0, 0)
        return self.held(desk._replace(current=600000 - self.pick(1000, 10**4, 3 * 10**4, 10**5 if not self.brief else 10)))

    def document(self):
        """Document 01's default, with one of its changes."""
        desk = Desk(100 * ONE, 0, ONE, ONE, ONE, ONE, 1, ONE, 1000, 1000, 0)
        changes = (
            {}, {"holding": ONE}, {"holding": -ONE}, {"holding": 3 * ONE // 2}, {"holding": 2 * ONE},
            {"min_spread": 2 * ONE}, {"min_spread": -1}, {"bound": 0}, {"bound": 200}, {"bound": 201},
            {"bound": 0, "mid": 0}, {"mid": 0}, {"mid": ONE // 2}, {"terminal": 0}, {"risk_aversion": 1, "k": 1},
            {"mid": MOST_AMOUNT}, {"mid": MOST_AMOUNT + 1},
        )
        return desk._replace(**self.rng.choice(changes))

    def widened(self):
        """A min spread about as large as the spread, at the end or before it."""
        desk = self.plain() if self.chance(0.6) else self.timed(self.plain(), self.steps(1, 10))
        model, _ = quoting.model_of(desk)
        spread = 2 * quoting.billionths(model.base)
        least = self.pick(spread + self.whole(-3, 3), spread + self.whole(-3, 3), spread * self.whole(1, 9),
                          spread + self.amount(-9, 0))
        return self.held(desk._replace(min_spread=max(0, min(MOST_AMOUNT, least))))

    def outward(self):
        """A base distance that is a whole number of billionths, or the next float above or below one."""
        lot = self.pick(2490178505363150, 2490178505363152, 2490178505363153)
        return self.held(self.plain()._replace(risk_aversion=1000, k=ONE, lot_size=lot))

    def halfway(self):
        """A base distance halfway between two billionths; the even one is above, or below."""
        k, lot = self.pick((112, 1102600000), (115, 1088200000))
        desk = Desk(MOST_AMOUNT, 0, self.amount(0, 5), 5, k, self.amount(-2, 2), 1, lot, 1000, 1000, 0)
        side = self.pick(-1, 1)
        return desk._replace(holding=side * lot, mid=MOST_AMOUNT if side < 0 else self.amount(0, 5))

    def far(self):
        """So small a k that distances are above 1,000; the largest mids."""
        desk = self.plain()._replace(k=self.amount(-9, -3), mid=self.pick(self.amount(4, 6), MOST_AMOUNT // 2))
        desk = desk._replace(risk_aversion=max(1, min(desk.risk_aversion, self.amount(-9, -2))))
        return self.held(self.timed(desk, self.steps(1, 20)) if self.chance(0.6) else desk)

    # ---- refusals 13 and 14
    def beyond(self):
        """A mid about as large as the amount limit, or a distance beyond it."""
        if self.chance(0.3):
            return self.held(self.plain()._replace(k=self.whole(1, 200), risk_aversion=self.whole(1, 200)))
        desk = self.held(self.plain())
        model, _ = quoting.model_of(desk)
        edge = MOST_AMOUNT - quoting.billionths(model.base)
        return desk._replace(mid=self.pick(MOST_AMOUNT, edge + self.whole(-3, 3)),
                             min_spread=self.pick(0, desk.min_spread, MOST_AMOUNT))

    def not_positive(self):
        """A mid about as large as the distance."""
        desk = self.held(self.plain())
        model, _ = quoting.model_of(desk)
        count = quoting.billionths(model.base)
        mid = self.pick(count + self.whole(-2, 2), count + self.whole(-2, 2), self.whole(1, count + 1))
        return desk._replace(mid=max(1, mid))

    def not_positive_ask(self):
        """So large a holding that the ask is far below the mid."""
        desk = self.turned(self.plain()._replace(bound=self.bound() + 1, mid=self.amount(-3, 2)), -6, 12)
        return self.timed(desk, self.steps(1, 30))._replace(holding=desk.lot_size * self.pick(desk.bound, desk.bound - 1))

    def few_billionths(self):
        """A base distance of few billionths, or of less than one."""
        lot = self.amount(3, 6)
        desk = self.plain()._replace(lot_size=lot, risk_aversion=self.amount(1, 6), k=self.amount(0, 6))
        return self.held(desk._replace(min_spread=self.pick(0, 0, self.whole(0, 4))))

    def not_in_order(self):
        """Weights of 1 but for their last digits, which over so small a k outweigh the base distance."""
        lot = self.amount(5, 6)
        desk = self.plain()._replace(lot_size=lot, risk_aversion=self.amount(6, 7) // 2, k=self.pick(1, 2, 2),
                                     a=self.amount(-3, 0), bound=min(self.most, self.whole(4, 12)))
        desk = self.stirred(desk, (0.02 + 0.15 * self.unit()) * 2.0**-53)  # over one second
        q = self.whole(1, min(desk.bound, MOST_AMOUNT // lot)) * self.pick(-1, 1)
        return desk._replace(holding=q * lot, terminal=1000, current=0, min_spread=self.pick(0, 0, 0, 1))

    # ---- the cap
    def over_cap(self):
        return self.held(self.timed(self.plain(), CAP * self.pick(1.0 + self.unit(), 1.0 + self.whole(1, 10**6))))

    def full_plan(self):
        """11,000 steps, or next to it."""
        desk = self.plain()._replace(bound=1)
        steps = self.pick(CAP, CAP - 0.5, CAP + 0.5, CAP - 1, CAP + 1)
        return self.held(self.timed(desk, CAP + self.unit() * 10.0 if self.brief else steps))

    # ---- rebalancing
    def natural(self):
        """A wide bound, over which the weights fall by themselves."""
        if self.brief:
            return self.leaning()
        desk = self.turned(self.plain()._replace(bound=self.whole(60, 200)), -4, 3)
        return self.held(self.timed(desk, self.whole(235, 700)))

    def leaning(self):
        """An eta so far below alpha that over few rows the weights fall far."""
        desk = self.plain()._replace(
            mid=self.whole(10**15, 8 * 10**15),
            risk_aversion=self.amount(5, 6),
            k=self.amount(-4, -2),
            a=self.amount(-9, -8),
            bound=min(self.most, self.whole(8, 12)),
            lot_size=self.amount(4, 5),
        )
        desk = self.stirred(desk, self.amount(1, 4) / 1e9)
        return self.held(self.timed(desk, self.whole(240, 500)))

    def late_cap(self):
        """A first plan close below the cap, and after the rebalancing one above what is left."""
        if self.brief:
            return self.over_cap()
        desk = self.turned(self.plain()._replace(bound=self.whole(60, 120)), -4, 1)
        return self.held(self.timed(desk, self.whole(8000, CAP)))

    # ---- refusals from the input
    def any_amount(self):
        return self.rng.choice((0, 1, -1, MOST_AMOUNT, -MOST_AMOUNT, MOST_AMOUNT + 1, -MOST_AMOUNT - 1, 2**63 - 1,
                                -(2**63), 2**53 + 1, self.amount(-9, 6), -self.amount(-9, 6)))

    def any_time(self):
        return self.rng.choice((0, 1, MOST_TIME, MOST_TIME + 1, 2**63, WORD - 1))

    def limit(self, desk):
        """One number at its limit or beyond."""
        if self.chance(0.7):
            name = self.rng.choice(AMOUNTS)
            size = self.pick(MOST_AMOUNT, MOST_AMOUNT + 1, MOST_AMOUNT + 1, 2**63 - 1)
            return desk._replace(**{name: self.pick(size, -size, -(2**63))})
        if self.chance(0.8):
            name = self.pick("terminal", "current")
            return desk._replace(**{name: self.pick(MOST_TIME, MOST_TIME + 1, MOST_TIME + 1, WORD - 1)})
        return desk._replace(bound=self.pick(2**32 - 1, 2**32, 2**32 + 1, WORD - 1))

    def bad_configuration(self, desk):
        if self.chance(0.5):
            return desk._replace(**{self.rng.choice(POSITIVE): self.pick(0, 0, -1, -ONE, -MOST_AMOUNT)})
        name, bad = self.pick(("bound", 0), ("bound", self.pick(201, 202, 400, 2**32 - 1)), ("terminal", 0),
                              ("min_spread", self.pick(-1, -ONE)))
        return desk._replace(**{name: bad})

    def bad_market(self, desk):
        return desk._replace(**{self.pick("mid", "volatility"): self.pick(0, 0, -1, -ONE, -MOST_AMOUNT)})

    def bad_holding(self, desk):
        lot = max(2, min(desk.lot_size, MOST_AMOUNT // 1000))
        q = self.whole(-desk.bound, desk.bound)
        off = self.pick(1, -1, lot // 2, lot - 1, 1 - lot)
        over = self.pick(1, -1) * (desk.bound + self.pick(1, 1, 2, self.whole(1, 300)))
        return desk._replace(lot_size=lot, holding=self.pick(q * lot + off, over * lot, over * lot + off))

    def refused(self):
        """One, two or three faults: the first in the paper's order is the answer."""
        desk = self.held(self.timed(self.plain(), self.steps(1, 4)))
        faults = [Desks.limit, Desks.bad_configuration, Desks.bad_market, Desks.bad_holding]
        for fault in self.rng.sample(faults, self.pick(1, 1, 1, 2, 3)):
            desk = fault(self, desk)
        return desk

    def wild(self):
        """Any amounts."""
        desk = Desk(*(self.amount(-9, 6) for _ in STORED))
        desk = desk._replace(bound=self.bound(), holding=0, terminal=1, current=0, min_spread=self.pick(0, desk.min_spread))
        return self.held(self.timed(desk, self.steps(1, 60)))

    def corner(self):
        """The largest and the smallest amounts that pass."""
        ends = {name: self.pick(1, 1, MOST_AMOUNT, MOST_AMOUNT, self.amount(-9, 6)) for name in AMOUNTS}
        desk = self.plain()._replace(**dict(ends, holding=0, min_spread=self.pick(0, ends["min_spread"])))
        if self.chance(0.2):
            return self.held(desk._replace(terminal=MOST_TIME, current=self.pick(0, MOST_TIME - 1)))
        return self.held(self.timed(desk, self.steps(1, 300)))

    def any_words(self):
        """Numbers from a list of edges, each field apart."""
        numbers = {name: self.any_amount() for name in AMOUNTS if self.chance(0.3)}
        times = {name: self.any_time() for name in ("terminal", "current") if self.chance(0.3)}
        return self.held(self.plain())._replace(**numbers, **times)


    # ---- the drift
    def drift(self, desk):
        """A drift of any size, or about as large as the diagonal, as alpha's part of it or as eta's."""
        sign = self.pick(1, -1)
        try:
            model, _ = quoting.model_of(desk._replace(drift=0))
        except quoting.Refused:
            model = None
        if model is None or self.chance(0.4):
            return sign * self.pick(1, self.amount(-9, 6), self.amount(-9, 6), self.amount(0, 6), MOST_AMOUNT)
        size = self.pick(model.alpha * model.bound, model.eta / model.bound, model.eta)
        beta = size * (1.0 + self.unit()) * 2.0 ** self.pick(self.whole(-1, 1), self.whole(-20, 6))
        return sign * max(1, int(min(MOST_AMOUNT, beta / model.k * YEAR * BILLION)))

    def drifted(self, desk):
        """The desk with a drift, most often in a time of about as many steps; a few drifts are beyond the limit."""
        if self.chance(0.04):
            return desk._replace(drift=self.pick(MOST_AMOUNT + 1, -MOST_AMOUNT - 1, 2**63 - 1, -(2**63)))
        leant = desk._replace(drift=self.drift(desk))
        left = desk.terminal - desk.current
        if not 0 < left < MOST_TIME or self.chance(0.3):
            return leant
        try:
            left = max(1, int(left * (self.norm(desk) / self.norm(leant))))
        except quoting.Refused:
            return leant
        return leant._replace(terminal=leant.current + left)


# of a thousand desks, so many of each kind
SHARES = {
    Desks.document: 20,
    Desks.paper: 20,
    Desks.some_steps: 250,
    Desks.more_steps: 30,
    Desks.one_step: 80,
    Desks.no_time: 40,
    Desks.widened: 100,
    Desks.outward: 6,
    Desks.halfway: 4,
    Desks.far: 60,
    Desks.beyond: 40,
    Desks.not_positive: 40,
    Desks.not_positive_ask: 30,
    Desks.few_billionths: 20,
    Desks.not_in_order: 20,
    Desks.over_cap: 40,
    Desks.full_plan: 4,
    Desks.natural: 12,
    Desks.leaning: 14,
    Desks.late_cap: 2,
    Desks.refused: 100,
    Desks.wild: 30,
    Desks.corner: 20,
    Desks.any_words: 18,
}


def drawn(desks):
    """A desk of some kind, by the shares."""
    return desks.rng.choices(list(SHARES), list(SHARES.values()))[0](desks)


def main():
    seed, count, *most = map(int, sys.argv[1:])
    desks = Desks(seed, *most)
    for _ in range(count):
        desk = drawn(desks)
        if desks.chance(1 / 3):
            desk = desks.drifted(desk)
        sys.stdout.buffer.write(quoting.pack(desk, desks.entry(desk)))
    sys.stdout.buffer.write(quoting.pack(desks.plain(), EXACT)[: desks.whole(1, quoting.RECORD.size - 1)])


if __name__ == "__main__":
    main()
