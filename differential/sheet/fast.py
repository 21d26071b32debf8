"""A plan's steps by steps.c, in place of quoting.advance, and held to it.

`quoting.advance = Advance(LIBRARY)` makes long runs quick. Of every plan that it takes, the first steps
are taken by quoting.advance as well, and the weights have to agree bit for bit, or those of one of so
many plans, where a number is given; `hold_all` asks the same of seeded plans, most of which no desk
leads to. `plans` counts the plans that were taken, and `differing` those of both sorts that do not agree.
"""
import array
import ctypes
import math
import random
import sys

import quoting
from quoting import Refused, elementary, need

MOST_ROWS = 2 * quoting.MOST_LOTS + 1
HELD = 150  # rows times steps of a plan that the Python takes as well; one step at least
FLOOR = 1e-200
NUMERICAL = "R 11"


def end(advance, plan):
    """How a plan ends, the steps that remain or a refusal, and the bits of its weights."""
    try:
        weights, remain = advance(*plan)
    except Refused as refusal:
        return "R %d" % refusal.number, None
    return remain, array.array("d", weights).tobytes()


class Advance:
    def __init__(self, library, every=1):
        self.steps = ctypes.CDLL(library).advance
        self.every = every
        self.python = quoting.advance
        self.plans = self.differing = 0

    def fast(self, weights, scaled, eta_dt, left, right, steps):
        assert len(weights) <= MOST_ROWS
        row = ctypes.c_double * len(weights)
        ours = row(*weights)
        remain = self.steps(len(weights), ours, row(*scaled), ctypes.c_double(eta_dt), row(*left), row(*right), steps)
        need(remain >= 0, 11)
        return ours[:], remain

    def hold(self, plan, told=None):
        """Both on one plan: how it ends, which has to be as told, where that is known."""
        ours, theirs = end(self.fast, plan), end(self.python, plan)
        if ours != theirs or told not in (None, theirs[0]):
            self.differing += 1
            if self.differing <= 5:
                weights = "agree" if ours[1] == theirs[1] else "differ"
                print("a plan of %d rows and %d steps: steps.c ends with %s, quoting.py with %s, told %s; weights %s"
                      % (len(plan[0]), plan[-1], ours[0], theirs[0], told, weights))
        return theirs[0]

    def hold_all(self, seed):
        """Seeded plans of every kind: how many there are, and how many end in 11."""
        plans = Plans(seed)
        ends = [self.hold(*kind(plans)) for kind, times in KINDS.items() for _ in range(times)]
        return len(ends), ends.count(NUMERICAL)

    def __call__(self, *plan):
        self.plans += 1
        *state, steps = plan
        if self.plans % self.every == 0:
            self.hold((*state, min(steps, max(1, HELD // len(state[0])))))
        return self.fast(*plan)


class Plans:
    """Seeded plans. Each kind aims at one way that steps end, and tells it where it is sure."""

    def __init__(self, seed):
        self.rng = random.Random(seed)

    def size(self, low, high):
        """From 2^low to 2^high."""
        return math.ldexp(1.0 + self.rng.random(), self.rng.randint(low, high - 1))

    def sizes(self, rows, low, high):
        return [self.size(low, high) for _ in range(rows)]

    def rows(self):
        return 2 * self.rng.randint(1, self.rng.choice((4, 12, 60, 200))) + 1

    def level(self, weights, scaled, eta_dt, steps=1):
        """With no offsets."""
        return (weights, scaled, eta_dt, *quoting.factors([0.0] * len(weights)), steps)

    def planned(self):
        """Weights and offsets of all sizes, and a time step as module 3 plans it."""
        rows, widest = self.rows(), self.rng.choice((0.0, 1.0, 20.0, 300.0))
        offsets = [0.0]
        while len(offsets) < rows:
            offsets.append(offsets[-1] + widest * (2.0 * self.rng.random() - 1.0))
        left, right = quoting.factors(offsets)
        alpha, eta = self.size(-20, 10), self.size(-20, 10)
        beta = self.rng.choice((0.0, alpha, -alpha)) * rows * self.size(-4, 4)
        diagonal = [alpha * q * q - beta * q + 2.0 * eta for q in range(-(rows // 2), rows // 2 + 1)]
        norm = max(abs(d) + eta * (lf + rf) for d, lf, rf in zip(diagonal, left, right))
        dt = 2.0 / norm * self.rng.choice((1.0, self.rng.random()))
        weights = self.sizes(rows, *self.rng.choice(((-1, 0), (-30, 0), (-664, 0))))
        steps = self.rng.randint(1, self.rng.choice((1, 4, 4 + 2000 // rows)))
        return (weights, [d * dt for d in diagonal], eta * dt, left, right, steps), None

    def longest(self):
        """As many steps as there are."""
        rows, eta_dt = 2 * self.rng.randint(1, 3) + 1, self.size(-4, -2)
        scaled = [2.0 * eta_dt + x for x in self.sizes(rows, -20, -2)]
        return self.level([1.0] * rows, scaled, eta_dt, quoting.STEPS), None

    def unplanned(self):
        """Time steps of all sizes: sums that are not positive, and series that do not end."""
        rows = self.rows()
        high = self.rng.choice((0, 2, 4, 6))
        return self.level(self.sizes(rows, -60, 0), self.sizes(rows, -4, high), self.size(-6, high)), None

    def last_term(self):
        """Sums near e^38.7, which end with the hundredth term or next to it, and so are refused or not."""
        rows = self.rows()
        return self.level([1.0] * rows, [-37.0 - 3.0 * self.rng.random()] * rows, 0.0), None

    def no_convergence(self):
        """Terms of which the hundredth is above 10^50: 128^100 / 100!."""
        rows = self.rows()
        return self.level([1.0] * rows, self.sizes(rows, 7, 8), self.size(-10, 0)), NUMERICAL

    def not_finite(self):
        """A second term that is infinite."""
        rows = self.rows()
        return self.level([1.0] * rows, self.sizes(rows, 600, 1000), self.size(-10, 0)), NUMERICAL

    def sum_not_finite(self):
        """Finite terms, infinite sums: finiteness is tested before convergence."""
        rows = self.rows()
        halves = [0.5] * rows
        return ([sys.float_info.max] * rows, [0.0] * rows, self.size(-3, 0), halves, halves, 1), NUMERICAL

    def not_positive(self):
        """A weight of 0.0 that nothing feeds."""
        rows = self.rows()
        alone = [0.0] * rows
        return (self.sizes(rows - 1, -9, 0) + [0.0], self.sizes(rows, -9, 0), 0.5, alone, alone, 1), NUMERICAL

    def falling(self):
        """A weight that falls below 1e-200 after some steps, or not."""
        rows, steps = self.rows(), self.rng.randint(1, 20)
        weights = self.sizes(rows - 1, -9, 0) + [self.size(-664, -640)]
        return self.level(weights, self.sizes(rows - 1, -9, -1) + [self.size(0, 1)], self.size(-800, -700), steps), None

    def at_floor(self):
        """No change, and a smallest weight of 1e-200 or next to it: strictly below it, the first step is the last."""
        rows, steps = self.rows(), self.rng.randint(2, 5)
        smallest = elementary.float_of(elementary.bits_of(FLOOR) + self.rng.randint(-1, 1))
        plan = self.level([1.0] * (rows - 1) + [smallest], [0.0] * rows, 0.0, steps)
        return plan, steps - 1 if smallest < FLOOR else 0


# so many plans of each kind
KINDS = {
    Plans.planned: 1000,
    Plans.longest: 3,
    Plans.unplanned: 300,
    Plans.last_term: 50,
    Plans.no_convergence: 50,
    Plans.not_finite: 50,
    Plans.sum_not_finite: 50,
    Plans.not_positive: 50,
    Plans.falling: 200,
    Plans.at_floor: 50,
}
