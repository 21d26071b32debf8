"""Writes records for countrun and the oracle of the count.

    python3 cases.py SEED COUNT [MOST] > RECORDS

They are differential/vector/cases.py's: half of them of its kinds, and half of the kinds below, each of which aims at
one way a count can go. After COUNT of them comes one that is cut short. MOST is the largest bound, as there.
"""
import os
import sys

sys.path.insert(0, os.path.join(os.path.dirname(os.path.abspath(__file__)), "..", "vector"))
from cases import (  # noqa: E402
    CAP, DRIFTING, LARGEST, SHARES, SMALLEST, Cases, bits_of, float_of, pack, two_to, write)


class Counts(Cases):
    def any_bound(self):
        return self.rng.choice((1, 2, self.most)) if self.chance(0.1) else self.rows(1, 200)

    def within(self, x, n):
        """A float at most n places from a positive one, and finite."""
        return float_of(min(bits_of(LARGEST), max(1, bits_of(x) + self.whole(-n, n))))

    def shifted(self, alpha, eta, bound, tau, beta=0.0):
        """The record, perhaps in another unit of time."""
        s = self.shift(tau, alpha, eta, beta) if self.chance(0.3) else 1.0
        return self.record(alpha * s, eta * s, bound, tau / s, beta * s)

    def aimed(self, alpha, eta, bound, steps, beta=0.0):
        """A plan of so many steps, or next to it."""
        return self.shifted(alpha, eta, bound, self.within(self.time(alpha, eta, bound, steps, beta), 3), beta)

    def steps(self):
        return self.rng.choice((self.whole(1, 9), self.whole(1, 99), self.whole(1, CAP)))

    def balanced(self, bound, low, high):
        """alpha, and the eta with which both rows are equal, times 2^low to 2^high."""
        alpha = self.rng.choice((1.0, self.whole(1, 99) / 10.0, self.about(-20, 4)))
        return alpha, alpha * (2.0 * bound - 1.0) * self.about(low, high)

    # ---- the two rows
    def tie(self):
        """Both rows are equal, or some floats apart."""
        bound = self.any_bound()
        alpha, eta = self.balanced(bound, 0, 1)
        eta = self.within(alpha * (2.0 * bound - 1.0), self.rng.choice((1, 4, 2 * bound)))
        return self.aimed(alpha, eta, bound, self.whole(1, 40))

    def either_row(self):
        """One of the rows is larger by some of it, or by far."""
        bound = self.any_bound()
        alpha, eta = self.balanced(bound, *self.rng.choice(((-1, 1), (-8, 8), (-40, 40))))
        return self.shifted(alpha, eta, bound, self.time(alpha, eta, bound, self.unit() * self.steps()))

    def whole_steps(self):
        """Time × norm / 2 is a whole number, or next to one."""
        bound = self.any_bound()
        alpha, eta = self.balanced(bound, -3, 3)
        return self.aimed(alpha, eta, bound, self.steps())

    def at_cap(self):
        """11,000 steps, or next to it, or a half or a whole one off."""
        bound = self.any_bound()
        alpha, eta = self.balanced(bound, -3, 3)
        return self.aimed(alpha, eta, bound, CAP + self.rng.choice((0, 0, 0, -1, 1, -0.5, 0.5)))

    # ---- the ends of the format
    def overflow(self):
        """The end row, the other one or both are next to infinity; half of the times are tiny."""
        bound = self.any_bound()
        end = LARGEST / bound / bound
        beside = LARGEST / max(1, bound - 1) / max(1, bound - 1)
        alpha, eta = self.rng.choice((
            (self.within(end, 3), self.about(960, 975)),
            (self.within(end, 3), 1.0),
            (end + self.unit() * (beside - end), self.about(900, 1000)),
            (self.about(900, 1000), self.within(two_to(1022), 3)),
            (self.about(900, 1000), self.within(two_to(1023), 3)),
            (self.about(1000, 1010), self.about(1020, 1023)),
        ))
        tau = self.about(-1074, -1008) if self.chance(0.5) else self.about(-1074, 1023)
        return self.record(alpha, eta, bound, tau)

    def large_size(self):
        """Time × norm is next to infinity."""
        bound = self.any_bound()
        alpha, eta = self.balanced(bound, -3, 3)
        half = self.time(alpha, eta, bound, two_to(1021))
        return self.record(alpha, eta, bound, self.within(half * 2.0, 3) if half < LARGEST / 2.0 else LARGEST)

    def small_size(self):
        """Time × norm is one of the smallest floats, or rounds to zero."""
        bound = self.any_bound()
        alpha, eta = self.balanced(bound, -3, 3)
        s = self.whole(-900, -200)
        units = self.rng.choice((0.5, 0.5, 1.0, 1.5, self.unit()))
        tau = self.time(alpha, eta, bound, units / 2.0) * two_to(-1074 - s)
        return self.record(alpha * two_to(s), eta * two_to(s), bound, self.within(tau, 2))

    # ---- what comes before a plan
    def no_plan(self):
        """No time, with rows of any size."""
        tau = self.rng.choice((0.0, -0.0, -SMALLEST, -LARGEST, -self.pattern()))
        return self.record(self.pattern(), self.rng.choice((self.pattern(), LARGEST)), self.any_bound(), tau)

    def any_bits(self):
        """Any finite positive floats, or any bits for one of them."""
        floats = [self.pattern() for _ in range(5)]
        if self.chance(0.2):
            floats[self.whole(0, 4)] = self.rng.getrandbits(64)
        bound = self.any_bound()
        return pack(*floats[:4], bound, floats[4], self.holding(bound))


    # ---- the drift
    def leant_rows(self):
        """The largest row at one end, or next to it, by a drift of any size: eta may outweigh it."""
        bound = self.any_bound()
        alpha, eta = self.balanced(bound, *self.rng.choice(((-1, 1), (-8, 8), (-40, 40))))
        beta = self.turned(self.rng.choice((eta, alpha * bound)) * self.about(*self.rng.choice(((-2, 2), (-60, 8)))))
        return self.aimed(alpha, eta, bound, self.steps(), beta)

    def tied_rows(self):
        """alpha × (2 × bound - 1) + the drift is eta, or some floats beside it: one end's rows are equal."""
        bound = self.any_bound()
        alpha, eta = self.balanced(bound, 0, 4)
        beta = self.turned(self.within(eta - alpha * (2.0 * bound - 1.0), 3)) if eta > alpha * 2.0 * bound else alpha
        return self.aimed(alpha, eta, bound, self.whole(1, 40), beta)

    def at_cap_drift(self):
        bound = self.any_bound()
        alpha, eta = self.balanced(bound, -3, 3)
        steps = CAP + self.rng.choice((0, 0, 0, -1, 1, -0.5, 0.5))
        return self.aimed(alpha, eta, bound, steps, self.beta(alpha, eta, bound))


# of a thousand records, so many of each kind, beside half of what the others have
OWN = {
    Counts.tie: 120,
    Counts.either_row: 80,
    Counts.whole_steps: 90,
    Counts.at_cap: 70,
    Counts.overflow: 50,
    Counts.large_size: 20,
    Counts.small_size: 30,
    Counts.no_plan: 20,
    Counts.any_bits: 20,
}
OWN_DRIFTING = {
    Counts.leant_rows: 80,
    Counts.tied_rows: 40,
    Counts.at_cap_drift: 40,
}


def main():
    seed, count, *most = map(int, sys.argv[1:])
    shares, drifting = ({kind: share / 2 for kind, share in kinds.items()} for kinds in (SHARES, DRIFTING))
    write(Counts(seed, *most), {**shares, **OWN}, {**drifting, **OWN_DRIFTING}, count)


if __name__ == "__main__":
    main()
