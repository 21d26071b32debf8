"""Desks for the sheets: those of differential/quote/desks.py, and more with wide bounds and long runs."""
import desks
from desks import CAP


class Wide(desks.Desks):
    def wide(self):
        """An ordinary desk with a bound from 13 to 200."""
        return self.plain()._replace(bound=self.pick(self.whole(13, 60), self.whole(61, 200), 200))

    def wide_run(self):
        """A wide bound and some steps."""
        return self.held(self.timed(self.wide(), self.steps(1, self.pick(1, 10, 100))))

    def hundreds(self):
        return self.held(self.timed(self.pick(self.plain(), self.wide()), self.steps(100, 1000)))

    def thousands(self):
        return self.held(self.timed(self.pick(self.plain(), self.wide()), self.steps(1000, CAP)))

    def cap_edge(self):
        """From 10,999 to 11,001 steps, at any bound."""
        steps = self.pick(CAP, CAP - 0.5, CAP + 0.5, CAP - 1, CAP + 1)
        return self.held(self.timed(self.pick(self.plain(), self.wide()), steps))

    def stiff(self):
        """Weights that fall far: rebalancings, and after them more steps, or too many."""
        desk = self.turned(self.plain()._replace(bound=self.whole(40, 200)), -10, 2)
        return self.held(self.timed(desk, self.whole(235, self.pick(300, 500, 2000))))


# of a thousand desks, so many of each kind; the others are drawn by desks.py's shares
SHARES = {
    Wide.wide_run: 140,
    Wide.hundreds: 70,
    Wide.thousands: 40,
    Wide.cap_edge: 20,
    Wide.stiff: 40,
    Wide.late_cap: 10,
    desks.drawn: 680,
}


def drawn(wide):
    """A desk of some kind, by the shares."""
    return wide.rng.choices(list(SHARES), list(SHARES.values()))[0](wide)
