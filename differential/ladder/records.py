"""Writes seeded records for ladderrun.

    python3 records.py SEED COUNT > RECORDS

A record is ladderrun's: the eleven numbers, the buffer's length and the drift, words of eight bytes, lowest
first; a third has a drift. Most desks are those of differential/quote/desks.py, with small bounds, some those of
differential/sheet/wide.py. A seed gives the same records on every machine.
"""
import sys

import ladder  # first: it says where sheet, wide and quoting are

import desks
import quoting
import wide
from listed import STEEP
from quoting import MOST_AMOUNT, MOST_LOTS

LARGEST, WORD = 2**63 - 1, 2**64 - 1


class Ladders(wide.Wide):
    # ---- numbers
    def bound(self):
        rows = self.pick(1, 1, 1, 2, 2, 2, 3, 3, 4, 5, 6, 8, self.whole(1, 12), self.whole(1, 30))
        return min(self.most, rows)

    def holding(self, desk):
        """Any: it is left aside."""
        return self.pick(0, desk.holding, desk.holding, self.whole(-MOST_AMOUNT, MOST_AMOUNT), MOST_AMOUNT + 1,
                         -MOST_AMOUNT - 1, self.whole(-LARGEST, LARGEST), LARGEST, -LARGEST - 1)

    def length(self, bound):
        """A buffer's: mostly one that has room, just so or with some to spare."""
        least = ladder.least_room(min(bound, MOST_LOTS))
        if self.chance(0.12):
            return self.pick(0, 1, least - 64, least - 1, least - 1, self.whole(0, least - 1))
        return self.pick(least, least, least + 1, self.whole(least, ladder.MOST_ROOM), ladder.MOST_ROOM - 1,
                         ladder.MOST_ROOM, ladder.MOST_ROOM + 1, self.whole(ladder.MOST_ROOM, WORD), 2**32, 2**63, WORD)

    # ---- desks
    def near_limit(self):
        """A lot of which so many are just the amount limit, or next to it; some of the bound may be beyond."""
        bound = self.pick(2, 3, self.bound() + 1)
        lot = MOST_AMOUNT // self.whole(1, bound) + self.pick(-1, 0, 0, 1, 1)
        desk = self.plain()._replace(bound=bound, lot_size=min(MOST_AMOUNT, lot),
                                     risk_aversion=self.pick(1, self.whole(1, 1000), self.amount(-9, -3)))
        return self.pick(desk, self.timed(desk, self.steps(1, self.pick(1, 30))))

    def beyond_one(self):
        """Of so many lots the last is one billionth beyond the limit: 23 and 53 divide 9 * 10^15 + 1."""
        lots = self.pick(23, 53)
        desk = self.plain()._replace(bound=lots + self.whole(-1, 3), lot_size=(MOST_AMOUNT + 1) // lots,
                                     risk_aversion=self.whole(1, 1000))
        return self.pick(desk, self.timed(desk, self.steps(1, 20)))

    def small_lot(self):
        desk = self.plain()._replace(lot_size=self.pick(1, 2, self.whole(1, 1000)), risk_aversion=self.amount(0, 6))
        return self.timed(desk, self.steps(1, 30))

    def sloping(self):
        """Prices that fall from lot to lot, around zero or the amount limit."""
        desk = self.turned(self.plain()._replace(bound=self.bound() + 1), -6, 12)
        size = self.amount(-2, self.pick(2, 3))
        mid = self.pick(size, MOST_AMOUNT - size)
        return self.timed(desk._replace(mid=mid, min_spread=self.pick(0, desk.min_spread)), self.steps(1, 30))

    def steep(self):
        """A run that rebalances, and with more time passes the cap after it."""
        return STEEP._replace(bound=self.whole(4, 12), mid=self.amount(5, 6), terminal=self.whole(100, 40000))

    def wide_cap(self):
        """The first plan is above the cap, at any bound and with lots beyond the limit."""
        desk = self.pick(self.near_limit, self.wide, self.plain)()
        return self.timed(desk._replace(holding=0), desks.CAP * (1.0 + self.unit()))

    def one_lot(self):
        """A bound of one lot, and no time left."""
        return self.no_time()._replace(bound=1)

    # ---- records
    def desk(self):
        """A desk of some kind, by the shares, with any holding."""
        desk = self.rng.choices(list(SHARES), list(SHARES.values()))[0](self)
        return desk._replace(holding=self.holding(desk))

    def record(self):
        desk = self.desk()
        if self.chance(1 / 3):
            desk = self.drifted(desk)
        return quoting.pack(desk, self.length(desk.bound))

    def brief_record(self):
        """A few lines."""
        desk = self.pick(self.one_lot, self.refused)()
        return quoting.pack(desk._replace(holding=self.holding(desk)), self.pick(0, 191, 192, WORD))


# of a thousand desks, so many of each kind
SHARES = {
    desks.drawn: 580,
    wide.drawn: 100,
    Ladders.near_limit: 100,
    Ladders.beyond_one: 10,
    Ladders.small_lot: 50,
    Ladders.sloping: 100,
    Ladders.steep: 20,
    Ladders.wide_cap: 20,
    Ladders.one_lot: 20,
}


def main():
    seed, count = map(int, sys.argv[1:])
    ladders = Ladders(seed)
    for _ in range(count):
        sys.stdout.buffer.write(ladders.record())


if __name__ == "__main__":
    main()
