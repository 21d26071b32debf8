"""Writes seeded records for saverun.

    python3 records.py SEED COUNT > RECORDS

A record is saverun's: the eleven numbers and the buffer's length, words of eight bytes, lowest first.
A seed gives the same records on every machine.
"""
import random
import sys

import saving  # first: it says where sheet and quoting are

import quoting
from quoting import MOST_AMOUNT, MOST_TIME, STORED, Desk
from sheet import MOST_BOUND, groups

LIMITS = Desk(*[MOST_AMOUNT] * 11)._replace(bound=MOST_BOUND, terminal=MOST_TIME, current=MOST_TIME)
WORD = 2**64 - 1


class Records:
    def __init__(self, seed, most=WORD):
        """A number that is beyond its limit is no more than most."""
        self.rng = random.Random(seed)
        self.most = most

    # ---- numbers
    def between(self, low, high):
        """At an end, next to it, or anywhere."""
        near = min(high, low + 1), max(low, high - 1)
        return self.rng.choice((low, high, *near, *(self.rng.randint(low, high) for _ in range(6))))

    def stored(self, limit, count=None):
        """Up to a limit: of so many groups, or as many as the limit has; if no count is given, all alike."""
        most = len(groups(limit))
        count = min(most, count or self.rng.randint(1, most))
        return self.between(128 ** (count - 1) if count > 1 else 0, min(limit, 128**count - 1))

    def holding(self, count):
        number = self.stored(2 * MOST_AMOUNT, count)
        return number // 2 if number % 2 == 0 else -(number + 1) // 2

    def refused(self, name):
        """A number that is refused by 2."""
        if name not in quoting.SIGNED:
            return self.between(getattr(LIMITS, name) + 1, self.most)
        size = self.between(MOST_AMOUNT + 1, min(self.most, 2**63 - 1))
        if name == "holding":
            return self.rng.choice((size, -size, -size - 1))
        return self.rng.choice((size, size, -size, -size - 1, -1, -self.stored(MOST_AMOUNT) - 1))

    def length(self):
        """A buffer's, mostly one that has room."""
        if self.rng.random() < 0.15:
            return self.between(0, saving.LEAST_ROOM - 1)
        if self.rng.random() < 0.1:
            return self.between(saving.MOST_ROOM + 1, self.rng.choice((256, 2**32 + 100, WORD)))
        return self.between(saving.LEAST_ROOM, saving.MOST_ROOM)

    # ---- records
    def good(self):
        """Any numbers within their limits, or all of one count of groups."""
        count = self.rng.choice((None, None, None, self.rng.randint(1, 8)))
        return Desk(*(self.stored(limit, count) for limit in LIMITS[:len(STORED)]))._replace(holding=self.holding(count))

    def bad(self):
        """One, two or three numbers that are refused."""
        names = self.rng.sample(STORED, self.rng.choice((1, 1, 1, 2, 3)))
        return self.good()._replace(**{name: self.refused(name) for name in names})

    def words(self):
        """Any words."""
        return Desk(*(self.rng.getrandbits(self.rng.randint(1, 64)) for _ in STORED))

    def desk(self):
        return self.rng.choices((Records.good, Records.bad, Records.words), (70, 25, 5))[0](self)

    def record(self):
        return saving.pack(self.desk(), self.length())


def main():
    seed, count = map(int, sys.argv[1:])
    records = Records(seed)
    for _ in range(count):
        sys.stdout.buffer.write(records.record())


if __name__ == "__main__":
    main()
