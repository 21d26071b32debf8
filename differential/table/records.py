"""Writes a seeded sequence of calls for tablerun.

    python3 records.py SEED COUNT > RECORDS

A sequence is about few vectors, three to eight, which two desks ask for again and again, so that rows are reused and
replaced all the time. It is made of spells: quoting calls after a clearing, calls around numbers that were set, or with
a table of another length. The desks are those of differential/quote/desks.py, some of differential/sheet/wide.py. A
seed gives the same records on every machine.
"""
import math
import struct
import sys

import table  # first: it says where wide and quoting are

import quoting
import wide
from listed import STEEP, USUAL
from quoting import MOST_AMOUNT, MOST_TIME, RECORD, elementary
from table import ALPHA, BETA, BOUND, ETA, FILLED, LENGTH, NEXT, OFFSET, STEPS, TAU, WEIGHT  # the roles
from table import CLEAR, LEAST, LEND, PLACES, QUOTE, ROLES, ROOM, ROWS, SET

WORD = 2**64 - 1
SIGN = 2**63
FLOATS = (ALPHA, BETA, ETA, TAU)
UNIT = elementary.bits_of(1.0)
MOST = elementary.bits_of(sys.float_info.max)
INFINITE = elementary.bits_of(math.inf)
NANS = (0x7FF8 << 48, 0xFFF8 << 48, INFINITE + 1, SIGN - 1, WORD)
EDGES = (0, 1, 2, 3, 4, 5, 200, 201, 401, 403, 11000, 11001, 2**31, 2**32, 2**32 + 1, 2**32 + 4, SIGN, SIGN + 1, WORD)
EVEN = 8  # what volatilities and drifts are multiples of, so that other desks come to the same floats


def words(kind, *first):
    return RECORD.pack(*first, *[0] * (11 - len(first)), kind, 0)


def turned(desk):
    """With the holding and the drift of the other sign."""
    return desk._replace(holding=-desk.holding, drift=-desk.drift)


class Tables(wide.Wide):
    # ---- the vectors
    def bound(self):
        return self.pick(1, 1, 2, 2, 3, 4, 5, self.whole(1, 12), self.whole(1, 30))

    def usual(self):
        return self.pick(USUAL, USUAL._replace(current=0), USUAL._replace(current=999, bound=self.bound()))

    def wide_end(self):
        return self.wide()._replace(bound=self.pick(199, 200, 200))

    def steep(self):
        """A run that rebalances, and with more time passes the cap after it."""
        return STEEP._replace(bound=self.whole(6, 10), terminal=self.pick(5000, 7000, 30000, 35000))

    def fresh(self):
        """A desk whose vector is asked for, sometimes with a drift. Some have none, by the cap."""
        desk = self.rng.choices(list(SHARES), list(SHARES.values()))[0](self)
        if self.chance(0.3):
            desk = self.drifted(desk)
        even = {name: self.multiple(getattr(desk, name)) for name in ("volatility", "drift")}
        return desk._replace(**even)

    def multiple(self, count):
        """The next one toward zero, but not zero."""
        size = abs(count) - abs(count) % EVEN or abs(count)
        return size if count > 0 else -size

    def beside(self, desk):
        """One number is another, most often by a little: a vector of its own, or at times the same."""
        name = self.pick("bound", "terminal", "current", "volatility", "a", "drift", "k", "risk_aversion")
        if name == "bound":
            return desk._replace(bound=max(1, min(200, desk.bound + self.pick(-1, 1))))
        if name == "drift" and desk.drift and self.chance(0.5):
            return turned(desk)
        return desk._replace(**{name: max(1, getattr(desk, name) + self.pick(-1, 1, EVEN, 2 * EVEN))})

    def vectors(self):
        """The desks that a sequence is about."""
        desks = [self.fresh()]
        for _ in range(self.whole(2, 7)):
            desks.append(self.beside(self.pick(*desks)) if self.chance(0.4) else self.fresh())
        return desks

    # ---- the calls
    def rescaled(self, desk):
        """The same floats with another k: a power of two takes no rounding."""
        by = self.pick(2, 4, 8)
        larger = desk._replace(k=by * desk.k, risk_aversion=by * desk.risk_aversion, volatility=desk.volatility // by,
                               drift=desk.drift // by)
        exact = desk.volatility % by == desk.drift % by == 0 and max(larger.k, larger.risk_aversion) <= MOST_AMOUNT
        return larger if exact else desk

    def other_lots(self, desk):
        """The same floats with another lot size."""
        by = self.pick(2, 4, 8)
        if desk.risk_aversion % by or by * desk.lot_size > MOST_AMOUNT:
            return desk
        return desk._replace(risk_aversion=desk.risk_aversion // by, lot_size=by * desk.lot_size)

    def other_times(self, desk):
        """As much time left. Past the end any times do."""
        if desk.current >= desk.terminal:
            terminal = self.pick(1, self.whole(1, 10**6), MOST_TIME)
            return desk._replace(terminal=terminal, current=self.pick(terminal, MOST_TIME))
        by = self.whole(0, 10**6) - min(desk.current, 10**6)
        later = desk._replace(terminal=desk.terminal + by, current=max(0, desk.current + by))
        same = later.terminal - later.current == desk.terminal - desk.current and later.terminal <= MOST_TIME
        return later if same else desk

    def asked(self, desk):
        """The same vector, asked for by a desk of another market, holding or spread, and at times of another k."""
        for change, share in ((self.rescaled, 0.3), (self.other_lots, 0.2), (self.other_times, 0.3)):
            if self.chance(share):
                desk = change(desk)
        mid = self.pick(*[desk.mid] * 5, *[self.amount(2, 6)] * 3, self.amount(-9, 1), MOST_AMOUNT)
        spread = self.pick(desk.min_spread, 0, 0, self.amount(-9, 0), self.amount(-2, 2))
        return self.held(desk._replace(mid=mid, min_spread=spread))

    def faulty(self, desk):
        """Refused by 2, 1, 3 or 4, or with no call."""
        fault = self.pick(wide.Wide.limit, wide.Wide.bad_configuration, wide.Wide.bad_market, wide.Wide.bad_holding)
        return fault(self, desk)

    def no_call(self, desk):
        """32 bits do not hold the bound."""
        return desk._replace(bound=self.pick(2**32, 2**32 + desk.bound, SIGN, WORD))

    def calls(self, desks, count):
        """Quoting calls. Of some the mirrored one follows, at once or later."""
        out, later = [], []
        while len(out) < count:
            desk = self.asked(self.pick(*desks))
            if self.chance(0.06):
                desk = self.faulty(desk)
            elif self.chance(0.02):
                desk = self.over_cap()
            elif self.chance(0.01):
                desk = self.no_call(desk)
            out.append(desk)
            if self.chance(0.2):
                (out if self.chance(0.5) else later).append(turned(desk))
            if later and self.chance(0.2):
                out.append(later.pop())
        return [quoting.pack(desk, QUOTE) for desk in out + later]

    # ---- numbers to set
    def row(self):
        """The first are filled more often."""
        return self.pick(0, 0, 0, 1, 1, 2, 3)

    def high(self):
        """To be added to a number: its low 32 bits stay as they are."""
        return self.pick(2**32, 2**33, SIGN)

    def any_bits(self):
        return self.pick(*EDGES, *NANS, self.whole(0, WORD), self.whole(0, WORD))

    def weight(self):
        if self.chance(0.3):
            return self.pick(0, SIGN, UNIT + SIGN, SIGN + 1, INFINITE, INFINITE + SIGN, *NANS)
        x = self.pick(1.0, 2.0, 0.5, self.unit(), math.ldexp(1.0 + self.unit(), self.whole(-40, 40)))
        return self.pick(1, MOST, *[elementary.bits_of(x)] * 8)

    def offset(self):
        if self.chance(0.15):
            return self.pick(INFINITE, INFINITE + SIGN, *NANS)
        x = self.pick(0.0, 1.0, 4.0 * self.unit(), self.whole(1, 10**7), math.ldexp(1.0, self.whole(-1000, 1000)))
        return elementary.bits_of(float(self.pick(x, -x)))

    def some_count(self):
        """Steps that pass."""
        return self.pick(0, 11000, self.whole(0, 11000))

    def place(self, desk):
        """A place that a call of this desk may read, most often."""
        b = desk.bound
        return self.pick(b, b, b - 1, b + 1, 0, 1, 2 * b - 1, 2 * b, self.whole(0, 2 * b), self.whole(0, PLACES - 1))

    def floats(self, desk):
        """The bits that a desk's row has; none where it has no model."""
        try:
            model, _ = quoting.model_of(desk, desk.current)
        except quoting.Refused:
            return {}
        floats = struct.pack("<4d", model.alpha, model.beta, model.eta, quoting.time_left(desk))
        return dict(zip(FLOATS, struct.unpack("<4Q", floats)))

    def float_of(self, role, desks):
        """A float of some desk's row, with another sign or another bit, or any."""
        number = self.floats(self.pick(*desks)).get(role, 0)
        return self.pick(number, number, number, number ^ 1, number ^ SIGN, number ^ SIGN,
                         number ^ 1 << self.whole(0, 63), self.pick(*NANS), self.any_bits())

    # ---- sets
    def put(self, role, number, row=0, place=0):
        """A set. The words that its role does not look at are any."""
        if role < WEIGHT:
            place = self.pick(0, PLACES, self.any_bits())
        if role < STEPS:
            row = self.pick(0, ROWS, self.any_bits())
        return words(SET, role, row, place, number)

    def head(self, filled, coming):
        return [self.put(FILLED, filled), self.put(NEXT, coming)]

    def sizes(self, row, bound, length):
        return [self.put(BOUND, bound, row), self.put(LENGTH, length % 2**64, row)]

    def values(self, desks):
        """Weights, offsets and steps that pass."""
        row, desk, out = self.row(), self.pick(*desks), []
        for _ in range(self.whole(1, 6)):
            role = self.pick(WEIGHT, OFFSET, STEPS)
            number = {WEIGHT: self.weight, OFFSET: self.offset, STEPS: self.some_count}[role]
            out.append(self.put(role, number(), row, self.place(desk)))
        return out

    def keys(self, desks):
        """Floats that a row came from."""
        roles = [self.pick(*FLOATS, TAU) for _ in range(self.whole(1, 3))]
        return [self.put(role, self.float_of(role, desks), self.row()) for role in roles]

    def planted(self, desks):
        """A whole row of some desk, with steps of its own: often there is one already."""
        row, desk = self.row(), self.pick(*desks)
        numbers = {STEPS: self.whole(0, 11000), LENGTH: 2 * desk.bound + 1, BOUND: desk.bound, **self.floats(desk)}
        places = range(2 * desk.bound + 1 if desk.bound < 4 else 0)
        return [self.put(role, number, row) for role, number in numbers.items()] + [
            self.put(WEIGHT, UNIT, row, place) for place in places]

    def resized(self, desks):
        """Some desk's bound for a row, so that places past the vector's own may be read."""
        bound = self.pick(*desks).bound
        return self.sizes(self.row(), bound, 2 * bound + 1)

    def sound_head(self, desks):
        filled = self.pick(0, 1, 1, 2, 3, 4, 4)
        return self.head(filled, filled if filled < ROWS else self.whole(0, ROWS - 1))

    def odd_head(self, desks):
        """A head that passes but for one number, most often, or any."""
        filled = self.pick(0, 1, 1, 2, 4, 4)
        coming = filled if filled < ROWS else self.whole(0, ROWS - 1)
        other = self.whole(0, 4)
        return self.head(*self.pick((filled, other), (filled, other), (filled, filled), (filled, coming + self.high()),
                                    (filled + self.high(), coming), (5, coming), (self.any_bits(), self.any_bits())))

    def odd_row(self, desks):
        """Steps, or a bound and its length, that pass but for a little, most often."""
        row, bound = self.row(), self.pick(1, 2, 200, self.pick(*desks).bound)
        length, high = 2 * bound + 1, bound + self.high()
        count = self.pick(11000, 11001, 11001, self.whole(0, 11000) + self.high(), self.any_bits())
        steps = [self.put(STEPS, count, row)]
        odd = self.pick((bound, length + self.pick(-1, 1, 2)), (bound, length + self.high()), (high, length),
                        (high, 2 * high + 1), (0, 1), (0, 0), (201, 403), (self.any_bits(), self.any_bits()))
        return self.pick(steps, self.sizes(row, *odd), self.sizes(row, *odd), self.sizes(row, bound, length))

    def any_set(self, desks):
        """Any number of any role."""
        role = self.pick(*ROLES)
        number = self.float_of(role, desks) if role in FLOATS else self.any_bits()
        return [self.put(role, number, self.row(), self.whole(0, PLACES - 1))]

    def no_set(self, desks):
        """A role, row or place that there is not: those just past the last, and some with such low bits."""
        out = []
        for _ in range(self.whole(1, 5)):
            number, row, place = self.pick(WORD, 0), self.row(), self.place(self.pick(*desks))
            role, inner = self.pick(*ROLES), self.pick(WEIGHT, OFFSET)
            out.append(self.pick(words(SET, self.pick(11, role + self.high(), WORD), row, place, number),
                                 words(SET, max(role, STEPS), self.pick(4, row + self.high(), WORD), place, number),
                                 words(SET, inner, row, self.pick(401, 401, place + self.high(), WORD), number)))
        return out

    # ---- spells
    def clear(self):
        """The other words are any."""
        return RECORD.pack(*[self.pick(0, self.whole(0, WORD)) for _ in range(11)], CLEAR, 0)

    def after_clearing(self, desks):
        return [self.clear(), *self.calls(desks, self.whole(3, 45))]

    def around_sets(self, desks):
        """Few vectors, numbers that are set, and calls; most often from a cleared table."""
        some = self.rng.sample(desks, min(len(desks), self.pick(1, 2, 3, 8, 8)))
        kind, out = self.rng.choices(list(SETS), list(SETS.values()))[0], []
        for _ in range(self.whole(1, 4)):
            if self.chance(0.5):
                out += [self.clear(), *self.calls(some, self.whole(1, 3) * len(some))]
            out += [*kind(self, some), *self.calls(some, self.whole(1, 6))]
        return out

    def uncovered(self, desks):
        """Numbers past a vector's length, set before it is stored in row 0 and looked at with a larger bound."""
        desk = self.held(self.pick(*desks))._replace(mid=10**14)
        wider = desk._replace(bound=min(200, desk.bound + self.whole(1, 4)))
        past = range(2 * desk.bound + 1, 2 * wider.bound + 1)
        before = [self.put(*self.pick((WEIGHT, UNIT), (OFFSET, self.offset())), 0, place) for place in past]
        after = [self.put(WEIGHT, UNIT, 0, place) for place in past] if self.chance(0.6) else []
        calls = [quoting.pack(x, QUOTE) for x in (desk, *(self.held(wider) for _ in range(4)))]
        size = self.sizes(0, wider.bound, 2 * wider.bound + 1)
        return [self.clear(), *before, calls[0], *size, *after, *calls[1:]]

    def lent(self, desks):
        """Lengths around the least and the most, with calls, sets and clearings."""
        out = []
        for _ in range(self.whole(1, 3)):
            length = self.pick(0, LEAST - 1, LEAST - 1, LEAST, LEAST + 1, ROOM - 1, ROOM, ROOM + 1, self.whole(0, ROOM),
                               2**32, 2**32 + LEAST - 1, WORD)
            out.append(words(LEND, length))
            for _ in range(self.whole(1, 4)):
                out += self.pick(self.calls(desks, 1), self.calls(desks, 2), [self.clear()], self.odd_head(desks),
                                 self.any_set(desks), [quoting.pack(self.no_call(self.pick(*desks)), QUOTE)])
        out.append(words(LEND, self.pick(LEAST, LEAST, LEAST + 1, ROOM)))
        return out + ([self.clear()] if self.chance(0.7) else self.calls(desks, 3))

    def idle(self, desks):
        """Kinds that are none."""
        kind = self.pick(4, 5, 256, 2**32, 2**32 + 1, SIGN + 2, WORD, self.whole(4, WORD))
        return [quoting.pack(self.asked(self.pick(*desks)), kind), *self.calls(desks, 2)]

    def sequence(self, count):
        """So many records, of which the first most often clears."""
        desks, out = self.vectors(), []
        if self.chance(0.15):
            out += self.pick(self.head(0, 0), [], self.sound_head(desks)) + self.calls(desks, 4)
        while len(out) < count:
            out += self.rng.choices(list(SPELLS), list(SPELLS.values()))[0](self, desks)
        return out[:count]


# of a thousand, so many of each kind: desks, sets and spells
SHARES = {
    Tables.usual: 100,
    Tables.some_steps: 280,
    Tables.one_step: 120,
    Tables.no_time: 170,
    Tables.wide_run: 60,
    Tables.wide_end: 40,
    Tables.paper: 30,
    Tables.far: 40,
    Tables.more_steps: 20,
    Tables.not_in_order: 20,
    Tables.leaning: 20,
    Tables.steep: 50,
    Tables.over_cap: 40,
    Tables.full_plan: 10,
}
SETS = {
    Tables.values: 300,
    Tables.keys: 150,
    Tables.planted: 130,
    Tables.resized: 40,
    Tables.sound_head: 60,
    Tables.odd_head: 90,
    Tables.odd_row: 140,
    Tables.any_set: 30,
    Tables.no_set: 60,
}
SPELLS = {
    Tables.after_clearing: 340,
    Tables.around_sets: 500,
    Tables.uncovered: 60,
    Tables.lent: 70,
    Tables.idle: 30,
}


def main():
    seed, count = map(int, sys.argv[1:])
    sys.stdout.buffer.write(b"".join(Tables(seed).sequence(count)))


if __name__ == "__main__":
    main()
