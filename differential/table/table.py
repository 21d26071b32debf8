"""Four vectors in a lent table: change request 8's rule, calculated apart from the library.

    python3 table.py < RECORDS > LINES

RECORDS and LINES are what tablerun reads and writes. A number of the table is known by its role, and not by its place,
which the rule leaves open; of those with no role only how many there are is known. All stand as 64 bits, so that every
NaN is kept as it is. Refusals, vectors, distances and prices are those of differential/quote/quoting.py.
"""
import os
import struct
import sys

sys.path.insert(0, os.path.join(os.path.dirname(os.path.abspath(__file__)), "..", "sheet"))
from sheet import MOST_BOUND  # noqa: E402, first: it says where quoting is
import quoting  # noqa: E402
from quoting import MOST_LOTS, RECORD, OverCap, Refused, elementary, need, records  # noqa: E402

LEAST = 4096  # the numbers of the shortest table
ROOM = 4200  # the numbers that there are
START = 0xA5A5A5A5A5A5A5A5  # each of them at first
ROWS = 4
PLACES = 2 * MOST_LOTS + 1
CLEAR, QUOTE, SET, LEND = range(4)  # kinds of calls
FILLED, NEXT, STEPS, LENGTH, BOUND, ALPHA, BETA, ETA, TAU, WEIGHT, OFFSET = ROLES = range(11)
KEY = (BOUND, ALPHA, BETA, ETA, TAU)
SHAPES = [(1, 1)] * 2 + [(ROWS, 1)] * 7 + [(ROWS, PLACES)] * 2  # the rows and places of each role
NAMED = sum(rows * places for rows, places in SHAPES)


# ---- floats and their bits
def bits(floats):
    return list(struct.unpack("<%dQ" % len(floats), struct.pack("<%dd" % len(floats), *floats)))


def floats(numbers):
    return list(struct.unpack("<%dd" % len(numbers), struct.pack("<%dQ" % len(numbers), *numbers)))


def padded(vector):
    """The bits of a vector in all places: 0.0 past its length."""
    return bits(vector) + bits([0.0]) * (PLACES - len(vector))


# ---- the table
class Table:
    def __init__(self):
        self.lent = LEAST
        self.numbers = [[[START] * places for _ in range(rows)] for rows, places in SHAPES]
        self.others = [START] * (ROOM - NAMED)  # with no role; those past the first LEAST numbers stand last

    def number(self, role, row=0):
        return self.numbers[role][row][0]

    def put(self, role, row, bits):
        """One number, of a role that has no places."""
        self.numbers[role][row] = [bits]

    def held(self):
        """The numbers as they are."""
        return [[list(places) for places in rows] for rows in self.numbers], list(self.others)

    # ---- clearing and setting
    def clear(self):
        """Every number that is lent is 0, whatever it was."""
        need(self.lent >= LEAST, 23)
        self.numbers = [[[0] * places for _ in range(rows)] for rows, places in SHAPES]
        count = self.lent - NAMED
        self.others[:count] = [0] * count

    def cleared(self):
        """Whether every number that is lent is 0."""
        numbers = [x for rows in self.numbers for places in rows for x in places]
        return not any(numbers + self.others[: self.lent - NAMED])

    def set(self, role, row, place, bits):
        """A number by its role, if there is such a one. A role with one row or one place does not look at them."""
        if self.lent < LEAST or role not in ROLES:
            return
        rows, places = SHAPES[role]
        row, place = row if rows > 1 else 0, place if places > 1 else 0
        if row < rows and place < places:
            self.numbers[role][row][place] = bits

    # ---- quoting
    def row_sound(self, row):
        steps, length, bound = (self.number(role, row) for role in (STEPS, LENGTH, BOUND))
        return steps <= quoting.STEPS and 1 <= bound <= MOST_LOTS and length == 2 * bound + 1

    def sound(self):
        """What 24 asks. It looks at no float, and at no row that is not filled."""
        filled, coming = self.number(FILLED), self.number(NEXT)
        if filled > ROWS or coming >= ROWS or (filled < ROWS and coming != filled):
            return False
        return all(self.row_sound(row) for row in range(filled))

    def agreeing(self, key):
        """The first filled row that came from the same numbers, bit for bit."""
        rows = (row for row in range(self.number(FILLED)) if key == [self.number(role, row) for role in KEY])
        return next(rows, None)

    def vector(self, row):
        """A row as it stands."""
        length = self.number(LENGTH, row)
        weights, offsets = (floats(self.numbers[role][row][:length]) for role in (WEIGHT, OFFSET))
        return weights, offsets, self.number(STEPS, row)

    def store(self, key, weights, offsets, steps):
        """A new vector takes the next row."""
        filled, row = self.number(FILLED), self.number(NEXT)
        for role, number in zip((STEPS, LENGTH, *KEY), (steps, len(weights), *key)):
            self.put(role, row, number)
        self.numbers[WEIGHT][row], self.numbers[OFFSET][row] = padded(weights), padded(offsets)
        self.put(FILLED, 0, min(ROWS, filled + 1))
        self.put(NEXT, 0, (row + 1) % ROWS)

    def quotes(self, desk):
        """The two prices and the steps. Only what ends in quotes is stored."""
        need(self.lent >= LEAST, 23)
        need(self.sound(), 24)
        model, q = quoting.model_of(desk, desk.current)
        made_of = model.alpha, model.beta, model.eta, quoting.time_left(desk)
        key = [model.bound, *bits(made_of)]
        row = self.agreeing(key)
        if row is None:
            alpha, beta, eta, tau = made_of
            vector = quoting.value_vector(alpha, beta, eta, model.bound, tau)
        else:
            vector = self.vector(row)
        weights, offsets, steps = vector
        both = quoting.build_quotes(desk, quoting.exact_distances(weights, offsets, model.k, model.base, q))
        if row is None:
            self.store(key, *vector)
        return both, steps

    # ---- tablerun's lines
    def clear_line(self):
        try:
            self.clear()
        except Refused as refusal:
            return "R %d" % refusal.number
        return "Z" if self.cleared() else "X"

    def answer(self, desk):
        """deskrun's line of an exact call."""
        try:
            both, steps = self.quotes(desk)
            return "%s %d" % (quoting.prices(*both), steps)
        except OverCap as report:
            return "C %016x %d %d" % (elementary.bits_of(report.needed), report.budget, report.steps)
        except Refused as refusal:
            return "R %d" % refusal.number

    def quote_line(self, desk):
        """That, the two numbers of the table's head, and whether a number changed."""
        if desk.bound > MOST_BOUND:
            return "R 2"
        before = self.held()
        line = self.answer(desk)
        head = "%d %d" % (self.number(FILLED), self.number(NEXT)) if self.lent >= LEAST else "- -"
        return "%s %s %s" % (line, head, "S" if before == self.held() else "W")

    def line(self, record):
        """The line of a record."""
        if len(record) < RECORD.size:
            return "R 6"
        words = RECORD.unpack(record)
        kind = words[11]
        if kind == CLEAR:
            return self.clear_line()
        if kind == QUOTE:
            desk, _ = quoting.unpack(record)
            return self.quote_line(desk)
        if kind == SET:
            self.set(*words[:4])
        elif kind == LEND:
            self.lent = min(words[0], ROOM)
        return "P"


def main():
    table = Table()
    for record in records(sys.stdin.buffer):
        print(table.line(record))


if __name__ == "__main__":
    main()
