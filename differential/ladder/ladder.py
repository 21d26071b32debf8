"""Ladders: change request 4's rule, with change request 7's drift, reckoned apart from the library.

    python3 ladder.py < RECORDS > LINES
    python3 ladder.py SHEET > LINES

RECORDS and LINES are what ladderrun reads and writes. SHEET is a file with one sheet, and its LINES are
what the program ladder prints for it. A line of a ladder is that of the single call at its holding:
differential/sheet/sheet.py's, with the quotes of differential/quote/quoting.py. The value vector does
not depend on the holding, so that of the last call is remembered; nothing else is shared by the lines.
"""
import functools
import os
import sys

sys.path.insert(0, os.path.join(os.path.dirname(os.path.abspath(__file__)), "..", "sheet"))
import sheet  # noqa: E402
import quoting  # noqa: E402
from quoting import RECORD, OverCap, Refused, need, records, unpack  # noqa: E402
from sheet import MOST_BOUND, MOST_BYTES  # noqa: E402

MOST_LINE = 64  # the bytes that a buffer has to have for each line
MOST_ROOM = 32768
WHOLE = (2, 1, 3)  # what refuses the whole call


# ---- the vector of the last call
def remembered(function):
    """The same function, whose last answer is kept; a refusal or a report is an answer too."""

    @functools.lru_cache(maxsize=1)
    def ended(*numbers):
        try:
            return function(*numbers), None
        except (Refused, OverCap) as end:
            return None, end

    def again(*numbers):
        answer, end = ended(*numbers)
        if end is not None:
            raise end.with_traceback(None)
        return answer

    return again


quoting.value_vector = remembered(quoting.value_vector)


# ---- a ladder
def least_room(bound):
    """The shortest buffer."""
    return MOST_LINE * (2 * bound + 1)


def check(desk, room):
    """Refuses what 2, 1 or 3 refuses at holding 0, and then a short buffer."""
    need(desk.bound <= MOST_BOUND, 2)
    try:
        quoting.model_of(desk._replace(holding=0), desk.current)
    except Refused as refusal:
        if refusal.number in WHOLE:
            raise
    need(room >= least_room(desk.bound), 21)


def ladder(desk, room=MOST_ROOM):
    """A line for each lot, the lowest first. The holding is left aside."""
    check(desk, room)
    lots = range(-desk.bound, desk.bound + 1)
    return [sheet.line(desk._replace(holding=q * desk.lot_size)) for q in lots]


# ---- ladderrun
def answer(desk, length):
    """A record's lines. Nothing is written past a ladder, and nothing at all by a refusal."""
    try:
        lines = ladder(desk, min(length, MOST_ROOM))
    except Refused as refusal:
        return ["R %d\n" % refusal.number, "U\n"]
    return ["L %d\n" % sum(map(len, lines)), *lines, "U\n"]


def lines(file):
    """The lines of each record."""
    return [["R 6\n", "U\n"] if len(record) < RECORD.size else answer(*unpack(record)) for record in records(file)]


# ---- the program ladder
@functools.lru_cache(maxsize=1)
def printed(desk):
    """A record's lines. The buffer is always long enough."""
    try:
        return ladder(desk)
    except Refused as refusal:
        return ["R %d\n" % refusal.number]


def answers(s):
    """The desks of a sheet, None for what is none, and what ladder prints for each."""
    if len(s) > MOST_BYTES:
        yield None, ["R 9\n"]
        return
    at = 0
    while at < len(s):
        try:
            desk, at = sheet.record(s, at)
        except Refused as refusal:
            yield None, ["R %d\n" % refusal.number]
            return
        yield desk, printed(desk)


def main():
    if len(sys.argv) > 1:
        with open(sys.argv[1], "rb") as file:
            parts = [lines for _, lines in answers(file.read())]
    else:
        parts = lines(sys.stdin.buffer)
    for part in parts:
        sys.stdout.write("".join(part))


if __name__ == "__main__":
    main()
