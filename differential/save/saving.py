"""Records saved: change request 1's rule, reckoned apart from the library.

    python3 saving.py < RECORDS > LINES
    python3 saving.py SHEET > BYTES
    python3 saving.py --sheets < SHEETS > LINES

RECORDS and LINES are what saverun reads and writes: deskrun's records without a drift. SHEET is a file
with one sheet, and BYTES are what resave writes for it. SHEETS is what sheetrun reads; each of its sheets
gives a line, what resave writes for it in upper-case hex. Groups and the reading of a sheet are those of
differential/sheet/sheet.py.
"""
import os
import sys

sys.path.insert(0, os.path.join(os.path.dirname(os.path.abspath(__file__)), "..", "sheet"))
import sheet  # noqa: E402
import quoting  # noqa: E402
from quoting import MOST_AMOUNT, MOST_TIME, SIGNED, Refused, need  # noqa: E402
from sheet import MOST_BOUND, MOST_BYTES, packed  # noqa: E402

LEAST_ROOM = 88  # eleven numbers of eight groups
MOST_ROOM = 128
BEFORE = b"\xa5"  # every byte of saverun's buffers before a call
NO_DRIFT = bytes(8)
RECORD = quoting.RECORD.size - len(NO_DRIFT)


def within(desk):
    """Whether every number is within its limit, and none below zero but the holding."""
    amounts = [abs(getattr(desk, name)) for name in SIGNED]
    times = (desk.terminal, desk.current)
    fit = max(amounts) <= MOST_AMOUNT and max(times) <= MOST_TIME and desk.bound <= MOST_BOUND
    return fit and min(desk._replace(holding=0)) >= 0


def saved(desk, buffer):
    """How many bytes a record takes, and the buffer with it."""
    need(len(buffer) >= LEAST_ROOM, 20)
    need(within(desk), 2)
    record = packed(desk)
    return len(record), record + buffer[len(record):]


# ---- saverun
def pack(desk, length):
    """A record: the stored numbers and the buffer's length."""
    return quoting.pack(desk, length)[:RECORD]


def unpack(record):
    return quoting.unpack(record + NO_DRIFT)


def line(desk, length):
    if desk.bound > MOST_BOUND:
        return "R 2\n"
    buffer = BEFORE * min(length, MOST_ROOM)
    try:
        count, buffer = saved(desk, buffer)
        answer = "W %d" % count
    except Refused as refusal:
        answer = "R %d" % refusal.number
    return " ".join([answer] + [buffer.hex().upper()] * (buffer != b"")) + "\n"


def lines(file):
    return ["R 6\n" if len(record) < RECORD else line(*unpack(record)) for record in quoting.records(file, RECORD)]


# ---- resave
def read(s):
    """The desks of a sheet, and the number that ends the reading before its end, or None."""
    desks, at = [], 0
    try:
        need(len(s) <= MOST_BYTES, 9)
        while at < len(s):
            desk, at = sheet.record(s, at)
            desks.append(desk)
    except Refused as refusal:
        return desks, refusal.number
    return desks, None


def resaved(s):
    """The bytes that resave writes for a sheet: the records that the reader takes, made anew."""
    desks, _ = read(s)
    return b"".join(map(packed, filter(within, desks)))


def main():
    if sys.argv[1:] == ["--sheets"]:
        for s in sheet.sheets(sys.stdin.buffer):
            print(resaved(s).hex().upper())
    elif len(sys.argv) > 1:
        with open(sys.argv[1], "rb") as file:
            sys.stdout.buffer.write(resaved(file.read()))
    else:
        sys.stdout.write("".join(lines(sys.stdin.buffer)))


if __name__ == "__main__":
    main()
