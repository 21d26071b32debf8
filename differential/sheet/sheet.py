"""The lines of sheets: document 01, module 6, reckoned apart from the library.

    python3 sheet.py < SHEETS > LINES
    python3 sheet.py SHEET > LINES

SHEETS and LINES are what sheetrun reads and writes: before each sheet stands its length in three
bytes, lowest first, and after its lines comes a line `.`. SHEET is a file with one sheet and nothing
else, as quotesheet reads it. The quotes are those of differential/quote/quoting.py.
"""
import os
import sys

sys.path.insert(0, os.path.join(os.path.dirname(os.path.abspath(__file__)), "..", "quote"))
import quoting  # noqa: E402
from quoting import BILLION, STORED, Desk, OverCap, Refused, elementary, need  # noqa: E402

MOST_BYTES = 65536
MOST_GROUPS = 8
MOST_BOUND = 2**32 - 1


# ---- records
def number(sheet, at):
    """A number and the next place."""
    value = 0
    for i in range(MOST_GROUPS):
        need(at + i < len(sheet), 6)
        byte = sheet[at + i]
        value += byte % 128 << 7 * i
        if byte < 128:
            need(i == 0 or byte > 0, 7)
            return value, at + i + 1
    raise Refused(7)


def record(sheet, at):
    """A desk and the next place."""
    numbers = []
    for _ in STORED:
        value, at = number(sheet, at)
        numbers.append(value)
    desk = Desk(*numbers)
    h = desk.holding
    return desk._replace(holding=h // 2 if h % 2 == 0 else -(h + 1) // 2), at


def groups(value):
    """A number's bytes."""
    out = bytearray()
    while value >= 128:
        out.append(value % 128 + 128)
        value //= 128
    out.append(value)
    return bytes(out)


def packed(desk):
    """A record's bytes. There is no drift in it."""
    h = desk.holding
    return b"".join(map(groups, desk._replace(holding=2 * h if h >= 0 else -2 * h - 1)[:len(STORED)]))


# ---- lines
def price(count):
    return "-" if count is None else "%d.%09d" % divmod(count, BILLION)


def line(desk):
    try:
        need(desk.bound <= MOST_BOUND, 2)
        (bid, ask), steps = quoting.exact_quotes(desk)
        return "Q %s %s %d\n" % (price(bid), price(ask), steps)
    except OverCap as report:
        return "C %016X %d\n" % (elementary.bits_of(report.needed), report.budget)
    except Refused as refusal:
        return "R %d\n" % refusal.number


def answers(sheet, line=line):
    """The desks of a sheet, None for what is none, and what quotesheet prints for each, or a program with other lines."""
    if len(sheet) > MOST_BYTES:
        yield None, "R 9\n"
        return
    at = 0
    while at < len(sheet):
        try:
            desk, at = record(sheet, at)
        except Refused as refusal:
            yield None, "R %d\n" % refusal.number
            return
        yield desk, line(desk)


def lines(sheet):
    return [line for _, line in answers(sheet)]


# ---- sheets one after the other
def framed(sheet):
    return len(sheet).to_bytes(3, "little") + sheet


def sheets(file):
    while length := file.read(3):
        yield file.read(int.from_bytes(length, "little"))


def main():
    if len(sys.argv) > 1:
        with open(sys.argv[1], "rb") as file:
            sys.stdout.write("".join(lines(file.read())))
        return
    for sheet in sheets(sys.stdin.buffer):
        sys.stdout.write("".join(lines(sheet)) + ".\n")


if __name__ == "__main__":
    main()
