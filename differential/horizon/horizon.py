"""The first plan of each record of a sheet: change request 6 for a desk's own numbers, reckoned apart from the library.

    python3 horizon.py SHEET > LINES

SHEET is a file with one sheet and nothing else, and LINES what the program horizon prints for it. The reader is that of
differential/sheet/sheet.py, a desk's floats are those of differential/quote/quoting.py, and the count of steps is that
of differential/count/counting.py, over all rows.
"""
import os
import sys

HERE = os.path.dirname(os.path.abspath(__file__))
sys.path.insert(0, os.path.join(HERE, "..", "sheet"))
sys.path.append(os.path.join(HERE, "..", "count"))
import sheet  # noqa: E402
import quoting  # noqa: E402
import counting  # noqa: E402
from quoting import Refused, need  # noqa: E402


def line(desk):
    try:
        need(desk.bound <= sheet.MOST_BOUND, 2)
        model, q = quoting.model_of(desk, desk.current)
    except Refused as refusal:
        return "R %d\n" % refusal.number
    tau = quoting.time_left(desk)
    return counting.answer(model.k, model.alpha, model.eta, model.base, model.bound, tau, q, model.beta) + "\n"


def answers(s):
    """The desks of a sheet, None for what is none, and what horizon prints for each."""
    return sheet.answers(s, line)


def main():
    with open(sys.argv[1], "rb") as file:
        sys.stdout.write("".join(line for _, line in answers(file.read())))


if __name__ == "__main__":
    main()
