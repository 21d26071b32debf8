"""Nanoseconds of a call that reuses a row of a table, at bound 200, beside the calls that it stands in for.

    python3 table.py REUSE FOLDER
    python3 table.py < ORDERS > LINES

REUSE is the program of crates/reuse, whose head says what an order is and what the calls are. The desks are glft.rs's own
example with bound 200, two seconds before its end and at its end. A time is processor time, the least of several rounds
in which the kinds take turns, less that of as many turns of the loop without a call. Every line has to be that of
differential/quote/quoting.py, which has no table: so a call that reuses a row answers as one that makes the vector. No
count of calls divides by four, so the rows after them tell reuses from misses. The second form writes these lines:
crates/reuse/stdout has those of crates/reuse/stdin.
"""
import functools
import os
import sys

from measure import seconds, written

sys.path.insert(0, os.path.join(os.path.dirname(os.path.abspath(__file__)), "..", "differential", "sheet"))
from cases import EXAMPLE  # noqa: E402
from quoting import build_quotes, exact_distances, model_of, time_left, value_vector  # noqa: E402

ROUNDS = 11
BOUND = 200
ROWS, NUMBERS = 4, 4096
DESK = EXAMPLE._replace(bound=BOUND)
IN_TURN = "mid volatility risk_aversion k a".split()
# by kind: how many desks take turns, and when
LEFT, AT_END = DESK.terminal - 2000, DESK.terminal
CALLS = {"r": (4, LEFT), "e": (4, LEFT), "m": (5, AT_END), "z": (5, AT_END)}
# how many calls are timed
COUNTS = {"r": 1000003, "e": 10003, "m": 300003, "z": 300003, "c": 500003}
NOTHING = "n"


def lot(i):
    return i % (2 * BOUND + 1) - BOUND


@functools.cache
def quoted(desks, current):
    """What each call counts as until all come round again, and the steps, which are the same for all."""
    made = []
    for turn in range(desks):
        desk = DESK._replace(current=current, **{name: getattr(DESK, name) + turn for name in IN_TURN})
        model, _ = model_of(desk, current)
        made.append((desk, model, value_vector(model.alpha, model.beta, model.eta, BOUND, time_left(desk))))
    counts = []
    for i in range(desks * (2 * BOUND + 1)):
        desk, model, (weights, offsets, steps) = made[i % desks]
        bid, ask = build_quotes(desk, exact_distances(weights, offsets, model.k, model.base, lot(i)))
        counts.append((bid or 0) + 2 * (ask or 0) + steps)
    return counts, steps


def line(kind, count):
    """What reuse writes."""
    if kind in CALLS:
        counts, _ = quoted(*CALLS[kind])
    elif kind == "c":
        counts = [0]
    else:
        counts = [abs(lot(i)) * DESK.lot_size for i in range(2 * BOUND + 1)]
    rounds, more = divmod(count, len(counts))
    kept = {"r": min(count, ROWS), "m": count}.get(kind, 0)
    total = rounds * sum(counts) + sum(counts[:more])
    return "%d %d %d\n" % (total % 2**64, min(kept, ROWS), kept % ROWS)


def timed(reuse, folder):
    """The nanoseconds of each kind's call."""
    least = {}
    for turn in range(ROUNDS):
        for kind, count in COUNTS.items():
            for made in (kind, NOTHING):
                path = "%s/%s.%d" % (folder, made, count)
                took, wrote = seconds([reuse], path if turn else written(path, b"%s%d\n" % (made.encode(), count)))
                if wrote.decode() != line(made, count):
                    sys.exit("table.py: %d calls of kind %s did not answer as they should" % (count, made))
                least[kind, made] = min(took, least.get((kind, made), took))
    return {kind: (least[kind, kind] - least[kind, NOTHING]) / count * 1e9 for kind, count in COUNTS.items()}


def main():
    if len(sys.argv) == 1:
        for order in sys.stdin:
            sys.stdout.write(line(order[0], int(order[1:])))
        return
    reuse, folder = sys.argv[1:]
    took = timed(reuse, folder)
    print("a call at bound %d from a row of a table: %.0f ns; the same call, which makes the vector in %d steps: %.0f ns"
          % (BOUND, took["r"], quoted(*CALLS["e"])[1], took["e"]))
    print("a call at bound %d with no time left: %.0f ns, with the vector kept in a table %.0f ns; a table of %d numbers "
          "cleared: %.0f ns" % (BOUND, took["z"], took["m"], NUMBERS, took["c"]))


if __name__ == "__main__":
    main()
