"""Milliseconds of a ladder at bound 200, and of as many single calls.

    python3 ladder.py LADDER QUOTESHEET FOLDER

The desk is glft.rs's own example at its start, 600 seconds before its end, with bound 200. ladder gets
its record several times, and quotesheet a record for each of the 401 holdings, once. A time is
processor time, the least of several rounds in which the programs take turns, less that of an empty
sheet. The lines of each ladder have to be those of the single calls, byte for byte.
"""
import os
import sys

from measure import seconds, written

sys.path.insert(0, os.path.join(os.path.dirname(os.path.abspath(__file__)), "..", "differential", "sheet"))
from cases import EXAMPLE  # noqa: E402
from sheet import packed  # noqa: E402

ROUNDS = 5
LADDERS = 20
BOUND = 200
DESK = EXAMPLE._replace(bound=BOUND, current=0)
SINGLE = [packed(DESK._replace(holding=q * DESK.lot_size)) for q in range(-BOUND, BOUND + 1)]


def timed(programs, empty):
    """The seconds of each program's sheet less those of an empty one, and what it wrote."""
    least, wrote = {}, {}
    for _ in range(ROUNDS):
        for name, (command, full) in programs.items():
            for path in (full, empty):
                took, out = seconds(command, path)
                least[name, path] = min(took, least.get((name, path), took))
                wrote[name, path] = out
    return {name: (least[name, full] - least[name, empty], wrote[name, full])
            for name, (_, full) in programs.items()}


def main():
    ladder, quotesheet, folder = sys.argv[1:]
    programs = {"ladder": ([ladder], written(folder + "/ladders", packed(DESK) * LADDERS)),
                "quotesheet": ([quotesheet], written(folder + "/single", b"".join(SINGLE)))}
    times = timed(programs, written(folder + "/empty", b""))
    (took, ladders), (calls, lines) = times["ladder"], times["quotesheet"]
    if ladders != lines * LADDERS or lines.count(b"\n") != len(SINGLE):
        sys.exit("ladder.py: the ladder's lines are not those of the single calls")
    steps = int(lines.split()[-1])
    one = took / LADDERS
    print("a ladder at bound %d, %d steps: %.1f ms, %d single calls %.0f ms, ratio 1/%.0f"
          % (BOUND, steps, 1e3 * one, len(SINGLE), 1e3 * calls, calls / one))


if __name__ == "__main__":
    main()
