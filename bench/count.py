"""Nanoseconds of a count at bound 200, without a drift and with one, beside a full first plan.

    python3 count.py COUNTRUN ORACLE FLOATRUN FOLDER

ORACLE is that of differential/count, whose `platform` makes glft.rs's own plan over all rows, as published. The desk is
that of measure.py. A count, and glft.rs's plan, is a record with some time less one with none, whose lines are as long,
so that reading and writing drop out. With a drift, of which glft.rs has none, a count reads all rows. floatrun's plan is
a record over the cap, whose run ends at its first plan, less one with a holding beyond the bound. A time is processor
time, the least of several rounds in which the programs take turns. Every line has to be the one expected.
"""
import sys

from measure import record, seconds, written

ROUNDS = 11
BOUND = 200
DRIFT = 1e-4
# tau, q and beta of a plan and of none, each with how its lines begin
SOME, NONE = (1.0, 0, 0.0, b"N 4\n"), (0.0, 0, 0.0, b"N 0\n")
DRIFTING, DRIFTING_NONE = (1.0, 0, DRIFT, b"N 4\n"), (0.0, 0, DRIFT, b"N 0\n")
OVER, REFUSED = (1e6, 0, 0.0, b"C "), (1e6, BOUND + 1, 0.0, b"R 4\n")


def expected(wrote, line, count):
    """Whether there are so many lines, all the same, and of the kind."""
    first = wrote[: wrote.find(b"\n") + 1]
    return first.startswith(line) and wrote == first * count


def timed(programs, folder):
    """The nanoseconds of each program's plan."""
    least = {}
    for turn in range(ROUNDS):
        for name, (command, count, *kinds) in programs.items():
            for place, (tau, q, beta, line) in enumerate(kinds):
                path = "%s/%s.%d" % (folder, name, place)
                took, wrote = seconds(command, path if turn else written(path, record(BOUND, tau, q, beta) * count))
                if not expected(wrote, line, count):
                    sys.exit("count.py: %s did not answer every record by %s" % (name, line.decode().strip()))
                least[name, place] = min(took, least.get((name, place), took))
    return {name: (least[name, 0] - least[name, 1]) / programs[name][1] * 1e9 for name in programs}


def main():
    countrun, oracle, floatrun, folder = sys.argv[1:]
    took = timed({"countrun": ([countrun], 1000000, SOME, NONE),
                  "drifting": ([countrun], 200000, DRIFTING, DRIFTING_NONE),
                  "glft.rs": ([oracle, "platform"], 50000, SOME, NONE),
                  "floatrun": ([floatrun], 50000, OVER, REFUSED)}, folder)
    print("a count at bound %d: %.0f ns, with a drift %.0f ns; a full first plan: glft.rs %.0f ns, floatrun's cap report "
          "%.0f ns" % (BOUND, took["countrun"], took["drifting"], took["glft.rs"], took["floatrun"]))


if __name__ == "__main__":
    main()
