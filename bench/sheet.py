"""Records a second, quotesheet and glft.rs, on the same sheets; start-up time and peak memory.

    python3 sheet.py RUST QUOTESHEET FOLDER

The sheets: document 01's usual desk with no time left, as many records as a sheet holds; and
glft.rs's own example at its start, 600 seconds before its end. The time of a sheet is processor time,
the least of several rounds in which the programs take turns, less that of an empty sheet, which is
the start-up time. The programs have to print as many quotes, with the same prices to three billionths.
"""
import os
import sys

from measure import peak, seconds

sys.path.insert(0, os.path.join(os.path.dirname(os.path.abspath(__file__)), "..", "differential", "sheet"))
from cases import EXAMPLE, USUAL  # noqa: E402
from quoting import BILLION  # noqa: E402
from sheet import MOST_BYTES, packed  # noqa: E402

ROUNDS = 41
WITHIN = 3


def sheets():
    at_the_end = [packed(USUAL._replace(holding=q * BILLION, bound=30)) for q in range(-30, 31)]
    length = max(map(len, at_the_end))
    yield "no time left, bound 30", b"".join(at_the_end * (MOST_BYTES // length // 61))
    example = [packed(EXAMPLE._replace(holding=q * BILLION, current=0)) for q in range(-30, 31)]
    yield "600 s, bound 30", b"".join(example * 2)


def prices(text):
    """The prices of each line, in billionths."""
    lines = [line.split() for line in text.decode().splitlines()]
    return [[None if p == "-" else int(p.replace(".", "")) for p in f[1:3]] for f in lines if f[0] == "Q"]


def near(a, b):
    return len(a) == len(b) and all(
        (x is None) == (y is None) and (x is None or abs(x - y) <= WITHIN)
        for p, q in zip(a, b) for x, y in zip(p, q))


def main():
    rust, quotesheet, folder = sys.argv[1:]
    programs = {"glft.rs": [rust], "quotesheet": [quotesheet]}
    full, empty = folder + "/full", folder + "/empty"
    open(empty, "wb").close()
    for title, sheet in sheets():
        with open(full, "wb") as file:
            file.write(sheet)
        least, quotes = {}, {}
        for _ in range(ROUNDS):
            for name, command in programs.items():
                for path in (full, empty):
                    took, wrote = seconds(command, path)
                    least[name, path] = min(took, least.get((name, path), took))
                    if path == full:
                        quotes[name] = prices(wrote)
        if not near(*quotes.values()):
            sys.exit("sheet.py: the programs do not quote alike")
        count = len(quotes["quotesheet"])
        rate = {name: count / (least[name, full] - least[name, empty]) for name in programs}
        print("%s, %d records: glft.rs %.0f a second, quotesheet %.0f, ratio of times %.3f"
              % (title, count, rate["glft.rs"], rate["quotesheet"], rate["glft.rs"] / rate["quotesheet"]))
    print("start-up: " + ", ".join("%s %.2f ms" % (name, 1e3 * least[name, empty]) for name in programs))
    print("peak resident memory: "
          + ", ".join("%s %d kB" % (name, peak(command, full)) for name, command in programs.items()))


if __name__ == "__main__":
    main()
