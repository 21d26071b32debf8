"""Asks the Rust (rows.rs) and the proved programs for the rows, and writes their answers as a reader wants them."""
import math
import os
import struct
import subprocess
import sys

HERE = os.path.dirname(os.path.abspath(__file__))
sys.path[:0] = [os.path.join(HERE, "..", name) for name in ("elementary", "quote", "paper")]
import quoting  # noqa: E402
from quoting import BILLION, CLOSED_FORM, EXACT, WRAPPER, Desk  # noqa: E402

ONE = BILLION
USUAL = Desk(100 * ONE, 0, ONE, ONE, ONE, ONE, 1, ONE, 1000, 1000, 0)
ENTRIES = {EXACT: "exact", WRAPPER: "wrapper", CLOSED_FORM: "closed"}
CALLED = {EXACT: "", WRAPPER: ", wrapper", CLOSED_FORM: ", closed form"}
SPOKEN = dict(a="A", risk_aversion="risk aversion", lot_size="lot size", min_spread="min spread")
# elementary_bits reads no more
MOST_FLOATS = 8192


def bits_of(x):
    return "%016X" % struct.unpack("<Q", struct.pack("<d", x))[0]


def float_of(digits):
    return struct.unpack(">d", bytes.fromhex(digits))[0]


def shown(x):
    """A float as it is read."""
    if not math.isfinite(x):
        return "NaN" if x != x else "infinity" if x > 0.0 else "minus infinity"
    return repr(x).removesuffix(".0")


def price(count):
    """An amount with nine decimals, as a line of the sheet has a price."""
    return "-" * (count < 0) + "%d.%09d" % divmod(abs(count), ONE)


def plain(count):
    """An amount with no more digits than it needs."""
    return price(count).rstrip("0").rstrip(".")


def grouped(text):
    """With commas between thousands before the point."""
    whole, point, rest = text.partition(".")
    return format(int(whole), ",") + point + rest


def words(desk):
    return [plain(x) if name in quoting.SIGNED else str(x) for name, x in zip(quoting.STORED, desk)]


def described(desk, entry=EXACT):
    """In what a desk is not the usual one."""
    changed = {}
    for name, text in zip(quoting.STORED, words(desk)):
        if getattr(desk, name) != getattr(USUAL, name):
            value = grouped(text) + " ms" * (name in ("terminal", "current"))
            changed.setdefault(value, []).append(SPOKEN.get(name, name))
    parts = ["%s %s" % (listed(names), value) for value, names in changed.items()]
    return (", ".join(parts) or "the usual desk") + CALLED[entry]


def listed(names):
    return " and ".join(filter(None, [", ".join(names[:-1]), names[-1]]))


def report(needed, left):
    return "%s needed, %s left" % (format(int(needed), ","), format(int(left), ","))


class Asked:
    def __init__(self, rust, elementary_bits, deskrun, floatrun, roundrun):
        self.programs = {"rust": rust, "elementary": elementary_bits, "desk": deskrun, "float": floatrun,
                         "round": roundrun}

    def lines(self, program, data):
        done = subprocess.run([self.programs[program]], input=data, stdout=subprocess.PIPE, check=True)
        return done.stdout.decode().splitlines()

    def rust(self, *question):
        return self.lines("rust", (" ".join(map(str, question)) + "\n").encode())[0]

    def elementary(self, floats):
        """The program's lines for floats, as lists of words; a NaN's comes first."""
        found = []
        for i in range(0, len(floats), MOST_FLOATS):
            data = b"".join(struct.pack("<d", x) for x in floats[i : i + MOST_FLOATS])
            found += self.lines("elementary", data)[i > 0 :]
        return [line.split() for line in found]

    def desk(self, desk, entry=EXACT):
        return self.lines("desk", quoting.pack(desk, entry))[0].split()

    def float_entry(self, *record):
        """The answer to a record with no drift."""
        return self.lines("float", struct.pack("<4dQdqd", *record, 0.0))[0].split()

    def billionths(self, distance):
        """The count that a distance becomes."""
        return int(self.lines("round", struct.pack("<d", distance))[0])

    def theirs(self, desk, entry=EXACT, asked=None):
        """The Rust's answer to a desk, or to the words of one."""
        kind, *rest = self.rust("quote", ENTRIES[entry], *(asked or words(desk))).split()
        if kind == "Q":
            return "%s / %s" % tuple(rest)
        return report(*rest) if kind == "C" else rest[0].split("(")[0]

    def ours(self, desk, entry=EXACT):
        kind, *rest = self.desk(desk, entry)
        if kind == "Q":
            return " / ".join(x if x == "-" else price(int(x)) for x in rest[:2])
        return report(float_of(rest[0]), rest[1]) if kind == "C" else "refusal " + rest[0]
