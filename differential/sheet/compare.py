"""Compares what quotesheet prints for seeded sheets with sheet.py's lines, byte for byte.

    python3 compare.py SEED COUNT QUOTESHEET STEPS

COUNT is the number of lines to compare, and STEPS the library that is made of steps.c. A sheet has up
to 40 of wide.py's desks; two sheets of five are damaged. Some reach the program a few bytes at a time.
At the end the program is run with an output that cannot be written. The status is 1 where a byte
differs, where fast.py meets steps that are not quoting.py's, or where the program does not tell of
its output.
"""
import collections
import itertools
import os
import re
import signal
import subprocess
import sys

import sheet  # first: it says where quoting and desks are

import fast
import quoting
import wide

BOUNDS = {12: "1 to 12", 60: "13 to 60", 200: "61 to 200"}
STEPS = {0: "0", 1: "1", 100: "2 to 100", 1000: "101 to 1,000", 10998: "1,001 to 10,998", 10999: "10,999",
         11000: "11,000"}


class Sheets:
    def __init__(self, seed):
        self.desks = wide.Wide(seed)
        self.rng = self.desks.rng

    def desk(self):
        """A desk with no negative number but the holding, which a record cannot say."""
        desk = wide.drawn(self.desks)
        return sheet.Desk(*(x if name == "holding" else abs(x) for name, x in zip(desk._fields, desk)))

    # ---- damage
    def cut(self, s):
        return s[: self.rng.randrange(len(s))]

    def byte_changed(self, s):
        at = self.rng.randrange(len(s))
        return s[:at] + bytes([self.rng.randrange(256)]) + s[at + 1:]

    def byte_lost(self, s):
        at = self.rng.randrange(len(s))
        return s[:at] + s[at + 1:]

    def zero_group(self, s):
        """A number that ends in a zero group."""
        ends = [i for i, b in enumerate(s) if b < 128]
        at = self.rng.choice(ends)
        return s[:at] + bytes([s[at] + 128, 0]) + s[at + 1:]

    def many_groups(self, s):
        """Seven, eight or nine groups with their top bits set, and one more."""
        at = self.rng.randrange(len(s))
        return s[:at] + b"\xff" * self.rng.randint(6, 9) + b"\x01" + s[at:]

    def noise(self, s):
        return bytes(self.rng.choices(range(256), k=self.rng.randint(1, 300)))

    def long(self, s):
        length = sheet.MOST_BYTES + self.rng.choice((-1, 0, 0, 1, 1, 1000))
        return (s * (length // len(s) + 1))[:length]

    def sheet(self):
        s = b"".join(sheet.packed(self.desk()) for _ in range(self.rng.randint(0, 40)))
        if not s or self.rng.random() < 0.6:
            return s
        if self.rng.random() < 0.01:
            return self.long(sheet.packed(self.desks.no_time()))
        damage = (self.cut, self.byte_changed, self.byte_lost, self.zero_group, self.many_groups, self.noise)
        return self.rng.choice(damage)(s)


# ---- what the lines met
def named(names, number):
    return next(name for most, name in names.items() if number <= most)


def met(desk, line, plans):
    """The names under which a line is counted. A plan after the first follows a rebalancing."""
    fields = line.split()
    if fields[0] == "R":
        yield line.strip()
        return
    yield fields[0]
    yield "%s, bound %s" % (fields[0], named(BOUNDS, desk.bound))
    if fields[0] == "Q":
        steps = int(fields[3])
        yield "Q, steps " + named(STEPS, steps)
        if desk.bound > 60 and steps > 1000:
            yield "Q, bound 61 to 200, steps above 1,000"
        if plans > 1:
            yield "Q, after rebalancing, steps " + named(STEPS, steps)
    elif plans > 0:
        yield "C, after rebalancing"
    elif quoting.elementary.float_of(int(fields[1], 16)) == quoting.STEPS + 1:
        yield "C, 11,001 steps needed"


def reckoned(s, advance, counts):
    """A sheet's lines. What they met is counted."""
    told, plans = [], advance.plans
    for desk, line in sheet.answers(s):
        counts.update(met(desk, line, advance.plans - plans))
        told.append(line)
        plans = advance.plans
    return told


def difference(told, ours):
    """The first line that differs."""
    pairs = enumerate(itertools.zip_longest(told, ours.splitlines(True)), 1)
    return next("  line %d: told %r, ours %r" % (i, a, b) for i, (a, b) in pairs if a != b)


def in_order(name):
    """Numbers in a name by their size."""
    return [int(part) if part.isdigit() else part for part in re.split(r"(\d+)", name.replace(",", ""))]


# ---- the program
def printed(program, s, size):
    """What the program prints for a sheet that reaches it so many bytes at a time."""
    process = subprocess.Popen([program], stdin=subprocess.PIPE, stdout=subprocess.PIPE, bufsize=0)
    for at in range(0, len(s), size):
        process.stdin.write(s[at: at + size])
    process.stdin.close()
    text = process.stdout.read()
    return text.decode() if process.wait() == 0 else "status %d" % process.returncode


def unwritten(program, s, output, restore=False):
    """The status, and whether standard error is empty or one line that begins with the program's name."""
    with open(output, "wb") as file:
        process = subprocess.run([program], input=s, stdout=file, stderr=subprocess.PIPE, restore_signals=restore)
    told = re.fullmatch(rb"quotesheet: [^\n]+\n", process.stderr)
    return process.returncode, "told" if told else "other" if process.stderr else "quiet"


def closed_pipe():
    read, write = os.pipe()
    os.close(read)
    return write


def tells(program, s):
    """Whether the program says that its output cannot be written. SIGPIPE, at its default, may end it before."""
    ignored, full = unwritten(program, s, closed_pipe()), unwritten(program, s, "/dev/full")
    status, said = unwritten(program, s, closed_pipe(), restore=True)
    return ignored == full == (0, "told") and status in (0, -signal.SIGPIPE) and said != "other"


def main():
    seed, count, program, library = int(sys.argv[1]), int(sys.argv[2]), sys.argv[3], sys.argv[4]
    advance = quoting.advance = fast.Advance(library)
    held, refused = advance.hold_all(seed)
    made, counts = Sheets(seed), collections.Counter()
    lines = differing = 0
    while lines < count:
        s = made.sheet()
        told = reckoned(s, advance, counts)
        size = made.rng.choice((1, 3, 100, 65536, 65536)) if len(s) < 4000 else 65536
        ours = printed(program, s, size)
        if ours != "".join(told):
            differing += 1
            print("a sheet of %d bytes: %s\n%s" % (len(s), s.hex()[:400], difference(told, ours)))
        lines += len(told)
        counts["sheets"] += 1
        counts["sheets in pieces"] += size < 65536
    for name in sorted(counts, key=in_order):
        print("%7d  %s" % (counts[name], name))
    print("steps.c against quoting.py: %d seeded plans, %d of them to 11, and the first steps of %d: %d differ"
          % (held, refused, advance.plans, advance.differing))
    told = tells(program, sheet.packed(made.desks.no_time()) * 1000)
    print("%d lines, %d sheets differ; output closed: %s" % (lines, differing, "told" if told else "not told"))
    sys.exit(0 if told and not differing and not advance.differing else 1)


if __name__ == "__main__":
    main()
