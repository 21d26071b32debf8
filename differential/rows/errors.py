"""How far LN, LN1P and EXP lie from the true values, over the stored arguments and over drawn ones.

Beside the logarithms' figures stand those of LN in one part, over the same arguments.
"""
import os
import random
import struct

import mpmath

import parts
from asked import HERE
from distance import RANGES, TRUE, float_of, range_of, units

STORED = os.path.join(HERE, "..", "..", "crates", "elementary_bits", "stdin")
SEED, DRAWN = 1, 20000
INFINITY = 0x7FF << 52
# without what EXP answers by its rule
EXP_RANGE = "from -708 to 709"


def stored():
    with open(STORED, "rb") as file:
        return [x for (x,) in struct.iter_unpack("<d", file.read())]


def drawn():
    """Of any size, below 2, and where EXP is neither zero nor infinite by its rule."""
    rng = random.Random(SEED)
    sizes = [struct.unpack("<d", struct.pack("<Q", rng.randrange(1, INFINITY)))[0] for _ in range(DRAWN)]
    return sizes + [2.0 * rng.random() for _ in range(DRAWN)] + [1417.0 * rng.random() - 708.0 for _ in range(DRAWN)]


def far(lines, name):
    """The error of each argument that a function takes, with the argument."""
    column = 1 + list(TRUE).index(name)
    pairs = [(float_of(words[0]), words[column]) for words in lines if words[column] != "R5"]
    return [(units(float_of(given), TRUE[name](mpmath.mpf(x))), x) for x, given in pairs
            if name != "EXP" or -708.0 <= x <= 709.0]


def by_range(name, found):
    """The errors of each range of distance.py; EXP's are taken together."""
    if name == "EXP":
        return {EXP_RANGE: found}
    return {part: [(error, x) for error, x in found if range_of(name, x) == part] for part, _ in RANGES[name]}


def figures(found):
    most, at = max(found)
    return ["%.2f" % most, "%.2f" % (sum(error for error, _ in found) / len(found)), repr(at)]


def row(name, part, now, before):
    """EXP has no other form."""
    return ["%s, %s" % (name, part), format(len(now), ",")] + figures(now) + (figures(before) if before else ["-"] * 3)


def errors(ask, floats):
    """Of each function, its errors and those of LN in one part."""
    now, before = ask.elementary(floats)[1:], parts.lines(floats)
    return [(name, far(now, name), [] if name == "EXP" else far(before, name)) for name in TRUE]


def rows(ask):
    for name, now, before in errors(ask, stored()):
        one_part = by_range(name, before)
        for part, found in by_range(name, now).items():
            yield row(name, part, found, one_part[part])
    for name, now, before in errors(ask, drawn()):
        yield row(name, "drawn with seed %d" % SEED, now, before)
