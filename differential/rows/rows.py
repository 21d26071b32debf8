"""The measured tables of docs/DIFFERENCES.md, made from their inputs.

    python3 rows.py GLFT RUST ELEMENTARY_BITS DESKRUN FLOATRUN ROUNDRUN

GLFT is the published glft.rs, and RUST is rows.rs, built over it. Prints each table as it stands in the document.
The status is 1 where a row, or a table as a whole, does not stand there word for word, or where a public item of
GLFT has no row there.
"""
import os
import sys

import mpmath

from asked import CLOSED_FORM, EXACT, HERE, ONE, USUAL, WRAPPER, Asked
from asked import bits_of, described, float_of, grouped, plain, price, shown, words
from distance import TRUE
import errors
import items
import papers
import parts
import quoting

DOCUMENT = os.path.join(HERE, "..", "..", "docs", "DIFFERENCES.md")
FUNCTIONS = {"LN": "ln", "LN1P": "ln_1p", "EXP": "exp", "The root": "sqrt", "Rounding up": "ceil"}
MOST = quoting.MOST_AMOUNT
LAST = "%d rows, %d differ from docs/DIFFERENCES.md"
SEED, DRAWN = 1, 10**7
# the searches start so far below the power of two from which on a conversion can be off
AMOUNT_FROM = 2**22 * ONE - 10**7
TIME_FROM = 2**42 * 1000 - 10**7


# ---- elementary functions
def nearest(name, x):
    return bits_of(float(TRUE[name](mpmath.mpf(x))))


def platform(ask, name, x):
    return ask.rust("platform", FUNCTIONS[name], bits_of(x))


def ours(ask, name, floats):
    return [line[1 + list(FUNCTIONS).index(name)] for line in ask.elementary(floats)[1:]]


def first_row(ask, name, other, other_name):
    """The row of the first whole number at which ours is not the other's float."""
    numbers = [float(n) for n in range(1, 65)]
    for x, given in zip(numbers, ours(ask, name, numbers)):
        if given != other(x):
            where = "%s is not %s float" % (name, other_name)
            return [where, shown(x), nearest(name, x), platform(ask, name, x), given]
    sys.exit("rows.py: %s is %s float at each whole number" % (name, other_name))


def not_nearest(ask, name):
    return first_row(ask, name, lambda x: nearest(name, x), "the nearest")


def value_row(ask, where, name, x):
    found = nearest(name, x), platform(ask, name, x), ours(ask, name, [x])[0]
    return [where, shown(x)] + [shown(float_of(digits)) for digits in found]


def beyond(x):
    """The next float away from zero."""
    return float_of("%016X" % (int(bits_of(x), 16) + 1))


def elementary_rows(ask):
    yield not_nearest(ask, "LN")
    yield not_nearest(ask, "LN1P")
    yield first_row(ask, "LN1P", lambda x: platform(ask, "LN1P", x), "the platform's")
    yield value_row(ask, "LN1P of the smallest float", "LN1P", beyond(0.0))
    yield not_nearest(ask, "EXP")
    yield value_row(ask, "EXP above 709", "EXP", beyond(709.0))
    yield value_row(ask, "EXP below -708", "EXP", beyond(-708.0))


def refusal_rows(ask):
    """For each argument and function what the platform gives, and what is given here."""
    arguments = [float(x) for x in ("nan", "inf", "-inf", "0", "-0", "-0.5", "-1", "-2")]
    # the program asks itself for a NaN's line, which is the first
    for x, line in zip(arguments, ask.elementary(arguments[1:])):
        cells = [shown(x)]
        for name, given in zip(FUNCTIONS, line[1:]):
            theirs = platform(ask, name, x)
            here = "5" if given == "R5" else "the same" if given == theirs else shown(float_of(given))
            cells.append("%s; %s" % (shown(float_of(theirs)), here))
        yield cells


# ---- decimals
def float_here(ask, count):
    """The float that an amount becomes: the model's k."""
    return ask.desk(USUAL._replace(k=count), quoting.MODEL)[1].upper()


def time_row(ask):
    desk = USUAL._replace(terminal=int(ask.rust("first", 1000, TIME_FROM)), current=0, a=1000 * ONE)
    needed = [report.split(", 11,000 left")[0] for report in (ask.theirs(desk), ask.ours(desk))]
    return ["A time's float", described(desk)] + needed


def distance_row(ask, where, desk):
    """The decimal that the Rust makes of the base distance, and its billionths here."""
    base = ask.desk(desk, quoting.MODEL)[7]
    exact = mpmath.nstr(mpmath.mpf(float_of(base)), 20)
    rounded = desk.mid - int(ask.desk(desk)[1])
    return [where, "%s: distance %s" % (described(desk), exact), ask.rust("decimal", base), price(rounded)]


def float_row(ask, where, x):
    """The same of any distance, as a float."""
    return [where, "distance %s" % shown(x), ask.rust("decimal", bits_of(x)), price(ask.billionths(x))]


def decimal_rows(ask):
    count = int(ask.rust("first", ONE, AMOUNT_FROM))
    yield ["An amount's float", "k " + grouped(plain(count)), ask.rust("float", plain(count)), float_here(ask, count)]
    for count, zeros in (1, 16), (1000 * ONE, 11):
        padded = price(count) + "0" * zeros
        yield ["With zeros typed after it", "k " + padded, ask.rust("float", padded), float_here(ask, count)]
    yield time_row(ask)
    yield distance_row(ask, "A distance's decimal", USUAL)
    yield distance_row(ask, "The next billionth, not the nearest", USUAL._replace(k=2 * ONE))
    yield float_row(ask, "The smallest above zero", beyond(0.0))
    yield float_row(ask, "Halfway, below zero", -(2.0**-10))
    yield distance_row(ask, "Its digits, dropped one by one", USUAL._replace(k=14 * ONE))
    longer = ["100.0000000001"] + words(USUAL)[1:]
    yield ["More than nine decimals", "mid " + longer[0], ask.theirs(USUAL, asked=longer), "cannot be typed"]


def sample_rows(ask):
    for name, kind in ("counts", "uniform"), ("numbers of binary digits", "digits"):
        off, *found = ask.rust("sample", kind, SEED, DRAWN).split()
        low, high, at = (grouped(plain(int(found[i]))) for i in (0, 1, 3))
        share = "%s, %.2f %%" % (grouped(off), 100 * int(off) / DRAWN)
        yield ["all %s alike" % name, share, low, high, "%.2f at %s" % (float(found[2]), at)]


# ---- prices and limits
def parted(ask, where, entry=EXACT, side=None, **changes):
    """A desk's answers: the Rust's and ours, of both sides or of one."""
    desk = USUAL._replace(**changes)
    answers = [ask.theirs(desk, entry), ask.ours(desk, entry)]
    if side:
        answers = [side + " " + x.split(" / ")[side == "ask"] if " / " in x else x for x in answers]
    return [where, described(desk, entry)] + answers


def widened(ask, where, entry=EXACT, **changes):
    """A desk's bids, with the word where the min spread moved them."""
    row = parted(ask, where, entry, "bid", **changes)
    bare = parted(ask, where, entry, "bid", **dict(changes, min_spread=0))
    return row[:2] + [cell + ", widened" * (cell != without) for cell, without in zip(row[2:], bare[2:])]


def price_rows(ask):
    yield parted(ask, "A price's digits")
    yield parted(ask, "A distance rounded outward", k=2 * ONE)
    yield parted(ask, "A negative one, rounded up too", CLOSED_FORM, volatility=10**4 * ONE, holding=ONE, side="ask")
    yield parted(ask, "One of less than a billionth", risk_aversion=MOST, lot_size=10**4 * ONE, side="bid")
    yield parted(ask, "A price of a large distance", mid=8 * 10**6 * ONE, holding=-ONE, risk_aversion=100, k=100,
                 side="bid")
    yield widened(ask, "Half the shortfall", min_spread=1386294363)
    yield widened(ask, "A min spread that is met here alone", min_spread=1386294362)
    yield widened(ask, "One that is met there alone", CLOSED_FORM, mid=8 * 10**6 * ONE, holding=2 * ONE,
                  volatility=8 * 10**6 * ONE, a=1000, bound=3, min_spread=2014661003679363)
    yield parted(ask, "A spread below zero", holding=2 * 10**5 * ONE, volatility=10**4, risk_aversion=10**5 * ONE, k=1,
                 bound=3, lot_size=10**5 * ONE, current=0)
    yield parted(ask, "An amount beyond the limit", mid=MOST + 1, side="bid")
    yield parted(ask, "A time beyond the limit", terminal=MOST + 1, current=MOST + 1, side="bid")
    yield parted(ask, "The limits come first", mid=MOST + 1, bound=0)
    yield parted(ask, "A price beyond the limit", mid=MOST - 693147180, side="ask")
    yield parted(ask, "A distance beyond the limit", risk_aversion=77, k=77)
    yield parted(ask, "A bid of less than a billionth", mid=693147181, side="bid")
    *row, last = parted(ask, "Steps in the answer", current=0, side="bid")
    yield row + ["%s, %s step" % (last, ask.desk(USUAL._replace(current=0))[3])]


# ---- refusals
# where an error arises in glft.rs, and a call that meets it
MET = [
    ("GLFTConfig::validate", EXACT, dict(bound=0)),
    ("Model::new", EXACT, dict(mid=0)),
    ("inventory_lots", EXACT, dict(holding=3 * ONE // 2)),
    ("over_cap_error", WRAPPER, dict(terminal=22000001, current=0)),
    ("to_decimal", CLOSED_FORM, dict(volatility=MOST, risk_aversion=MOST, k=1, a=1, lot_size=MOST)),
    ("build_quotes", EXACT, dict(mid=ONE // 2)),
]


def plan_row(ask):
    large = bits_of(1e300)
    kind = ask.rust("vector", large, bits_of(1.0), 1, large).split()[1].split("(")[0]
    number = ask.float_entry(1.0, 1e300, 1.0, 1.0, 1, 1e300, 0)[1]
    return [kind, "`plan`", "floats alpha and tau 1e300, eta 1, bound 1", "refusal " + number]


def kind_rows(ask):
    """The kind of the Rust's error, where it arises, and the refusal's number."""
    rows = [plan_row(ask)]
    for where, entry, changes in MET:
        _, desk, kind, number = parted(ask, where, entry, **changes)
        rows.append([kind, "`%s`" % where, desk, number])
    return sorted(rows, key=lambda row: int(row[3].split()[1]))


TABLES = [
    ("Where|Argument|The nearest float|The platform|Here", elementary_rows),
    ("Argument|" + "|".join(FUNCTIONS), refusal_rows),
    ("Where|Input|The Rust|Here", decimal_rows),
    ("Where|Input|The Rust|Here", price_rows),
    ("Kind|From|Input|Here", kind_rows),
    ("Where|Input|The paper|The Rust, and here", papers.rows),
    ("Function|Arguments|Largest error|Mean|At|One part: largest|Mean|At", errors.rows),
    ("Argument|Logarithm|One part, off by|Two parts, off by", parts.far_rows),
    ("Lots held|Bid, one part|Bid, two parts|The paper", parts.long_rows),
    ("LN in|Prices|The paper's to the billionth|Largest error|Mean", parts.noise_rows),
    ("Amounts|Not the nearest|From|To|Largest error", sample_rows),
    ("q|Bid, 600 s left|1 s left|closed form|Ask, 600 s left|1 s left|closed form", papers.distance_rows),
    ("Time left|q within 10|within 20|within 25|within 30", papers.error_rows),
]


def line(cells):
    return "| %s |" % " | ".join(cells)


def differing(table, document):
    """How many rows of a table do not stand in the document; one where they do, but among others."""
    absent = [row for row in table if row not in document.splitlines()]
    for row in absent:
        print("not in the document: " + row)
    if not absent and "\n\n%s\n\n" % "\n".join(table) not in document:
        print("other rows, or another order, in the document: " + table[0])
        return 1
    return len(absent)


def main():
    glft, *programs = sys.argv[1:]
    ask = Asked(*programs)
    with open(DOCUMENT) as file:
        document = file.read()
    total = differ = 0
    for header, rows in TABLES:
        cells = header.split("|")
        table = [line(cells), "|---" * len(cells) + "|"] + [line(row) for row in rows(ask)]
        print("\n".join(table) + "\n")
        total += len(table) - 2
        differ += differing(table, document)
    with open(glft) as file:
        count, absent = items.missing(file.read(), document)
    print("%d public items of glft.rs; without a row or a name here: %s" % (count, ", ".join(absent) or "none"))
    if "`%s`" % LAST % (total, 0) not in document:
        print("the document has another number of rows")
        differ += 1
    print(LAST % (total, differ))
    sys.exit(1 if differ or absent else 0)


if __name__ == "__main__":
    main()
