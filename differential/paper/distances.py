"""How far the program's distances are from the 2013 paper's.

    python3 distances.py FLOATRUN DESKRUN

For each case of exact.py and each q from -Q to Q:

- FLOATRUN, the float entry, gets k, alpha, beta, eta and the base distance as the floats nearest to the
  paper's, and its two distances are held to Theorem 1's;
- DESKRUN, the quotes, gets amounts. Sigma goes from root seconds to root years of 365 days, to the
  nearest billionth, and the drift from seconds to such years. Mid less bid and ask less mid are held to
  Theorem 1's distances (`exact_quotes`) and to the closed form's (`closed_form_quotes`): a price lies
  outside the paper's, by less than a billionth. With a drift the closed form has to refuse, by 22.

A distance or price that is not within the bounds below, a side that only one of both has, and a line that
is no answer are faults. The first of them are told, and the status is 1 where there is one.
"""
import os
import struct
import subprocess
import sys

from mpmath import mp, mpf

import exact

sys.path.insert(0, os.path.join(os.path.dirname(os.path.abspath(__file__)), "..", "quote"))
import quoting  # noqa: E402

BILLION = 10**9
MID = 1000 * BILLION
YEAR = 31536000
DIGITS = 80
SIDES = ("bid", "ask")
TOLD = 10
# errors of a float distance: the largest that were measured are 5.00e-14 units, in the case "mu 0.2, sigma 5, Q 100"
# (4.04e-14 without a drift), and, relatively, 1.89e-13, in the case "Q 100, two minutes", of a distance of -0.023
ABSOLUTE_BOUND = 5.1e-14
RELATIVE_BOUND = 1.9e-13
# how far a price lies outside the paper's, in billionths: from 0 to 1 by rounding, and to either side what the float
# distance before it was measured to be off, with sigma as it is typed: up to 0.0006 in exact quotes, and 0.0017 in the
# closed form
LEAST_OUT, MOST_OUT = -0.002, 1.002


class Faults:
    """Counts the faults, and tells the first."""

    def __init__(self):
        self.count = 0

    def tell(self, *what):
        self.count += 1
        if self.count <= TOLD:
            print("fault: " + ", ".join(what))


def lots(case):
    return range(-case.bound, case.bound + 1)


def answers(program, kind, case, records, faults):
    """The fields of each q's line, where that is an answer."""
    out = subprocess.run([program], input=b"".join(records), stdout=subprocess.PIPE, check=True).stdout
    lines = out.decode().splitlines()
    if len(lines) != len(records):
        faults.tell(case.name, "%d lines for %d records" % (len(lines), len(records)))
    fields = {q: line.split() for q, line in zip(lots(case), lines)}
    for q in fields:
        if fields[q][:1] != [kind]:
            faults.tell(case.name, "q %d" % q, "no answer: " + " ".join(fields[q])[:60])
    return {q: f for q, f in fields.items() if f[:1] == [kind]}


def from_floats(program, case, faults):
    """The float entry's distances for each q, and its steps."""
    with mp.workdps(exact.DIGITS):
        s = exact.scales(case)
        # per unit of price: k and base go back from a lot to a unit; alpha, beta and eta, per second, have no price in
        # them
        floats = [float(x) for x in (s.k * s.lot, s.alpha, s.eta, s.base / s.lot)]
        beta = float(s.beta)
    records = [struct.pack("<4dQdqd", *floats, case.bound, float(case.seconds), q, beta) for q in lots(case)]
    distances, steps = {}, 0
    for q, fields in answers(program, "V", case, records, faults).items():
        steps = int(fields[1])
        distances[q] = [None if f == "-" else struct.unpack(">d", bytes.fromhex(f))[0] for f in fields[2:4]]
    return distances, steps


def desk(case, q):
    with mp.workdps(exact.DIGITS):
        amount = {name: int(mpf(getattr(case, name)) * BILLION) for name in ("a", "k", "gamma", "lot")}
        volatility = int(mp.nint(mpf(case.sigma) * mp.sqrt(YEAR) * BILLION))
        drift = int(mp.nint(mpf(case.mu) * YEAR * BILLION))
    return quoting.Desk(MID, q * amount["lot"], volatility, amount["gamma"], amount["k"], amount["a"], case.bound,
                        amount["lot"], 1000 * int(case.seconds), 0, 0, drift)


def from_quotes(program, case, entry, faults):
    """Mid less bid and ask less mid for each q, in billionths."""
    records = [quoting.pack(desk(case, q), entry) for q in lots(case)]
    distances = {}
    for q, (_, bid, ask, *_) in answers(program, "Q", case, records, faults).items():
        distances[q] = [None if bid == "-" else MID - int(bid), None if ask == "-" else int(ask) - MID]
    return distances


def refused(program, case, faults):
    """Holds the closed form to its refusal of a drift."""
    records = [quoting.pack(desk(case, q), quoting.CLOSED_FORM) for q in lots(case)]
    for q, fields in answers(program, "R", case, records, faults).items():
        if fields != ["R", "22"]:
            faults.tell(case.name, "q %d" % q, "closed form: refused by " + fields[1])


def pairs(what, case, ours, papers, faults):
    """Our distance and the paper's wherever there are both; one alone is a fault."""
    both = []
    for q in ours:
        for side, a, b in zip(SIDES, ours[q], papers[q]):
            if (a is None) != (b is None):
                faults.tell(case.name, "q %d" % q, side, what + (": absent" if a is None else ": present")
                            + " here and not in the paper")
            elif a is not None:
                both.append((q, side, mpf(a), b))
    return both


def floats_off(case, ours, papers, faults):
    """The largest absolute error of floatrun and the largest relative one; one above its bound is a fault."""
    largest = [mpf(0), mpf(0)]
    for q, side, a, b in pairs("floatrun", case, ours, papers, faults):
        errors = abs(a - b), abs(a - b) / abs(b)
        largest = list(map(max, largest, errors))
        if not (errors[0] <= ABSOLUTE_BOUND and errors[1] <= RELATIVE_BOUND):  # a NaN is off too
            faults.tell(case.name, "q %d" % q, side, "floatrun: off by %s units, relatively %s"
                        % tuple(mp.nstr(e, 3) for e in errors))
    return largest


def prices_off(what, case, ours, papers, faults):
    """The least and the most that deskrun's prices lie outside, in billionths; one not within the bounds is a fault."""
    out = []
    for q, side, a, b in pairs(what, case, ours, papers, faults):
        out.append(a - b * BILLION)
        if not LEAST_OUT <= out[-1] <= MOST_OUT:
            faults.tell(case.name, "q %d" % q, side, "%s: %s billionths outside" % (what, mp.nstr(out[-1], 4)))
    return min(out, default=mpf(0)), max(out, default=mpf(0))


def forms_off(case, deskrun, faults):
    """The least and the most that the closed form's prices lie outside; nothing where there is a drift."""
    if mpf(case.mu) != 0:
        refused(deskrun, case, faults)
        return ()
    with mp.workdps(exact.DIGITS):
        form = exact.closed_form(exact.scales(case), case.bound)
    return prices_off("closed form", case, from_quotes(deskrun, case, quoting.CLOSED_FORM, faults), form, faults)


def measured(case, floatrun, deskrun, faults):
    """The steps of a case, the two largest errors of its floats, and the least and most of its prices, twice."""
    theorem = exact.exact(case)
    floats, steps = from_floats(floatrun, case, faults)
    quotes = from_quotes(deskrun, case, quoting.EXACT, faults)
    with mp.workdps(DIGITS):
        return (steps, *floats_off(case, floats, theorem, faults),
                *prices_off("exact quotes", case, quotes, theorem, faults), *forms_off(case, deskrun, faults))


def main():
    floatrun, deskrun = sys.argv[1:]
    faults = Faults()
    absolute, relative, out = 0, 0, []
    print("%-28s %6s  %-22s  %s" % ("", "", "floatrun's distances:", "deskrun's prices, outside by billionths:"))
    print("%-28s %6s  %-11s %-11s %-20s %s" % ("case", "steps", "absolute", "relative", "exact quotes", "closed form"))
    for case in exact.CASES:
        steps, *errors = measured(case, floatrun, deskrun, faults)
        absolute, relative, out = max(absolute, errors[0]), max(relative, errors[1]), out + errors[2:]
        shown = [mp.nstr(e, 3) for e in errors[:2]]
        forms = "%.4f to %.4f" % tuple(errors[4:]) if errors[4:] else "refused"
        print("%-28s %6d  %-11s %-11s %.4f to %-10.4f %s" % (case.name, steps, *shown, *errors[2:4], forms))
    print("%d cases, %d faults; largest relative error %s (bound %s), absolute error %s units (bound %s), "
          "prices outside by %.4f to %.4f billionths (bounds %s and %s)"
          % (len(exact.CASES), faults.count, mp.nstr(relative, 3), RELATIVE_BOUND, mp.nstr(absolute, 3), ABSOLUTE_BOUND,
             min(out), max(out), LEAST_OUT, MOST_OUT))
    sys.exit(1 if faults.count else 0)


if __name__ == "__main__":
    main()
