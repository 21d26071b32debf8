"""How far LN, LN1P and EXP lie from the true values, in units in the last place.

    python3 distance.py LINES

LINES is what reckon.py wrote. The true values are mpmath's, with 200 binary digits. A unit is the
distance of two floats in the true value's binade, and never below 2^-1074. EXP is zero below -708
and infinite above 709 by its rule: those arguments are counted apart.
"""
import struct
import sys

import mpmath

mpmath.mp.prec = 200
SMALLEST = mpmath.ldexp(1, -1074)
SMALLEST_NORMAL = mpmath.ldexp(1, -1022)
LARGEST = mpmath.mpf(sys.float_info.max)

# for each function, the first range whose test passes
RANGES = {
    "LN": [
        ("subnormal x", lambda x: x < 2.0**-1022),
        ("0.75 < x <= 1.5, where e is 0", lambda x: 0.75 < x <= 1.5),
        ("other x from 2^-10 to 2^10", lambda x: 2.0**-10 <= x <= 2.0**10),
        ("smaller and larger x", lambda x: True),
    ],
    "LN1P": [
        ("r < 2^-1021, where r / 2 is subnormal", lambda r: r < 2.0**-1021),
        ("other r < 0.5, the series alone", lambda r: r < 0.5),
        ("r from 0.5 to 2^10", lambda r: r <= 2.0**10),
        ("larger r", lambda r: True),
    ],
    "EXP": [
        ("|x| <= 0.34, where N is 0", lambda x: abs(x) <= 0.34),
        ("other |x| <= 1", lambda x: abs(x) <= 1.0),
        ("other |x| <= 10", lambda x: abs(x) <= 10.0),
        ("other |x| <= 100", lambda x: abs(x) <= 100.0),
        ("x from -708 to 709 beyond that", lambda x: True),
    ],
}
TRUE = {"LN": mpmath.log, "LN1P": mpmath.log1p, "EXP": mpmath.exp}


def range_of(function, x):
    return next(name for name, test in RANGES[function] if test(x))


def float_of(digits):
    return struct.unpack(">d", bytes.fromhex(digits))[0]


def units(value, true):
    """|value - true| in units of the true value's last place."""
    if true == 0:
        return mpmath.mpf(0 if value == 0.0 else "inf")
    binade = mpmath.frexp(true)[1] - 1
    return abs(mpmath.mpf(value) - true) / mpmath.ldexp(1, max(binade - 52, -1074))


def by_rule(x):
    """What the true exponential is where EXP answers zero or infinity by its rule."""
    if abs(x) > 10000.0:
        return "far outside: true value beyond every float, or rounds to zero"
    true = mpmath.exp(x)
    if x > 0.0:
        return "above 709: true value " + ("a float's size" if true <= LARGEST else "beyond every float")
    if true >= SMALLEST_NORMAL:
        return "below -708: true value normal"
    return "below -708: true value " + ("subnormal" if 2 * true > SMALLEST else "rounds to zero")


def show(function, name, errors):
    worst, argument = max(errors)
    mean = sum(e for e, _ in errors) / len(errors)
    print("%-5s %-38s %5d  %6.4f  %6.4f  %r" % (function, name, len(errors), worst, mean, argument))


def main():
    errors = {f: {name: [] for name, _ in RANGES[f]} for f in RANGES}
    ruled = {}
    with open(sys.argv[1]) as lines:
        for line in list(lines)[1:]:  # the first is the NaN's
            argument, *answers = line.split()
            x = float_of(argument)
            for function, answer in zip(RANGES, answers):
                if answer == "R5":
                    continue
                if function == "EXP" and not -708.0 <= x <= 709.0:
                    ruled[by_rule(x)] = ruled.get(by_rule(x), 0) + 1
                    continue
                error = units(float_of(answer), TRUE[function](mpmath.mpf(x)))
                errors[function][range_of(function, x)].append((error, x))
    print("%-5s %-38s %5s  %6s  %6s  %s" % ("", "range", "count", "max", "mean", "worst argument"))
    for function, parts in errors.items():
        for name, part in parts.items():
            show(function, name, part)
        show(function, "all", sum(parts.values(), []))
    for kind in sorted(ruled):
        print("EXP by its rule, %s: %d" % (kind, ruled[kind]))


if __name__ == "__main__":
    main()
