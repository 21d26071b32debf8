"""The corner floats, each with the lines that the rule tells for it and for its negative, worked by hand.

A line is a count of billionths, rounded up, or a refusal. rounding.py is held to them. A float is a whole
number of billionths just where it is a whole number of 512ths: 10^9 is 512 times an odd number.
"""
import sys

import rounding

SIGN = 2**63
NAN = 0x7FF8000000000000

CASES = [
    # zero, the smallest float, the largest subnormal one, and the next
    (0x0000000000000000, "0", "0"),
    (0x0000000000000001, "1", "0"),
    (0x000FFFFFFFFFFFFF, "1", "0"),
    (0x0010000000000000, "1", "0"),
    # 2^-31 is 0.466 billionths
    (0x3DFFFFFFFFFFFFFF, "1", "0"),
    (0x3E00000000000000, "1", "0"),
    (0x3E00000000000001, "1", "0"),
    # 2^-30 is 0.931 billionths
    (0x3E0FFFFFFFFFFFFF, "1", "0"),
    (0x3E10000000000000, "1", "0"),
    (0x3E10000000000001, "1", "0"),
    # the float nearest to a billionth is above it: 1.00000000000000006
    (0x3E112E0BE826D694, "1", "0"),
    (0x3E112E0BE826D695, "2", "-1"),
    (0x3E112E0BE826D696, "2", "-1"),
    # 2^-29 is 1.863 billionths
    (0x3E1FFFFFFFFFFFFF, "2", "-1"),
    (0x3E20000000000000, "2", "-1"),
    (0x3E20000000000001, "2", "-1"),
    # 2^-10 is 976,562.5 billionths, and 3 * 2^-10 is 2,929,687.5: the even one is below, and above
    (0x3F4FFFFFFFFFFFFF, "976563", "-976562"),
    (0x3F50000000000000, "976563", "-976562"),
    (0x3F50000000000001, "976563", "-976562"),
    (0x3F67FFFFFFFFFFFF, "2929688", "-2929687"),
    (0x3F68000000000000, "2929688", "-2929687"),
    (0x3F68000000000001, "2929688", "-2929687"),
    # 1/512 is 1,953,125 billionths
    (0x3F5FFFFFFFFFFFFF, "1953125", "-1953124"),
    (0x3F60000000000000, "1953125", "-1953125"),
    (0x3F60000000000001, "1953126", "-1953125"),
    # 257/512
    (0x3FE00FFFFFFFFFFF, "501953125", "-501953124"),
    (0x3FE0100000000000, "501953125", "-501953125"),
    (0x3FE0100000000001, "501953126", "-501953125"),
    # 0.5 and 1
    (0x3FDFFFFFFFFFFFFF, "500000000", "-499999999"),
    (0x3FE0000000000000, "500000000", "-500000000"),
    (0x3FE0000000000001, "500000001", "-500000000"),
    (0x3FEFFFFFFFFFFFFF, "1000000000", "-999999999"),
    (0x3FF0000000000000, "1000000000", "-1000000000"),
    (0x3FF0000000000001, "1000000001", "-1000000000"),
    # the logarithm of 2 is 693,147,180.56 billionths
    (0x3FE62E42FEFA39EF, "693147181", "-693147180"),
    # 2^22, with neighbours 0.47 billionths below and 0.93 above
    (0x414FFFFFFFFFFFFF, "4194304000000000", "-4194303999999999"),
    (0x4150000000000000, "4194304000000000", "-4194304000000000"),
    (0x4150000000000001, "4194304000000001", "-4194304000000000"),
    # 2^23, with neighbours 0.93 billionths below and 1.86 above
    (0x415FFFFFFFFFFFFF, "8388608000000000", "-8388607999999999"),
    (0x4160000000000000, "8388608000000000", "-8388608000000000"),
    (0x4160000000000001, "8388608000000002", "-8388608000000001"),
    # 9,000,000, the limit, with neighbours 1.86 billionths away
    (0x41612A87FFFFFFFE, "8999999999999997", "-8999999999999996"),
    (0x41612A87FFFFFFFF, "8999999999999999", "-8999999999999998"),
    (0x41612A8800000000, "9000000000000000", "-9000000000000000"),
    (0x41612A8800000001, "R 13", "R 13"),
    (0x41612A8800000002, "R 13", "R 13"),
    # 2^24 and above
    (0x416FFFFFFFFFFFFF, "R 13", "R 13"),
    (0x4170000000000000, "R 13", "R 13"),
    (0x4170000000000001, "R 13", "R 13"),
    (0x41D0000000000000, "R 13", "R 13"),
    (0x4330000000000000, "R 13", "R 13"),
    (0x43E0000000000000, "R 13", "R 13"),
    (0x7FEFFFFFFFFFFFFF, "R 13", "R 13"),
    # infinity
    (0x7FF0000000000000, "R 11", "R 11"),
]


def patterns():
    """The floats, their negatives and a NaN."""
    told = [pair for bits, line, opposite in CASES for pair in ((bits, line), (SIGN + bits, opposite))]
    told.append((NAN, "R 11"))
    for bits, line in told:
        if rounding.line(bits) != line + "\n":
            sys.exit("cases.py: %016X: %r, and not %s" % (bits, rounding.line(bits), line))
    return [bits for bits, _ in told]
