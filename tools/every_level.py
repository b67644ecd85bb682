#!/usr/bin/env python3
"""What the test program `every_level` must print: every 32-bit float from 20.0 to 140.0 rounded to a tenth.

    python3 tools/every_level.py > crates/every_level/stdout
    python3 tools/every_level.py | cmp - crates/every_level/stdout

It is reckoned by fractions from the bounds of each tenth, not float by float. A line `from L N D S T` stands for the
floats of ten decibels from L on (140.0 alone in the last): N of them, D that differ (none), the sum S of their tenths,
and the sum T of the sums after each of them, modulo 2^64. A line `pattern P T` gives the tenths of one pattern, or 0 if
it is no level.
"""

from fractions import Fraction

from make import bits_of, lowest_float
from reckon import HIGHEST_LEVEL, LOWEST_LEVEL, rounded

LAST = bits_of(lowest_float(HIGHEST_LEVEL))

PATTERNS = (0x419FFFFF, 0x41A00000, 0x430C0000, 0x430C0001, 0x7F7FFFFF, 0x7F800000, 0xFF800000, 0x7F800001,
            0x7FC00000, 0x7FFFFFFF, 0xFFC00000, 0xFFFFFFFF, 0x00000000, 0x80000000, 0x00000001, 0x00800000,
            0xC1A00000, 0xC2A00000, 0xC30C0000)


def first_pattern(bound):
    """The pattern of the lowest float that is not below a bound."""
    return bits_of(lowest_float(bound))


def blocks(lowest, end):
    """The patterns from a level to before another, as (tenths, how many), in rising order."""
    start, stop = first_pattern(lowest), min(first_pattern(end), LAST + 1)
    tenth = rounded(lowest * 10)
    while start < stop:
        after = min(first_pattern(Fraction(2 * tenth + 1, 20)), stop)
        yield tenth, after - start
        start, tenth = after, tenth + 1


def tally(lowest, end):
    """How many floats, the sum of their tenths, and the sum of the sums after each."""
    count = total = totals = 0
    for tenth, many in blocks(Fraction(lowest), Fraction(end)):
        totals += many * total + tenth * many * (many + 1) // 2
        total += tenth * many
        count += many
    return count, total, totals % 2 ** 64


def value(pattern):
    """The exact value of a pattern (IEEE 754, binary32); None for an infinity or a NaN."""
    sign, exponent, fraction = pattern >> 31, pattern >> 23 & 255, pattern & 0x7FFFFF
    if exponent == 255:
        return None
    significand = fraction if exponent == 0 else fraction + 2 ** 23
    return (-1) ** sign * significand * Fraction(2) ** (max(exponent, 1) - 150)


def tenths(pattern):
    level = value(pattern)
    return 0 if level is None or not LOWEST_LEVEL <= level <= HIGHEST_LEVEL else rounded(level * 10)


def main():
    for lowest in range(20, 150, 10):
        count, total, totals = tally(lowest, lowest + 10)
        print(f"from {lowest} {count} 0 {total} {totals}")
    for pattern in PATTERNS:
        print(f"pattern {pattern} {tenths(pattern)}")


if __name__ == "__main__":
    main()
