"""Building sheets from named fields (document 01, "The sheet"; document 02, wishes 1 and 8).

A background is the left's unless it is called the right's, and the right's is zero unless given: the same as the left's.
The phase and the byte of low cars are zero unless given, as beside a written limit.
"""

from fractions import Fraction
from math import isqrt

from reckon import ACCELERATION_RUN, CLOSING, CONSTANT_RUN, LEVEL, VEHICLE, rounded


def float_bytes(value):
    """The 32-bit float nearest to a positive value (a half to the even one), low byte first."""
    value = Fraction(value)
    exponent = 0
    while value >= 2 ** (exponent + 1):
        exponent += 1
    while value < Fraction(2) ** exponent:
        exponent -= 1
    significand = round(value * Fraction(2) ** (23 - exponent))  # whole-number rounding of a Fraction
    return ((exponent + 127 << 23) + significand - 2 ** 23).to_bytes(4, "little")


def tenths(level):
    """The float nearest to a level in tenths of dB(A)."""
    return float_bytes(Fraction(level, 10))


def decibels(text):
    """The float nearest to a level written in dB(A)."""
    return float_bytes(Fraction(text))


def put(record, at, value):
    record[at:at + 2] = value.to_bytes(2, "little")


def vehicle(category=1, start_line=0, power=1000, mass=1500, length=450, rated_speed=6000, background=400, limit=72,
            right_background=0, phase=0, low_car=0):
    record = bytearray(32)
    record[0:3] = bytes([VEHICLE, category, start_line])
    for at, value in zip(range(4, 16, 2), (power, mass, length, rated_speed, background, limit)):
        put(record, at, value)
    record[16:18] = bytes([phase, low_car])
    put(record, 18, right_background)
    return bytes(record)


def run(kind, gear, left, right, start=500, end=500, engine=4000, struck=0, left_kind=LEVEL, right_kind=LEVEL):
    """A run record; `left` and `right` are the four bytes of the floats."""
    record = bytearray(32)
    record[0:5] = bytes([kind, gear, struck, left_kind, right_kind])
    record[8:12], record[12:16] = left, right
    for at, value in zip((16, 18, 20), (start, end, engine)):
        put(record, at, value)
    return bytes(record)


def closing(runs, background=400, right_background=0):
    record = bytearray(32)
    record[0] = CLOSING
    put(record, 2, runs)
    put(record, 4, background)
    put(record, 6, right_background)
    return bytes(record)


def sheet(first, runs, background=400, right_background=0):
    """A sheet whose closing record has the right number of runs."""
    return first + b"".join(runs) + closing(len(runs), background, right_background)


def speeds_for(a, distance=2450, lowest_end=10):
    """Start and end speeds whose run acceleration is `a` hundredths; `distance` is c + length (step 6)."""
    squares = 162 * distance * a // 625
    for end in range(max(lowest_end, isqrt(squares + 100)), 1501):
        near = isqrt(max(end * end - squares, 0))
        for start in range(max(near - 1, 10), min(near + 2, end) + 1):
            if rounded(Fraction(625 * (end * end - start * start), 162 * distance)) == a:
                return start, end
    raise ValueError(f"no speeds for an acceleration of {a} over {distance}")


def worked_runs():
    """The runs of document 01's whole sheet: four of each line of its table."""
    lines = (
        (ACCELERATION_RUN, 2, 430, 570, ("74.0",) * 4, "74.0"),
        (ACCELERATION_RUN, 3, 442, 545, ("72.5", "72.5", "72.25", "72.25"), "71.5"),
        (ACCELERATION_RUN, 4, 470, 539, ("70.125",) * 4, "70.0"),
        (CONSTANT_RUN, 3, 500, 500, ("66.0",) * 4, "65.5"),
        (CONSTANT_RUN, 4, 500, 500, ("65.0",) * 4, "65.1875"),
    )
    return [run(kind, gear, decibels(left), decibels(right), start, end)
            for kind, gear, start, end, lefts, right in lines for left in lefts]


def worked_sheet():
    """Document 01, "Whole sheet"."""
    return sheet(vehicle(), worked_runs())
