"""Other readings of document 02, wish 14, and document 003, annex 3, 1.5, and the fours that tell each from the reckoner's.

A reading is its words with the names of `motorcycle` that it replaces. Readings that answer every four as the papers do
stand in EQUIVALENT, by the reason.
"""

import math
from fractions import Fraction
from itertools import count

import misread
import motorcycle
from make import bits_of
from misread import Single, half_down, half_to_even, reading, replaced, turned, with_sign
from motorcycle import is_level, is_pass, mean_quarters, refuse_no_level, refuse_sides, whole_decibels
from motorcycle_groups import HIGHEST, LOWEST
from reckon import HIGHEST_LEVEL, LOWEST_LEVEL, Refused, float_value, level_tenths, rounded
from sheets import decibels

paper = motorcycle.reckon


def values_of(floats):
    return [float_value(four) for four in floats]


# Roundings.

def in_steps(tenths, whole):
    """Two roundings, the first to tenths."""
    return lambda value: whole(Fraction(tenths(10 * value), 10))


def by_floats(kind):
    """Both roundings by floats of a kind."""
    def whole(value):
        tenths = math.floor(float(kind(10.0) * kind(float(value)) + kind(0.5)))
        return math.floor(float(kind(tenths) / kind(10.0) + kind(0.5)))
    return whole


ROUNDINGS = replaced(
    "whole_decibels",
    ("one rounding", rounded),
    ("one rounding, a half down", half_down),
    ("the first digit of the fraction decides", in_steps(math.floor, rounded)),
    ("tenths rounded up", in_steps(math.ceil, rounded)),
    ("a half of a tenth down", in_steps(half_down, rounded)),
    ("a half of a tenth to the even number", in_steps(half_to_even, rounded)),
    ("a half of a dB down", in_steps(rounded, half_down)),
    ("a half of a dB to the even number", in_steps(rounded, half_to_even)),
    ("both halves down", in_steps(half_down, half_down)),
    ("the fraction of a dB dropped", in_steps(rounded, math.floor)),
    ("the fraction of the float dropped", math.floor),
    ("whole dB rounded up", in_steps(rounded, math.ceil)),
    ("hundredths before the tenths", lambda value: whole_decibels(Fraction(rounded(100 * value), 100))),
    ("half decibels for tenths", lambda value: rounded(Fraction(rounded(2 * value), 2))),
    ("tenths, and no whole dB", lambda value: Fraction(level_tenths(value), 10)),
    ("no rounding", lambda value: value),
    ("both roundings by 32-bit floats", by_floats(Single)),
    ("both roundings by 64-bit floats", by_floats(float)),
)


# Refusal 22: which floats.

def range_of(change):
    """The range asked of a changed value."""
    return lambda value: value is not None and LOWEST_LEVEL <= change(value) <= HIGHEST_LEVEL


def also_a_level(test):
    """Patterns that a test takes are read as 80.0."""
    return lambda floats, limit: paper([decibels(80) if test(bits_of(four)) else four for four in floats], limit)


def is_nan(bits):
    return bits & 0x7FFFFFFF > 0x7F800000


def is_quiet(bits):
    return bits & 0x00400000 != 0


def by_patterns(floats, limit):
    """The range asked of the patterns, as whole numbers."""
    for at, four in enumerate(floats, start=1):
        if not bits_of(LOWEST) <= bits_of(four) <= bits_of(HIGHEST):
            raise Refused(22, at)
    return paper(floats, limit)


RANGES = replaced(
    "is_level",
    ("the range of the tenths", range_of(lambda value: Fraction(level_tenths(value), 10))),
    ("the range of the whole dB", range_of(whole_decibels)),
    ("the range of the float rounded once", range_of(rounded)),
    ("the range of the whole part", range_of(math.floor)),
    ("the range after the dB is taken off", range_of(lambda value: value - 1)),
    ("the range without the sign", range_of(abs)),
    ("20.0 is no level", lambda value: is_level(value) and value != LOWEST_LEVEL),
    ("140.0 is no level", lambda value: is_level(value) and value != HIGHEST_LEVEL),
    ("no lowest level", lambda value: value is not None and value <= HIGHEST_LEVEL),
    ("0.0 is the lowest level", lambda value: value is not None and 0 <= value <= HIGHEST_LEVEL),
    ("no highest level", lambda value: value is not None and value >= LOWEST_LEVEL),
    ("any finite number is a level", lambda value: value is not None),
    ("a number that is not finite is 0", lambda value: is_level(value or 0)),
) + replaced(
    "reckon",
    ("a NaN is a level", also_a_level(is_nan)),
    ("a quiet NaN is a level", also_a_level(lambda bits: is_nan(bits) and is_quiet(bits))),
    ("a signalling NaN is a level", also_a_level(lambda bits: is_nan(bits) and not is_quiet(bits))),
    ("a NaN with a minus is a level", also_a_level(lambda bits: is_nan(bits) and bits >> 31)),
    ("infinity is a level", also_a_level(lambda bits: bits == 0x7F800000)),
    ("minus infinity is a level", also_a_level(lambda bits: bits == 0xFF800000)),
    ("zero is a level", also_a_level(lambda bits: bits == 0)),
    ("minus zero is a level", also_a_level(lambda bits: bits == 0x80000000)),
    ("a subnormal float is a level", also_a_level(lambda bits: bits & 0x7F800000 == 0 and bits & 0x7FFFFF)),
    ("the range of the patterns", by_patterns),
    ("the high byte of a float first", lambda floats, limit: paper([four[::-1] for four in floats], limit)),
)


# Refusals 22 and 23: orders and places.

def no_levels(*numbers, place=lambda number: number):
    """Refusal 22 with the floats asked in this order."""
    def refuse(values):
        for number in numbers:
            if not is_level(values[number - 1]):
                raise Refused(22, place(number))
    return refuse


def sides(*asked):
    """Refusal 23 for the place and the two numbers of each side, in this order."""
    def refuse(levels):
        for place, first, second in asked:
            if abs(levels[first - 1] - levels[second - 1]) > 2:
                raise Refused(23, place)
    return refuse


def sides_before_range(floats, limit):
    """A side with two finite floats is asked before any range."""
    values = values_of(floats)
    for place, two in ((1, values[:2]), (2, values[2:])):
        if None not in two and abs(whole_decibels(two[0]) - whole_decibels(two[1])) > 2:
            raise Refused(23, place)
    return paper(floats, limit)


def side_by_side(floats, limit):
    """Range and difference of the left, and then those of the right."""
    left = values_of(floats[:2])
    refuse_no_level(left)
    first, second = (whole_decibels(value) for value in left)
    refuse_sides([first, second, 0, 0])
    return paper(floats, limit)


PLACES = replaced(
    "refuse_no_level",
    ("22 at the highest number", no_levels(4, 3, 2, 1)),
    ("22 on the right first", no_levels(3, 4, 1, 2)),
    ("22 on the sides in turn", no_levels(1, 3, 2, 4)),
    ("22 at the second of a side first", no_levels(2, 1, 4, 3)),
    ("22 counted from 0", no_levels(1, 2, 3, 4, place=lambda number: number - 1)),
    ("22 at the side", no_levels(1, 2, 3, 4, place=lambda number: (number + 1) // 2)),
    ("22 at 0", no_levels(1, 2, 3, 4, place=lambda number: 0)),
    ("22 not asked of 1", no_levels(2, 3, 4)),
    ("22 not asked of 2", no_levels(1, 3, 4)),
    ("22 not asked of 3", no_levels(1, 2, 4)),
    ("22 not asked of 4", no_levels(1, 2, 3)),
) + replaced(
    "refuse_sides",
    ("23 on the right first", sides((2, 3, 4), (1, 1, 2))),
    ("23 counted from 0", sides((0, 1, 2), (1, 3, 4))),
    ("23 at the first number of the side", sides((1, 1, 2), (3, 3, 4))),
    ("23 at the second number of the side", sides((2, 1, 2), (4, 3, 4))),
    ("23 with the sides turned", sides((2, 1, 2), (1, 3, 4))),
    ("23 at 0", sides((0, 1, 2), (0, 3, 4))),
    ("23 not asked of the left", sides((2, 3, 4))),
    ("23 not asked of the right", sides((1, 1, 2))),
    ("23 not asked", sides()),
    ("1 and 3 left, 2 and 4 right", sides((1, 1, 3), (2, 2, 4))),
    ("1 and 4 left, 2 and 3 right", sides((1, 1, 4), (2, 2, 3))),
    ("2 and 3 asked too", sides((1, 1, 2), (1, 2, 3), (2, 3, 4))),
    ("any two asked", sides((1, 1, 2), (1, 1, 3), (1, 1, 4), (1, 2, 3), (1, 2, 4), (2, 3, 4))),
) + replaced(
    "reckon",
    ("sides before the range", sides_before_range),
    ("range and difference side by side", side_by_side),
)


# Refusal 23: which differences.

def differ(test):
    """Refusal 23 by a test of the two of a side."""
    def refuse(levels):
        for place, two in ((1, levels[:2]), (2, levels[2:])):
            if test(*two):
                raise Refused(23, place)
    return refuse


def differ_exactly(test):
    """Refusal 23 by a test of the exact values, all other steps as they are."""
    def reckon(floats, limit):
        values = values_of(floats)
        refuse_no_level(values)
        differ(test)(values)
        with reading({"refuse_sides": lambda levels: None}, motorcycle):
            return paper(floats, limit)
    return reckon


def tenths_apart(first, second):
    return abs(level_tenths(first) - level_tenths(second))


DIFFERENCES = replaced(
    "refuse_sides",
    ("1 dB refused", differ(lambda first, second: abs(first - second) >= 1)),
    ("2 dB refused", differ(lambda first, second: abs(first - second) >= 2)),
    ("3 dB allowed", differ(lambda first, second: abs(first - second) > 3)),
    ("no difference but 3 dB refused", differ(lambda first, second: abs(first - second) == 3)),
    ("only a louder first refused", differ(lambda first, second: first - second > 2)),
    ("only a louder second refused", differ(lambda first, second: second - first > 2)),
    ("the difference by 8 bits", differ(lambda first, second: (first - second) % 256 > 2)),
    ("the sides' sums asked too", lambda levels: refuse_sides([*levels[:2], sum(levels[:2]), sum(levels[2:])])),
    ("the difference after the dB is taken off", lambda levels: refuse_sides([level - 1 for level in levels])),
) + replaced(
    "reckon",
    ("the difference of the tenths", differ_exactly(lambda first, second: tenths_apart(first, second) > 20)),
    ("the difference of the tenths, in whole dB",
     differ_exactly(lambda first, second: rounded(Fraction(tenths_apart(first, second), 10)) > 2)),
    ("the difference of the floats", differ_exactly(lambda first, second: abs(first - second) > 2)),
    ("the difference of the floats, in whole dB", differ_exactly(lambda first, second: rounded(abs(first - second)) > 2)),
    ("the difference of floats rounded once", differ_exactly(lambda first, second: abs(rounded(first) - rounded(second)) > 2)),
)


# The mean.

def less_one_first(floats, limit):
    """The dB taken from the exact values, before the roundings."""
    with reading({"whole_decibels": lambda value: whole_decibels(value - 1), "TAKEN_OFF": 0}, motorcycle):
        return paper(floats, limit)


def mean_of_side_means(levels):
    """The mean of each side in whole dB."""
    left, right = (rounded(Fraction(sum(two), 2)) for two in (levels[:2], levels[2:]))
    return 2 * (left + right) - 4


MEANS = replaced(
    "mean_quarters",
    ("no dB taken off", sum),
    ("a quarter of a dB taken from each", lambda levels: sum(levels) - 1),
    ("a dB taken from one of each side", lambda levels: sum(levels) - 2),
    ("a dB taken from three", lambda levels: sum(levels) - 3),
    ("2 dB taken from each", lambda levels: sum(levels) - 8),
    ("a dB added to each", lambda levels: sum(levels) + 4),
    ("the dB taken from the mean", lambda levels: 4 * (Fraction(sum(levels), 4) - 1)),
    ("a mean in whole dB", lambda levels: 4 * rounded(Fraction(mean_quarters(levels), 4))),
    ("a mean in whole dB, the fraction dropped", lambda levels: mean_quarters(levels) // 4 * 4),
    ("a mean in half decibels", lambda levels: 2 * rounded(Fraction(mean_quarters(levels), 2))),
    ("the mean of the sides' means in whole dB", mean_of_side_means),
    ("the louder side's mean", lambda levels: 2 * max(sum(levels[:2]), sum(levels[2:])) - 4),
    ("the left side's mean", lambda levels: 2 * sum(levels[:2]) - 4),
    ("the right side's mean", lambda levels: 2 * sum(levels[2:]) - 4),
    ("the highest level", lambda levels: 4 * max(levels) - 4),
    ("the mean by 8 bits", lambda levels: mean_quarters(levels) % 256),
    ("the mean by 9 bits", lambda levels: mean_quarters(levels) % 512),
) + replaced("reckon", ("the dB taken before the roundings", less_one_first))


# The limit.

LIMITS = replaced(
    "is_pass",
    ("only a mean below the limit passes", lambda mean, limit: mean < 4 * limit),
    ("4 × limit by 16 bits", lambda mean, limit: mean <= 4 * limit % 2 ** 16),
    ("4 × limit by 16 bits with a sign", lambda mean, limit: mean <= with_sign(4 * limit)),
    ("4 × limit by 17 bits", lambda mean, limit: mean <= 4 * limit % 2 ** 17),
    ("4 × limit at most 65,535", lambda mean, limit: mean <= min(4 * limit, 2 ** 16 - 1)),
    ("4 × limit by 8 bits", lambda mean, limit: mean <= 4 * limit % 2 ** 8),
    ("the limit by 8 bits", lambda mean, limit: mean <= 4 * (limit % 2 ** 8)),
    ("the limit by 15 bits", lambda mean, limit: mean <= 4 * (limit % 2 ** 15)),
    ("the limit with a sign", lambda mean, limit: mean <= 4 * with_sign(limit)),
    ("the limit's high byte first", lambda mean, limit: mean <= 4 * turned(limit)),
    ("the limit in quarters", lambda mean, limit: mean <= limit),
    ("the limit in tenths", lambda mean, limit: 10 * mean <= 4 * limit),
    ("a limit of 0 is none", lambda mean, limit: limit == 0 or is_pass(mean, limit)),
    ("a limit below 20 is none", lambda mean, limit: limit < 20 or is_pass(mean, limit)),
    ("nothing passes a limit above 140", lambda mean, limit: limit <= 140 and is_pass(mean, limit)),
    ("the mean in whole dB against the limit", lambda mean, limit: rounded(Fraction(mean, 4)) <= limit),
    ("the mean in whole dB, a half down, against the limit", lambda mean, limit: half_down(Fraction(mean, 4)) <= limit),
    ("the whole part of the mean against the limit", lambda mean, limit: mean // 4 <= limit),
    ("the mean rounded up against the limit", lambda mean, limit: -(-mean // 4) <= limit),
    ("the mean with the dB against the limit", lambda mean, limit: mean + 4 <= 4 * limit),
    ("a dB more taken off for the limit", lambda mean, limit: mean - 4 <= 4 * limit),
    ("a quarter of a dB above the limit passes", lambda mean, limit: mean <= 4 * limit + 1),
    ("pass and fail turned", lambda mean, limit: not is_pass(mean, limit)),
    ("always a pass", lambda mean, limit: True),
    ("always a fail", lambda mean, limit: False),
)


# The readings of a level once more, each at one number, and some of a side, each for one side.

def at_number(number, changes):
    """A reading of one of the four: the function that it replaces is called for one after the other."""
    (name, other), = changes.items()
    own = vars(motorcycle)[name]

    def reckon(floats, limit):
        numbers = count(1)
        with reading({name: lambda value: (other if next(numbers) == number else own)(value)}, motorcycle):
            return paper(floats, limit)
    return {"reckon": reckon}


def on_side(side, changes):
    """A reading of the difference on one side; the other one stays."""
    def refuse(levels):
        for at, two in ((1, [*levels[:2], 0, 0]), (2, [0, 0, *levels[2:]])):
            (changes["refuse_sides"] if at == side else refuse_sides)(two)
    return {"refuse_sides": refuse}


OF_A_LEVEL = [one for one in ROUNDINGS + RANGES if "reckon" not in one[1]]
EACH_NUMBER = [(f"{words}, at {number}", at_number(number, changes)) for words, changes in OF_A_LEVEL for number in (1, 2, 3, 4)]
EACH_SIDE = [(f"{words}, {name} only", on_side(side, changes)) for words, changes in DIFFERENCES if "refuse_sides" in changes
             for side, name in ((1, "left"), (2, "right")) if "sums" not in words]

READINGS = ROUNDINGS + RANGES + PLACES + DIFFERENCES + MEANS + LIMITS + EACH_NUMBER + EACH_SIDE

# Readings that give the same answer on every four, by the reason.
EQUIVALENT = {
    "a float that is half of a tenth is x.25 or x.75, and whole dB are the same from the tenth below and above it": [
        "a half of a tenth down", "a half of a tenth to the even number"],
    "ten times a 32-bit float is exact in 64 bits, and so is x.5; any other tenth is further from it than the error": [
        "both roundings by 64-bit floats"],
    "0 is no level": ["a number that is not finite is 0"],
    "floats that are not negative stand in the order of their patterns; the others have higher ones": ["the range of the patterns"],
    "a whole dB goes through every rounding and every difference": [
        "the difference after the dB is taken off", "the dB taken before the roundings", "the dB taken from the mean"],
    "no mean is above 556": ["4 × limit at most 65,535"],
    "the limit is whole": ["the mean rounded up against the limit"],
}


def tell_apart(fours):
    return misread.tell_apart(motorcycle, READINGS, EQUIVALENT, fours, "fours")
