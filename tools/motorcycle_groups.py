"""The fours of levels that `crates/four_levels` evaluates. Each group is a generator of (floats, limit) from a pseudo-random
source; the floats are four bytes each, low byte first, 1 and 2 left, 3 and 4 right."""

from fractions import Fraction
from itertools import combinations, permutations

from make import bits_of, float_at_edge, float_step, lowest_float
from reckon import HIGHEST_LEVEL, LOWEST_LEVEL, float_value
from sheets import decibels, tenths

LOWEST, HIGHEST = decibels(LOWEST_LEVEL), decibels(HIGHEST_LEVEL)
LOWEST_MEAN, HIGHEST_MEAN = 76, 556  # quarters of a dB
HIGHEST_LIMIT = 65535
WRAPS = 16384  # four times this limit is 2^16


# Floats and levels.

def pattern(bits):
    return bits.to_bytes(4, "little")


def beside(bound):
    """The float just below a bound in dB, the lowest that is not, and the one above it."""
    lowest = lowest_float(Fraction(bound))
    return float_step(lowest, -1), lowest, float_step(lowest, 1)


def some_float(random, level):
    """A float that is `level` in whole dB: at an edge of a tenth, or the nearest to it."""
    tenth = random.between(max(10 * level - 5, 200), min(10 * level + 4, 1400))
    return float_at_edge(tenth, random.pick((-1, 0, 0, 1)))


def any_level(random):
    """Any float from 20.0 to 140.0."""
    return pattern(random.between(bits_of(LOWEST), bits_of(HIGHEST)))


def usual(random):
    """Four floats whose sides differ by 2.0 dB at most."""
    tenth = random.between(650, 950)
    return [tenths(tenth + random.between(-10, 10)) for _ in range(4)]


def with_floats(floats, changes):
    """Four floats with some of them replaced, by their place from 0."""
    return tuple(changes.get(at, four) for at, four in enumerate(floats))


def with_side(side, two, others):
    """Four floats with `two` on a side, 0 left and 1 right."""
    return (*others, *two) if side else (*two, *others)


def whole(*levels):
    """Floats of levels in whole dB."""
    return tuple(decibels(level) for level in levels)


# No levels.

NO_LEVELS = (
    # beside the range, also where a rounding would bring the float into it
    *(bits_of(LOWEST) - step for step in (1, 2, 3)), *(bits_of(HIGHEST) + step for step in (1, 2, 3)),
    *(bits_of(four) for bound in ("19.95", "19.5", "19.45", "140.05", "140.5", "140.45") for four in beside(bound)[:2]),
    *(bits_of(decibels(level)) for level in ("19.9", "19.0", "140.1", "141.0", "10.0", "2.0", "1.0", "200.0")),
    # levels in tenths and in bels, and floats that are levels once a high bit is lost
    *(bits_of(decibels(level)) for level in ("800.0", "720.0", "8.0", "276.0", "336.0", "65616.0", "16777216.0")),
    # infinities, quiet and signalling NaNs
    0x7F800000, 0xFF800000, 0x7FC00000, 0xFFC00000, 0x7FFFFFFF, 0xFFFFFFFF, 0x7F800001, 0xFF800001, 0x7FBFFFFF, 0xFFBFFFFF,
    0x7FA00000, 0xFFA00000, 0x7FC2A000,
    # zeros, subnormals and the least normal floats; 80.0 with its bytes turned, and 80 and 800 as whole numbers
    0x00000000, 0x80000000, 0x00000001, 0x80000001, 0x007FFFFF, 0x807FFFFF, 0x00800000, 0x80800000,
    0x0000A042, 0x00000050, 0x00000320,
    # levels with a minus, and the largest finite floats
    0xC1A00000, 0xC2A00000, 0xC30C0000, 0xC19FFFFF, 0xC30C0001, 0xC2900000, 0x7F7FFFFF, 0xFF7FFFFF,
)


def no_level_at_each_number(random):
    """Each of these patterns, at each number."""
    for bits in NO_LEVELS:
        for at in range(4):
            yield with_floats(usual(random), {at: pattern(bits)}), random.between(60, 90)


def ends_of_the_range(random):
    """Floats at and beside 20.0 and 140.0 at each number, beside levels that they do not differ from."""
    for bound, inner in ((20, 21), (140, 139)):
        for at in range(4):
            for four in beside(bound):
                for other in (bound, inner):
                    yield with_floats(whole(*[other] * 4), {at: four}), other - 1


def several_no_levels(random):
    """Each set of two to four numbers without a level: the lowest of them is told."""
    for count in (2, 3, 4):
        for places in combinations(range(4), count):
            for _ in range(8):
                yield with_floats(usual(random), {at: pattern(random.pick(NO_LEVELS)) for at in places}), 80


def no_level_and_a_side(random):
    """A float that is no level beside a side that differs, its own or the other: all four are asked before any side."""
    for at in range(4):
        for bits in NO_LEVELS[::4]:
            apart = whole(*random.pick(((80, 83), (84, 80), (20, 140), (70, 90))))
            floats = with_side(at // 2, usual(random)[:2], apart)
            yield with_floats(floats, {at: pattern(bits)}), 80
        for end, outward in ((LOWEST, -1), (HIGHEST, 1)):
            for partner in (80, 23, 137, 20, 140):
                yield with_floats(whole(*[partner] * 4), {at: float_step(end, outward)}), 80
                yield with_floats(whole(*[partner] * 4), {at: end}), 80


# Sides.

# The tenths of two levels above a whole dB: they are 2 dB apart in whole dB, and 3 dB.
TWO_APART = ((0, 20), (0, 24), (4, 24), (4, 15), (5, 25), (5, 34), (9, 29), (9, 34), (3, 21))
THREE_APART = ((0, 25), (0, 30), (4, 25), (4, 34), (5, 35), (3, 26), (0, 34), (9, 35))


def differences_of_two_and_three(random):
    """Sides at and past the edge, from many tenths, in both orders, left and right."""
    for level in range(20, 137, 13):
        for low, high in TWO_APART + THREE_APART:
            two = tenths(10 * level + low), tenths(10 * level + high)
            for side in (0, 1):
                for ordered in (two, two[::-1]):
                    yield with_side(side, ordered, whole(level + 1, level + 1)), level + random.between(-1, 1)


def differences_by_one_float(random):
    """Floats beside x.45 and x.5, with a partner 2 and 3 dB away: the rounding decides whether the side differs."""
    for level in range(23, 138, 6):
        for fraction in ("0.45", "0.5"):
            for four in beside(level + Fraction(fraction)):
                partner = level + random.pick((-2, 3))
                two = random.shuffled((four, decibels(partner)))
                yield with_side(random.below(2), two, whole(level, level)), level


def every_difference(random):
    """Differences from 0 to 12 dB and wide ones, left and right, in both orders."""
    for apart in (*range(13), 16, 32, 64, 100, 119, 120):
        for side in (0, 1):
            low = random.between(20, 140 - apart)
            two = some_float(random, low), some_float(random, low + apart)
            yield with_side(side, two, whole(80, 81)), 80
            yield with_side(side, two[::-1], whole(80, 81)), 80


def both_sides_differ(random):
    """The left one is told."""
    for _ in range(60):
        sides = []
        for _ in (0, 1):
            low, apart = random.between(40, 100), random.pick((3, 3, 4, 10))
            sides += random.shuffled((some_float(random, low), some_float(random, low + apart)))
        yield tuple(sides), random.between(60, 90)


def sides_far_apart(random):
    """Sides that differ from each other and not in themselves."""
    for _ in range(60):
        left, right = random.between(20, 138), random.between(20, 138)
        floats = [some_float(random, level + random.between(0, 2)) for level in (left, left, right, right)]
        yield tuple(floats), (left + right) // 2


def sides_alike(random):
    """Sides that differ in themselves and have the same two levels."""
    for _ in range(60):
        low = random.between(20, 136)
        high = low + random.between(3, 4)
        levels = random.pick(((low, high, low, high), (low, high, high, low)))
        yield tuple(some_float(random, level) for level in levels), low


# Roundings.

def beside_whole_halves(random):
    """Floats beside x.45 and x.5 for every whole dB, each number in turn; the limit parts x from x + 1."""
    for level in range(20, 140):
        for turn, fraction in enumerate(("0.45", "0.5")):
            for four in beside(level + Fraction(fraction)):
                yield with_floats(whole(*[level] * 4), {(level + turn) % 4: four}), level - 1


def ties_of_tenths(random):
    """x.25 and x.75, which floats hit, and x.125 and so on beside them: to tenths either way, whole dB stay."""
    for level in range(22, 140, 5):
        for fraction in ("0.25", "0.75", "0.125", "0.375", "0.625", "0.875"):
            four = decibels(level + Fraction(fraction))
            steps = (-1, 0, 1) if fraction in ("0.25", "0.75") else (0,)
            for step in steps:
                at = random.below(4)
                yield with_floats(whole(*[level] * 4), {at: float_step(four, step)}), level - 1


def every_tenth(random):
    """Every tenth from 20.0 to 140.0, as four neighbours with the edges of a tenth."""
    for tenth in range(200, 1401, 4):
        floats = [float_at_edge(min(tenth + at, 1400), random.pick((-1, 0, 1))) for at in range(4)]
        yield tuple(random.shuffled(floats)), tenth // 10 - random.below(2)


def rounded_four_times(random):
    """All four beside x.45 or x.5: a rounding that is wrong for one is wrong by a whole dB in the mean."""
    for level in range(20, 139, 3):
        for fraction in ("0.45", "0.5"):
            for step in range(3):
                yield (beside(level + Fraction(fraction))[step],) * 4, level - 1 + random.below(2)


# The mean and the limit.

def floats_of_mean(random, mean):
    """Four floats with a mean in quarters, their levels one dB apart at most."""
    level, more = divmod(mean + 4, 4)
    levels = random.shuffled([level + (at < more) for at in range(4)])
    return tuple(some_float(random, one) for one in levels)


def every_mean(random):
    """Every mean from 76 to 556, with the limits below, at and above it."""
    for mean in range(LOWEST_MEAN, HIGHEST_MEAN + 1):
        for step in (-1, 0, 1):
            yield floats_of_mean(random, mean), mean // 4 + step


# Levels about that of a limit, with the limit's mean: the third and the fourth are alike.
SPREAD = ((0, 0, 0, 0), (1, -1, 0, 0), (2, 0, -1, -1), (0, -2, 1, 1), (5, 5, -5, -5), (-3, -5, 4, 4))


def about_a_limit(random):
    """Means of 4 × limit − 1, 4 × limit and 4 × limit + 1, from levels that are up to 2 dB apart on a side."""
    for limit in range(26, 133, 3):
        for step in (-1, 0, 1):
            first, second, third, fourth = (limit + 1 + by for by in random.pick(SPREAD))
            left, right = random.shuffled((first, second)), random.shuffled((third + step, fourth))
            levels = random.pick((left + right, right + left))
            yield tuple(some_float(random, level) for level in levels), limit


def ends_of_the_mean(random):
    """The lowest and the highest mean, and both ends in one four."""
    for limit in (0, 1, 17, 18, 19, 20, 21, 78, 79, 80, 137, 138, 139, 140, 141):
        for levels in ((20,) * 4, (140,) * 4, (20, 20, 140, 140), (140, 140, 20, 20), (20, 21, 139, 140)):
            yield whole(*levels), limit


def wide_limits(random):
    """Limits over 16 bits. Four times one of these wraps in 16 bits, and its low byte alone is another limit."""
    for limit in (0, 1, 2, 255, 256, 511, 512, WRAPS - 1, WRAPS, WRAPS + 1, 2 * WRAPS - 1, 2 * WRAPS, 2 * WRAPS + 1,
                  3 * WRAPS - 1, 3 * WRAPS, 3 * WRAPS + 1, HIGHEST_LIMIT - 1, HIGHEST_LIMIT):
        for mean in (LOWEST_MEAN, LOWEST_MEAN + 1, 255, 256, 257, 317, 511, 512, HIGHEST_MEAN):
            yield floats_of_mean(random, mean), limit


def limits_that_wrap(random):
    """Limits that are near the mean once 16 bits of the product, or a byte of the limit, are lost."""
    for turn in (WRAPS, 2 * WRAPS, 3 * WRAPS, 256, 512, 65280):
        for _ in range(20):
            mean = random.between(LOWEST_MEAN, HIGHEST_MEAN)
            yield floats_of_mean(random, mean), turn + mean // 4 + random.between(-1, 1)


# Orders, and pairs for "a louder four never has a lower mean".

def orders(random):
    """Every order of four levels: the side of a level decides whether it is refused, and never the mean."""
    for levels in (("70.0", "71.0", "72.0", "73.0"), ("80.4", "80.5", "82.4", "82.5"), ("75.0", "75.0", "78.0", "78.0"),
                   ("90.45", "92.44", "91.5", "93.4"), ("64.0", "66.0", "65.5", "66.4"), ("20.0", "22.4", "20.4", "140.0"),
                   ("19.9", "70.0", "71.0", "140.1"), ("19.9", "70.0", "70.0", "80.0")):
        for order in permutations(levels):
            yield tuple(decibels(level) for level in order), 72


def raised_by_one_float(random):
    """Pairs: the second four has one float of the first raised to the next, beside each edge and anywhere."""
    bounds = [Fraction(bound) for bound in ("20", "20.45", "139.45", "139.5")]
    bounds += [level + Fraction(fraction) for level in range(25, 140, 6) for fraction in ("0.45", "0.5", "0.0")]
    for bound in bounds:
        for by in (0, 1, -2):  # by 0 and 1 the mean may rise, by -2 the side may come to differ
            partner = decibels(min(max(int(bound) + by, 20), 140))
            yield from raised(random, [partner] * 4, random.below(4), beside(bound)[0])
    yield from raised(random, whole(139, 139, 139, 139), random.below(4), HIGHEST)
    for _ in range(60):
        floats, at = usual(random), random.below(4)
        yield from raised(random, floats, at, floats[at])


def raised(random, floats, at, four):
    """Both fours of a pair, with one limit near their mean."""
    limit = int(float_value(four)) - random.below(2)
    yield with_floats(floats, {at: four}), limit
    yield with_floats(floats, {at: float_step(four, 1)}), limit


# Random fours.

def usual_fours(random):
    """Levels in hundredths of a dB, sides within 2.6 dB and mostly within 2, and a limit that may pass or fail."""
    for _ in range(900):
        floats = []
        for _ in (0, 1):
            hundredths = random.between(6500, 9500)
            floats += [decibels(Fraction(hundredths + random.between(0, 260), 100)) for _ in (0, 1)]
        yield tuple(floats), random.between(64, 96)


def close_fours(random):
    """Four levels within a dB or two of one another, and the limit near the mean."""
    for _ in range(400):
        low = bits_of(decibels(Fraction(random.between(2000, 13700), 100)))
        reach = random.pick((0x8000, 0x20000, 0x40000))
        floats = [pattern(min(low + random.below(reach), bits_of(HIGHEST))) for _ in range(4)]
        yield tuple(floats), int(float_value(floats[0])) - random.below(3)


def random_levels(random):
    """Any levels: mostly sides that differ."""
    for _ in range(200):
        yield tuple(any_level(random) for _ in range(4)), random.below(2 ** 16)


def random_patterns(random):
    """Any patterns at one to four numbers, beside usual levels."""
    for _ in range(400):
        places = random.shuffled(range(4))[:random.between(1, 4)]
        changes = {at: pattern(random.below(2 ** 32)) for at in places}
        yield with_floats(usual(random), changes), random.below(2 ** 16)


GROUPS = (
    no_level_at_each_number, ends_of_the_range, several_no_levels, no_level_and_a_side, differences_of_two_and_three,
    differences_by_one_float, every_difference, both_sides_differ, sides_far_apart, sides_alike, beside_whole_halves,
    ties_of_tenths, every_tenth, rounded_four_times, every_mean, about_a_limit, ends_of_the_mean, wide_limits,
    limits_that_wrap, orders, raised_by_one_float, usual_fours, close_fours, random_levels, random_patterns,
)
