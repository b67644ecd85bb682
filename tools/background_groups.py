"""Groups of the corpus about the background of each side (document 02, wish 8)."""

from itertools import product
from typing import NamedTuple

from make import (Gear, car_of, changed, constant_runs, float_at_edge, gear_runs, random_session, sheet_of, with_number,
                  with_right_backgrounds)
from reckon import ACCELERATION_RUN, CLOSING_UNNAMED, CONSTANT_RUN, LOOK_UP_BYTES, VEHICLE_UNNAMED, records_of
from sheet_groups import session_with
from sheets import run, sheet, speeds_for, tenths, vehicle, worked_runs
from window_groups import CORRECTION_STEPS, RUN_KINDS, corrected_difference, farthest, four_levels, one_of_four

SIDES = (0, 1)  # left, right
# Each d where validity or the correction changes, and the tenth before it.
EDGES = [d for step in (100, *CORRECTION_STEPS) for d in (step - 1, step)]


class Fields(NamedTuple):
    """The four fields of a background, in tenths."""

    left_before: int = 400
    left_after: int = 400
    right_before: int = 0
    right_after: int = 0


def sheet_with(runs, fields, **car):
    return sheet(vehicle(background=fields.left_before, right_background=fields.right_before, **car), runs, fields.left_after,
                 fields.right_after)


def fields_for(random, left, right):
    """Fields that come to a background on the left and one above zero on the right: each before, after or in both records."""
    def two(value, lowest):
        return random.shuffled((value, random.pick((value, lowest, random.between(lowest, value)))))
    return Fields(*two(left, 0), *two(right, 1))


def on_side(side, near, far):
    """What is the left's and what the right's, if the near is on one side."""
    return (far, near) if side else (near, far)


def runs_of(kind, levels, others):
    """One gear: the lefts and the rights of the runs of one kind, and what both sides of those of the other kind have."""
    sides = {each: levels if each == kind else (others, others) for each in RUN_KINDS}
    return [run(each, 3, left, right, 450, 540) for each in RUN_KINDS for left, right in zip(*sides[each])]


def levels_sheet(random, kind, levels, backgrounds):
    """One gear: lefts and rights of the runs of one kind, and runs of the other kind 20.0 above both backgrounds."""
    return sheet_with(runs_of(kind, levels, four_levels(max(backgrounds), 200)), fields_for(random, *backgrounds))


# Differences: one side alone decides, or both do.

def each_tenth_of_d_by_side(random):
    """Every tenth of d from 9.0 to 17.0 on the side with the higher background; it is the louder one, so W or C tells its correction."""
    for d, kind, side in product(range(90, 171), RUN_KINDS, SIDES):
        levels = on_side(side, four_levels(550, d), four_levels(300, 300))
        yield levels_sheet(random, kind, levels, on_side(side, 550, 300))


def edges_on_both_sides(random):
    """Equal levels over two backgrounds, each at an edge of d: W or C is the one with less taken off."""
    for left, right, kind in product(EDGES, EDGES, RUN_KINDS):
        levels = four_levels(0, 650)
        yield levels_sheet(random, kind, (levels, levels), (650 - left, 650 - right))


def quieter_side_alone(random):
    """d at 9.9 and 10.0 on the side with the lower background and level, in all four runs and in one."""
    for d, kind, side, quiet, count in product((99, 100), RUN_KINDS, SIDES, (105, 150, 301, 455), (1, 4)):
        near = four_levels(quiet, d) if count == 4 else one_of_four(random, quiet, d, 110)
        yield levels_sheet(random, kind, on_side(side, near, four_levels(620, 250)), on_side(side, quiet, 620))


def near_run_among_five(random):
    """Five runs, one of them with d 9.9 or 10.0 on one side: the first window has it or passes over it."""
    for d, kind, side, at in product((99, 100), RUN_KINDS, SIDES, range(5)):
        near = [tenths(550 + (d if place == at else 105 + 2 * place)) for place in range(5)]
        yield levels_sheet(random, kind, on_side(side, near, [tenths(600)] * 5), on_side(side, 550, 300))


def spans_by_side(random):
    """One run of one side at d, the others as far above as a span of 2.0 allows by their own background, and a tenth farther."""
    for d, kind, side in product((*range(100, 150, 4), 149), RUN_KINDS, SIDES):
        for others in (farthest(d), farthest(d) + 1):
            levels = on_side(side, one_of_four(random, 523, d, others), four_levels(318, 300))
            yield levels_sheet(random, kind, levels, on_side(side, 523, 318))


def floats_at_steps_by_side(random):
    """The lowest float of the tenth where d is 10.0 or a step of the corrections on one side, and the highest before it."""
    for (near, far), d, kind, side in product(((301, 150), (607, 455), (1000, 523)), (100, 105, 125, 145), RUN_KINDS, SIDES):
        for four in (float_at_edge(near + d - 1, 1), float_at_edge(near + d, -1)):
            yield levels_sheet(random, kind, on_side(side, [four] * 4, four_levels(far, 101)), on_side(side, near, far))


# The four fields.

def field_runs():
    """One gear, valid up to backgrounds of 56.2: W tells the left's background and C the right's."""
    levels = ((ACCELERATION_RUN, 672, 664), (CONSTANT_RUN, 662, 670))
    return [run(kind, 3, tenths(left), tenths(right), 450, 540) for kind, left, right in levels for _ in range(4)]


def which_fields(random):
    """The right's background before, after, in both records or in none, above and below the left's."""
    lefts = ((0, 0), (0, 545), (545, 0), (1, 545), (545, 1), (530, 560), (560, 530), (545, 560), (560, 545))
    for left, right in product(lefts, product((0, 1, 530, 545, 560), repeat=2)):
        yield sheet_with(field_runs(), Fields(*left, *right))


def same_as_the_left_there(random):
    """Zero on the right in one record: the same as the left there, and not as the left's larger."""
    for at in range(80):
        left = random.between(480, 562), random.between(480, 562)
        given = random.pick((1, random.between(1, 480), random.between(480, 562)))
        right = (given, 0) if at % 2 else (0, given)
        yield sheet_with(field_runs(), Fields(*left, *right))


def zero_against_one(random):
    """Zero, 0.1 and 0.2 on the right, where the left's background would leave no valid run: 55.0 is not 10.0 above 46.0."""
    lefts = ((460, 0), (0, 460), (460, 460), (440, 460), (460, 440), (0, 0))
    for left, right, kind in product(lefts, product((0, 1, 2), repeat=2), RUN_KINDS):
        levels = {ACCELERATION_RUN: 700, CONSTANT_RUN: 650, kind: 550}
        runs = [run(each, 3, tenths(690), tenths(levels[each]), 450, 540) for each in RUN_KINDS for _ in range(4)]
        yield sheet_with(runs, Fields(*left, *right))


def right_field_runs(background):
    """One gear whose right levels are 10.5 above a background, where that is a level; the lefts are as low as can be."""
    right = min(max(background, 95), 1000) + 105
    return [run(kind, 3, tenths(200), tenths(right), 450, 540) for kind in RUN_KINDS for _ in range(4)]


# Numbers beside the range's ends, with one byte alone, and with bytes that would be in or out of range in the other order.
RIGHT_NUMBERS = (0, 1, 2, 3, 4, 99, 100, 144, 255, 256, 257, 258, 259, 400, 511, 512, 513, 515, 767, 768, 769, 771, 772, 999, 1000, 1001,
                 1002, 1003, 1023, 1024, 1027, 1280, 2000, 4096, 8192, 16384, 32767, 32768, 33168, 33768, 36865, 59395, 59651, 65535)


def right_numbers(random):
    """The right's background at each of these numbers: before, after and in both records. Above 1,000 it is refusal 5."""
    for value in RIGHT_NUMBERS:
        for right in ((value, 0), (0, value), (value, value)):
            yield sheet_with(right_field_runs(value), Fields(0, 0, *right))


def numbers_of_both_sides(random):
    """1,000 and 1,001 in each of the four fields, beside each other and beside other numbers: the lower record is named."""
    for values in product((1000, 1001), repeat=4):
        yield sheet_with(right_field_runs(1000), Fields(*values))
    for values in product((0, 1001), repeat=4):
        yield sheet_with(right_field_runs(0), Fields(*values))
    for right in product((1, 500, 999, 1000, 1001, 1002), repeat=2):
        yield sheet_with(right_field_runs(1000), Fields(0, 0, *right))
    for right in product((0, 1, 500, 999, 1000), repeat=2):
        runs = [run(kind, 3, tenths(1200), tenths(1110), 450, 540) for kind in RUN_KINDS for _ in range(4)]
        yield sheet_with(runs, Fields(1000, 1000, *right))


def right_bits(random):
    """Each bit of the right's background turned, before or after, from 40.0 and from 100.0."""
    for value, bit in product((400, 1000), range(16)):
        other = value ^ 1 << bit
        yield sheet_with(right_field_runs(value), Fields(0, 0, other, 0))
        yield sheet_with(right_field_runs(value), Fields(0, 0, 1, other))


def right_and_other_causes(random):
    """The right's background out of its range, or in it, beside each other cause of refusal: the earlier one is given."""
    for cause, way, value, (from_end, at) in product(range(2, 11), (0, 1), (300, 1001), ((False, 18), (True, 6))):
        whole = session_with(random, {cause: way})
        last = (len(whole) + 16) // 32 - 1  # of a sheet with a byte more or less, too
        yield with_number(whole, last if from_end else 0, at, value)


def unnamed_beside_the_right(random):
    """Refusal 5 for each unnamed byte of the two records that have the right's background, with one there and a written limit."""
    whole = sheet_with(field_runs(), Fields(400, 400, 420, 380))
    for record, places in ((0, VEHICLE_UNNAMED + LOOK_UP_BYTES), (9, CLOSING_UNNAMED)):
        for at, value in product(sorted(places), (1, 128, 255)):
            yield changed(whole, 32 * record + at, value)


# Sessions that differ in the right's background, or by their sides.

def worked_sheet_on_the_right(random):
    """Document 01's whole sheet over each background of the right from 48.0 to 56.1, and where gears lose their windows."""
    for right in (*range(480, 562), 600, 601, 615, 616, 640, 641):
        fields = random.pick((Fields(right_before=right), Fields(right_after=right), Fields(right_before=right, right_after=right)))
        yield sheet_with(worked_runs(), fields)


# The accelerations of a session's gears under each rule: R is 1.49 and a_urban 1.06.
OF_EACH_RULE = ((149,), (200, 150), (200, 100), (320, 120), (320, 100))


def session_of_rule(random, accelerations):
    gears = [Gear(2 + at, a, random.between(700, 730), random.between(645, 660)) for at, a in enumerate(accelerations)]
    return sheet_of(random, car_of(random, 667), gears)


def only_the_right_differs(random):
    """Sessions of each rule that are alike but for the right's background in one record."""
    for accelerations, before in product(OF_EACH_RULE, (True, False)):
        whole = session_of_rule(random, accelerations)
        record, at = (0, 18) if before else (len(whole) // 32 - 1, 6)
        for value in (0, 1, 400, 505, 515, 525, 535, 545, 560):
            yield with_number(whole, record, at, value)


def mirrored(whole):
    """A sheet with its sides exchanged: readings, levels and backgrounds, of which none on the right may be zero."""
    def exchanged(record, at, other, size):
        record[at:at + size], record[other:other + size] = record[other:other + size], record[at:at + size]
    first, *runs, last = (bytearray(record) for record in records_of(whole))
    exchanged(first, 12, 18, 2)
    for record in runs:
        exchanged(record, 3, 4, 1)
        exchanged(record, 8, 12, 4)
    exchanged(last, 4, 6, 2)
    return b"".join((first, *runs, last))


def mirrored_pairs(random):
    """Sessions with different backgrounds, each followed by the same one with its sides exchanged, which has the same line."""
    for accelerations, _ in product(OF_EACH_RULE, range(10)):
        whole = with_fields(session_of_rule(random, accelerations), Fields(*(random.between(400, 515) for _ in range(4))))
        yield whole
        yield mirrored(whole)


def with_fields(whole, fields):
    """A sheet with its four fields of a background replaced."""
    last = len(whole) // 32 - 1
    for (record, at), value in zip(((0, 12), (last, 4), (0, 18), (last, 6)), fields):
        whole = with_number(whole, record, at, value)
    return whole


def two_sided_sessions(random):
    """Sessions with nothing planned but their ranges, and a background of its own on the right."""
    for _ in range(240):
        yield with_right_backgrounds(random, random_session(random))


# Several gears: one side's background decides on the gears, on the refusal and on its place.

# Gear 2's acceleration, and gear 3's in its first four runs and in the rest, with their engine speeds. R is 1.49, a_urban 1.06.
TWO_WINDOWS = (
    (200, (100, 4000), (150, 4000)),  # rule 3, rule 2
    (200, (150, 4000), (100, 4000)),
    (200, (100, 4000), (210, 4000)),  # rule 3, refusal 8
    (200, (200, 4000), (100, 4000)),
    (200, (100, 4000), (100, 6001)),  # rule 3, rule 1
    (200, (100, 6001), (100, 4000)),
    (200, (180, 4000), (100, 4000)),  # refusal 9, rule 3
    (200, (100, 4000), (180, 4000)),
    (320, (120, 4000), (100, 4000)),  # rule 4, rule 5
    (320, (100, 4000), (120, 4000)),
)


def four_runs(gear, a, engine, levels):
    """Four acceleration runs with these levels on the left and on the right."""
    start, end = speeds_for(a)
    return [run(ACCELERATION_RUN, gear, tenths(levels[0]), tenths(levels[1]), start, end, engine)] * 4


def window_by_side(random):
    """The first four runs of gear 3 are valid up to a background of one side, and the next four have another acceleration."""
    for (first, early, late), side, background, kept in product(TWO_WINDOWS, SIDES, (500, 501), (4, 3)):
        runs = four_runs(3, *early, on_side(side, 600, 690)) + four_runs(3, *late, on_side(side, 680, 690))[:kept]
        runs += gear_runs(random, {}, [Gear(2, first, 720, 650)], plain=True) + constant_runs(random, 3, 640, plain=True)
        yield sheet_with(runs, fields_for(random, *on_side(side, background, 330)))


def place_by_side(random):
    """Gears with other levels on one side, its background at 10.0 below one of them and a tenth higher: refusal 7, or none."""
    for at, side, beside in product(range(10), SIDES, (0, 1)):
        levels = random.shuffled((640, 650, 660, 670, 680))
        runs = []
        for gear, a, level in zip(range(2, 7), (260, 200, 100, 80, 60), levels):
            runs += four_runs(gear, a, 4000, on_side(side, level, 690))
        runs += constant_runs(random, 3, 780, plain=True) + constant_runs(random, 4, 790, plain=True)
        yield sheet_with(runs, fields_for(random, *on_side(side, levels[at % 5] - 100 + beside, 330)))


def constant_speed_by_side(random):
    """A pair whose constant-speed levels on one side are not alike: refusal 10 at i, at j or at both, or none."""
    for (i, j), side, background in product(((640, 655), (655, 640), (640, 640)), SIDES, (540, 541, 555, 556)):
        accelerations = gear_runs(random, {}, [Gear(3, 200, 720), Gear(4, 100, 700)], plain=True)
        constants = [run(CONSTANT_RUN, gear, *(tenths(level) for level in on_side(side, near, 690)))
                     for gear, near in ((3, i), (4, j)) for _ in range(4)]
        for runs in (accelerations + constants, constants + accelerations):
            yield sheet_with(runs, fields_for(random, *on_side(side, background, 330)))


# Pairs for "rising".

def rising_by_side(random):
    """Pairs for "rising" over two backgrounds: the d of one run or of four rises to a step of one side's corrections.

    W or C is at a half decibel before, where any fall would lower L_urban, or 0.1 below it, where a rise shows. The other
    side has a lower background and is quieter.
    """
    for step, below, count, tenth, kind, side in product(CORRECTION_STEPS, (1, 5), (1, 4), (5, 4), RUN_KINDS, SIDES):
        near = 500 + (tenth - corrected_difference(step - below)) % 10
        start, end, quiet = four_levels(near, step - below), four_levels(near, step), four_levels(330, 100)
        fields = fields_for(random, *on_side(side, near, 330))
        for risen in (0, count):
            yield risen_sheet(kind, on_side(side, end[:risen] + start[risen:], quiet), fields)


def rising_on_both_sides(random):
    """Pairs for "rising" where both sides rise, each to a step of its own: before, both have the same corrected level."""
    for left, right, tenth, kind in product(CORRECTION_STEPS, CORRECTION_STEPS, (5, 4), RUN_KINDS):
        level = 650 + tenth
        backgrounds = [level - corrected_difference(step - 1) for step in (left, right)]
        fields = fields_for(random, *backgrounds)
        for rise in (1, 0):
            levels = [four_levels(background, step - rise) for background, step in zip(backgrounds, (left, right))]
            yield risen_sheet(kind, levels, fields)


def risen_sheet(kind, levels, fields):
    """One gear: the runs of one kind have these levels, and L_urban is that kind's: W below PMR 25.0, and C where W is below it."""
    car = dict(power=200, mass=1000) if kind == ACCELERATION_RUN else {}
    return sheet_with(runs_of(kind, levels, four_levels(max(fields), 100)), fields, **car)
