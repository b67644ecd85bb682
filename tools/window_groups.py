"""Groups of the corpus about levels, windows and accelerations: refusals 7 and 14."""

from itertools import islice, product

import sheets
from make import (QUIET_PMRS, USUAL_PMRS, Gear, acceleration_runs, car_of, constant_runs, float_at_edge, float_step,
                  gear_runs, interleaved, loud_copy, one_gear_sheet, spoiled, whole_with_runs, with_number)
from reckon import ABSENT, ACCELERATION_RUN, CONSTANT_RUN, LEVEL, OVERLOAD, records_of
from sheets import put, run, sheet, tenths, vehicle


# Refusals 7 and 14.

def no_acceleration(random):
    yield vehicle() + sheets.closing(0)
    for count in range(1, 9):
        yield sheet(vehicle(), constant_runs(random, 3, 650)[:1] * count)


def no_acceleration_window(random):
    """A gear without a window, for each cause: too few, struck, overload, absent, too quiet, too wide a span."""
    for _ in range(70):
        car = car_of(random, random.pick(USUAL_PMRS), background=400)
        good, bad = Gear(2, 220, 720), Gear(random.between(3, 5), 110, 700)
        runs = acceleration_runs(random, car, bad, plain=True)
        at = random.below(4)
        way = random.below(4)
        if way == 0:
            runs[at] = spoiled(random, runs[at])
        elif way == 1:
            del runs[at]
        elif way == 2:
            runs[at] = loud_copy(runs[at], random.pick((679, 721, 760)))
        else:
            runs.insert(2, loud_copy(runs[at], random.pick((679, 721))))  # "any four" would straddle it
        if random.chance(40):
            runs += acceleration_runs(random, car, good, plain=True)
        if random.chance(30):
            runs += [run(ACCELERATION_RUN, 6, tenths(700), tenths(700), struck=1)]
        yield sheet(vehicle(**car), runs)


def gears_without_windows(random):
    """Beside a gear with windows, a gear whose acceleration runs hold none: all struck, too few, or above S."""
    for _ in range(36):
        car = car_of(random, random.pick(QUIET_PMRS + USUAL_PMRS), background=400, rated_speed=5000)
        good = gear_runs(random, car, [Gear(3, 150, 700, 650)])
        engine = random.pick((4000, 5001))
        bad = acceleration_runs(random, car, Gear(random.pick((2, 4)), 120, 690, None, engine), plain=True)
        bad = random.pick(([one[:2] + b"\x01" + one[3:] for one in bad], bad[:random.between(1, 3)]))
        yield sheet(vehicle(**car), interleaved(random, good + bad))


def negative_zeros(random):
    """A run beside a window, absent on one side: with four zero bytes, and with the float -0.0."""
    for record in (1, 4, 8):
        for zero in (bytes(4), bytes((0, 0, 0, 128))):
            records = records_of(one_gear_sheet(random))[1:-1]
            stray = bytearray(records[0])
            stray[3], stray[8:12] = ABSENT, zero
            records.insert(record, bytes(stray))
            yield sheet(vehicle(), records)


def near_misses_on_one_side(random):
    """Spans of 2.0 and 2.1 on one side only, and sides that move against each other."""
    for wide in (19, 20, 21, 22):
        for lefts, rights in (((700, 700 + wide), (700, 700)), ((700, 700), (700, 700 + wide)),
                              ((700, 700 + wide), (700 + wide, 700)), ((700, 700 + wide), (700, 700 + wide))):
            runs = [run(ACCELERATION_RUN, 3, tenths(lefts[at % 2]), tenths(rights[at % 2]), 450, 540)
                    for at in range(4)]
            yield sheet(vehicle(), runs + constant_runs(random, 3, 650, plain=True))


# Levels, accelerations and windows.

def differences(random):
    """d at each whole dB and its neighbours, on the left, on the right and in one run only."""
    for d in (-50, 0, 90, 99, 100, 101, 109, 110, 119, 120, 129, 130, 139, 140, 149, 150, 151, 159, 160, 161):
        level = 500 + d
        low = tenths(level)
        high = tenths(max(level, 600))
        for left, right in ((low, low), (low, high), (high, low)):
            runs = [run(ACCELERATION_RUN, 3, left, right, 450, 540)] * 4 + constant_runs(random, 3, 680, plain=True)
            yield sheet(vehicle(background=500), runs, 400)
        mixed = [run(ACCELERATION_RUN, 3, low if at == 2 else tenths(level + 8), tenths(level + 8), 450, 540)
                 for at in range(5)]
        yield sheet(vehicle(background=400), mixed + constant_runs(random, 3, 680, plain=True), 500)


def rounded_differences(random):
    """d of the rounded level: floats at the edges of the tenths where d is 10.0, 11.0 and 15.0."""
    for background in (400, 455, 500, 553):
        for d, edge in ((99, 1), (100, -1), (100, 0), (109, 1), (110, -1), (149, 1), (150, -1)):
            four = float_at_edge(background + d, edge)
            runs = [run(ACCELERATION_RUN, 3, four, four, 450, 540)] * 4 + [run(CONSTANT_RUN, 3, four, four)] * 4
            yield sheet(vehicle(background=background), runs, background)


def spans_after_correction(random):
    """Spans that the corrections bring to 2.0 or past it."""
    for low in (600, 605, 609, 610, 619, 639):
        for wide in (15, 16, 17, 18, 19, 20, 21):
            levels = (low, low + wide, low + 5, low + 9)
            runs = [run(ACCELERATION_RUN, 3, tenths(one), tenths(one), 450, 540) for one in levels]
            yield sheet(vehicle(background=500), runs + constant_runs(random, 3, 700, plain=True), 500)


def late_windows(random):
    """The first window starts late, with runs that are not valid between valid ones."""
    for _ in range(70):
        car = car_of(random, random.pick(USUAL_PMRS), background=400)
        gear = Gear(3, random.between(80, 300), 700, None)
        window = acceleration_runs(random, car, gear)
        before = [loud_copy(window[0], random.pick((660, 721, 740, 679))) for _ in range(random.between(0, 3))]
        between = []
        for one in before + window:
            between += [one] + [spoiled(random, one) for _ in range(random.below(3))]
        if random.chance(40):
            between += acceleration_runs(random, car, gear._replace(W=706, a=gear.a + 9))
        constant = constant_runs(random, 3, 655)
        constant = [loud_copy(constant[0], 690)] * random.below(2) + [spoiled(random, constant[1])] + constant
        yield sheet(vehicle(**car), interleaved(random, between + constant))


def acceleration_halves(random):
    """Run accelerations half-way between two hundredths: c + length is 2,500, A = v − u, B = v + u, u × v = 81 × odd."""
    for n in range(60, 300, 10):
        u, v = random.pick(((81, 2 * n + 1), (27, 3 * (2 * n + 1))))
        if u + v <= 1500 and v - u >= 10:
            fields = random.pick((dict(length=500), dict(length=1500, start_line=1)))
            runs = [run(ACCELERATION_RUN, 3, tenths(700), tenths(700), v - u, v + u)] * random.pick((4, 4, 3))
            start, end = sheets.speeds_for(n, 2500)
            runs += [run(ACCELERATION_RUN, 3, tenths(700), tenths(700), start, end)] * (4 - len(runs))
            yield sheet(vehicle(**fields), runs + constant_runs(random, 3, 655))


def shuffled_runs(random):
    """Runs in any order, so that the first window depends on the order."""
    for _ in range(40):
        car = car_of(random, 667, background=400)
        gears = [Gear(2, 190, 735, 665), Gear(3, 130, 705, 650)][:random.between(1, 2)]
        runs = gear_runs(random, car, gears)
        runs += [loud_copy(one, 10 * random.between(66, 74)) for one in runs if random.chance(25)]
        runs += [spoiled(random, one) for one in runs if random.chance(10)]
        runs += gear_runs(random, car, [gear._replace(W=gear.W - 6, a=gear.a + 5) for gear in gears])
        yield sheet(vehicle(**car), random.shuffled(runs))


def engine_speeds(random):
    """Engine speeds at S and above it; only the window's four count, and only in acceleration runs."""
    for _ in range(40):
        car = car_of(random, 667, rated_speed=4500)
        gears = [Gear(2, 156, 720, 660), Gear(3, 142, 700, 650), Gear(4, 120, 690, 640)]
        runs = gear_runs(random, car, gears, plain=True)
        late = [acceleration_runs(random, car, gear._replace(engine=9000), plain=True)[0] for gear in gears]
        at = random.below(len(runs))
        record = bytearray(runs[at])
        put(record, 20, random.pick((4500, 4501, 20000)))
        runs[at] = bytes(record)
        yield sheet(vehicle(**car), runs + late * random.below(2))


def floats_in_a_tenth(random):
    """Arbitrary floats: a sheet's levels are floats near edges of tenths."""
    for _ in range(60):
        whole = bytearray(one_gear_sheet(random, W=random.between(650, 760), C=random.between(600, 690), limit=70))
        for record in range(1, 9):
            for side in (8, 12):
                base = bytes(whole[32 * record + side:32 * record + side + 4])
                step = random.pick((random.between(-6000, 6000), random.between(-3, 3)))
                whole[32 * record + side:32 * record + side + 4] = float_step(base, step)
        yield bytes(whole)


# Each place, each gear, each side.

def swinging(one, count):
    """So many copies of a run, no two neighbours within 2.0 dB, for a window from 72.0 on behind them."""
    return [loud_copy(one, 690 - 30 * (at % 2)) for at in reversed(range(count))]


def first_window_at(random):
    """The first window at each place from 1 to 40 and at some beyond, of acceleration and of constant speed."""
    for place in (*range(1, 41), 64, 128, 255, 256, 257):
        runs = records_of(one_gear_sheet(random, W=720, C=720))[1:-1]
        acceleration, constant = runs[:4], runs[4:]
        if place <= 40 or place % 2 == 0:
            yield sheet(vehicle(), swinging(runs[0], place - 1) + runs)
        if place <= 40 or place % 2:
            yield sheet(vehicle(), acceleration + swinging(runs[4], place - 1) + constant)


def three_runs_of_a_gear(random):
    """For each gear, three valid runs of it beside windows of others: refusal 7 or, at constant speed, refusal 10."""
    for gear in range(1, 17):
        others = [Gear(other, 320 - 15 * other, 700, None) for other in (gear - 1, gear + 1) if 1 <= other <= 16]
        runs = gear_runs(random, {}, others + [Gear(gear, 320 - 15 * gear, 700, 650)], plain=True)
        lacking = [at for at, one in enumerate(runs) if one[:2] == bytes((ACCELERATION_RUN, gear))][random.below(4)]
        yield sheet(vehicle(), runs[:lacking] + runs[lacking + 1:])
        alone = gear_runs(random, {}, [Gear(gear, 149, 700, 650)], plain=True)
        yield sheet(vehicle(), alone[:3] + alone[4:])
        yield sheet(vehicle(), alone[:7])


def sixteen_without_one(random):
    """Windows of all gears but one or two: the lower of these is named."""
    for gear in range(1, 17):
        runs = gear_runs(random, {}, [Gear(one, 320 - 15 * one, 700) for one in range(1, 17)], plain=True)
        short = {4 * (gear - 1), 4 * random.between(gear - 1, 15)}
        yield sheet(vehicle(), [one for at, one in enumerate(runs) if at not in short])


def engine_speed_of_one_run(random):
    """Only the first, second, third or fourth run of a window above S: the gear is dropped; a run beside it is not asked."""
    for at in range(6):
        for speed in (5001, 20000):
            high = [Gear(2, 200, 720, 650), Gear(3, 100, 700, 640)]
            runs = gear_runs(random, {}, high, plain=True)
            runs = [loud_copy(runs[0], 690)] + runs[:4] + [loud_copy(runs[0], 750)] + runs[4:]
            record = bytearray(runs[at])
            put(record, 20, speed)
            runs[at] = bytes(record)
            yield sheet(vehicle(rated_speed=5000), runs)
            yield sheet(vehicle(rated_speed=5000), runs[:10])


def quiet_constant_speed(random):
    """Constant-speed runs with d 9.9 on the left or on the right are not valid; with 10.0 they are."""
    far = run(CONSTANT_RUN, 3, tenths(610), tenths(610))
    for d in (99, 100):
        for left, right in ((d, 110), (110, d), (d, d)):
            near = run(CONSTANT_RUN, 3, tenths(500 + left), tenths(500 + right))
            for constant in ([near, far, far, far], [far, far, far, near], [near] * 4):
                yield sheet(vehicle(background=500), gear_runs(random, {}, [Gear(3, 149, 700)], plain=True) + constant)


def accelerations_below_halves(random):
    """Run accelerations so little below a half that a 32-bit float has the half."""
    yield below_half_sheet(random, 105, 1003, 1152)
    for length in range(105, 2000, 131):
        lowest = random.between(400, 800)
        found = ((start, end) for start in range(lowest, 1300) for end in range(start + 200, 1501)
                 if is_just_below_half(end * end - start * start, 2000 + length))
        for start, end in islice(found, 1):
            yield below_half_sheet(random, length, start, end)


def is_just_below_half(squares, distance):
    """Whether 625 × squares / (162 × distance) lies below a half by less than 1/30,000."""
    missing = 162 * distance - 1250 * squares % (324 * distance)
    return 0 < 30000 * missing < 324 * distance


def below_half_sheet(random, length, start, end):
    runs = [run(ACCELERATION_RUN, 3, tenths(700), tenths(700), start, end)] * 4
    return sheet(vehicle(length=length), runs + constant_runs(random, 3, 650, plain=True))


def quiet_and_absent(random):
    """Levels of 21.0 over a background of at most 10.0, one run absent on a side: refusal 7 or 10 for three valid runs."""
    level = tenths(210)
    for background in (0, 50, 100):
        for left, right in ((ABSENT, LEVEL), (LEVEL, ABSENT)):
            for kind in (ACCELERATION_RUN, CONSTANT_RUN):
                absent = run(kind, 3, level if left else bytes(4), level if right else bytes(4), 450, 540, left_kind=left, right_kind=right)
                runs = [run(ACCELERATION_RUN, 3, level, level, 450, 540)] * 4 + [run(CONSTANT_RUN, 3, level, level)] * 4
                runs[3 if kind == ACCELERATION_RUN else 7] = absent
                yield sheet(vehicle(background=background), runs, 0)


def still_engines(random):
    """An engine speed of 0 is as good as another."""
    whole = one_gear_sheet(random)
    yield whole_with_runs(whole, lambda record: record[:20] + bytes(2) + record[22:])
    for record in (1, 4, 5, 8):
        yield with_number(whole, record, 20, 0)


def fast_runs(random):
    """The greatest accelerations: from 10 to 1,500 on the shortest path, and near it."""
    for start, end in ((10, 1500), (11, 1500), (10, 1499), (100, 1450), (300, 1500), (10, 1100)):
        runs = [run(ACCELERATION_RUN, 3, tenths(700), tenths(700), start, end)] * 4 + constant_runs(random, 3, 650, plain=True)
        yield sheet(vehicle(length=100, start_line=1), runs)
        yield sheet(vehicle(length=100), runs)


def last_window_of_all(random):
    """1,024 records whose last four are the only constant-speed window."""
    runs = records_of(one_gear_sheet(random, W=720, C=720))[1:-1]
    yield sheet(vehicle(), runs[:4] + swinging(runs[4], 1014) + runs[4:])


def struck_alone(random):
    """Refusal 7 at the lowest gear where every acceleration run is struck: struck runs are runs of their gear."""
    for gears in ((3,), (5, 2), (16, 9), (1,)):
        runs = gear_runs(random, {}, [Gear(gear, 149, 700, 650) for gear in gears], plain=True)
        yield sheet(vehicle(), [one[:2] + bytes([one[0] == ACCELERATION_RUN]) + one[3:] for one in runs])


def set_aside_between(random):
    """One run that is not valid, for each cause, between two runs of a window: the window stays, of either run kind."""
    level, near = tenths(700), tenths(450)
    for kind, first in ((ACCELERATION_RUN, 0), (CONSTANT_RUN, 4)):
        for stray in (run(kind, 3, level, level, 450, 540, struck=1), run(kind, 3, level, level, 450, 540, left_kind=OVERLOAD),
                      run(kind, 3, level, level, 450, 540, right_kind=OVERLOAD), run(kind, 3, bytes(4), level, 450, 540, left_kind=ABSENT),
                      run(kind, 3, level, bytes(4), 450, 540, right_kind=ABSENT), run(kind, 3, near, level, 450, 540),
                      run(kind, 3, level, near, 450, 540)):
            runs = records_of(one_gear_sheet(random, W=720, C=680))[1:-1]
            for at in (1, 2, 3):
                yield sheet(vehicle(), runs[:first + at] + [stray] + runs[first + at:])


# Corrections: the table is read at the whole decibel nearest to d.

RUN_KINDS = (ACCELERATION_RUN, CONSTANT_RUN)
# The first d with 0.4 off: at the nearest whole decibel, and with the fraction dropped.
FIRST_STEP, FIRST_STEP_DROPPED = 105, 110
CORRECTION_STEPS = range(FIRST_STEP, FIRST_STEP + 50, 10)


def corrected_difference(d, first_step=FIRST_STEP):
    """d less its correction: 0.5 below the first step, and 0.1 less from each of five steps on, 1.0 dB apart."""
    return d - sum(d < step for step in range(first_step, first_step + 50, 10))


def four_levels(background, d):
    return [tenths(background + d)] * 4


def one_of_four(random, background, one, others):
    """Four levels: one d, and three times another."""
    levels = four_levels(background, others)
    levels[random.below(4)] = tenths(background + one)
    return levels


def levels_sheet(kind, lefts, rights, background, others=200, **car):
    """One gear: the runs of one kind have these levels, those of the other kind all the same d."""
    both = four_levels(background, others)
    sides = {ACCELERATION_RUN: (both, both), CONSTANT_RUN: (both, both), kind: (lefts, rights)}
    runs = [run(each, 3, left, right, 450, 540) for each in RUN_KINDS for left, right in zip(*sides[each])]
    return sheet(vehicle(background=background, **car), runs, background)


def on_each_side(kind, near, other, background):
    """The same four levels on the left, and on the right."""
    yield levels_sheet(kind, near, other, background)
    yield levels_sheet(kind, other, near, background)


def each_tenth_of_d(random):
    """Every tenth of d from 9.0 to 17.0 on one side, beside 10.0 on the other: W or C tells its correction."""
    for d, kind in product(range(90, 171), RUN_KINDS):
        yield from on_each_side(kind, four_levels(500, d), four_levels(500, 100), 500)


def farthest(d):
    """The highest d whose corrected level is at most 2.0 dB above that of this d."""
    return max(high for high in range(d, d + 21) if corrected_difference(high) - corrected_difference(d) <= 20)


def each_tenth_of_d_on_one_side(random):
    """Every tenth of d from 9.0 to 17.0 in one run of one side, the other side far above.

    From 10.0 on, the three other runs are as far above as a span of 2.0 allows, and a tenth farther.
    """
    for d, kind in product(range(90, 171), RUN_KINDS):
        for others in (farthest(d), farthest(d) + 1) if d >= 100 else (105,):
            yield from on_each_side(kind, one_of_four(random, 500, d, others), four_levels(500, 250), 500)


def floats_at_steps(random):
    """The lowest float of the tenth where d is 10.0 or a step of the corrections, and the highest of the tenth before."""
    for background, d, kind in product((150, 301, 455, 607, 1000), (100, *CORRECTION_STEPS), RUN_KINDS):
        for four in (float_at_edge(background + d - 1, 1), float_at_edge(background + d, -1)):
            yield from on_each_side(kind, [four] * 4, four_levels(background, 100), background)


def spans_of(random, by_rounding, by_dropping):
    """One run below three others, by these spans: with d at the nearest whole decibel, and with its fraction dropped."""
    for background, low in product((400, 523), range(100, 150)):
        for high in range(low, low + 22):
            spans = [corrected_difference(high, first) - corrected_difference(low, first)
                     for first in (FIRST_STEP, FIRST_STEP_DROPPED)]
            if spans == [by_rounding, by_dropping]:
                for kind in RUN_KINDS:
                    near = one_of_four(random, background, low, high)
                    yield from on_each_side(kind, near, four_levels(background, 250), background)


def spans_within_by_rounding(random):
    """Spans of 2.0 that are 2.1 if the fraction of d is dropped."""
    yield from spans_of(random, 20, 21)


def spans_within_by_dropping(random):
    """Spans of 2.1 that are 2.0 if the fraction of d is dropped."""
    yield from spans_of(random, 21, 20)


def rising_at_steps(random):
    """Pairs for "rising": the d of one run or of four rises to a step of the corrections.

    W or C is at a half decibel before, where any fall would lower L_urban, or 0.1 below it, where a rise shows.
    """
    sides = ((True, False), (False, True), (True, True))
    for step, below, count, (lowest, tenth), kind, loud in product(
            CORRECTION_STEPS, (1, 5), (1, 4), ((300, 5), (500, 4)), RUN_KINDS, sides):
        background = lowest + (tenth - corrected_difference(step - below)) % 10
        # L_urban is W below PMR 25.0, and C where W is below it
        car = dict(power=200, mass=1000) if kind == ACCELERATION_RUN else {}
        quiet, start, end = (four_levels(background, d) for d in (100, step - below, step))
        for risen in (0, count):
            near = end[:risen] + start[risen:]
            lefts, rights = (near if is_loud else quiet for is_loud in loud)
            yield levels_sheet(kind, lefts, rights, background, others=100, **car)
