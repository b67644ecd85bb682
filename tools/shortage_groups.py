"""Groups of the corpus about gears without a window: too few valid runs, or four or more too wide apart (document 02, wish 5)."""

from itertools import permutations, product

from background_groups import SIDES, fields_for, on_side, sheet_with
from make import (QUIET_PMRS, USUAL_PMRS, car_of, distance_of, interleaved, loud_copy, pair_around, random_session, spoiled, speeds_of,
                  with_look_up, with_right_backgrounds)
from reckon import ABSENT, ACCELERATION_RUN, CONSTANT_RUN, LEVEL, OVERLOAD, records_of
from sheet_groups import RUN_FAULTS, session_with
from sheets import run, sheet, tenths, vehicle
from window_groups import RUN_KINDS

BACKGROUNDS = (300, 400, 455)  # a level 9.9 above one of these is still in a level's range
JUST_WIDE = 21  # tenths: the narrowest span that is too wide


# Levels: (left, right) in tenths for each run.

# The offset of a run by its place and a width: any four neighbours span that width.
SPREADS = (
    lambda at, wide: wide * (at % 2),
    lambda at, wide: wide * (at % 4 == 1),
    lambda at, wide: -wide * (at % 3 == 2),
    lambda at, wide: wide * (at % 4 < 2),
    lambda at, wide: wide * (at % 4) // 3,
)


def wide_sides(random, count):
    """So many levels, no four neighbours within 2.0 dB: on the left, on the right, on both sides alike or opposed, or in turn."""
    level, wide = random.between(620, 700), random.pick((JUST_WIDE, random.between(22, 60)))
    spread, first = random.pick(SPREADS), random.below(12)
    offsets = [spread(first + at, wide) for at in range(count)]
    calm = [random.below(21) for _ in range(count)]
    in_turn = [[wide * ((first + at) % 8 == place) for at in range(count)] for place in (1, 5)]
    lefts, rights = random.pick(((offsets, calm), (calm, offsets), (offsets, offsets), (offsets, [-one for one in offsets]), in_turn))
    return [(level + left, level + right) for left, right in zip(lefts, rights)]


def near_sides(random, count):
    """So many levels that are all within 2.0 dB."""
    left, right = random.between(620, 700), random.between(620, 700)
    return [(left + random.below(21), right + random.below(21)) for _ in range(count)]


def few_sides(random):
    """Up to three levels, whether within 2.0 dB or not."""
    return random.pick((near_sides, wide_sides))(random, random.below(4))


def many_sides(random):
    return wide_sides(random, random.between(4, 9))


def window_sides(random):
    return near_sides(random, 4)


LACKS = {"few": few_sides, "wide": many_sides}
ANY = {**LACKS, "window": window_sides}


# Runs that are not valid.

def with_reading(one, side, kind, four):
    record = bytearray(one)
    record[3 + side], record[8 + 4 * side:12 + 4 * side] = kind, four
    return bytes(record)


def struck(one, _):
    return one[:2] + b"\x01" + one[3:]


def overloaded(side):
    return lambda one, _: with_reading(one, side, OVERLOAD, one[8 + 4 * side:12 + 4 * side])


def absent(side):
    return lambda one, _: with_reading(one, side, ABSENT, bytes(4))


def quiet(side):
    """9.9 above the background."""
    return lambda one, background: with_reading(one, side, LEVEL, tenths(background + 99))


WAYS = (struck, *(way(side) for way in (overloaded, absent, quiet) for side in SIDES))


# Sheets.

def any_car(random, **fields):
    return car_of(random, random.pick(QUIET_PMRS + USUAL_PMRS[:7]), background=random.pick(BACKGROUNDS), **fields)


def any_gears(random, count):
    """So many numbers of gears, rising."""
    return sorted(random.shuffled(range(1, 17))[:count])


def runs_at(random, car, kind, gear, sides, a=0, engine=4000):
    """Runs with these levels; of acceleration runs, each has the acceleration."""
    start, end = speeds_of(random, a, distance_of(car)) if kind == ACCELERATION_RUN else (500, 500)
    return [run(kind, gear, tenths(left), tenths(right), start, end, engine) for left, right in sides]


def merged(random, runs, others):
    """Both in one list, each in its own order."""
    both = {True: iter(runs), False: iter(others)}
    return [next(both[is_run]) for is_run in random.shuffled([True] * len(runs) + [False] * len(others))]


def set_aside(random, car, runs, ways=WAYS):
    """Copies of runs that are not valid, each in one of some ways."""
    return [random.pick(ways)(one, car["background"]) for one in runs]


def sheet_of_parts(random, car, parts):
    """A sheet of the runs of gears and kinds: one part after the other in some order, or all mixed."""
    ordered = [one for part in random.shuffled(parts) for one in part]
    runs = ordered if random.chance(40) else interleaved(random, ordered)
    return sheet(vehicle(**car), runs, random.pick((0, car["background"])))


def other_kind(kind):
    return CONSTANT_RUN if kind == ACCELERATION_RUN else ACCELERATION_RUN


def beside_a_window(random, car, kind, gear, a, part):
    """A sheet of the runs of one gear and kind, and of a window of its other kind."""
    return sheet_of_parts(random, car, [part, runs_at(random, car, other_kind(kind), gear, window_sides(random), a)])


def gear_alone(random, kind, sides, others=0, ways=WAYS, gear=None, **fields):
    """One gear: its valid runs of a kind have these levels, among so many others that are not valid; the other kind has a window."""
    car, gear, a = any_car(random, **fields), gear or random.between(1, 16), random.between(80, 250)
    valid, spare = (runs_at(random, car, kind, gear, levels, a) for levels in (sides, near_sides(random, others)))
    return beside_a_window(random, car, kind, gear, a, merged(random, valid, set_aside(random, car, spare, ways)))


# One gear.

def too_wide(random):
    """Refusals 14 and 15: from 4 to 13 valid runs."""
    for kind, count, _ in product(RUN_KINDS, range(4, 14), range(4)):
        yield gear_alone(random, kind, wide_sides(random, count))


def too_few(random):
    """Refusals 7 and 10: up to three valid runs, all of which may be within 2.0 dB, and others."""
    for kind, count, spread, _ in product(RUN_KINDS, range(4), (near_sides, wide_sides), range(5)):
        yield gear_alone(random, kind, spread(random, count), random.below(8))


# Counts of valid runs around the ends of parts of 16, of which an evaluation may carry three over, and around 8 bits.
COUNTS = (*range(2, 44), 45, 46, 55, 56, 57, 58, 59, 64, 67, 68, 69, 70, 255, 256, 257, 258, 259, 260, 300)


def counts_without_a_window(random):
    for count, kind in product(COUNTS, RUN_KINDS):
        yield gear_alone(random, kind, wide_sides(random, count), random.below(4))


# Valid runs, and all runs of the gear and kind.
VALID_OF_ALL = ((0, 4), (0, 10), (0, 20), (1, 10), (2, 10), (3, 4), (3, 10), (3, 16), (4, 5), (4, 10), (4, 20), (5, 10), (9, 10))


def valid_among_others(random):
    """Runs that are not valid for one cause, and for any: only the valid ones decide."""
    for (valid, all_runs), ways, kind in product(VALID_OF_ALL, (*((way,) for way in WAYS), WAYS), RUN_KINDS):
        yield gear_alone(random, kind, wide_sides(random, valid), all_runs - valid, ways)


def spans_at_the_edge(random):
    """The highest and the lowest of four levels at each two places, 2.0 dB apart and 2.1, on one side; the other side is within."""
    for kind, side, wide, (high, low) in product(RUN_KINDS, SIDES, (20, 21), permutations(range(4), 2)):
        level = random.between(620, 700)
        edge, within = ([level + random.below(21) for _ in range(4)] for _ in range(2))
        edge[high], edge[low] = level + wide, level
        yield gear_alone(random, kind, list(zip(*on_side(side, edge, within))))


def parted_runs(random):
    """Runs within 2.0 dB, up to three before and up to three after one that is not within, which is valid or is set aside."""
    for kind, before, after, is_valid in product(RUN_KINDS, (1, 2, 3), (1, 2, 3), (True, False)):
        car, gear, a = any_car(random), random.between(1, 16), random.between(80, 250)
        sides = near_sides(random, before + after)
        misfit = list(sides[0])
        misfit[random.below(2)] += random.pick((-41, 41))
        between = runs_at(random, car, kind, gear, [misfit], a)
        part = runs_at(random, car, kind, gear, sides, a)
        part[before:before] = between if is_valid else set_aside(random, car, between)
        yield beside_a_window(random, car, kind, gear, a, part)


def short_by_one_background(random):
    """Up to three runs, and four or more that are valid up to a background of one side; a tenth higher, the gear has too few."""
    for kind, side, beside, kept, _ in product(RUN_KINDS, SIDES, (0, 1), range(4), range(2)):
        background, gear = random.between(450, 550), random.between(1, 16)
        near = random.shuffled([background + 150] * kept + [background + 100] * random.between(4, 6))
        wide = [700 + random.pick((JUST_WIDE, 40)) * (at % 2) for at in range(len(near))]
        runs = runs_at(random, {}, kind, gear, zip(*on_side(side, near, wide)), 149)
        runs += runs_at(random, {}, other_kind(kind), gear, [(720, 720)] * 4, 149)
        yield sheet_with(interleaved(random, runs), fields_for(random, *on_side(side, background + beside, 330)))


# Windows at the edges of parts.

def far_sides(random, count, level):
    """So many levels, each more than 2.0 dB from its neighbours and from those that are up to 1.0 dB above a level, on one side or both."""
    sides = []
    for at in range(count):
        far, near = level + random.between(31, 60) * (-1) ** at, level + random.below(11)
        sides.append(random.pick(((far, near), (near, far), (far, far))))
    return sides


def broken_window(random, window, level):
    """A window with one level too far from the others, which are at most 1.0 dB above a level."""
    at, side = random.below(4), random.below(2)
    off = level + random.pick((-JUST_WIDE, 10 + JUST_WIDE, random.between(40, 60), -random.between(22, 60)))
    return window[:at] + [on_side(side, off, window[at][1 - side])] + window[at + 1:]


FIRST_PLACES = (*range(10, 21), *range(23, 35), *range(36, 48), *range(49, 57), 66, 67, 68, 69, 70)


def windows_at_part_edges(random):
    """The first window far on among the valid runs, at the end or with another one behind it, and the same with a level that breaks it."""
    for place, kind, is_last in product(FIRST_PLACES, RUN_KINDS, (True, False)):
        level = random.between(640, 690)
        window = [(level + random.below(11), level + random.below(11)) for _ in range(4)]
        behind = [] if is_last else far_sides(random, random.between(1, 20), level)
        second = [] if is_last else [(level + 9, level + 10)] * 4
        before = far_sides(random, place - 1, level)
        yield gear_alone(random, kind, before + window + behind + second, random.below(6))
        yield gear_alone(random, kind, before + broken_window(random, window, level) + behind, random.below(6))


def long_gears_mixed(random):
    """Two gears with 10 to 40 valid runs each, mixed: a window far on in one of them, in both, or in none."""
    for kind, lacks, _ in product(RUN_KINDS, product((True, False), repeat=2), range(6)):
        car, level = car_of(random, 667, background=random.pick(BACKGROUNDS)), random.between(640, 690)
        parts = []
        for gear, a, is_wide in zip(any_gears(random, 2), pair_around(667, random.below(20), random.below(20)), lacks):
            sides = far_sides(random, random.between(10, 40), level) + ([] if is_wide else [(level, level + 3)] * 4)
            parts.append(runs_at(random, car, kind, gear, sides, a))
            parts.append(runs_at(random, car, other_kind(kind), gear, window_sides(random), a))
        yield sheet_of_parts(random, car, parts)


# Several gears.

def falling(random, count):
    """Accelerations of so many gears, in rising number."""
    steps = [random.between(5, 40) for _ in range(count)]
    return [sum(steps[at:]) + 20 for at in range(count)]


def gears_sheet(random, gears, levels):
    """Acceleration runs of these gears with these levels, and a constant-speed window of each."""
    car, parts = any_car(random), []
    for gear, a, sides in zip(gears, falling(random, len(gears)), levels):
        parts.append(runs_at(random, car, ACCELERATION_RUN, gear, sides, a))
        parts.append(runs_at(random, car, CONSTANT_RUN, gear, window_sides(random)))
    return sheet_of_parts(random, car, parts)


def low_and_high_shortage(random):
    """Two gears without an acceleration window, each too wide or with too few valid runs, among others: the lower one decides."""
    for low, high, _ in product(LACKS, LACKS, range(30)):
        count = random.between(2, 5)
        gears, lacking = any_gears(random, count), sorted(random.shuffled(range(count))[:2])
        kinds = ["window"] * count
        kinds[lacking[0]], kinds[lacking[1]] = low, high
        yield gears_sheet(random, gears, [ANY[kind](random) or near_sides(random, 1) for kind in kinds])


def pair_sheet(random, levels):
    """A pair that rule 3 or 5 takes: i and j have these levels at constant speed, among runs that are not valid."""
    q = random.pick(QUIET_PMRS + USUAL_PMRS[:7])
    car = car_of(random, q, background=random.pick(BACKGROUNDS))
    gears = any_gears(random, 2)
    parts = []
    for gear, a, sides in zip(gears, pair_around(q, random.below(20), random.below(10)), levels):
        parts.append(runs_at(random, car, ACCELERATION_RUN, gear, window_sides(random), a))
        valid, spare = (runs_at(random, car, CONSTANT_RUN, gear, part) for part in (sides, near_sides(random, random.below(4))))
        parts.append(merged(random, valid, set_aside(random, car, spare)))
    return sheet_of_parts(random, car, parts)


def shortages_of_a_pair(random):
    """A pair at constant speed, each gear with a window, too wide or with too few valid runs: gear i decides if it has none."""
    for i, j, _ in product(ANY, ANY, range(30)):
        if (i, j) != ("window", "window"):
            yield pair_sheet(random, (ANY[i](random), ANY[j](random)))


def few_beside_many(random):
    """One to three valid runs of a gear and kind beside many of its other kind and of other gears."""
    for count, _ in product((1, 2, 3), range(15)):
        gears = any_gears(random, random.between(2, 4))
        yield gears_sheet(random, gears, random.shuffled([near_sides(random, count)] + [near_sides(random, 14) for _ in gears[1:]]))
        yield pair_sheet(random, random.shuffled([near_sides(random, count), near_sides(random, 14)]))


def each_gear_by_its_shortage(random):
    """Each gear alone, too wide and with too few valid runs, of either kind."""
    for gear, lack, kind in product(range(1, 17), LACKS, RUN_KINDS):
        yield gear_alone(random, kind, LACKS[lack](random) or near_sides(random, 1), gear=gear)


def sixteen_without_two(random):
    """Sixteen gears, of which two have no acceleration window: the lower one too wide or with too few valid runs, the other the reverse."""
    for low, (first, second) in product(range(1, 16), (("wide", "few"), ("few", "wide"))):
        sides = [window_sides(random) for _ in range(16)]
        sides[random.between(low, 15)] = LACKS[second](random) or near_sides(random, 1)
        sides[low - 1] = LACKS[first](random) or near_sides(random, 1)
        yield gears_sheet(random, range(1, 17), sides)


# Gears above S, and gears that are not chosen.

def shortage_above_S(random):
    """A gear that has no acceleration window and only engine speeds above S, beside one with a window: it is refused all the same."""
    for lack, engine, _ in product(LACKS, (5000, 5001, 9000), range(8)):
        car = any_car(random, rated_speed=5000)
        (low, high), sides = any_gears(random, 2), LACKS[lack](random) or near_sides(random, 2)
        lacking, other = random.shuffled((low, high))
        parts = [runs_at(random, car, ACCELERATION_RUN, lacking, sides, 120, engine)]
        parts += [runs_at(random, car, kind, other, window_sides(random), 150, random.pick((5000, 5001))) for kind in RUN_KINDS]
        yield sheet_of_parts(random, car, parts)


def shortage_above_S_at_constant_speed(random):
    """A gear without a constant-speed window whose engine speeds there are at S or above it, which are not asked."""
    for lack, engine, _ in product(LACKS, (5000, 5001, 9000), range(4)):
        car, gear = any_car(random, rated_speed=5000), random.between(1, 16)
        lacking = runs_at(random, car, CONSTANT_RUN, gear, LACKS[lack](random), engine=engine)
        yield beside_a_window(random, car, CONSTANT_RUN, gear, 150, lacking)


# Accelerations of gears and which of them are chosen: R is 1.49 and a_urban 1.06. A gear is dropped where it is marked.
CHOICES = (((149,), (0,), ()), ((200, 150), (1,), ()), ((200, 150, 100), (1,), ()), ((260, 200, 100, 60), (1, 2), ()),
           ((320, 120), (1,), ()), ((320, 100, 50), (0, 1), ()), ((260, 149, 60), (1,), (0, 2)), ((200, 150, 100), (0, 2), (1,)))


def constant_speed_of_others(random):
    """Gears that are chosen, dropped or neither, at constant speed each with a window, too wide or with too few: only chosen ones count."""
    for (accelerations, chosen, dropped), of_chosen, of_others, _ in product(CHOICES, ANY, ANY, range(2)):
        car = car_of(random, 667, background=random.pick(BACKGROUNDS), rated_speed=5000)
        parts = []
        for at, (gear, a) in enumerate(zip(any_gears(random, len(accelerations)), accelerations)):
            engine = 5001 if at in dropped else 5000
            parts.append(runs_at(random, car, ACCELERATION_RUN, gear, window_sides(random), a, engine))
            parts.append(runs_at(random, car, CONSTANT_RUN, gear, ANY[of_chosen if at in chosen else of_others](random)))
        yield sheet_of_parts(random, car, parts)


# Other causes, the longest sheets, and sessions with nothing planned.

def shortage_and_other_causes(random):
    """Refusals 14 and 15 beside each other cause: 2 to 6, 11 and 12 come before both, 7 to 9 before 15 only, and 10 after 14."""
    for cause, other in product((7, 10), range(2, 13)):
        for way in range(3 if other in (7, 10) else 2):
            if other != cause:
                yield session_with(random, {cause: 2, other: way})


def refused_before_a_shortage(random):
    """A gear too wide in a sheet that is refused before: for its PMR, for a broken run, and for accelerations that do not fall."""
    for kind, (power, mass) in product(RUN_KINDS, ((10, 5000), (49, 1000), (6001, 1000), (20000, 300))):
        yield gear_alone(random, kind, many_sides(random), power=power, mass=mass)
    for kind, (at, part) in product(RUN_KINDS, RUN_FAULTS[:8]):
        first, *runs, _ = records_of(gear_alone(random, kind, many_sides(random)))
        broken = runs[-1][:at] + part + runs[-1][at + len(part):]
        yield sheet(first, runs + [broken])
    # rule 2 would take the higher gear: R is 1.49
    for lack, low in product(LACKS, (100, 150, 152)):
        car, (other, gear) = car_of(random, 667, background=random.pick(BACKGROUNDS)), any_gears(random, 2)
        parts = [runs_at(random, car, ACCELERATION_RUN, each, window_sides(random), a) for each, a in ((other, low), (gear, 152))]
        parts += [runs_at(random, car, CONSTANT_RUN, each, LACKS[lack](random)) for each in (other, gear)]
        yield sheet_of_parts(random, car, parts)


MOST_RUNS = 1022


def longest_without_a_window(random):
    """1,024 records: too wide throughout, three or four valid runs among others, and a window at the end that one level breaks."""
    car = any_car(random)
    for kind, tested in product(RUN_KINDS, (wide_sides(random, MOST_RUNS - 4), near_sides(random, 3), wide_sides(random, 4))):
        spare = runs_at(random, car, kind, 3, near_sides(random, MOST_RUNS - 4 - len(tested)), 150)
        valid = runs_at(random, car, kind, 3, tested, 150)
        yield beside_a_window(random, car, kind, 3, 150, merged(random, valid, set_aside(random, car, spare)))
    for kind in RUN_KINDS:
        sides = far_sides(random, MOST_RUNS - 8, 660) + broken_window(random, [(660, 660)] * 4, 660)
        yield beside_a_window(random, car, kind, 3, 150, runs_at(random, car, kind, 3, sides, 150))
    yield sheet(vehicle(**car), set_aside(random, car, runs_at(random, car, ACCELERATION_RUN, 3, near_sides(random, MOST_RUNS), 150)))


def shaken(random, one):
    """A run as it is, twice, louder or quieter, or not valid."""
    way = random.below(100)
    if way < 60:
        return [one]
    if way < 75:
        return [one, one]
    if way < 90:
        return [loud_copy(one, 10 * random.between(60, 76))]
    return [spoiled(random, one)]


def sessions_with_shortages(random):
    """Sessions with nothing planned but their ranges and runs that do not fit; some with a right background or a limit looked up."""
    for _ in range(240):
        first, *runs, last = records_of(random_session(random))
        runs = [other for one in runs for other in shaken(random, one)]
        whole = first + b"".join(runs) + last[:2] + len(runs).to_bytes(2, "little") + last[4:]
        for change in (with_right_backgrounds, with_look_up):
            whole = change(random, whole) if random.chance(20) else whole
        yield whole
