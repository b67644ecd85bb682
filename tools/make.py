"""Parts that the corpus is made of: a fixed pseudo-random source, floats at the edges of a tenth, planned gears."""

from fractions import Fraction
from typing import NamedTuple, Optional

import sheets
from reckon import (ABSENT, ACCELERATION_RUN, CONSTANT_RUN, HIGHEST_LEVEL, LEVEL, LOWEST_LEVEL, M1, N1, OVERLOAD, a_ref_of,
                    a_urban_of, float_value, number, records_of, rounded)

MASK = 2 ** 64 - 1


class Random:
    """The splitmix64 sequence of a seed: the same on every machine."""

    def __init__(self, seed):
        self.state = seed & MASK

    def next(self):
        self.state = (self.state + 0x9E3779B97F4A7C15) & MASK
        z = self.state
        z = (z ^ z >> 30) * 0xBF58476D1CE4E5B9 & MASK
        z = (z ^ z >> 27) * 0x94D049BB133111EB & MASK
        return z ^ z >> 31

    def below(self, bound):
        return self.next() % bound

    def between(self, lowest, highest):
        return lowest + self.below(highest - lowest + 1)

    def chance(self, percent):
        return self.below(100) < percent

    def pick(self, choices):
        return choices[self.below(len(choices))]

    def shuffled(self, items):
        mixed = list(items)
        for at in range(len(mixed) - 1, 0, -1):
            other = self.below(at + 1)
            mixed[at], mixed[other] = mixed[other], mixed[at]
        return mixed


def of_groups(groups, seed):
    """What each group makes, with the group's name. Each has a pseudo-random source of its own, by its name."""
    for group in groups:
        source = Random(seed + int.from_bytes(group.__name__.encode(), "little"))
        yield from ((group.__name__, one) for one in group(source))


def numbers(*candidates):
    """Those of the candidates that 16 bits hold, each once."""
    return sorted({number for number in candidates if 0 <= number < 2 ** 16})


# Floats.

def bits_of(four):
    return int.from_bytes(four, "little")


def float_step(four, steps):
    """The positive float so many places above (or below) another."""
    return (bits_of(four) + steps).to_bytes(4, "little")


def lowest_float(bound):
    """The lowest positive float that is not below a bound."""
    four = float_step(sheets.float_bytes(bound), -2)
    while float_value(four) < bound:
        four = float_step(four, 1)
    return four


def float_at_edge(level, edge):
    """A float that rounds to a level in tenths: the nearest (0), the lowest (-1) or the highest (1) one."""
    if edge == 0:
        return sheets.tenths(level)
    bound = Fraction(2 * level + edge, 20)
    four = lowest_float(bound) if edge < 0 else float_step(lowest_float(bound), -1)
    return four if LOWEST_LEVEL <= float_value(four) <= HIGHEST_LEVEL else sheets.tenths(level)


# Cars. A car is the fields of a vehicle record by name.

def power_and_mass(random, q):
    """A power and a mass whose rounded PMR is q tenths."""
    for _ in range(20):
        mass = random.between(300, 3000)
        power = rounded(Fraction(q * mass, 1000))
        if 10 <= power <= 20000 and rounded(Fraction(1000 * power, mass)) == q:
            return power, mass
    return q, 1000


def car_of(random, q, **fields):
    """A car of PMR q with a length, a start line and a limit of its own."""
    power, mass = power_and_mass(random, q)
    car = dict(power=power, mass=mass, length=random.pick((100, 380, 450, 500, 523, 1500, 2000)),
               start_line=random.below(2), category=random.between(1, 2), limit=random.between(66, 76),
               background=random.pick((0, 300, 400)))
    car.update(fields)
    return car


def distance_of(car):
    """c + length of step 6."""
    return (1000 if car.get("start_line", 0) else 2000) + car.get("length", 450)


# Planned gears: runs whose rounded acceleration and rounded levels are known beforehand.

class Gear(NamedTuple):
    gear: int
    a: int
    W: int
    C: Optional[int] = None  # no constant-speed runs if None
    engine: int = 4000


# Offsets of four values whose mean rounds to the planned value; a sum of -2 is a half that goes up.
LEVEL_OFFSETS = ((0, 0, 0, 0), (0, 0, -1, -1), (-2, 0, 0, 0), (10, -10, 0, 0), (-1, 0, 0, 0), (1, 0, 0, 0),
                 (9, -11, 1, -1), (5, -5, 3, -3), (-10, 10, -1, 0), (1, 1, -1, 0))
ACCELERATION_OFFSETS = ((0, 0, 0, 0), (0, 0, -1, -1), (-2, 0, 0, 0), (1, 0, 0, 0), (-1, 0, 0, 0), (2, -2, 1, -2))


def four_levels(random, level, plain):
    offsets = (0, 0, 0, 0) if plain else random.shuffled(random.pick(LEVEL_OFFSETS))
    return [level + offset for offset in offsets]


def four_sides(random, level, plain):
    """The lefts and the rights of four runs whose condition level is the planned one."""
    loud = four_levels(random, level, plain)
    quiet = loud if plain or random.chance(30) else four_levels(random, level - random.between(1, 30), plain)
    return (loud, quiet) if random.chance(50) else (quiet, loud)


def four_accelerations(random, a, plain):
    offsets = (0, 0, 0, 0) if plain or a < 2 else random.shuffled(random.pick(ACCELERATION_OFFSETS))
    return [a + offset for offset in offsets]


def speeds_of(random, a, distance):
    """Speeds for an acceleration, slow or fast."""
    try:
        return sheets.speeds_for(a, distance, random.pick((10, 300, 500)))
    except ValueError:
        return sheets.speeds_for(a, distance)


def edge_of(random, plain):
    return 0 if plain else random.pick((-1, 0, 0, 1))


def acceleration_runs(random, car, gear, plain=False):
    lefts, rights = four_sides(random, gear.W, plain)
    runs = []
    for left, right, a in zip(lefts, rights, four_accelerations(random, gear.a, plain)):
        start, end = speeds_of(random, a, distance_of(car))
        runs.append(sheets.run(ACCELERATION_RUN, gear.gear, float_at_edge(left, edge_of(random, plain)),
                               float_at_edge(right, edge_of(random, plain)), start, end, gear.engine))
    return runs


def constant_runs(random, gear, level, plain=False):
    lefts, rights = four_sides(random, level, plain)
    return [sheets.run(CONSTANT_RUN, gear, float_at_edge(left, edge_of(random, plain)),
                       float_at_edge(right, edge_of(random, plain)), 500 + random.below(5), 495 + random.below(10))
            for left, right in zip(lefts, rights)]


def gear_runs(random, car, gears, plain=False):
    runs = []
    for gear in gears:
        runs += acceleration_runs(random, car, gear, plain)
        if gear.C is not None:
            runs += constant_runs(random, gear.gear, gear.C, plain)
    return runs


def interleaved(random, runs):
    """The runs mixed, each gear and run kind in its own order."""
    groups = {}
    for run in runs:
        groups.setdefault((run[0], run[1]), []).append(run)
    order = random.shuffled([key for key, group in groups.items() for _ in group])
    queues = {key: iter(group) for key, group in groups.items()}
    return [next(queues[key]) for key in order]


def sheet_of(random, car, gears, plain=False):
    """A sheet of planned gears, in order or mixed."""
    runs = gear_runs(random, car, gears, plain)
    runs = runs if plain or random.chance(50) else interleaved(random, runs)
    return sheets.sheet(sheets.vehicle(**car), runs, random.pick((0, car.get("background", 400))))


def spoiled(random, run):
    """A copy of a run made not valid: struck, overload or absent on a side, or too near the background."""
    record = bytearray(run)
    way = random.below(4)
    side = random.below(2)
    if way == 0:
        record[2] = 1
    elif way == 1:
        record[3 + side] = OVERLOAD
    elif way == 2:
        record[3 + side] = ABSENT
        record[8 + 4 * side:12 + 4 * side] = bytes(4)
    else:
        record[8 + 4 * side:12 + 4 * side] = sheets.tenths(200 + random.below(90))
    return bytes(record)


def loud_copy(run, level):
    """A copy of a run with both levels replaced, in tenths."""
    return run[:3] + bytes([LEVEL, LEVEL]) + run[5:8] + sheets.tenths(level) * 2 + run[16:]


# PMRs below 25.0, and others. Accelerations around R and a_urban.

QUIET_PMRS = (50, 100, 180, 249)
USUAL_PMRS = (250, 251, 400, 667, 1000, 1500, 2500, 4000, 5500, 6000)


def is_near(a, R):
    return 20 * abs(a - R) <= R and a <= 300


def first_above(R):
    """The lowest acceleration above R that rule 2 does not take."""
    return next(a for a in range(R, 400) if not is_near(a, R))


def first_below(R):
    """The highest acceleration below R that rule 2 does not take."""
    return next(a for a in range(R - 1, -1, -1) if not is_near(a, R))


def references(q):
    return a_urban_of(q), a_ref_of(q)


def beside_starts():
    """The lowest PMR of each hundredth of a_urban and of a_ref, and the PMR before it."""
    starts = {q for q in range(51, 6001) if references(q) != references(q - 1)}
    return sorted(starts | {q - 1 for q in starts})


def pair_around(q, above, below):
    """Two gears that R lies between, so many hundredths outside what rule 2 takes."""
    R = a_ref_of(q)
    return first_above(R) + above, max(first_below(R) - below, 0)


# Short sheets for the causes that need few records.

def short_runs():
    """Two runs of one gear: layout without a window."""
    return [sheets.run(ACCELERATION_RUN, 3, sheets.tenths(700), sheets.tenths(705), 450, 520),
            sheets.run(CONSTANT_RUN, 3, sheets.tenths(650), sheets.tenths(655))]


def short_sheet():
    return sheets.sheet(sheets.vehicle(), short_runs())


def one_gear_sheet(random, W=700, C=650, a=149, **car):
    """A plain sheet that rule 1 takes."""
    return sheet_of(random, dict(car), [Gear(3, a, W, C)], plain=True)


def changed(whole, at, value):
    """A sheet with one byte replaced."""
    return whole[:at] + bytes([value]) + whole[at + 1:]


def with_number(whole, record, at, value):
    """A sheet with one 16-bit number replaced."""
    copy = bytearray(whole)
    sheets.put(copy, 32 * record + at, value)
    return bytes(copy)


def with_bytes(whole, record, at, part):
    start = 32 * record + at
    return whole[:start] + part + whole[start + len(part):]


def whole_with_runs(whole, change):
    """A sheet with every run record changed."""
    records = records_of(whole)
    return records[0] + b"".join(change(record) for record in records[1:-1]) + records[-1]


# Sessions with nothing planned but their ranges.

def random_session(random):
    q = random.pick((random.between(50, 249), random.between(250, 1200), random.between(250, 6000)))
    R = a_ref_of(q)
    car = car_of(random, q, background=random.between(380, 560), rated_speed=5000)
    count = random.pick((1, 2, 2, 2, 3))
    a = R + random.between(-5, 80 if count > 1 else 20)
    gears = []
    for gear in range(2, 2 + count):
        C = random.between(600, 680) if random.chance(93) else None
        gears.append(Gear(gear, max(a, 0), random.between(640, 740), C, random.pick((4000,) * 11 + (5001,))))
        a -= random.between(0, 60) if random.chance(10) else random.between(15, 90)
    return sheet_of(random, car, gears)


# The fields of a background by record, the first and the last: the left's place and the right's.
BACKGROUND_PLACES = ((0, 12, 18), (-1, 4, 6))


def with_right_backgrounds(random, whole):
    """A sheet with a background of its own on the right: in each record none, the lowest, one near the left's, or any."""
    records = [bytearray(record) for record in records_of(whole)]
    for record, left_at, right_at in BACKGROUND_PLACES:
        near = number(records[record], left_at) + random.between(-20, 40)
        sheets.put(records[record], right_at, random.pick((0, 1, min(max(near, 0), 1000), random.between(380, 620))))
    return b"".join(records)


def with_limit(whole, limit, phase=0, low_car=0):
    """A sheet with its limit replaced, and what it is looked up by."""
    return with_bytes(whole, 0, 14, limit.to_bytes(2, "little") + bytes([phase, low_car]))


def with_look_up(random, whole):
    """A sheet whose limit is looked up, mostly for M1 and by a phase and a class that there are."""
    category = N1 if random.chance(10) else M1
    phase = random.below(256) if random.chance(10) else random.between(1, 3)
    low_car = random.below(256) if random.chance(10) else random.below(2)
    return with_limit(changed(whole, 1, category), 0, phase, low_car)
