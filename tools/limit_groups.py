"""Groups of the corpus about limits by class (document 02, wish 1)."""

from fractions import Fraction
from itertools import product
from math import ceil, floor

from background_groups import OF_EACH_RULE, session_of_rule
from make import changed, one_gear_sheet, random_session, short_runs, with_bytes, with_limit, with_look_up, with_right_backgrounds
from reckon import ACCELERATION_RUN, CONSTANT_RUN, M1, N1, VEHICLE_UNNAMED, limit_found, pmr_tenths, read_vehicle, records_of, rounded
from sheet_groups import RUN_FAULTS, session_with
from sheets import closing, sheet, vehicle, worked_sheet

PHASES, CLASSES = (1, 2, 3), (0, 1)  # bytes 16 and 17 of a look-up that finds a limit
EDGES = (1200, 1600, 2000)  # the highest PMR of a class, and of low cars without a row of their own, in tenths
OF_EACH_CLASS = (667, 1400, 1800, 3000)  # PMRs in tenths


def car_with(q, phase, low_car):
    """A car of PMR q whose limit is looked up."""
    return dict(power=q, mass=1000, limit=0, phase=phase, low_car=low_car)


def level_sheet(random, L_urban, **car):
    """One gear with this L_urban: W and C are alike, at the whole decibel or at an end of what is rounded to it."""
    level = 10 * L_urban + random.pick((-5, 0, 4))
    return one_gear_sheet(random, W=level, C=level, background=0, **car)


def found(**car):
    """The limit of a car."""
    read = read_vehicle(vehicle(**car), closing(0))
    return limit_found(read, pmr_tenths(read))


def beside_its_limit(random, offsets, **car):
    """Sheets of a car whose L_urban is so many decibels above the limit found."""
    for offset in offsets:
        yield level_sheet(random, found(**car) + offset, **car)


# The table: classes, phases and both verdicts.

def each_level_by_class(random):
    """Each entry of the table at its edges of PMR, with either byte 17: every L_urban from 67 to 77, which are passes and fails."""
    PMRs = [edge + beside for edge in EDGES for beside in (-1, 0, 1)] + [2500, 6000]
    for q, phase, low_car, L_urban in product(PMRs, PHASES, CLASSES, range(67, 78)):
        yield level_sheet(random, L_urban, **car_with(q, phase, low_car))


def classes_between_edges(random):
    """PMRs at the ends of their range, far from an edge, and above one by less than 1.0: L_urban at the limit and one above it."""
    PMRs = (50, 51, 249, 250, 667, 1000, 1204, 1205, 1209, 1210, 1400, 1604, 1605, 1609, 1610, 1800, 2004, 2005, 2009, 2010, 4000, 5999)
    for q, phase, low_car in product(PMRs, PHASES, CLASSES):
        yield from beside_its_limit(random, (0, 1), **car_with(q, phase, low_car))


def any_PMR_above_200(random):
    """PMRs from 200.1 on, where byte 17 decides."""
    for phase, low_car, _ in product(PHASES, CLASSES, range(10)):
        yield from beside_its_limit(random, (0, 1), **car_with(random.between(2001, 6000), phase, low_car))


def far_from_the_limit(random):
    """L_urban far below the limit found and far above it."""
    for q, phase, low_car in product(OF_EACH_CLASS, PHASES, CLASSES):
        yield from beside_its_limit(random, (-30, -10, -4, -2, 2, 4, 10, 30), **car_with(q, phase, low_car))


def powers_beside(edge, mass):
    """Powers whose exact PMR lies at or beside an edge, and at or beside the half of a tenth above it, which is rounded up."""
    bounds = (Fraction(edge * mass, 1000), Fraction((2 * edge + 1) * mass, 2000))
    return sorted({power for bound in bounds for power in (ceil(bound) - 1, ceil(bound), floor(bound) + 1)})


def rounded_at_an_edge(random):
    """Exact PMRs above an edge that are rounded onto it, such as 96.5 kW and 804 kg, or to the tenth above: the rounded one decides."""
    for edge, mass in product(EDGES, (804, 1999, 2000, 2001, 5000)):
        for power, phase, low_car in product(powers_beside(edge, mass), PHASES, CLASSES if edge == 2000 else (random.below(2),)):
            yield from beside_its_limit(random, (0, 1), power=power, mass=mass, limit=0, phase=phase, low_car=low_car)


def cars_near_an_edge(random):
    """Any mass, with a PMR up to 0.5 from an edge, and an L_urban up to 3 dB from the limit found."""
    for edge, phase, low_car, _ in product(EDGES, PHASES, CLASSES, range(8)):
        mass = random.between(300, 5000)
        power = rounded(Fraction((edge + random.between(-5, 5)) * mass, 1000))
        yield from beside_its_limit(random, (random.between(-2, 3),), power=power, mass=mass, limit=0, phase=phase, low_car=low_car)


def written_as_found(random):
    """Sessions with a limit that is looked up, each followed by the same one with that limit written, which has the same line."""
    for q, phase, low_car, offset in product(OF_EACH_CLASS, PHASES, CLASSES, (0, 1)):
        car = car_with(q, phase, low_car)
        whole = level_sheet(random, found(**car) + offset, **car)
        yield whole
        yield with_limit(whole, found(**car))


def written_beside_the_table(random):
    """A written limit below, at and above what a look-up would find, for M1 and N1: it decides by itself."""
    for q, category, limit in product(OF_EACH_CLASS, (M1, N1), (50, 67, 72, 76, 100)):
        yield from beside_its_limit(random, (0, 1), power=q, mass=1000, category=category, limit=limit)


# Refusals 11 and 12.

# PMRs outside 5.0 to 600.0, and at its ends.
POWERS_AND_MASSES = ((49, 1000), (50, 1000), (6000, 1000), (6001, 1000), (10, 5000), (20000, 300))


def refused_look_ups(random, cars):
    """Cars whose limit is not found: with a result otherwise, with a PMR at the ends of its range and out of it, and without a window."""
    for car in cars:
        yield level_sheet(random, random.between(67, 76), limit=0, **car)
        yield sheet(vehicle(limit=0, **car), random.pick(([], short_runs(), short_runs()[1:])))
        power, mass = random.pick(POWERS_AND_MASSES)
        yield level_sheet(random, random.between(67, 76), limit=0, power=power, mass=mass, **car)


def looked_up_for_N1(random):
    """Refusal 11 for N1, with phases and classes that there are and others."""
    yield from refused_look_ups(random, [dict(category=N1, phase=phase, low_car=low_car)
                                         for phase, low_car in product((0, 1, 2, 3, 4, 9, 255), (0, 1, 2, 7, 255))])


def phases_and_classes(random):
    """Refusal 12 where both the phase and the class are none, or only one of them."""
    yield from refused_look_ups(random, [dict(phase=phase, low_car=low_car)
                                         for phase, low_car in product((0, 1, 2, 3, 4, 5, 255), (0, 1, 2, 3, 255))
                                         if phase not in PHASES or low_car not in CLASSES])


# Bytes beside 1 to 3 and beside 1, and those that would be in range without their high bits.
PHASE_BYTES = (*range(12), 15, 16, 17, 18, 19, 31, 32, 33, 34, 35, 63, 64, 65, 66, 67, 127, 128, 129, 130, 131, 132, 192, 253, 254, 255)
CLASS_BYTES = (*range(10), 15, 16, 17, 127, 128, 129, 130, 192, 193, 254, 255)


def phase_bytes(random):
    """Each of these phases with either class, at a PMR of each class."""
    for phase, low_car in product(PHASE_BYTES, CLASSES):
        yield level_sheet(random, random.between(67, 76), **car_with(random.pick(OF_EACH_CLASS), phase, low_car))


def class_bytes(random):
    """Each of these bytes 17 with each phase, up to PMR 200.0 and above it."""
    for low_car, phase, q in product(CLASS_BYTES, PHASES, (1800, 3000)):
        yield level_sheet(random, random.between(67, 76), **car_with(q, phase, low_car))


def limit_and_other_causes(random):
    """Refusals 11 and 12 beside each other and beside each other cause of refusal: 2 to 5 come before them, 6 to 10 after."""
    for cause, other in ((11, 12), *product((11, 12), range(2, 11))):
        for first, second in product((0, 1), repeat=2):
            yield session_with(random, {cause: first, other: second})


# The layout.

# Numbers beside 0 and beside the ends of the range, with one byte alone, and with bytes that would be in range in the other order.
LIMIT_NUMBERS = (0, 1, 2, 3, 10, 32, 48, 49, 50, 51, 72, 99, 100, 101, 102, 127, 128, 200, 255, 256, 257, 306, 328, 356, 511, 512, 584, 768,
                 1024, 4096, 12800, 18432, 18504, 25600, 32767, 32768, 32840, 65280, 65352, 65535)


def limit_numbers(random):
    """The limit at each of these numbers, with the bytes of a look-up and without: 0 alone is one, and 50 to 100 is written."""
    for limit, (phase, low_car), category in product(LIMIT_NUMBERS, ((0, 0), (1, 0), (3, 1)), (M1, N1)):
        yield level_sheet(random, 70, limit=limit, phase=phase, low_car=low_car, category=category)


def limits_below_50(random):
    """Each limit from 1 to 49, by itself and with the bytes of a look-up."""
    for limit, phase in product(range(1, 50), (0, 2)):
        yield level_sheet(random, 60, limit=limit, phase=phase)


def written_with_a_look_up(random):
    """Refusal 5 for a written limit with a phase or a class, which a look-up could have or not."""
    pairs = [pair for pair in product((0, 1, 2, 3, 4, 255), (0, 1, 2, 128)) if any(pair)]
    for (phase, low_car), limit in product(pairs, (50, 72, 100)):
        yield level_sheet(random, random.between(67, 76), limit=limit, phase=phase, low_car=low_car, category=random.pick((M1, N1)))


def look_up_bits(random):
    """Each bit of the limit and of the two bytes turned, from a limit of 0 and from a written one."""
    for (limit, phase), bit in product(((0, 1), (0, 2), (72, 0), (64, 0)), range(32)):
        whole = level_sheet(random, 70, limit=limit, phase=phase)
        at = 14 + bit // 8
        yield changed(whole, at, whole[at] ^ 1 << bit % 8)


LOOK_UPS = (dict(phase=1), dict(phase=3, low_car=1), dict(category=N1, phase=1), dict(phase=0), dict(phase=2, low_car=2),
            dict(category=N1, phase=9, low_car=7))
VEHICLE_FAULTS = (
    (1, b"\x00"), (1, b"\x03"), (2, b"\x02"), (4, b"\x09\x00"), (4, b"\x21\x4e"), (6, b"\x2b\x01"), (6, b"\x89\x13"), (8, b"\x63\x00"),
    (8, b"\xd1\x07"), (10, b"\xf3\x01"), (10, b"\x21\x4e"), (12, b"\xe9\x03"), (18, b"\xe9\x03"),
    *((at, b"\x01") for at in VEHICLE_UNNAMED),
)
CLOSING_FAULTS = ((1, b"\x01"), (4, b"\xe9\x03"), (6, b"\xe9\x03"), (8, b"\x01"), (31, b"\x80"))


def look_up_and_broken_records(random):
    """Refusal 5 for each fault of a vehicle, of a run of each kind and of the closing record, whether a limit is found or not."""
    faults = [(0, *fault) for fault in VEHICLE_FAULTS] + [(9, *fault) for fault in CLOSING_FAULTS]
    for (record, at, part), look_up in product(faults, LOOK_UPS):
        yield with_bytes(level_sheet(random, 70, limit=0, **look_up), record, at, part)
    for fault, kind in product(RUN_FAULTS, (ACCELERATION_RUN, CONSTANT_RUN)):
        whole = level_sheet(random, 70, limit=0, **random.pick(LOOK_UPS))
        records = [at for at, record in enumerate(records_of(whole)) if record[0] == kind]
        yield with_bytes(whole, random.pick(records), *fault)


# Whole sessions.

def worked_sheet_by_phase(random):
    """Document 01's whole sheet with a look-up: only the verdict tells the phase."""
    for category, phase, low_car in product((M1, N1), (0, 1, 2, 3, 4, 9), (0, 1, 2, 7)):
        yield with_limit(changed(worked_sheet(), 1, category), 0, phase, low_car)


def rules_by_phase(random):
    """Sessions of each gear rule, alike but for the phase."""
    for accelerations, low_car, _ in product(OF_EACH_RULE, CLASSES, range(4)):
        whole = changed(session_of_rule(random, accelerations), 1, M1)
        for phase in PHASES:
            yield with_limit(whole, 0, phase, low_car)


def sessions_by_class(random):
    """Sessions with nothing planned but their ranges and a look-up, half of them with a background of its own on the right."""
    for _ in range(240):
        whole = with_look_up(random, random_session(random))
        yield with_right_backgrounds(random, whole) if random.chance(50) else whole
