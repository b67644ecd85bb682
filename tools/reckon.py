#!/usr/bin/env python3
"""Separate reckoning of pass-by sheets, written from documents 01 and 02 alone.

Every rule is reckoned with whole numbers and fractions; no floating-point number takes part.
    python3 tools/reckon.py < sheet      prints the line of the evaluation program
"""

import sys
from fractions import Fraction
from functools import lru_cache
from typing import NamedTuple, Optional

# The sheet: sizes and kinds.
RECORD_BYTES = 32
MOST_SHEET_BYTES = 32768
RESULT_BYTES = 32
VEHICLE, ACCELERATION_RUN, CONSTANT_RUN, CLOSING = 1, 2, 3, 9
ABSENT, LEVEL, OVERLOAD = 0, 1, 2
M1, N1 = 1, 2

# The sheet: 16-bit fields as (place in the record, lowest, highest), and the unnamed bytes.
VEHICLE_NUMBERS = ((4, 10, 20000), (6, 300, 5000), (8, 100, 2000), (10, 500, 20000), (12, 0, 1000), (18, 0, 1000))
WRITTEN_LIMIT = (14, 50, 100)  # or 0, for a limit that is looked up (document 02, wish 1)
LOOK_UP_BYTES = (16, 17)  # the phase and the class of low cars; unnamed beside a written limit
RUN_NUMBERS = ((16, 10, 1500), (18, 10, 1500), (20, 0, 20000))
CLOSING_NUMBERS = ((4, 0, 1000), (6, 0, 1000))
VEHICLE_UNNAMED = (3, *range(20, 32))
RUN_UNNAMED = (*range(5, 8), *range(22, 32))
CLOSING_UNNAMED = (1, *range(8, 32))

LOWEST_LEVEL, HIGHEST_LEVEL = Fraction(20), Fraction(140)
CORRECTIONS = {10: 5, 11: 4, 12: 3, 13: 2, 14: 1, 15: 0}  # whole dB nearest to d: tenths taken off (step 2)
LOWEST_DIFFERENCE = 100  # tenths (step 3)
WIDEST_SPAN = 20  # tenths (step 4)
CEILING = 300  # 3.00 m/s² in hundredths (gear rules 2 to 4)
LOWEST_PMR, HIGHEST_PMR, CONSTANT_SPEED_PMR = 50, 6000, 250  # tenths: 5.0, 600.0, 25.0

# Limits in dB(A) for phases 1 to 3 (document 02, wish 1): up to a PMR in tenths, above all of these, and for low cars.
LIMITS_UP_TO = ((1200, (72, 70, 68)), (1600, (73, 71, 69)))
LIMITS_ABOVE = (75, 73, 71)
LOW_CARS_ABOVE, LOW_CAR_LIMITS = 2000, (75, 74, 72)

# The refusals of a gear without a window, by run kind: with fewer than four valid runs, and with four or more (document 02, wish 5).
NO_WINDOW = {ACCELERATION_RUN: (7, 14), CONSTANT_RUN: (10, 15)}


class Refused(Exception):
    """A refusal: its number and its place."""

    def __init__(self, number, place):
        super().__init__(number, place)
        self.number, self.place = number, place


class Sides(NamedTuple):
    left: int
    right: int


class Vehicle(NamedTuple):
    category: int
    from_pp: bool
    power: int
    mass: int
    length: int
    rated_speed: int
    background: Sides
    limit: int  # as written; 0 if it is looked up, by the two below
    phase: int
    low_car: int


class Reading(NamedTuple):
    kind: int
    value: Optional[Fraction]  # decibels; None if absent


class Run(NamedTuple):
    record: int
    kind: int
    gear: int
    struck: bool
    left: Reading
    right: Reading
    start_speed: int
    end_speed: int
    engine_speed: int


class ValidRun(NamedTuple):
    record: int
    left: int  # corrected, tenths
    right: int
    acceleration: int  # hundredths
    engine_speed: int


class Evaluation(NamedTuple):
    """An accepted sheet's decisions. Windows are those of i, then those of j for a pair."""

    rule: int
    i: int
    j: Optional[int]
    k: int
    kp: int
    W: int
    C: int
    L_urban: int
    a_urban: int
    a_ref: int
    PMR: int
    a_test: int  # the a' of document 01
    passes: bool
    accelerations: tuple
    acceleration_windows: tuple
    constant_windows: tuple

    def fields(self):
        """The 13 fields in record order, the pass field last."""
        return (self.rule, self.i, self.j or 0, self.k, self.kp, self.W, self.C, self.L_urban, self.a_urban,
                self.a_ref, self.PMR, self.a_test, int(self.passes))


# Numbers.

def number(record, at):
    """The 16-bit number at a place, low byte first."""
    return record[at] + 256 * record[at + 1]


def rounded(value):
    """To the nearest whole number, a half going up: the whole part of value + 1/2."""
    return (2 * value.numerator + value.denominator) // (2 * value.denominator)


@lru_cache(maxsize=None)
def float_value(four):
    """The exact value of a 32-bit IEEE float in four bytes, low byte first; None if it is not finite."""
    bits = int.from_bytes(four, "little")
    sign = -1 if bits >> 31 else 1
    exponent, fraction = bits >> 23 & 0xFF, bits & 0x7FFFFF
    if exponent == 0xFF:
        return None
    if exponent == 0:
        return sign * Fraction(fraction, 2 ** 149)
    return sign * (fraction + 2 ** 23) * Fraction(2) ** (exponent - 150)


# The sheet.

def records_of(sheet):
    """The whole records of a byte string."""
    return [sheet[at:at + RECORD_BYTES] for at in range(0, len(sheet) - RECORD_BYTES + 1, RECORD_BYTES)]


def show_record(sheet, at):
    """The 32 bytes of record `at` (from 0), or an empty part."""
    records = records_of(sheet)
    return records[at] if 0 <= at < len(records) else b""


def in_ranges(record, numbers):
    return all(lowest <= number(record, at) <= highest for at, lowest, highest in numbers)


def are_zero(record, places):
    return all(record[at] == 0 for at in places)


def limit_layout(record):
    """A limit of 0 beside any phase and class, or a written one beside zeros (document 02, wish 1)."""
    return number(record, 14) == 0 or in_ranges(record, (WRITTEN_LIMIT,)) and are_zero(record, LOOK_UP_BYTES)


def vehicle_layout(record):
    return (record[0] == VEHICLE and record[1] in (M1, N1) and record[2] in (0, 1)
            and in_ranges(record, VEHICLE_NUMBERS) and limit_layout(record) and are_zero(record, VEHICLE_UNNAMED))


def reading_layout(kind, four):
    """Kind 0 needs four zero bytes; kinds 1 and 2 a finite level from 20.0 to 140.0."""
    if kind == ABSENT:
        return four == bytes(4)
    value = float_value(four)
    return kind in (LEVEL, OVERLOAD) and value is not None and LOWEST_LEVEL <= value <= HIGHEST_LEVEL


def run_layout(record):
    return (record[0] in (ACCELERATION_RUN, CONSTANT_RUN) and 1 <= record[1] <= 16 and record[2] in (0, 1)
            and reading_layout(record[3], record[8:12]) and reading_layout(record[4], record[12:16])
            and in_ranges(record, RUN_NUMBERS) and are_zero(record, RUN_UNNAMED)
            and not (record[0] == ACCELERATION_RUN and number(record, 18) < number(record, 16)))


def closing_layout(record):
    return record[0] == CLOSING and in_ranges(record, CLOSING_NUMBERS) and are_zero(record, CLOSING_UNNAMED)


def refuse_form(sheet):
    """Refusals 2 to 5, in the order of the table."""
    if not sheet or len(sheet) > MOST_SHEET_BYTES or len(sheet) % RECORD_BYTES != 0:
        raise Refused(2, 0)
    records = records_of(sheet)
    last = len(records) - 1
    if records[0][0] != VEHICLE:
        raise Refused(3, 0)
    if records[last][0] != CLOSING or number(records[last], 2) != len(records) - 2:
        raise Refused(4, last)
    for at, record in enumerate(records):
        layout = vehicle_layout if at == 0 else closing_layout if at == last else run_layout
        if not layout(record):
            raise Refused(5, at)


def read_background(record, left_at, right_at):
    """A record's background on each side: a zero on the right stands for the left's (document 02, wish 8)."""
    left, right = number(record, left_at), number(record, right_at)
    return Sides(left, left if right == 0 else right)


def read_vehicle(first, last):
    """The vehicle, with the larger background of each side, before or after (step 2; document 02, wish 8)."""
    before, after = read_background(first, 12, 18), read_background(last, 4, 6)
    return Vehicle(category=first[1], from_pp=first[2] == 1, power=number(first, 4), mass=number(first, 6),
                   length=number(first, 8), rated_speed=number(first, 10),
                   background=Sides(max(before.left, after.left), max(before.right, after.right)),
                   limit=number(first, 14), phase=first[16], low_car=first[17])


def refuse_look_up(vehicle):
    """Refusals 11 and 12, of a limit that is looked up (document 02, wish 1)."""
    if vehicle.limit != 0:
        return
    if vehicle.category == N1:
        raise Refused(11, 0)
    if not 1 <= vehicle.phase <= 3 or vehicle.low_car > 1:
        raise Refused(12, 0)


def read_reading(kind, four):
    return Reading(kind, None if kind == ABSENT else float_value(four))


def read_run(at, record):
    return Run(record=at, kind=record[0], gear=record[1], struck=record[2] == 1,
               left=read_reading(record[3], record[8:12]), right=read_reading(record[4], record[12:16]),
               start_speed=number(record, 16), end_speed=number(record, 18), engine_speed=number(record, 20))


# From levels to windows.

def level_tenths(value):
    """Step 1."""
    return rounded(10 * value)


def correction(d):
    """Step 2: the tenths taken off, by the whole decibel nearest to d (document 02, wish 2)."""
    return CORRECTIONS.get(rounded(Fraction(d, 10)), 0)


def corrected(value, background):
    """Steps 1 to 3 for one side: the corrected level in tenths, or None if d itself is below 10.0."""
    level = level_tenths(value)
    d = level - background
    if d < LOWEST_DIFFERENCE:
        return None
    return level - correction(d)


def run_acceleration(run, vehicle):
    """Step 6: hundredths of m/s²."""
    c = 1000 if vehicle.from_pp else 2000
    return rounded(Fraction(625 * (run.end_speed ** 2 - run.start_speed ** 2), 162 * (c + vehicle.length)))


def valid_run(run, vehicle):
    """Step 3, by each side's own background: corrected levels and acceleration, or None if the run is not valid."""
    if run.struck or run.left.kind != LEVEL or run.right.kind != LEVEL:
        return None
    left = corrected(run.left.value, vehicle.background.left)
    right = corrected(run.right.value, vehicle.background.right)
    if left is None or right is None:
        return None
    return ValidRun(run.record, left, right, run_acceleration(run, vehicle), run.engine_speed)


def span(levels):
    return max(levels) - min(levels)


def is_window(four):
    """Step 4: each side by itself spans at most 2.0 dB."""
    return span([run.left for run in four]) <= WIDEST_SPAN and span([run.right for run in four]) <= WIDEST_SPAN


def valid_runs(runs, vehicle, kind, gear):
    """Step 4: the valid runs of a gear and run kind, in the sheet's order."""
    chosen = [valid_run(run, vehicle) for run in runs if run.kind == kind and run.gear == gear]
    return [run for run in chosen if run is not None]


def find_window(runs, vehicle, kind, gear):
    """Step 4: the first window of a gear and run kind, or None."""
    rest = valid_runs(runs, vehicle, kind, gear)
    fours = (tuple(rest[at:at + 4]) for at in range(len(rest) - 3))
    return next((four for four in fours if is_window(four)), None)


def shortage(runs, vehicle, kind, gear):
    """The refusal of a gear without a window of a run kind, by how many valid runs it has (document 02, wish 5)."""
    too_few, too_wide = NO_WINDOW[kind]
    return too_few if len(valid_runs(runs, vehicle, kind, gear)) < 4 else too_wide


def mean_level(window):
    """The larger of the two sides' means, in tenths, not rounded."""
    return max(Fraction(sum(run.left for run in window), 4), Fraction(sum(run.right for run in window), 4))


def condition_level(window):
    """Step 5."""
    return rounded(mean_level(window))


def gear_acceleration(window):
    """Step 6, last sentence."""
    return rounded(Fraction(sum(run.acceleration for run in window), 4))


# Gears.

def pmr_tenths(vehicle):
    """q: the PMR in tenths. Power is in tenths of kW."""
    return rounded(Fraction(1000 * vehicle.power, vehicle.mass))


@lru_cache(maxsize=None)
def power_hundredth(q, exponent, offset):
    """The N with 10^(2N + offset) <= q^exponent < 10^(2N + offset + 2)."""
    power, N = q ** exponent, 0
    while 10 ** (2 * N + offset + 2) <= power:
        N += 1
    assert 10 ** (2 * N + offset) <= power
    return N


def a_urban_of(q):
    return power_hundredth(q, 126, 143)


def a_ref_of(q):
    return a_urban_of(q) if q < CONSTANT_SPEED_PMR else power_hundredth(q, 318, 599)


def is_dropped(window, vehicle):
    """A gear is dropped for an engine speed above S in its acceleration window."""
    return any(run.engine_speed > vehicle.rated_speed for run in window)


def refuse_unless_falling(gears):
    """Refusal 8 over (gear, acceleration) in rising number."""
    for (gear, a), (_, next_a) in zip(gears, gears[1:]):
        if not a > next_a:
            raise Refused(8, gear)


def is_near(a, R):
    """Gear rule 2: within 5 % of R, and not above 3.00."""
    return 20 * abs(a - R) <= R and a <= CEILING


def choose_gears(gears, R, a_urban):
    """Gear rules 1 to 5 over (gear, acceleration) in rising number: rule, i, and j or None."""
    if not gears:
        raise Refused(9, 0)
    if len(gears) == 1:
        return 1, gears[0][0], None
    near = [(abs(a - R), gear) for gear, a in gears if is_near(a, R)]
    if near:
        return 2, min(near)[1], None
    at = max((at for at, (_, a) in enumerate(gears) if a >= R), default=None)
    if at is None or at + 1 == len(gears):
        raise Refused(9, 0)
    (i, a_i), (j, a_j) = gears[at], gears[at + 1]
    if a_i <= CEILING:
        return 3, i, j
    if a_j >= a_urban:
        below = [gear for gear, a in gears if a < CEILING]
        if not below:
            raise Refused(9, 0)
        return 4, below[0], None
    return 5, i, j


def exact_k(R, a_i, a_j):
    return Fraction(R - a_j, a_i - a_j)


def k_hundredths(R, a_i, a_j):
    return rounded(100 * exact_k(R, a_i, a_j))


def exact_kp(a_urban, a_test):
    return Fraction(0) if a_test < a_urban else 1 - Fraction(a_urban, a_test)


def weighed(level_i, level_j, k):
    """L(j) + k × (L(i) − L(j)), with k as a fraction, not rounded."""
    return level_j + k * (level_i - level_j)


def weighed_tenths(level_i, level_j, k):
    """The total of a pair, rounded once; k in hundredths."""
    return rounded(weighed(level_i, level_j, Fraction(k, 100)))


def weighed_level(windows, k):
    """A weighed level in tenths: of one gear its own, of a pair the rounded total."""
    levels = [condition_level(window) for window in windows]
    return levels[0] if len(levels) == 1 else weighed_tenths(levels[0], levels[1], k)


# L_urban.

def a_test_of(a_ref, a_i, alone):
    """a': for a pair a_ref, for one gear its own acceleration."""
    return a_i if alone else a_ref


def kp_hundredths(PMR, W, C, a_urban, a_test):
    if PMR < CONSTANT_SPEED_PMR:
        return 0
    if W < C:
        return 100
    return rounded(100 * exact_kp(a_urban, a_test))


def L_urban_of(PMR, W, C, kp):
    """L_urban in whole decibels."""
    if PMR < CONSTANT_SPEED_PMR:
        level = Fraction(W)
    elif W < C:
        level = Fraction(C)
    else:
        level = W - Fraction(kp, 100) * (W - C)
    return rounded(level / 10)


def class_limits(PMR, is_low_car):
    """The limits of a class for phases 1 to 3. Up to PMR 200.0, low cars have no row of their own."""
    if PMR > LOW_CARS_ABOVE and is_low_car:
        return LOW_CAR_LIMITS
    return next((limits for highest, limits in LIMITS_UP_TO if PMR <= highest), LIMITS_ABOVE)


def limit_found(vehicle, PMR):
    """The limit as written, or looked up by class and phase (document 02, wish 1)."""
    return class_limits(PMR, vehicle.low_car == 1)[vehicle.phase - 1] if vehicle.limit == 0 else vehicle.limit


def is_pass(L_urban, limit):
    return L_urban <= limit


# The evaluation.

def acceleration_windows(runs, vehicle):
    """Refusals 7 and 14, or the acceleration window of each gear that has an acceleration run."""
    gears = sorted({run.gear for run in runs if run.kind == ACCELERATION_RUN})
    if not gears:
        raise Refused(7, 0)
    windows = {gear: find_window(runs, vehicle, ACCELERATION_RUN, gear) for gear in gears}
    for gear in gears:
        if windows[gear] is None:
            raise Refused(shortage(runs, vehicle, ACCELERATION_RUN, gear), gear)
    return windows


def constant_windows(runs, vehicle, chosen):
    """Refusals 10 and 15, or the constant-speed windows of the chosen gears."""
    windows = {gear: find_window(runs, vehicle, CONSTANT_RUN, gear) for gear in chosen}
    for gear in sorted(chosen):
        if windows[gear] is None:
            raise Refused(shortage(runs, vehicle, CONSTANT_RUN, gear), gear)
    return windows


def reckon(sheet):
    """The evaluation of an accepted sheet; raises Refused otherwise."""
    refuse_form(sheet)
    records = records_of(sheet)
    vehicle = read_vehicle(records[0], records[-1])
    refuse_look_up(vehicle)
    runs = [read_run(at, record) for at, record in enumerate(records[1:-1], start=1)]

    PMR = pmr_tenths(vehicle)
    if not LOWEST_PMR <= PMR <= HIGHEST_PMR:
        raise Refused(6, 0)
    a_urban, a_ref = a_urban_of(PMR), a_ref_of(PMR)

    windows = acceleration_windows(runs, vehicle)
    remaining = [gear for gear in windows if not is_dropped(windows[gear], vehicle)]
    a = {gear: gear_acceleration(windows[gear]) for gear in remaining}
    gears = [(gear, a[gear]) for gear in remaining]
    refuse_unless_falling(gears)
    rule, i, j = choose_gears(gears, a_ref, a_urban)
    chosen = [i] if j is None else [i, j]
    constant = constant_windows(runs, vehicle, chosen)

    wot_windows = tuple(windows[gear] for gear in chosen)
    crs_windows = tuple(constant[gear] for gear in chosen)
    k = 100 if j is None else k_hundredths(a_ref, a[i], a[j])
    W, C = weighed_level(wot_windows, k), weighed_level(crs_windows, k)
    a_test = a_test_of(a_ref, a[i], j is None)
    kp = kp_hundredths(PMR, W, C, a_urban, a_test)
    L_urban = L_urban_of(PMR, W, C, kp)
    passes = is_pass(L_urban, limit_found(vehicle, PMR))
    return Evaluation(rule, i, j, k, kp, W, C, L_urban, a_urban, a_ref, PMR, a_test, passes,
                      tuple(a[gear] for gear in chosen), wot_windows, crs_windows)


def refusal_of_buffer(length):
    """Refusal 1, which asks only the length of the result buffer; None if the buffer is long enough."""
    return ("REFUSED", 1, 0) if length < RESULT_BYTES else None


def evaluate(sheet):
    """('OK', and the 13 fields) or ('REFUSED', number, place)."""
    try:
        return ("OK", *reckon(sheet).fields())
    except Refused as refusal:
        return ("REFUSED", refusal.number, refusal.place)


def line(sheet):
    """The line of the evaluation program, without its line feed."""
    return " ".join(str(part) for part in evaluate(sheet))


def result_record(evaluation):
    """The 32 bytes of the result record."""
    rule, i, j, k, kp, *numbers, passes = evaluation.fields()
    return bytes([rule, i, j, k, kp, passes]) + b"".join(n.to_bytes(2, "little") for n in numbers) + bytes(12)


# Demand 3.

class Exact(NamedTuple):
    """The never rounded figure with Dk and Dp, in decibels."""

    figure: Fraction
    Dk: Fraction
    Dp: Fraction


def exact_weighed(windows, k):
    """The exact weighed level in decibels, and |M(i) − M(j)|."""
    M = [mean_level(window) / 10 for window in windows]
    return (M[0], Fraction(0)) if len(M) == 1 else (weighed(M[0], M[1], k), abs(M[0] - M[1]))


def exact(evaluation):
    """The figure, Dk and Dp of an accepted sheet."""
    k = Fraction(1) if evaluation.j is None else exact_k(evaluation.a_ref, *evaluation.accelerations)
    w, acceleration_gap = exact_weighed(evaluation.acceleration_windows, k)
    c, constant_gap = exact_weighed(evaluation.constant_windows, k)
    if evaluation.PMR < CONSTANT_SPEED_PMR:
        figure = w
    elif w < c:
        figure = c
    else:
        figure = w - exact_kp(evaluation.a_urban, evaluation.a_test) * (w - c)
    return Exact(figure, max(acceleration_gap, constant_gap), max(w - c, Fraction(0)))


def chosen_records(evaluation):
    """The record numbers of the chosen runs."""
    windows = evaluation.acceleration_windows + evaluation.constant_windows
    return frozenset(run.record for window in windows for run in window)


def excess(evaluation):
    """|L_urban − figure| less (Dk + Dp) / 200: at most 3/5 if the reported value is close."""
    figure, Dk, Dp = exact(evaluation)
    return abs(evaluation.L_urban - figure) - (Dk + Dp) / 200


def is_close(evaluation):
    return excess(evaluation) <= Fraction(3, 5)


def only_levels_differ(first, second):
    """Alike in every byte but those of the floats of run records."""
    def without_floats(sheet):
        return [record[:8] + record[16:] if record[0] in (ACCELERATION_RUN, CONSTANT_RUN) else record
                for record in records_of(sheet)]
    return len(first) == len(second) and without_floats(first) == without_floats(second)


def lowers_a_chosen_level(first, second, chosen):
    """Whether a chosen run's left or right float has a smaller value in the second sheet."""
    return any(float_value(show_record(second, at)[side:side + 4]) < float_value(show_record(first, at)[side:side + 4])
               for at in chosen for side in (8, 12))


def rise(first, second):
    """How far L_urban rises from the first sheet to the second; None if demand 3 does not speak of the pair."""
    try:
        before, after = reckon(first), reckon(second)
    except Refused:
        return None
    chosen = chosen_records(before)
    if (not only_levels_differ(first, second) or chosen != chosen_records(after)
            or lowers_a_chosen_level(first, second, chosen)):
        return None
    return after.L_urban - before.L_urban


if __name__ == "__main__":
    print(line(sys.stdin.buffer.read()))
