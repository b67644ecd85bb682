"""Other readings of "From levels to windows"."""

import math
from fractions import Fraction

import reckon
from misread import (PAPER, Single, before, by_a_tenth_first, by_edit, by_floats, for_kind, for_side, half_down, half_from_zero,
                     half_to_even, not_at_all, rounding_in, simple)
from reckon import ABSENT, ACCELERATION_RUN, CONSTANT_RUN, LEVEL, OVERLOAD, rounded, span, valid_runs

# Roundings, here and in the gear rules and L_urban.

STEPS = (("level_tenths", "a level"), ("correction", "d"), ("condition_level", "a condition's level"),
         ("run_acceleration", "a run's acceleration"), ("gear_acceleration", "a gear's acceleration"), ("pmr_tenths", "PMR"),
         ("k_hundredths", "k"), ("weighed_tenths", "a weighed level"), ("kp_hundredths", "kp"), ("L_urban_of", "L_urban"))
WAYS = (("a half goes down", half_down), ("a half goes to the even number", half_to_even),
        ("a half goes away from zero", half_from_zero), ("is rounded to a tenth of its unit first", by_a_tenth_first))
ROUNDINGS = [(f"{step}: {words}", rounding_in(name, way)) for words, way in WAYS for name, step in STEPS]
NOT_ROUNDED = [(f"{step} is not rounded", rounding_in(name, not_at_all)) for name, step in STEPS[:5]]


# Floats for fractions.

def corrected_by_floats(kind):
    """Step 1 by floats, the others as they are."""
    def corrected(value, background):
        level = math.floor(float(kind(10) * kind(float(value)) + kind(0.5)))
        return PAPER["corrected"](Fraction(level, 10), background)
    return {"corrected": corrected}


def path(vehicle):
    return (1000 if vehicle.from_pp else 2000) + vehicle.length


def acceleration(kind, run, vehicle):
    squares = kind(run.end_speed) * kind(run.end_speed) - kind(run.start_speed) * kind(run.start_speed)
    return kind(625) * squares / (kind(162) * kind(path(vehicle)))


def acceleration_in_metres(kind, run, vehicle):
    """In m/s and m: (v² − u²) / 2s, in hundredths."""
    first, last = kind(run.start_speed) / kind(36), kind(run.end_speed) / kind(36)
    return kind(100) * ((last * last - first * first) / (kind(2) * (kind(path(vehicle)) / kind(100))))


FLOATS = [(f"{words} by {size} floats", changes) for words, name, formula in (
    ("a run's acceleration", "run_acceleration", acceleration),
    ("a run's acceleration in metres", "run_acceleration", acceleration_in_metres),
    ("a gear's acceleration", "gear_acceleration", lambda kind, window: kind(sum(run.acceleration for run in window)) / kind(4)),
    ("a condition's level", "condition_level", lambda kind, window: kind(10) * (kind(float(PAPER["mean_level"](window))) / kind(10))),
) for size, changes in by_floats(name, formula)]
FLOATS += [("a level by 32-bit floats", corrected_by_floats(Single)), ("a level by 64-bit floats", corrected_by_floats(float))]


# Steps 1 to 3: levels and valid runs.

NEAREST = "rounded(Fraction(d, 10))"
OFF = f"CORRECTIONS.get({NEAREST}, 0)"
BESIDE_STEPS = [pair for step in range(105, 155, 10) for pair in ((step - 1, step), (step, step - 1))]

CORRECTED = by_edit(
    ("d from the float, before rounding", "corrected", "if d < LOWEST_DIFFERENCE", "if 10 * value - background < LOWEST_DIFFERENCE"),
    ("d above 10.0", "corrected", "d < LOWEST_DIFFERENCE", "d <= LOWEST_DIFFERENCE"),
    ("d at least 10.0 after the correction", "corrected", "if d < LOWEST_DIFFERENCE", "if d - correction(d) < LOWEST_DIFFERENCE"),
    ("d at least 10.0 after its rounding", "corrected", "if d < LOWEST_DIFFERENCE", f"if 10 * {NEAREST} < LOWEST_DIFFERENCE"),
    ("d at least 9.5, nothing off below 10.0", "corrected", "return None", "return level if d >= 95 else None"),
    ("0.5 off below 10.0, and valid", "corrected", "return None", "return level - 5"),
    ("no level below 10.0 is set aside", "corrected", "if d < LOWEST_DIFFERENCE", "if False"),
    ("d from a background of 0", "corrected", "level - background", "level"),
    ("the float's d rounded to a whole decibel at once", "corrected", "correction(d)", "correction(10 * value - background)"),
    ("the float's fraction of d dropped", "corrected", "correction(d)", "correction((10 * value - background) // 10 * 10)"),
    ("level and background each to whole decibels", "corrected", "correction(d)",
     "correction(10 * (rounded(Fraction(level, 10)) - rounded(Fraction(background, 10))))"),
    ("no correction", "corrected", "level - correction(d)", "level"),
    ("the correction is added", "corrected", "level - correction(d)", "level + correction(d)"),
    ("0.1 less off", "corrected", "level - correction(d)", "level - correction(d) + 1"),
    *((words, "correction", NEAREST, whole) for words, whole in (
        ("the fraction of d dropped", "d // 10"),
        ("d rounded up", "-(-d // 10)"),
        ("a half of d goes to the odd number", f"{NEAREST} - (d % 20 == 15)"),
        ("d to half a decibel first", "rounded(Fraction(rounded(Fraction(d, 5)), 2))"),
        ("the correction of the decibel below", f"{NEAREST} - 1"),
        ("the correction of the decibel above", f"{NEAREST} + 1"),
        ("the last correction past the table's end", f"min({NEAREST}, 15)"),
        ("the last correction but one past its place", f"min({NEAREST}, 14)"),
        *((f"d {d / 10} has the correction of {other / 10}", f"rounded(Fraction({other} if d == {d} else d, 10))")
          for d, other in BESIDE_STEPS))),
    *((words, "correction", OFF, off) for words, off in (
        ("corrections between the whole decibels", "max(rounded(Fraction(150 - d, 10)), 0)"),
        ("corrections between the whole decibels, not rounded", "max(Fraction(150 - d, 10), 0)"),
        ("0.5 off for every d to 15.0", "5 if d < 150 else 0"),
        ("0.1 off from 14.5 to 14.9", f"1 if 145 <= d < 150 else {OFF}"),
        ("0.1 off above 15", f"CORRECTIONS.get({NEAREST}, 1)"))),
    *((words, "level_tenths", "rounded(10 * value)", tenths) for words, tenths in (
        ("a level's fraction of a tenth is dropped", "int(10 * value)"),
        ("a level to half a decibel", "5 * rounded(2 * value)"),
        ("a level to a whole decibel", "10 * rounded(value)"),
        ("a level to a hundredth first", "rounded(Fraction(rounded(100 * value), 10))"))),
)


def taken_for(words, condition, change):
    """A run that meets a condition is changed before validity is asked."""
    return words, before("valid_run", lambda run, vehicle: (change(run) if condition(run) else run, vehicle))


def as_level(side):
    """An overload as a level; an absent reading stays."""
    return side._replace(kind=LEVEL) if side.kind == OVERLOAD else side


def sides(run):
    return run.left.kind, run.right.kind


def exchanged(pair):
    """A run, or what else has a left and a right, with these exchanged."""
    return pair._replace(left=pair.right, right=pair.left)


TAKEN = [
    *(taken_for(f"a struck run counts{words}", test, lambda run: run._replace(struck=False)) for words, test in (
        ("", lambda run: True), (" at constant speed", lambda run: run.kind == CONSTANT_RUN),
        (" in acceleration", lambda run: run.kind == ACCELERATION_RUN))),
    *(taken_for(f"an overload is a level{words}", test, lambda run: run._replace(left=as_level(run.left), right=as_level(run.right)))
      for words, test in (("", lambda run: True), (" beside a level", lambda run: LEVEL in sides(run)),
                          (" at constant speed", lambda run: run.kind == CONSTANT_RUN),
                          (" in acceleration", lambda run: run.kind == ACCELERATION_RUN))),
    taken_for("an overload on the left is a level", lambda run: True, lambda run: run._replace(left=as_level(run.left))),
    taken_for("an overload on the right is a level", lambda run: True, lambda run: run._replace(right=as_level(run.right))),
    taken_for("an absent left is the right", lambda run: run.left.kind == ABSENT, lambda run: run._replace(left=run.right)),
    taken_for("an absent right is the left", lambda run: run.right.kind == ABSENT, lambda run: run._replace(right=run.left)),
    taken_for("an overload on the left is the right", lambda run: run.left.kind == OVERLOAD, lambda run: run._replace(left=run.right)),
    taken_for("an overload on the right is the left", lambda run: run.right.kind == OVERLOAD, lambda run: run._replace(right=run.left)),
    taken_for("the left is read for the right", lambda run: True, lambda run: run._replace(right=run.left)),
    taken_for("the right is read for the left", lambda run: True, lambda run: run._replace(left=run.right)),
    taken_for("levels exchanged", lambda run: True, exchanged),
    ("sides exchanged", before("valid_run", lambda run, vehicle: (exchanged(run), vehicle._replace(background=exchanged(vehicle.background))))),
    *(taken_for(f"an absent reading is the level {level}", lambda run: ABSENT in sides(run), lambda run, level=level: run._replace(
        **{side: reckon.Reading(LEVEL, Fraction(level)) for side in ("left", "right") if getattr(run, side).kind == ABSENT}))
      for level in (0, 20)),
]

# A run whose d is not asked of a side has that side's level without a correction.
KEPT = ("ValidRun(run.record, left, right",
        "ValidRun(run.record, left or rounded(10 * run.left.value), right or rounded(10 * run.right.value)")

VALID = by_edit(
    *((words, "valid_run", "left is None or right is None", test, *KEPT) for words, test in (
        ("d asked of the left only", "left is None"), ("d asked of the right only", "right is None"),
        ("d asked of one side or the other", "left is None and right is None"),
        ("d not asked at constant speed", "run.kind == ACCELERATION_RUN and (left is None or right is None)"),
        ("d not asked in acceleration", "run.kind == CONSTANT_RUN and (left is None or right is None)"))),
    ("one reading has to be a level", "valid_run", "run.left.kind != LEVEL or run.right.kind != LEVEL",
     "run.left.kind != LEVEL and run.right.kind != LEVEL or ABSENT in (run.left.kind, run.right.kind)"),
    ("a run above S is not valid", "valid_run", "if run.struck or", "if run.struck or run.engine_speed > vehicle.rated_speed or"),
    ("a run without engine speed is not valid", "valid_run", "if run.struck or", "if run.struck or run.engine_speed == 0 or"),
    ("a run that does not get faster is not valid", "valid_run", "if run.struck or",
     "if run.struck or run.kind == 2 and run.start_speed == run.end_speed or"),
    ("a constant-speed run off 50 km/h is not valid", "valid_run", "if run.struck or",
     "if run.struck or run.kind == 3 and abs(run.start_speed - 500) > 10 or"),
    ("a constant-speed run that changes its speed is not valid", "valid_run", "if run.struck or",
     "if run.struck or run.kind == 3 and run.start_speed != run.end_speed or"),
)


SIDES = [(f"{words}, {side} only", for_side(side, changes)) for words, changes in CORRECTED for side in ("left", "right")]


# Step 4: windows.

def fours_of(rest):
    return [tuple(rest[at:at + 4]) for at in range(len(rest) - 3)]


def windows_of(rest):
    return [four for four in fours_of(rest) if reckon.is_window(four)]


def search(words, pick):
    """A search that picks a window, or None, from the valid runs of a gear and kind."""
    return words, {"find_window": lambda *condition: pick(valid_runs(*condition))}


def first_of(windows):
    return windows[0] if windows else None


def any_four(rest):
    """The first valid run with three later ones within its span."""
    for at in range(len(rest)):
        four = []
        for run in rest[at:]:
            if reckon.is_window(four + [run]):
                four.append(run)
            if len(four) == 4:
                return tuple(four)
    return None


def restarted(rest):
    """The search goes on behind a run that does not fit."""
    four = []
    for run in rest:
        four = four + [run] if reckon.is_window(four + [run]) else [run]
        if len(four) == 4:
            return tuple(four)
    return None


def mean(window):
    return PAPER["mean_level"](window)


def width(window):
    return max(span([run.left for run in window]), span([run.right for run in window]))


SEARCHES = [
    search("any four runs within the span", any_four),
    search("a misfit is where the next window may begin, at the earliest", restarted),
    search("the last window", lambda rest: first_of(windows_of(rest)[::-1])),
    search("the narrowest window", lambda rest: min(windows_of(rest), key=width, default=None)),
    search("the loudest window", lambda rest: max(windows_of(rest), key=mean, default=None)),
    search("the quietest window", lambda rest: min(windows_of(rest), key=mean, default=None)),
    search("the second window", lambda rest: first_of(windows_of(rest)[1:] or windows_of(rest))),
    search("blocks of four", lambda rest: first_of([four for four in fours_of(rest)[::4] if reckon.is_window(four)])),
    search("every second place", lambda rest: first_of([four for four in fours_of(rest)[::2] if reckon.is_window(four)])),
    search("the first four or none", lambda rest: first_of([four for four in fours_of(rest)[:1] if reckon.is_window(four)])),
    search("the last four or none", lambda rest: first_of([four for four in fours_of(rest)[-1:] if reckon.is_window(four)])),
    search("the first four, whatever their span", lambda rest: first_of(fours_of(rest))),
    search("the last place is not looked at", lambda rest: first_of(windows_of(rest[:-1]))),
    search("the first place is not looked at", lambda rest: first_of(windows_of(rest[1:]))),
    search("a window needs a fifth run", lambda rest: first_of(windows_of(rest)) if len(rest) > 4 else None),
    search("all valid runs have to be within the span",
           lambda rest: first_of(windows_of(rest)) if rest and reckon.is_window(rest) else None),
    search("runs by their levels, not in the sheet's order", lambda rest: first_of(windows_of(sorted(rest, key=lambda run: run[1:3])))),
    search("runs from the last to the first", lambda rest: first_of(windows_of(rest[::-1]))),
]
PLACES = [
    *(search(f"the first {count} places only", lambda rest, count=count: first_of(windows_of(rest[:count + 3])))
      for count in (*range(1, 41), 63, 127, 254, 255, 256, 500)),
    *(search(f"place {place} is passed over", lambda rest, place=place: first_of(
        [four for at, four in enumerate(fours_of(rest), 1) if at != place and reckon.is_window(four)])) for place in range(1, 41)),
]
FAR = [(f"the first {count} runs of a sheet only", before("find_window", lambda runs, *rest, count=count: (runs[:count], *rest)))
       for count in (4, 8, 16, 32, 64, 128, 255, 256, 512, 1000, 1020)]


def interrupted(words, breaks):
    """A run that is not valid for some cause parts its neighbours."""
    def find_window(runs, vehicle, kind, gear):
        parts = [[]]
        for run in runs:
            if breaks(run, vehicle, kind, gear):
                parts.append([])
            else:
                parts[-1].append(run)
        return next(filter(None, (PAPER["find_window"](part, vehicle, kind, gear) for part in parts)), None)
    return words, {"find_window": find_window}


def same(run, kind, gear):
    return (run.kind, run.gear) == (kind, gear)


PARTED = [
    interrupted("a struck run parts its neighbours", lambda run, vehicle, *of: same(run, *of) and run.struck),
    interrupted("an overload parts its neighbours", lambda run, vehicle, *of: same(run, *of) and OVERLOAD in sides(run)),
    interrupted("an absent reading parts its neighbours", lambda run, vehicle, *of: same(run, *of) and ABSENT in sides(run)),
    interrupted("a run near the background parts its neighbours", lambda run, vehicle, *of: same(run, *of) and not run.struck
                and sides(run) == (LEVEL, LEVEL) and PAPER["valid_run"](run, vehicle) is None),
    interrupted("a run of another gear parts its neighbours", lambda run, vehicle, kind, gear: run.gear != gear),
    interrupted("a run of the other kind parts its neighbours", lambda run, vehicle, kind, gear: run.kind != kind),
    interrupted("a run of the gear's other kind parts its neighbours",
                lambda run, vehicle, kind, gear: run.gear == gear and run.kind != kind),
]

SPAN = "span([run.left for run in four]) <= WIDEST_SPAN and span([run.right for run in four]) <= WIDEST_SPAN"


def on_both_sides(test):
    """A test of one side's levels, asked of both."""
    return f"all({test} for side in ([run.left for run in four], [run.right for run in four]))"


SPANS = by_edit(*((words, "is_window", SPAN, new) for words, new in (
    ("span on the sum of sides", "span([run.left + run.right for run in four]) <= WIDEST_SPAN"),
    ("span on the mean of sides", "span([run.left + run.right for run in four]) <= 2 * WIDEST_SPAN"),
    ("span on the louder side", "span([max(run.left, run.right) for run in four]) <= WIDEST_SPAN"),
    ("span on the left alone", "span([run.left for run in four]) <= WIDEST_SPAN"),
    ("span on the right alone", "span([run.right for run in four]) <= WIDEST_SPAN"),
    ("span over both sides together", "span([level for run in four for level in (run.left, run.right)]) <= WIDEST_SPAN"),
    ("span on one side or the other", "min(span([run.left for run in four]), span([run.right for run in four])) <= WIDEST_SPAN"),
    ("span below 2.0", on_both_sides("span(side) < 20")),
    ("span below 2.0 on the left", SPAN.replace("<=", "<", 1)),
    ("span below 2.0 on the right", SPAN.replace("<= WIDEST_SPAN and", "<= 20 and").replace("<= WIDEST", "< WIDEST")),
    ("span between neighbours", on_both_sides("all(abs(one - two) <= 20 for one, two in zip(side, side[1:]))")),
    ("span from the first", on_both_sides("all(abs(one - side[0]) <= 20 for one in side)")),
    ("span from the last", on_both_sides("all(abs(one - side[-1]) <= 20 for one in side)")),
    ("span of the first and the last", on_both_sides("abs(side[0] - side[-1]) <= 20")),
    ("within 2.0 of the mean", on_both_sides("all(abs(4 * one - sum(side)) <= 80 for one in side)")),
    ("within 1.0 of the mean", on_both_sides("all(abs(4 * one - sum(side)) <= 40 for one in side)")),
    ("no span asked", "True"),
    *((f"span without run {at + 1}", on_both_sides(f"span(side[:{at}] + side[{at + 1}:]) <= 20")) for at in range(4)),
)))


def uncorrected(run, vehicle):
    """A valid run with the levels before their correction."""
    valid = PAPER["valid_run"](run, vehicle)
    return valid and valid._replace(left=rounded(10 * run.left.value), right=rounded(10 * run.right.value))


def span_before_correction(runs, vehicle, kind, gear):
    chosen = [(uncorrected(run, vehicle), PAPER["valid_run"](run, vehicle)) for run in runs if same(run, kind, gear)]
    rest = [pair for pair in chosen if pair[0]]
    fours = (rest[at:at + 4] for at in range(len(rest) - 3))
    return next((tuple(valid for _, valid in four) for four in fours if PAPER["is_window"]([raw for raw, _ in four])), None)


# Step 5: a condition's level.

def mean_with(words, sums):
    return words, {"mean_level": lambda window: Fraction(sums([run.left for run in window], [run.right for run in window]))}


def decibel_mean(levels):
    """The mean of the sound powers, to a thousandth of a decibel."""
    return Fraction(round(10000 * math.log10(sum(10 ** (level / 100) for level in levels) / 4)), 100)


MEANS = [
    mean_with("mean of each run's louder side", lambda left, right: Fraction(sum(map(max, left, right)), 4)),
    mean_with("mean of both sides", lambda left, right: Fraction(sum(left) + sum(right), 8)),
    mean_with("the smaller mean", lambda left, right: Fraction(min(sum(left), sum(right)), 4)),
    mean_with("the left's mean", lambda left, right: Fraction(sum(left), 4)),
    mean_with("the right's mean", lambda left, right: Fraction(sum(right), 4)),
    mean_with("the loudest run", lambda left, right: max(left + right)),
    mean_with("the median of the louder side", lambda left, right: Fraction(sum(sorted(max(left, right, key=sum))[1:3]), 2)),
    mean_with("the mean of the highest and the lowest",
              lambda left, right: Fraction(max(max(left) + min(left), max(right) + min(right)), 2)),
    mean_with("means of the sound powers", lambda left, right: max(decibel_mean(left), decibel_mean(right))),
    mean_with("both means are rounded, the larger one counts",
              lambda left, right: max(rounded(Fraction(sum(left), 4)), rounded(Fraction(sum(right), 4)))),
    mean_with("means cut to a tenth", lambda left, right: max(sum(left), sum(right)) // 4),
    *(mean_with(f"the mean without run {at + 1}", lambda left, right, at=at: Fraction(
        max(sum(left) - left[at], sum(right) - right[at]), 3)) for at in range(4)),
]


# Step 6: accelerations.

ACCELERATIONS = by_edit(
    ("c is 2,000 from PP' too", "run_acceleration", "1000 if vehicle.from_pp else 2000", "2000"),
    ("c is 1,000 from AA' too", "run_acceleration", "1000 if vehicle.from_pp else 2000", "1000"),
    ("no length", "run_acceleration", "(c + vehicle.length)", "c"),
    ("half the length", "run_acceleration", "(c + vehicle.length)", "(c + Fraction(vehicle.length, 2))"),
    ("the length twice", "run_acceleration", "(c + vehicle.length)", "(c + 2 * vehicle.length)"),
    ("the length in whole metres", "run_acceleration", "c + vehicle.length", "c + vehicle.length // 100 * 100"),
    ("the length from AA' only", "run_acceleration", "c + vehicle.length", "c + (0 if vehicle.from_pp else vehicle.length)"),
    ("speeds in whole km/h", "run_acceleration", "run.end_speed ** 2 - run.start_speed ** 2",
     "(run.end_speed // 10 * 10) ** 2 - (run.start_speed // 10 * 10) ** 2"),
    ("the square of the difference", "run_acceleration", "run.end_speed ** 2 - run.start_speed ** 2",
     "(run.end_speed - run.start_speed) ** 2"),
    ("squares by 16 bits", "run_acceleration", "run.end_speed ** 2 - run.start_speed ** 2",
     "run.end_speed ** 2 % 65536 - run.start_speed ** 2 % 65536"),
    ("the product by 31 bits", "run_acceleration", "625 * (run.end_speed ** 2 - run.start_speed ** 2)",
     "625 * (run.end_speed ** 2 - run.start_speed ** 2) % 2 ** 31"),
    ("the product by 30 bits", "run_acceleration", "625 * (run.end_speed ** 2 - run.start_speed ** 2)",
     "625 * (run.end_speed ** 2 - run.start_speed ** 2) % 2 ** 30"),
    ("an acceleration by 12 bits", "run_acceleration", "return rounded(", "return 4095 & rounded("),
    ("a gear's acceleration is cut", "gear_acceleration", "rounded(Fraction(sum(run.acceleration for run in window), 4))",
     "sum(run.acceleration for run in window) // 4"),
    ("the highest acceleration of the window", "gear_acceleration", "rounded(Fraction(sum(run.acceleration for run in window), 4))",
     "max(run.acceleration for run in window)"),
    ("the lowest acceleration of the window", "gear_acceleration", "rounded(Fraction(sum(run.acceleration for run in window), 4))",
     "min(run.acceleration for run in window)"),
    *((f"the acceleration of run {at + 1} of the window", "gear_acceleration",
       "rounded(Fraction(sum(run.acceleration for run in window), 4))", f"window[{at}].acceleration") for at in range(4)),
    *((f"a gear's acceleration without run {at + 1}", "gear_acceleration", "for run in window), 4)",
       f"for run in window[:{at}] + window[{at + 1}:]), 3)") for at in range(4)),
)


def from_mean_speeds(runs, vehicle, kind, gear):
    """Each run of the window has the acceleration of the mean speeds."""
    window = PAPER["find_window"](runs, vehicle, kind, gear)
    if window is None:
        return None
    records = {run.record for run in window}
    chosen = [run for run in runs if run.record in records]
    both = chosen[0]._replace(start_speed=Fraction(sum(run.start_speed for run in chosen), 4),
                              end_speed=Fraction(sum(run.end_speed for run in chosen), 4))
    c = path(vehicle)
    a = rounded(625 * (both.end_speed ** 2 - both.start_speed ** 2) / (162 * c))
    return tuple(run._replace(acceleration=a) for run in window)


def from_all_valid_runs(runs, vehicle, kind, gear):
    """Each run of the window has the mean acceleration of all valid runs."""
    window = PAPER["find_window"](runs, vehicle, kind, gear)
    rest = valid_runs(runs, vehicle, kind, gear)
    return window and tuple(run._replace(acceleration=Fraction(sum(one.acceleration for one in rest), len(rest))) for run in window)


def levels_of_all_valid_runs(runs, vehicle, kind, gear):
    window = PAPER["find_window"](runs, vehicle, kind, gear)
    rest = valid_runs(runs, vehicle, kind, gear)
    return window and tuple(run._replace(left=Fraction(sum(one.left for one in rest), len(rest)),
                                         right=Fraction(sum(one.right for one in rest), len(rest))) for run in window)


OTHERS = simple(
    ("span before the correction", "find_window", span_before_correction),
    ("accelerations from mean speeds", "find_window", from_mean_speeds),
    ("the acceleration of all valid runs", "find_window", from_all_valid_runs),
    ("the level of all valid runs", "find_window", levels_of_all_valid_runs),
    ("an acceleration of at most 9.99", "run_acceleration", lambda *run: min(999, PAPER["run_acceleration"](*run))),
)

# The readings of levels and windows once more, each for one kind of run.

def names_a_kind(words):
    return any(part in words for part in ("constant", "acceleration", "faster"))


KINDS = [(f"{words}, {runs}", for_kind(kind, changes))
         for words, changes in CORRECTED + TAKEN + VALID + SIDES + SEARCHES + PARTED + SPANS if not names_a_kind(words)
         for runs, kind in (("acceleration runs only", ACCELERATION_RUN), ("constant speed only", CONSTANT_RUN))]

READINGS = (ROUNDINGS + NOT_ROUNDED + FLOATS + CORRECTED + TAKEN + VALID + SIDES + SEARCHES + PLACES + FAR + PARTED + SPANS + MEANS
            + ACCELERATIONS + OTHERS + KINDS)



# What the reasons below rest on, to be tried.

def same_for_every_sum():
    """A condition's level by floats, for every sum of four levels."""
    windows = [tuple(reckon.ValidRun(0, (total + at) // 4, 0, 0, 0) for at in range(4)) for total in range(4 * 195, 4 * 1400 + 1)]
    functions = [changes["condition_level"] for _, changes in FLOATS if "condition_level" in changes]
    return all(function(window) == PAPER["condition_level"](window) for function in functions for window in windows)


TRIED = (same_for_every_sum,)

EACH_KIND = ("", ", acceleration runs only", ", constant speed only")

# Readings that give the same answer on every sheet, by the reason.
EQUIVALENT = {
    "nothing that is rounded is below zero": [f"{step}: a half goes away from zero" for _, step in STEPS],
    "a mean of four is a quarter: to a tenth it goes to the side that it goes to at once": [
        "a condition's level: is rounded to a tenth of its unit first", "a gear's acceleration: is rounded to a tenth of its unit first"],
    "a quarter is exact in a float, and `same_for_every_sum` tries its tenth": [
        f"a {what} by {size} floats" for what in ("gear's acceleration", "condition's level") for size in ("32-bit", "64-bit")],
    "d is in whole tenths": ["d: is rounded to a tenth of its unit first"],
    "nothing is taken off at 15 dB or above it": [
        f"the last correction past the table's end{side}{runs}" for side in ("", ", left only", ", right only") for runs in EACH_KIND],
    "ten times a 32-bit float is exact in 64 bits": ["a level by 64-bit floats"],
    "a half is exact, and any other quotient is further from one than its error": ["a run's acceleration by 64-bit floats"],
    "no rule tells left from right": [f"sides exchanged{runs}" for runs in EACH_KIND],
    "0 is not 10.0 above a background": [f"an absent reading is the level 0{runs}" for runs in EACH_KIND],
    "rounding keeps the order of the two": ["both means are rounded, the larger one counts"],
    "625 x (1,500² - 10²) is below 2^31": ["the product by 31 bits"],
}
