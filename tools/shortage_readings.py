"""Other readings of document 02's wish 5: which kind of shortage a gear without a window has.

`sheet_readings` has the order of the rows and the places of refusals, `window_readings` which runs are valid and what a window is,
and `edits` each number one more and one less.
"""

from itertools import combinations

from misread import PAPER, by_edit, edited, for_kind
from reckon import (ABSENT, ACCELERATION_RUN, CONSTANT_RUN, LEVEL, NO_WINDOW, OVERLOAD, Refused, Sides, corrected, is_window, level_tenths,
                    span, valid_run, valid_runs)
from sheet_readings import passing_over
from window_readings import first_of, search, windows_of

KINDS = (("in acceleration", ACCELERATION_RUN), ("at constant speed", CONSTANT_RUN))


# Numbers.

def numbered(words, *pairs):
    """Other numbers of acceleration and of constant speed: with too few valid runs, and too wide."""
    return words, {"NO_WINDOW": dict(zip((ACCELERATION_RUN, CONSTANT_RUN), pairs))}


NUMBERS = [
    numbered("7 and 14 exchanged", (14, 7), (10, 15)), numbered("10 and 15 exchanged", (7, 14), (15, 10)),
    numbered("7 and 14, 10 and 15 exchanged", (14, 7), (15, 10)), numbered("14 and 15 exchanged", (7, 15), (10, 14)),
    numbered("7 and 10 exchanged", (10, 14), (7, 15)), numbered("no number 14", (7, 7), (10, 15)),
    numbered("no number 15", (7, 14), (10, 10)), numbered("neither 14 nor 15", (7, 7), (10, 10)),
    numbered("14 for every gear without an acceleration window", (14, 14), (10, 15)),
    numbered("15 for every gear without a constant-speed window", (7, 14), (15, 15)),
    numbered("14 at constant speed, too", (7, 14), (10, 14)), numbered("15 in acceleration, too", (7, 15), (10, 15)),
    numbered("7 at constant speed, too", (7, 14), (7, 15)), numbered("10 in acceleration, too", (10, 14), (10, 15)),
    numbered("10 for a gear too wide in acceleration", (7, 10), (10, 15)),
    numbered("14 for a gear with too few at constant speed", (7, 14), (14, 15)),
]


# No acceleration run at all, and no valid one.

def no_valid_run(number):
    """A sheet with acceleration runs of which none is valid is refused at place 0."""
    def acceleration_windows(runs, vehicle):
        kept = [run for run in runs if run.kind == ACCELERATION_RUN]
        if kept and not any(valid_run(run, vehicle) for run in kept):
            raise Refused(number, 0)
        return PAPER["acceleration_windows"](runs, vehicle)
    return {"acceleration_windows": acceleration_windows}


NONE = by_edit(
    *((f"no acceleration run at all is {number}", "acceleration_windows", "Refused(7, 0)", f"Refused({number}, 0)")
      for number in (10, 14, 15)),
    ("no acceleration run at all names the lowest gear", "acceleration_windows", "Refused(7, 0)",
     "Refused(7, min((run.gear for run in runs), default=0))"),
) + [(f"no valid acceleration run is {number} at place 0", no_valid_run(number)) for number in (7, 14)]


# Which gear decides.

def windows_name(kind):
    return "acceleration_windows" if kind == ACCELERATION_RUN else "constant_windows"


def gears_asked(runs, kind, chosen):
    return sorted(chosen[0] if chosen else {run.gear for run in runs if run.kind == kind})


def deciding(kind, decide):
    """Refusals of a kind by what `decide` says: number and place, from the gears without a window and all gears, each with its shortage."""
    def windows(runs, vehicle, *chosen):
        try:
            return PAPER[windows_name(kind)](runs, vehicle, *chosen)
        except Refused as refusal:
            if refusal.place == 0:
                raise
        gears = gears_asked(runs, kind, chosen)
        numbers = [(gear, PAPER["shortage"](runs, vehicle, kind, gear)) for gear in gears]
        lacking = [one for one in numbers if PAPER["find_window"](runs, vehicle, kind, one[0]) is None]
        raise Refused(*decide(lacking, numbers, NO_WINDOW[kind]))
    return {windows_name(kind): windows}


def lowest_with(lacking, number):
    """The lowest gear with a number, or the lowest without a window."""
    gear, found = next((one for one in lacking if one[1] == number), lacking[0])
    return found, gear


def at_lowest(number_of):
    """The place of the paper, with another number, from the numbers of the gears without a window and of all gears."""
    def decide(lacking, numbers, both):
        return number_of([number for _, number in lacking], [number for _, number in numbers], both), lacking[0][0]
    return decide


DECIDERS = (
    ("the highest gear without a window decides the number", at_lowest(lambda lacking, numbers, both: lacking[-1])),
    ("the second gear without a window decides the number", at_lowest(lambda lacking, numbers, both: lacking[:2][-1])),
    ("any gear without a window that is too wide decides the number", at_lowest(lambda lacking, numbers, both: max(lacking))),
    ("any gear without a window that has too few decides the number", at_lowest(lambda lacking, numbers, both: min(lacking))),
    ("most gears without a window decide the number", at_lowest(lambda lacking, numbers, both: max(both, key=lacking.count))),
    ("the lowest gear of all decides the number", at_lowest(lambda lacking, numbers, both: numbers[0])),
    ("the highest gear of all decides the number", at_lowest(lambda lacking, numbers, both: numbers[-1])),
    ("too wide if two gears have no window", at_lowest(lambda lacking, numbers, both: both[1] if len(lacking) > 1 else lacking[0])),
    ("too few if two gears have no window", at_lowest(lambda lacking, numbers, both: both[0] if len(lacking) > 1 else lacking[0])),
    ("the highest gear without a window, by its shortage", lambda lacking, numbers, both: lacking[-1][::-1]),
    ("the highest gear without a window is the place, the lowest decides the number",
     lambda lacking, numbers, both: (lacking[0][1], lacking[-1][0])),
    ("too few of any gear comes before too wide", lambda lacking, numbers, both: lowest_with(lacking, both[0])),
    ("too wide of any gear comes before too few", lambda lacking, numbers, both: lowest_with(lacking, both[1])),
    ("the highest gear with the shortage of the lowest is the place",
     lambda lacking, numbers, both: (lacking[0][1], max(gear for gear, number in lacking if number == lacking[0][1]))),
    ("the lowest gear of all is the place", lambda lacking, numbers, both: (lacking[0][1], numbers[0][0])),
)
DECIDED = [(f"{words}, {runs}", deciding(kind, decide)) for words, decide in DECIDERS for runs, kind in KINDS]


def by_chosen(pick):
    """At constant speed, a chosen gear decides the number, whether it has a window or not."""
    def constant_windows(runs, vehicle, chosen):
        try:
            return PAPER["constant_windows"](runs, vehicle, chosen)
        except Refused as refusal:
            raise Refused(PAPER["shortage"](runs, vehicle, CONSTANT_RUN, pick(chosen, refusal.place)), refusal.place)
    return {"constant_windows": constant_windows}


CHOSEN = [
    ("gear i decides the number at constant speed", by_chosen(lambda chosen, place: chosen[0])),
    ("gear j decides the number at constant speed", by_chosen(lambda chosen, place: chosen[-1])),
    ("the other gear of a pair decides the number at constant speed",
     by_chosen(lambda chosen, place: next((gear for gear in chosen if gear != place), place))),
]


# What is counted.

def by_count(count, fewest=4):
    """The shortage by a count of what `count` finds in the runs; `fewest` of them are not too few."""
    def shortage(runs, vehicle, kind, gear):
        too_few, too_wide = NO_WINDOW[kind]
        return too_few if count(runs, vehicle, kind, gear) < fewest else too_wide
    return {"shortage": shortage}


def of_gear(runs, kind, gear):
    return [run for run in runs if (run.kind, run.gear) == (kind, gear)]


def side_of(reading, background):
    """What a side is: `level` if it leaves the run valid, or why it does not."""
    if reading.kind != LEVEL:
        return {OVERLOAD: "overloaded", ABSENT: "absent"}[reading.kind]
    return "quiet" if corrected(reading.value, background) is None else "level"


def sides_of(run, vehicle):
    return [side_of(*side) for side in zip((run.left, run.right), vehicle.background)]


def causes_of(run, vehicle):
    """Why a run is not valid."""
    return {*sides_of(run, vehicle), *(["struck"] if run.struck else [])} - {"level"}


CAUSES = ("struck", "overloaded", "absent", "quiet")


def sparing(causes):
    """Runs that are valid but for these causes."""
    return by_count(lambda runs, vehicle, kind, gear: sum(causes_of(run, vehicle) <= set(causes) for run in of_gear(runs, kind, gear)))


def by_sides(test):
    """Runs that are not struck, by a test of their sides."""
    return by_count(lambda runs, vehicle, kind, gear: sum(
        not run.struck and test(sides_of(run, vehicle)) for run in of_gear(runs, kind, gear)))


def of_runs(keep):
    """The valid runs among those that are kept of a gear and kind."""
    return by_count(lambda runs, vehicle, kind, gear: len(valid_runs(keep(of_gear(runs, kind, gear)), vehicle, kind, gear)))


def of_valid(count):
    """A count made of the valid runs."""
    return by_count(lambda runs, vehicle, kind, gear: count(valid_runs(runs, vehicle, kind, gear)))


def stretches(marks):
    """The lengths of the stretches of true marks."""
    lengths = [0]
    for mark in marks:
        if mark:
            lengths[-1] += 1
        else:
            lengths.append(0)
    return lengths


def stretch(pick):
    """The valid runs that no other run of the gear and kind parts: of some stretch."""
    return by_count(lambda runs, vehicle, kind, gear: pick(stretches(
        valid_run(run, vehicle) is not None for run in of_gear(runs, kind, gear))))


def in_a_row(runs, vehicle, kind, gear):
    """The most valid runs that no run of another gear or kind parts."""
    other = [run for run in runs if (run.kind, run.gear) != (kind, gear) or valid_run(run, vehicle)]
    return max(stretches((run.kind, run.gear) == (kind, gear) for run in other))


def backgrounds(change):
    """The runs that are valid over other backgrounds."""
    return by_count(lambda runs, vehicle, kind, gear: len(valid_runs(
        runs, vehicle._replace(background=Sides(*change(vehicle.background))), kind, gear)))


def is_farther(run, vehicle, lowest):
    """Whether a run is valid with a d from a lowest one on."""
    sides = zip((run.left, run.right), vehicle.background)
    return valid_run(run, vehicle) is not None and all(level_tenths(side.value) - background >= lowest for side, background in sides)


def with_d(lowest):
    return by_count(lambda runs, vehicle, kind, gear: sum(is_farther(run, vehicle, lowest) for run in of_gear(runs, kind, gear)))


SPARED = [(f"{' and '.join(causes)} runs count among the valid ones", sparing(causes))
          for size in (1, 2, 3, 4) for causes in combinations(CAUSES, size)]

COUNTED = SPARED + [
    ("the valid runs of both kinds are counted", by_count(
        lambda runs, vehicle, kind, gear: sum(len(valid_runs(runs, vehicle, each, gear)) for each in (ACCELERATION_RUN, CONSTANT_RUN)))),
    ("the valid runs of the other kind are counted", by_count(
        lambda runs, vehicle, kind, gear: len(valid_runs(runs, vehicle, ACCELERATION_RUN + CONSTANT_RUN - kind, gear)))),
    ("the valid runs of all gears are counted", by_count(
        lambda runs, vehicle, kind, gear: sum(run.kind == kind and valid_run(run, vehicle) is not None for run in runs))),
    ("all valid runs of the sheet are counted", by_count(
        lambda runs, vehicle, kind, gear: sum(valid_run(run, vehicle) is not None for run in runs))),
    ("all runs of the gear are counted, of both kinds", by_count(lambda runs, vehicle, kind, gear: sum(run.gear == gear for run in runs))),
    ("all runs of the kind are counted", by_count(lambda runs, vehicle, kind, gear: sum(run.kind == kind for run in runs))),
    ("all runs of the sheet are counted", by_count(lambda runs, *_: len(runs))),
    ("the valid runs of lower gears are counted, too", by_count(lambda runs, vehicle, kind, gear: sum(
        run.kind == kind and run.gear <= gear and valid_run(run, vehicle) is not None for run in runs))),
    ("runs with one side valid count", by_sides(lambda sides: "level" in sides)),
    ("runs with the left valid count", by_sides(lambda sides: sides[0] == "level")),
    ("runs with the right valid count", by_sides(lambda sides: sides[1] == "level")),
    ("the left's background decides for both sides", backgrounds(lambda both: (both.left, both.left))),
    ("the right's background decides for both sides", backgrounds(lambda both: (both.right, both.right))),
    ("the louder background decides for both sides", backgrounds(lambda both: (max(both), max(both)))),
    ("the quieter background decides for both sides", backgrounds(lambda both: (min(both), min(both)))),
    ("no background", backgrounds(lambda both: (0, 0))),
    ("only runs with d above 10.0 count", with_d(101)),
    ("only runs with d of 10.0 after the correction count", with_d(105)),
    ("only runs with d above 15.0 count", with_d(151)),
    ("only runs up to S count", by_count(lambda runs, vehicle, kind, gear: len(valid_runs(
        [run for run in runs if run.engine_speed <= vehicle.rated_speed], vehicle, kind, gear)))),
    *((f"the first {count} runs of the gear are asked", of_runs(lambda runs, count=count: runs[:count])) for count in (4, 8, 10, 15, 16)),
    *((f"the last {count} runs of the gear are asked", of_runs(lambda runs, count=count: runs[-count:])) for count in (4, 8, 10, 15, 16)),
    ("the last run is not counted", of_valid(lambda rest: len(rest[:-1]))),
    ("one run more is counted", of_valid(lambda rest: len(rest) + 1)),
    ("the longest stretch of valid runs counts", stretch(max)),
    ("the first stretch of valid runs counts", stretch(lambda lengths: lengths[0])),
    ("the last stretch of valid runs counts", stretch(lambda lengths: lengths[-1])),
    ("the first stretch with a valid run counts", stretch(lambda lengths: next(filter(None, lengths), 0))),
    ("the most valid runs in a row of the sheet count", by_count(in_a_row)),
    ("equal runs count once", of_valid(lambda rest: len({(run.left, run.right) for run in rest}))),
    ("equal levels on the left count once", of_valid(lambda rest: len({run.left for run in rest}))),
    ("equal levels on the right count once", of_valid(lambda rest: len({run.right for run in rest}))),
    *((f"fewer than {fewest} valid runs are too few", by_count(lambda *of: len(valid_runs(*of)), fewest))
      for fewest in (1, 2, 3, 5, 6, 8, 10, 13, 16, 17, 20)),
    ("no valid run is too wide", of_valid(lambda rest: len(rest) or 4)),
    *((f"{words} valid runs are too wide if they are {within} 2.0 dB", of_valid(
        lambda rest, counts=counts, fits=fits: 4 if len(rest) in counts and is_window(rest) == fits else len(rest)))
      for words, counts in (("three", (3,)), ("two or three", (2, 3))) for within, fits in (("within", True), ("not within", False))),
]


# Parts of 16 valid runs, of which the last three are carried over, and counts that lose bits.

def by_length(length):
    return of_valid(lambda rest: length(len(rest)))


PARTS = [
    *((f"the valid runs are counted modulo {size}", by_length(lambda count, size=size: count % size))
      for size in (4, 5, 8, 12, 13, 15, 16, 17, 19, 20, 32, 64, 256)),
    *((f"the three carried over are all that is counted at the end of a part: after {first} runs, and {more} more",
       by_length(lambda count, first=first, more=more: 3 if count >= first and (count - first) % more == 0 else count))
      for first, more in ((16, 13), (16, 16), (19, 16))),
    *((f"the runs carried over are not counted: {more} more in each part after the first",
       by_length(lambda count, more=more: (count - 17) % more + 1 if count > 16 else count)) for more in (13, 16)),
    *((f"{count} valid runs are too few", by_length(lambda found, count=count: 3 if found == count else found)) for count in (16, 17, 19)),
    *((f"more than {most} valid runs are too few", by_length(lambda count, most=most: 3 if count > most else count))
      for most in (15, 16, 200, 500)),
]


# What is too wide.

def too_wide_if(test):
    """A gear with four valid runs or more is too wide only where a test of them holds, and has too few elsewhere."""
    return of_valid(lambda rest: len(rest) if len(rest) < 4 or test(rest) else 3)


def neighbours_within(rest, count):
    return any(is_window(rest[at:at + count]) for at in range(len(rest) - count + 1))


def is_wide(rest, side, widest=20):
    return span([getattr(run, side) for run in rest]) > widest


def any_four_within(rest):
    """Whether some four runs, neighbours or not, are within the span: those from one run's levels on, on each side."""
    return any(sum(0 <= run.left - left <= 20 and 0 <= run.right - right <= 20 for run in rest) >= 4
               for left in {run.left for run in rest} for right in {run.right for run in rest})


SPREAD = [(words, too_wide_if(test)) for words, test in (
    ("too few if some four runs are within 2.0 dB, but no neighbours", lambda rest: not any_four_within(rest)),
    ("too few if three neighbours are within 2.0 dB", lambda rest: not neighbours_within(rest, 3)),
    ("too few unless three neighbours are within 2.0 dB", lambda rest: neighbours_within(rest, 3)),
    ("too few if two neighbours are within 2.0 dB", lambda rest: not neighbours_within(rest, 2)),
    ("too few unless two neighbours are within 2.0 dB", lambda rest: neighbours_within(rest, 2)),
    ("too wide only on both sides", lambda rest: is_wide(rest, "left") and is_wide(rest, "right")),
    ("too wide only on the left", lambda rest: is_wide(rest, "left")),
    ("too wide only on the right", lambda rest: is_wide(rest, "right")),
    ("too wide only by more than 2.1 dB", lambda rest: is_wide(rest, "left", 21) or is_wide(rest, "right", 21)),
    ("too wide only if the first four are by more than 2.1 dB",
     lambda rest: is_wide(rest[:4], "left", 21) or is_wide(rest[:4], "right", 21)),
)]


# Windows by parts.

def by_parts(size, carried, is_read=lambda part: True):
    """The first window that lies in the first part or in another one that is read; each begins with the last runs of the one before."""
    def pick(rest):
        parts = [rest[at:at + size] for at in range(0, max(len(rest) - carried, 1), size - carried)]
        return first_of([four for part in parts if part is parts[0] or is_read(part) for four in windows_of(part)])
    return pick


def wrongly_carried(carry):
    """Parts of 16 valid runs that begin with three others of the part before than its last, or with these in another order."""
    def pick(rest):
        part, rest = rest[:16], rest[16:]
        while True:
            window = first_of(windows_of(part))
            if window or not rest:
                return window
            part, rest = carry(part) + rest[:13], rest[13:]
    return pick


WINDOWS = [
    *(search(f"windows in parts of {size} with {carried} carried over", by_parts(size, carried))
      for size in (8, 16, 32) for carried in (0, 1, 2)),
    search("windows in parts of 13 valid runs", by_parts(13, 0)),
    search("windows in the first part and in full ones", by_parts(16, 3, lambda part: len(part) == 16)),
    search("windows in parts of 16, the first three carried over", wrongly_carried(lambda part: part[:3])),
    search("windows in parts of 16, the last three carried over in the other order", wrongly_carried(lambda part: part[:-4:-1])),
    search("windows in parts of 16, the three before the last carried over", wrongly_carried(lambda part: part[-4:-1])),
    search("windows in parts of 16, the last one carried over three times", wrongly_carried(lambda part: part[-1:] * 3)),
]
ENOUGH_CARRIED = [search(f"windows in parts of 16 with {carried} carried over", by_parts(16, carried)) for carried in (3, 4)]


# Each of these for one kind of run, too.

BOTH_KINDS = [(f"shortage: {words}", changes) for words, changes in COUNTED + PARTS + SPREAD] + WINDOWS
ONE_KIND = [(f"{words}, {runs}", for_kind(kind, changes)) for words, changes in BOTH_KINDS for runs, kind in KINDS]


# Refusals 14 and 15 in rows of their own.

def passed_over(causes, wanted):
    return passing_over(causes, lambda word, number: word == "REFUSED" and number in wanted)


ROWS = [
    ("refusal 14 after 8, 7 not", passed_over((14,), (8,))), ("refusal 14 after 9, 7 not", passed_over((14,), (8, 9))),
    ("refusal 14 after 10, 7 not", passed_over((14,), (8, 9, 10))), ("refusal 14 after 15, 7 not", passed_over((14,), (8, 9, 10, 15))),
    ("refusal 14 after 15 only", passed_over((14,), (15,))), ("refusal 14 after 10 only", passed_over((14,), (10,))),
    ("refusal 7 after 8, 14 not", passed_over((7,), (8,))), ("refusal 7 after 9, 14 not", passed_over((7,), (8, 9))),
    ("refusal 15 before 7 and 14, 10 not", passed_over((7, 14, 8), (15,))),
    ("refusal 15 before 8, 10 not", passed_over((8,), (15,))), ("refusal 10 before 8, 15 not", passed_over((8,), (10,))),
    ("refusal 14 before 6, 7 not", passed_over((6,), (14,))), ("refusal 14 before 11 and 12, 7 not", passed_over((11, 12), (14,))),
    ("refusal 15 before 6, 10 not", passed_over((6,), (15,))), ("refusal 15 before 11 and 12, 10 not", passed_over((11, 12), (15,))),
    ("refusal 14 before 5, 7 not", passed_over((5,), (14,))), ("no refusal 14", passing_over((14,), lambda *_: True)),
]


# Gears that are asked.

def without_gears(lost):
    """Acceleration windows without the gears that are lost: they need none."""
    def acceleration_windows(runs, vehicle):
        left_out = {run.gear for run in runs if run.kind == ACCELERATION_RUN and lost(runs, vehicle, run.gear)}
        return PAPER["acceleration_windows"]([run for run in runs if run.gear not in left_out], vehicle)
    return {"acceleration_windows": acceleration_windows}


def has_shortage(number):
    def test(runs, vehicle, gear):
        of = runs, vehicle, ACCELERATION_RUN, gear
        return PAPER["find_window"](*of) is None and PAPER["shortage"](*of) == number
    return test


ASKED = [
    ("a gear too wide is left out", without_gears(has_shortage(14))),
    ("a gear with too few valid runs is left out", without_gears(has_shortage(7))),
    ("15 is asked of all gears driven", edited("reckon", "    constant = constant_windows(runs, vehicle, chosen)", """\
    constant = constant_windows(runs, vehicle, chosen)
    for gear in windows:
        if len(valid_runs(runs, vehicle, CONSTANT_RUN, gear)) >= 4 and find_window(runs, vehicle, CONSTANT_RUN, gear) is None:
            raise Refused(15, gear)""")),
    ("15 is asked of all remaining gears before 10", edited("reckon", "    constant = constant_windows(runs, vehicle, chosen)", """\
    for gear in remaining:
        if len(valid_runs(runs, vehicle, CONSTANT_RUN, gear)) >= 4 and find_window(runs, vehicle, CONSTANT_RUN, gear) is None:
            raise Refused(15, gear)
    constant = constant_windows(runs, vehicle, chosen)""")),
    ("14 is asked of remaining gears only", without_gears(lambda runs, vehicle, gear: has_shortage(14)(runs, vehicle, gear) and all(
        run.engine_speed > vehicle.rated_speed for run in of_gear(runs, ACCELERATION_RUN, gear)))),
    ("7 is asked of remaining gears only", without_gears(lambda runs, vehicle, gear: has_shortage(7)(runs, vehicle, gear) and all(
        run.engine_speed > vehicle.rated_speed for run in of_gear(runs, ACCELERATION_RUN, gear)))),
]

READINGS = NUMBERS + NONE + DECIDED + CHOSEN + BOTH_KINDS + ONE_KIND + ENOUGH_CARRIED + ROWS + ASKED

# Readings that give the same answer on every sheet, by the reason.
EQUIVALENT = {
    "each four neighbours lie in a part": [words for words, _ in ENOUGH_CARRIED],
}
