#!/usr/bin/env python3
"""Document 01's driven examples, those of document 02's wishes 1, 2, 5 and 8, and each line of "Where the spreadsheet tempts".

    python3 tools/examples.py                prints each example; fails if the reckoner's answer is not the paper's
    python3 tools/examples.py --write DIR    writes stdout of the test program `driven`
    python3 tools/examples.py --check DIR    fails unless DIR holds what --write would write

DIR is crates/driven. The examples by sheets are printed by the test program `corpus` (tools/corpus.py).
Numbers are tenths of dB(A), hundredths of m/s² and tenths of PMR, as in the result record.
"""

import os
import sys
from fractions import Fraction

import reckon
from reckon import ABSENT, ACCELERATION_RUN, CONSTANT_RUN, M1, N1, OVERLOAD, a_ref_of, a_urban_of, corrected, line, rounded
from sheets import decibels, run, sheet, speeds_for, tenths, vehicle, worked_runs, worked_sheet

STAR = "★ "
WORKED_LINE = "OK 3 3 4 78 29 719 658 70 106 149 667 149 1"  # of document 01's whole sheet


def tenths_of_text(text):
    """The tenths of the float that is nearest to a number."""
    return reckon.level_tenths(reckon.float_value(decibels(text)))


def taken_off(d):
    """The correction for a difference d in tenths, or "not valid"."""
    level = corrected(Fraction(400 + d, 10), 400)
    return "not valid" if level is None else 400 + d - level


def window_records(lefts, rights):
    """The record numbers of the first window of runs in one gear; the first run is record 1."""
    runs = [run(ACCELERATION_RUN, 3, decibels(left), decibels(right)) for left, right in zip(lefts, rights)]
    whole = sheet(vehicle(), runs)
    records = reckon.records_of(whole)
    read = [reckon.read_run(at, record) for at, record in enumerate(records[1:-1], start=1)]
    window = reckon.find_window(read, reckon.read_vehicle(records[0], records[-1]), ACCELERATION_RUN, 3)
    return "none" if window is None else [one.record for one in window]


def acceleration_of(start, end, length):
    """Step 6 for one run from AA'."""
    whole = sheet(vehicle(length=length), [run(ACCELERATION_RUN, 3, tenths(700), tenths(700), start, end)])
    records = reckon.records_of(whole)
    return reckon.run_acceleration(reckon.read_run(1, records[1]), reckon.read_vehicle(records[0], records[-1]))


def four(kind, gear, level, a=0):
    """Four equal runs."""
    start, end = (500, 500) if kind == CONSTANT_RUN else speeds_for(a)
    return [run(kind, gear, tenths(level), tenths(level), start, end)] * 4


def gears_sheet(*gears, **fields):
    """A sheet of (gear, acceleration, acceleration level, constant-speed level), four equal runs of each."""
    runs = [one for gear, a, W, C in gears
            for one in four(ACCELERATION_RUN, gear, W, a) + four(CONSTANT_RUN, gear, C)]
    return sheet(vehicle(**fields), runs)


def side_sheet(lefts, rights):
    """One gear whose acceleration runs have the given levels in tenths, and equal constant-speed runs."""
    start, end = speeds_for(149)
    runs = [run(ACCELERATION_RUN, 3, tenths(left), tenths(right), start, end) for left, right in zip(lefts, rights)]
    return sheet(vehicle(), runs + four(CONSTANT_RUN, 3, 650))


def sides_sheet(right_before=0, right_after=0, left_after=400):
    """One gear of document 01's whole sheet, 2.0 louder on the right in acceleration and 1.0 at constant speed; 10 records."""
    runs = [run(ACCELERATION_RUN, 3, tenths(700), tenths(720), 442, 545)] * 4
    runs += [run(CONSTANT_RUN, 3, tenths(650), tenths(660))] * 4
    return sheet(vehicle(right_background=right_before), runs, left_after, right_after)


def worked_with(limit=0, runs=None, **fields):
    """Document 01's whole sheet with a limit that is looked up, or another one, and other fields of the vehicle."""
    return sheet(vehicle(limit=limit, **fields), worked_runs() if runs is None else runs)


def with_left(one, words):
    """A copy of a run with another left reading, in words: `66.0`, `overload 66.0` or `absent`; `struck 66.0` strikes the run."""
    *how, level = words.split()
    if level == "absent":
        return one[:3] + bytes([ABSENT]) + one[4:8] + bytes(4) + one[12:]
    struck, kind = one[2:3], one[3:4]
    if how == ["struck"]:
        struck = b"\x01"
    elif how == ["overload"]:
        kind = bytes([OVERLOAD])
    return one[:2] + struck + kind + one[4:8] + decibels(level) + one[12:]


def runs_with(kind, gear, lefts):
    """Runs with a list of left readings in words; all else is as in document 01's whole sheet, as there in gear 4 for a gear without runs."""
    worked = {(one[0], one[1]): one for one in worked_runs()}
    like = worked.get((kind, gear), worked[kind, 4])
    return [with_left(like[:1] + bytes([gear]) + like[2:], words) for words in lefts.split(", ") if words]


def worked_but(acceleration, constant, **fields):
    """Document 01's whole sheet with other runs of some gears: for each gear the left readings of its runs of a kind."""
    other = {(kind, gear): runs_with(kind, gear, lefts)
             for kind, gears in ((ACCELERATION_RUN, acceleration), (CONSTANT_RUN, constant)) for gear, lefts in gears.items()}
    kept = [one for one in worked_runs() if (one[0], one[1]) not in other]
    return sheet(vehicle(**fields), kept + [one for runs in other.values() for one in runs])


def mirrored(whole):
    """A sheet without a background of its own on the right, with the readings of each run exchanged."""
    first, *runs, last = reckon.records_of(whole)
    exchanged = [one[:3] + one[4:5] + one[3:4] + one[5:8] + one[12:16] + one[8:12] + one[16:] for one in runs]
    return first + b"".join(exchanged) + last


# Each example: what the paper says, in words; the paper's answer; the reckoner's answer.

def roundings():
    yield STAR + "72.25 gives 72.3", 723, tenths_of_text("72.25")
    yield STAR + "72.125 gives 72.1", 721, tenths_of_text("72.125")


def corrections():
    yield STAR + "d 10.9: 0.4 off", 4, taken_off(109)
    yield "d 9.9: not valid", "not valid", taken_off(99)
    yield STAR + "d 15.0: none off", 0, taken_off(150)
    yield "d 10.4: 0.5 off (document 02)", 5, taken_off(104)
    yield "d 10.5: 0.4 off (document 02)", 4, taken_off(105)
    yield "d 14.5: none off (document 02)", 0, taken_off(145)


def windows():
    lefts = ("70.0", "72.1", "71.0", "71.0", "71.0")
    yield STAR + "window is runs 2 to 5 (rights equal to lefts)", [2, 3, 4, 5], window_records(lefts, lefts)
    yield STAR + "window is runs 2 to 5 (rights all 71.0)", [2, 3, 4, 5], window_records(lefts, ("71.0",) * 5)
    within = ("70.0", "72.0", "71.0", "71.0", "71.0")
    yield "70.0 with 72.0 is within", [1, 2, 3, 4], window_records(within, within)


def hundredths_after(a_of, lowest):
    """The values that begin at some q above the lowest, up to PMR 600.0."""
    return [a_of(q) for q in range(lowest + 1, 6001) if a_of(q) != a_of(q - 1)]


def references():
    for star, text, q, paper in ((STAR, "25.0: 0.79, 0.81", 250, (79, 81)), ("", "24.9: 0.79, 0.79", 249, (79, 79)),
                                 (STAR, "100.0: 1.17, 1.77", 1000, (117, 177)),
                                 (STAR, "600.0: 1.66, 3.01", 6000, (166, 301))):
        yield star + "PMR " + text, paper, (a_urban_of(q), a_ref_of(q))
    yield "PMR 5.0: a_urban 0.35", 35, a_urban_of(50)
    yield "a_urban's hundredths tabled, 36 to 166", list(range(36, 167)), hundredths_after(a_urban_of, 50)
    yield "a_ref's hundredths tabled, 82 to 301", list(range(82, 302)), hundredths_after(a_ref_of, 250)


def accelerations():
    yield STAR + "length 450, AA' 44.0, BB' 56.0: 1.89", 189, acceleration_of(440, 560, 450)


def gear_rules():
    whole = gears_sheet((2, 156, 720, 650), (3, 142, 710, 650))
    yield STAR + "R 1.49, gears 1.56 and 1.42: the first, alone", (2, 2, 0, 149), pick(whole, "rule", "i", "j", "a_ref")
    one = gears_sheet((3, 100, 660, 660))
    yield (STAR + "one gear, a 1.00, a_urban 1.06, W not below C: kp 0", (100, 106, 0),
           pick(one, "a_test", "a_urban", "kp"))
    quiet = gears_sheet((3, 100, 650, 660))
    yield ("the same with W 65.0, C 66.0, PMR 66.7: kp 1, L_urban 66", (100, 650, 660, 667, 100, 66),
           pick(quiet, "a_test", "W", "C", "PMR", "kp", "L_urban"))


def pick(whole, *names):
    evaluation = reckon.reckon(whole)
    return tuple(getattr(evaluation, name) or 0 for name in names)


def whole_sheets():
    yield "one closing record alone: refusal 3", "REFUSED 3 0", line(worked_sheet()[-32:])
    yield "one vehicle record alone: refusal 4", "REFUSED 4 0", line(worked_sheet()[:32])
    yield STAR + "whole sheet", WORKED_LINE, line(worked_sheet())


def sides_line(C):
    """The line of `sides_sheet`: a' is 63,538,125 / 396,900, rounded 1.60; kp is 1 - 106/160, rounded 0.34; W is 72.0."""
    return f"OK 1 3 0 100 34 720 {C} 70 106 149 667 160 1"


def backgrounds():
    """Wish 8: in words, the paper's line, and the sheet. L_urban is 72.0 - 0.34 x (72.0 - C)."""
    # 72.0 - 0.34 x 6.0 is 69.96
    yield "no background on the right: the left's, 40.0", sides_line(660), sides_sheet()
    # d of the right is 10.0 at constant speed, so 0.5 off; 72.0 - 0.34 x 6.5 is 69.79
    yield "right before 56.0: C 65.5", sides_line(655), sides_sheet(right_before=560)
    yield "right after 56.0: C 65.5", sides_line(655), sides_sheet(right_after=560)
    # d 9.9
    yield "right before 56.1: refusal 10", "REFUSED 10 3", sides_sheet(right_before=561)
    # d of the left is 11.0, of the right 12.0: 64.6 and 65.7; 72.0 - 0.34 x 6.3 is 69.858
    yield "right before 0.1, left after 54.0: right 54.0", sides_line(657), sides_sheet(right_before=1, left_after=540)
    # 64.6 on the left, nothing off on the right
    yield "both rights 0.1, left after 54.0: right 0.1", sides_line(660), sides_sheet(right_before=1, right_after=1, left_after=540)
    # 72.0 is not 10.0 above it: no acceleration run is valid
    yield "right before 100.0: refusal 7", "REFUSED 7 3", sides_sheet(right_before=1000)
    yield "right after 100.0: refusal 7", "REFUSED 7 3", sides_sheet(right_after=1000)
    yield "right before 100.1: refusal 5", "REFUSED 5 0", sides_sheet(right_before=1001)
    yield "right after 100.1: refusal 5", "REFUSED 5 9", sides_sheet(right_after=1001)


def sides():
    for words, paper, whole in backgrounds():
        yield f"{words} (document 02)", paper, line(whole)


# Power, mass, PMR in tenths, byte 17, and the limits in the phases 1 to 3. The PMR of 96.5 and 804 is 120.02 before its rounding.
LIMITS = (
    (1200, 1000, 1200, 0, (72, 70, 68)), (965, 804, 1200, 0, (72, 70, 68)), (1201, 1000, 1201, 0, (73, 71, 69)),
    (1600, 1000, 1600, 0, (73, 71, 69)), (1601, 1000, 1601, 0, (75, 73, 71)),
    (2000, 1000, 2000, 1, (75, 73, 71)), (2001, 1000, 2001, 1, (75, 74, 72)), (2001, 1000, 2001, 0, (75, 73, 71)),
)
# a_urban and a_ref at these PMRs: 121.99 and 189.59, 129.86 and 209.46, 135.96 and 224.86, and up to 0.06 more a tenth above.
REFERENCES = {1200: "122 190", 1201: "122 190", 1600: "130 209", 1601: "130 209", 2000: "136 225", 2001: "136 225"}


def limits_by_class():
    """Wish 1's table: in words, the paper's line, and a sheet at each limit and at one above it. a' is 1.00, so kp is 0."""
    for power, mass, q, low_car, limits in LIMITS:
        for phase, limit in enumerate(limits, start=1):
            for L_urban, passes, verdict in ((limit, 1, "passes"), (limit + 1, 0, "fails")):
                yield (f"P {power // 10}.{power % 10}, m {mass}, byte 17 {low_car}, phase {phase}: {L_urban} {verdict}",
                       f"OK 1 3 0 100 0 {L_urban}0 {L_urban}0 {L_urban} {REFERENCES[q]} {q} 100 {passes}",
                       gears_sheet((3, 100, 10 * L_urban, 10 * L_urban), power=power, mass=mass, limit=0, phase=phase, low_car=low_car))


def look_ups():
    """Wish 1's whole sheets and refusals: in words, the paper's line, and the sheet."""
    worked = "OK 3 3 4 78 29 719 658 70 106 149 667 149"
    # PMR 66.7 and L_urban 70: the limits are 72, 70, 68
    for phase, passes in ((1, 1), (2, 1), (3, 0)):
        yield f"whole sheet, limit 0, phase {phase}", f"{worked} {passes}", worked_with(phase=phase)
    yield "N1, limit 0, phase 9, byte 17 7: refusal 11", "REFUSED 11 0", worked_with(category=N1, phase=9, low_car=7)
    yield "N1, limit 0, PMR 4.9: refusal 11", "REFUSED 11 0", worked_with(category=N1, phase=1, power=49, mass=1000)
    yield "N1, limit 72", f"{worked} 1", worked_with(limit=72, category=N1)
    for phase, low_car in ((0, 0), (4, 0), (1, 2)):
        yield f"limit 0, phase {phase}, byte 17 {low_car}: refusal 12", "REFUSED 12 0", worked_with(phase=phase, low_car=low_car)
    yield "limit 0, phase 0, PMR 4.9: refusal 12", "REFUSED 12 0", worked_with(power=49, mass=1000)
    yield "limit 0, phase 1, PMR 4.9: refusal 6", "REFUSED 6 0", worked_with(phase=1, power=49, mass=1000)
    runs = worked_runs()
    broken = runs[:6] + [runs[6][:31] + b"\x01"] + runs[7:]
    for category, phase in ((M1, 1), (M1, 0), (N1, 1)):
        yield (f"limit 0, category {category}, phase {phase}, record 7 broken: refusal 5", "REFUSED 5 7",
               worked_with(category=category, phase=phase, runs=broken))
    for limit, phase, low_car in ((72, 1, 0), (72, 0, 1), (49, 0, 0), (101, 0, 0), (256, 0, 0), (256, 1, 0)):
        yield (f"limit {limit}, phase {phase}, byte 17 {low_car}: refusal 5", "REFUSED 5 0",
               worked_with(limit=limit, phase=phase, low_car=low_car))


def limits():
    for words, paper, whole in (*limits_by_class(), *look_ups()):
        yield f"{words} (document 02)", paper, line(whole)


# Wish 5: the paper's line, and the left readings of gears in acceleration and at constant speed, otherwise as in document 01's
# whole sheet, where gears 3 and 4 are chosen.
SHORTAGES = (
    # four or more valid runs at constant speed, and the lowest chosen gear without a window decides
    ("REFUSED 15 3", {}, {3: "66.0, 68.1, 66.0, 68.1"}),
    ("REFUSED 15 3", {}, {3: "66.0, 68.1, 66.0, 68.1", 4: "65.0, 65.0, 65.0"}),
    ("REFUSED 15 3", {}, {3: "66.0, 68.1, 66.0, 68.1", 4: "65.0, 67.1, 65.0, 67.1"}),
    ("REFUSED 10 3", {}, {3: "66.0, 66.0, 66.0", 4: "65.0, 67.1, 65.0, 67.1"}),
    ("REFUSED 10 3", {}, {3: "66.0, 66.0, 66.0", 4: "65.0, 65.0, 65.0"}),
    ("REFUSED 10 3", {}, {3: "66.0, 66.0, 66.0"}),
    ("REFUSED 15 4", {}, {4: "65.0, 67.1, 65.0, 67.1"}),
    ("REFUSED 10 4", {}, {4: "65.0, 65.0, 65.0"}),
    ("REFUSED 10 3", {}, {3: ""}),
    ("REFUSED 10 4", {}, {4: ""}),
    ("REFUSED 10 3", {}, {3: "", 4: ""}),
    # 2.0 is a window: C is 65.2 + 0.78 x (67.0 - 65.2), rounded 66.6; L_urban is 71.9 - 0.29 x (71.9 - 66.6), 70.363
    ("OK 3 3 4 78 29 719 666 70 106 149 667 149 1", {}, {3: "66.0, 68.0, 66.0, 68.0"}),
    # neighbours only, however many runs there are
    ("REFUSED 15 3", {}, {3: "66.0, 66.0, 70.0, 66.0, 66.0"}),
    ("REFUSED 15 3", {}, {3: "66.0, 66.0, 66.0, 70.0, 66.0, 66.0, 66.0"}),
    ("REFUSED 15 3", {}, {3: ", ".join(("66.0", "68.1") * 8)}),
    ("REFUSED 15 3", {}, {3: ", ".join(("66.0", "68.1") * 10)}),
    (WORKED_LINE, {}, {3: ", ".join(("63.9", "68.1") * 8 + ("66.0",) * 4)}),
    (WORKED_LINE, {}, {3: ", ".join(("68.1", "63.9") * 6 + ("68.1",) + ("66.0",) * 4)}),
    # runs that are not valid: 49.9 is 9.9 above the background, 50.0 is 10.0 above it
    ("REFUSED 10 3", {}, {3: "66.0, 68.1, struck 66.0, 68.1"}),
    ("REFUSED 10 3", {}, {3: "66.0, 68.1, overload 66.0, 68.1"}),
    ("REFUSED 10 3", {}, {3: "66.0, 68.1, absent, 68.1"}),
    ("REFUSED 10 3", {}, {3: "66.0, 68.1, 49.9, 68.1"}),
    ("REFUSED 15 3", {}, {3: "66.0, 68.1, 50.0, 68.1"}),
    ("REFUSED 15 3", {}, {3: "66.0, 68.1, struck 66.0, 66.0, 68.1"}),
    ("REFUSED 10 3", {}, {3: "struck 66.0, 66.0, overload 66.0, absent, 66.0, 49.9, 66.0, struck 66.0"}),
    # gears 2 and 5 are not chosen
    (WORKED_LINE, {}, {2: "66.0, 68.1, 66.0, 68.1", 5: "66.0, 68.1, 66.0, 68.1"}),
    (WORKED_LINE, {}, {2: "66.0, 66.0, 66.0"}),
    ("REFUSED 10 3", {}, {2: "66.0, 68.1, 66.0, 68.1", 3: "66.0, 66.0, 66.0"}),
    ("REFUSED 15 3", {}, {2: "66.0, 66.0, 66.0", 3: "66.0, 68.1, 66.0, 68.1"}),
    # no acceleration run at all
    ("REFUSED 7 0", {2: "", 3: "", 4: ""}, {}),
    ("REFUSED 7 0", {2: "", 3: "", 4: ""}, {3: "", 4: ""}),
    ("REFUSED 7 0", {2: "", 3: "", 4: ""}, {3: "66.0, 68.1, 66.0, 68.1"}),
    # the lowest gear without an acceleration window decides
    ("REFUSED 14 2", {2: "74.0, 76.1, 74.0, 76.1", 3: "72.5, 72.5, 72.5"}, {}),
    ("REFUSED 7 2", {2: "74.0, 74.0, 74.0", 3: "72.5, 74.6, 72.5, 74.6"}, {}),
    ("REFUSED 14 2", {2: "74.0, 76.1, 74.0, 76.1", 4: ""}, {}),
    ("REFUSED 14 3", {3: "72.5, 74.6, 72.5, 74.6", 4: "70.1, 72.2, 70.1, 72.2"}, {}),
    ("REFUSED 14 3", {3: "72.5, 74.6, 72.5, 74.6", 5: "struck 70.1"}, {}),
    ("REFUSED 7 3", {3: "72.5, 72.5, 72.5", 4: "70.1, 72.2, 70.1, 72.2"}, {}),
    ("REFUSED 14 4", {4: "70.1, 72.2, 70.1, 72.2"}, {}),
    ("REFUSED 7 4", {4: "70.1, 70.1, 70.1"}, {}),
    ("REFUSED 7 5", {5: "struck 70.1, struck 70.1, struck 70.1, struck 70.1, struck 70.1, struck 70.1"}, {}),
    ("REFUSED 7 1", {1: "struck 70.1", 3: "72.5, 74.6, 72.5, 74.6"}, {}),
    ("REFUSED 14 1", {1: "70.1, 72.2, 70.1, 72.2", 2: "struck 70.1"}, {}),
    # 2.0 is a window: W is 70.1 + 0.78 x (73.5 - 70.1), rounded 72.8; L_urban is 72.8 - 0.29 x (72.8 - 65.8), 70.77
    ("OK 3 3 4 78 29 728 658 71 106 149 667 149 1", {3: "72.5, 74.5, 72.5, 74.5"}, {}),
    ("REFUSED 14 3", {3: "72.5, 73.2, 73.9, 74.6"}, {}),
    ("REFUSED 14 3", {3: "72.5, 72.5, 75.0, 72.5, 72.5"}, {}),
    ("REFUSED 14 3", {3: ", ".join(("72.5", "74.6") * 8 + ("72.5",))}, {}),
    ("REFUSED 14 3", {3: ", ".join(("72.5", "74.6") * 9 + ("72.5",))}, {}),
    ("REFUSED 7 3", {3: "72.5, 74.6, struck 72.5, 74.6"}, {}),
    ("REFUSED 7 3", {3: "72.5, 74.6, overload 72.5, 74.6"}, {}),
    ("REFUSED 7 3", {3: "72.5, 74.6, absent, 74.6"}, {}),
    ("REFUSED 7 3", {3: "72.5, 74.6, 49.9, 74.6"}, {}),
    ("REFUSED 14 3", {3: "72.5, 74.6, 50.0, 74.6"}, {}),
    ("REFUSED 14 3", {3: "72.5, 74.6, struck 72.5, 72.5, 74.6"}, {}),
    ("REFUSED 7 3", {3: "overload 72.5, overload 72.5, overload 72.5, overload 72.5"}, {}),
    # a gear without an acceleration window comes before one without a constant-speed window
    ("REFUSED 14 3", {3: "72.5, 74.6, 72.5, 74.6"}, {3: "66.0, 68.1, 66.0, 68.1"}),
    ("REFUSED 7 4", {4: "70.1, 70.1, 70.1"}, {3: "66.0, 68.1, 66.0, 68.1"}),
    ("REFUSED 14 4", {4: "70.1, 72.2, 70.1, 72.2"}, {3: "66.0, 66.0, 66.0"}),
)


def in_words(acceleration, constant):
    """The runs that are not those of the whole sheet."""
    parts = [f"{kind} of gear {gear} {lefts or 'none'}" for kind, gears in (("acceleration", acceleration), ("constant speed", constant))
             for gear, lefts in gears.items()]
    return "; ".join(parts)


def shortages():
    """Wish 5: in words, the paper's line, and the sheet."""
    for paper, acceleration, constant in SHORTAGES:
        yield in_words(acceleration, constant), paper, worked_but(acceleration, constant)
    wide = {3: "72.5, 74.6, 72.5, 74.6"}
    yield "gear 3 too wide on the right in acceleration", "REFUSED 14 3", mirrored(worked_but(wide, {}))
    yield "gear 3 too wide on the right at constant speed", "REFUSED 15 3", mirrored(worked_but({}, {3: "66.0, 68.1, 66.0, 68.1"}))
    # on the right, 71.5 is 9.5 above the background and 74.0 is 12.0 above it
    yield "gear 3 too wide, right background 62.0", "REFUSED 7 3", worked_but(wide, {}, right_background=620)
    yield "gear 5 too wide, all engine speeds above S", "REFUSED 14 5", worked_but({5: "70.1, 72.2, 70.1, 72.2"}, {}, rated_speed=3999)
    # gear 5 accelerates as gear 4 does
    yield "gear 5 too wide beside gear 4", "REFUSED 14 5", worked_but({5: "70.1, 72.2, 70.1, 72.2"}, {})
    yield "gear 5 as gear 4", "REFUSED 8 4", worked_but({5: "70.1, 70.1, 70.1, 70.1"}, {3: "66.0, 68.1, 66.0, 68.1"})
    yield "gear 3 too wide, PMR 4.9", "REFUSED 6 0", worked_but(wide, {}, power=49, mass=1000)


def kinds_of_shortage():
    for words, paper, whole in shortages():
        yield f"{words} (document 02)", paper, line(whole)


EXAMPLES = (roundings, corrections, windows, references, accelerations, gear_rules, whole_sheets, sides, limits, kinds_of_shortage)


# Each temptation: in words; the paper's answer; the reckoner's; and what the spreadsheet would say.

def tempted_negative_half():
    """k 0.50 and L(i) one tenth below L(j): the product is minus half a tenth."""
    whole = gears_sheet((2, 169, 700, 650), (3, 129, 701, 650))
    yield "a negative k × (L(i) − L(j)) is not rounded by itself: k, W", (50, 701), pick(whole, "k", "W"), (50, 700)


def tempted_a_ref():
    """One gear with a 1.56 where a_ref is 1.49: 1 − 106/156 is 0.3205, 1 − 106/149 is 0.2886."""
    whole = gears_sheet((2, 156, 720, 650), (3, 142, 710, 650))
    yield "a' of one gear is its own acceleration: a', kp", (156, 32), pick(whole, "a_test", "kp"), (149, 29)


def tempted_sum_of_sides():
    alike = side_sheet((700, 720, 720, 720), (700, 720, 720, 720))
    opposed = side_sheet((700, 721, 721, 721), (721, 700, 700, 700))
    yield "each side spans 2.0, alike (the sum spans 4.0): a window", "OK", line(alike).split()[0], "no window"
    yield "each side spans 2.1, opposed (the sum spans 0): no window", "REFUSED 14 3", line(opposed), "a window"


def tempted_any_four():
    levels = (700, 700, 750, 700, 700)
    yield "70, 70, 75, 70, 70: no window", "REFUSED 14 3", line(side_sheet(levels, levels)), "a window"


TEMPTATIONS = (tempted_negative_half, tempted_a_ref, tempted_sum_of_sides, tempted_any_four)


# What the test program `driven` prints: in words; the paper's answer, by hand where the paper says it in words; the
# reckoner's.

def is_window(*levels):
    """Whether four runs with these (left, right) levels in tenths are a window: 1 if so."""
    lefts, rights = ([str(Fraction(level, 10)) for level in side] for side in zip(*levels))
    return int(window_records(lefts, rights) == [1, 2, 3, 4])


def side_lines():
    yield "72.25", 723, tenths_of_text("72.25")
    yield "72.125", 721, tenths_of_text("72.125")
    for text, d, paper in (("d 10.4", 104, 499), ("d 10.5", 105, 501), ("d 10.9", 109, 505), ("d 14.4", 144, 543),
                           ("d 14.5", 145, 545), ("d 15.0", 150, 550), ("d 15.9", 159, 559), ("d 9.9", 99, "not valid")):
        level = corrected(Fraction(400 + d, 10), 400)
        yield text, paper, "not valid" if level is None else level


def window_lines():
    low, high, middle, top = (700, 700), (721, 721), (710, 710), (720, 720)
    yield "runs 1 to 4", 0, is_window(low, high, middle, middle)
    yield "runs 2 to 5", 1, is_window(high, middle, middle, middle)
    yield "70.0 with 72.0", 1, is_window(low, top, middle, middle)
    yield "sides alike, 2.0 each", 1, is_window(low, top, top, top)
    yield "sides opposed, 2.1 each", 0, is_window((700, 721), (721, 700), (721, 700), (721, 700))


def gear_lines():
    for q, paper in ((250, (79, 81)), (249, (79, 79)), (1000, (117, 177)), (6000, (166, 301)), (50, (35, 35))):
        yield f"PMR {q}", paper, (a_urban_of(q), a_ref_of(q))
    yield "PMR of 100.0 and 1500", 667, pick(worked_sheet(), "PMR")
    yield "44.0 to 56.0, length 450, AA'", 189, acceleration_of(440, 560, 450)
    rule, i, j = pick(gears_sheet((2, 156, 720, 650), (3, 142, 710, 650)), "rule", "i", "j")
    # the place of gear i among the two
    yield "R 1.49, gears 1.56 and 1.42", ("one", 2, 0), ("pair" if j else "one", rule, (2, 3).index(i))


def urban_lines():
    yield "a 1.00, W 66.0, C 66.0", (0, 66), pick(gears_sheet((3, 100, 660, 660)), "kp", "L_urban")
    yield "a 1.00, W 65.0, C 66.0", (100, 66), pick(gears_sheet((3, 100, 650, 660)), "kp", "L_urban")
    # 1 − 106/156 is 0.3205; 72.0 − 0.32 × 7.0 is 69.76
    yield "a 1.56, W 72.0, C 65.0", (32, 70), pick(gears_sheet((3, 156, 720, 650)), "kp", "L_urban")
    # 70.1 + 0.50 × (70.0 − 70.1) is 70.05
    yield "k 0.50, L(i) 70.0, L(j) 70.1", 701, pick(gears_sheet((2, 169, 700, 650), (3, 129, 701, 650)), "W")


def level_sheet(*lefts):
    """One gear whose acceleration runs have these levels on both sides."""
    tenths_of = [rounded(10 * Fraction(left)) for left in lefts]
    return side_sheet(tenths_of, tenths_of)


def sheet_answers():
    """The sheets of the examples, each with the paper's line where it gives one, or with a part of it."""
    yield worked_sheet()[-32:], "REFUSED 3 0"
    yield worked_sheet()[:32], "REFUSED 4 0"
    yield worked_sheet(), WORKED_LINE
    # W is the mean of runs 2 to 5, 71.275, and of runs 1 to 4, 71.0
    yield level_sheet("70.0", "72.1", "71.0", "71.0", "71.0"), "OK 1 3 0 100 29 713 650"
    yield level_sheet("70.0", "72.0", "71.0", "71.0", "71.0"), "OK 1 3 0 100 29 710 650"
    yield level_sheet(*("50.4",) * 4), "OK 1 3 0 100 100 499 650"
    yield level_sheet(*("50.5",) * 4), "OK 1 3 0 100 100 501 650"
    yield level_sheet(*("50.9",) * 4), "OK 1 3 0 100 100 505 650"
    yield level_sheet(*("54.5",) * 4), "OK 1 3 0 100 100 545 650"
    yield level_sheet(*("49.9",) * 4), "REFUSED 7 3"
    yield level_sheet(*("55.0",) * 4), "OK 1 3 0 100 100 550 650"
    for power, mass, paper in ((500, 2000, "79 81 250"), (498, 2000, "79 79 249"), (1000, 1000, "117 177 1000"),
                               (6000, 1000, "166 301 6000"), (100, 2000, "35 35 50")):
        yield gears_sheet((3, 100, 700, 650), power=power, mass=mass), paper
    yield gears_sheet((2, 156, 720, 650), (3, 142, 710, 650)), "OK 2 2 0 100 32 720 650 70 106 149 667 156 1"
    yield gears_sheet((3, 100, 660, 660)), "OK 1 3 0 100 0 660 660 66 106 149 667 100 1"
    yield gears_sheet((3, 100, 650, 660)), "OK 1 3 0 100 100 650 660 66 106 149 667 100 1"
    yield gears_sheet((2, 169, 700, 650), (3, 129, 701, 650)), "OK 3 2 3 50 29 701 650"
    yield side_sheet((700, 720, 720, 720), (700, 720, 720, 720)), "OK 1 3"
    yield side_sheet((700, 721, 721, 721), (721, 700, 700, 700)), "REFUSED 14 3"
    yield level_sheet("70.0", "70.0", "75.0", "70.0", "70.0"), "REFUSED 14 3"
    for _, paper, whole in (*backgrounds(), *limits_by_class(), *look_ups(), *shortages()):
        yield whole, paper


def words(answer):
    parts = answer if isinstance(answer, tuple) else (answer,)
    return " ".join(str(part) for part in parts)


def driven():
    """The bytes of stdout of `driven`; fails if the paper and the reckoner differ."""
    text = ""
    for group in (side_lines, window_lines, gear_lines, urban_lines):
        for title, paper, found in group():
            if words(paper) != words(found):
                raise SystemExit(f"{title}: the paper has {words(paper)}, the reckoner {words(found)}")
            text += f"{title} {words(paper)}\n"
    return text.encode()


def example_sheets():
    """The sheets of the examples; fails if the paper and the reckoner differ."""
    sheets = []
    for whole, paper in sheet_answers():
        if paper not in line(whole):
            raise SystemExit(f"sheet {len(sheets)}: the paper has {paper}, the reckoner {line(whole)}")
        sheets.append(whole)
    return sheets


def write(path):
    content = driven()
    with open(path, "wb") as file:
        file.write(content)
    print(f"{path}: {len(content)} bytes")
    return 0


def check(path):
    with open(path, "rb") as file:
        agrees = file.read() == driven()
    print(f"{path}: {'as made' if agrees else 'DIFFERS'}")
    return 0 if agrees else 1


def shown(answer):
    """An answer in words; a long list by its ends."""
    is_long = isinstance(answer, list) and len(answer) > 10
    return f"{answer[0]} to {answer[-1]}, {len(answer)} values" if is_long else str(answer)


def report(title, paper, found, tempting=None):
    """Prints one example; returns whether the reckoner agrees with the paper."""
    agrees = paper == found
    spreadsheet = "" if tempting is None else f"   (spreadsheet: {tempting})"
    print(f"{'agrees' if agrees else 'DIFFERS'}: {title} -> {shown(found)}{spreadsheet}"
          + ("" if agrees else f"   paper: {shown(paper)}"))
    return agrees


def main(arguments):
    if len(arguments) == 2 and arguments[0] in ("--write", "--check"):
        return {"--write": write, "--check": check}[arguments[0]](os.path.join(arguments[1], "stdout"))
    print("Driven examples")
    verdicts = [report(*example) for group in EXAMPLES for example in group()]
    print("Where the spreadsheet tempts")
    verdicts += [report(*example) for group in TEMPTATIONS for example in group()]
    print(f"{verdicts.count(True)} agree, {verdicts.count(False)} differ")
    return 1 if False in verdicts else 0


if __name__ == "__main__":
    sys.exit(main(sys.argv[1:]))
