"""Other readings of "Gears" and of "L_urban"."""

import math
from fractions import Fraction

import reckon
from misread import PAPER, Single, answers, by_edit, by_floats, edited, for_rule, simple
from reckon import ACCELERATION_RUN, CEILING, CONSTANT_RUN, CONSTANT_SPEED_PMR, NO_WINDOW, ValidRun, rounded

# PMR, a_urban and a_ref.

PMR = by_edit(
    ("PMR is cut to a tenth", "pmr_tenths", "rounded(Fraction(1000 * vehicle.power, vehicle.mass))",
     "1000 * vehicle.power // vehicle.mass"),
    ("PMR rounded to a whole number", "pmr_tenths", "rounded(Fraction(1000 * vehicle.power, vehicle.mass))",
     "10 * rounded(Fraction(100 * vehicle.power, vehicle.mass))"),
    ("P in whole kW", "pmr_tenths", "1000 * vehicle.power", "10000 * (vehicle.power // 10)"),
    ("P rounded to whole kW", "pmr_tenths", "1000 * vehicle.power", "10000 * rounded(Fraction(vehicle.power, 10))"),
    ("mass with a driver of 75 kg", "pmr_tenths", "vehicle.mass", "(vehicle.mass + 75)"),
    ("1000 x P by 24 bits", "pmr_tenths", "1000 * vehicle.power", "1000 * vehicle.power % 2 ** 24"),
    ("1000 x P by 16 bits", "pmr_tenths", "1000 * vehicle.power", "1000 * vehicle.power % 2 ** 16"),
    ("q by 12 bits", "pmr_tenths", "return rounded(", "return 4095 & rounded("),
    ("PMR asked before it is rounded", "reckon", "if not LOWEST_PMR <= PMR <= HIGHEST_PMR",
     "if not LOWEST_PMR <= Fraction(1000 * vehicle.power, vehicle.mass) <= HIGHEST_PMR"),
    ("PMR's lowest asked before it is rounded", "reckon", "if not LOWEST_PMR <= PMR",
     "if not LOWEST_PMR <= Fraction(1000 * vehicle.power, vehicle.mass) and PMR"),
    ("PMR's highest asked before it is rounded", "reckon", "<= PMR <= HIGHEST_PMR",
     "<= PMR or Fraction(1000 * vehicle.power, vehicle.mass) > HIGHEST_PMR"),
    ("PMR in whole numbers asked", "reckon", "if not LOWEST_PMR <= PMR <= HIGHEST_PMR",
     "if not LOWEST_PMR <= PMR // 10 * 10 <= HIGHEST_PMR"),
    ("a_ref by its formula below PMR 25.0", "a_ref_of", "a_urban_of(q) if q < CONSTANT_SPEED_PMR", "0 if q < 150"),
    ("a_ref is a_urban at PMR 25.0", "a_ref_of", "q < CONSTANT_SPEED_PMR", "q <= CONSTANT_SPEED_PMR"),
    ("a_ref is a_urban", "a_ref_of", "a_urban_of(q) if q < CONSTANT_SPEED_PMR else power_hundredth(q, 318, 599)", "a_urban_of(q)"),
    ("a_ref is the larger of the two", "a_ref_of", "a_urban_of(q) if q < CONSTANT_SPEED_PMR else power_hundredth(q, 318, 599)",
     "a_urban_of(q) if q < 170 else max(a_urban_of(q), power_hundredth(q, 318, 599))"),
    ("a_urban up to 1.65", "a_urban_of", "return power_hundredth(q, 126, 143)", "return min(165, power_hundredth(q, 126, 143))"),
    ("a_urban from 0.36", "a_urban_of", "return power_hundredth(q, 126, 143)", "return max(36, power_hundredth(q, 126, 143))"),
    ("a_ref up to 3.00", "a_ref_of", "power_hundredth(q, 318, 599)", "min(300, power_hundredth(q, 318, 599))"),
    ("a_ref from 0.82", "a_ref_of", "power_hundredth(q, 318, 599)", "max(82, power_hundredth(q, 318, 599))"),
    ("a_urban cut", "a_urban_of", "power_hundredth(q, 126, 143)", "power_hundredth(q, 126, 144)"),
    ("a_ref cut", "a_ref_of", "power_hundredth(q, 318, 599)", "power_hundredth(q, 318, 600)"),
    ("a_urban rounded up", "a_urban_of", "power_hundredth(q, 126, 143)", "power_hundredth(q, 126, 142)"),
    ("a_ref rounded up", "a_ref_of", "power_hundredth(q, 318, 599)", "power_hundredth(q, 318, 598)"),
)


def by_logarithm(factor, less, change=lambda x: x):
    return lambda kind, q: kind(factor) * kind(math.log10(float(kind(change(q) / 10)))) - kind(less)


LOGARITHMS = [(f"a_urban by {size} logarithms", changes) for size, changes in by_floats("a_urban_of", by_logarithm(63, 9))]
LOGARITHMS += [(f"a_ref by {size} logarithms", {"a_ref_of": lambda q, of=changes["a_ref_of"]: reckon.a_urban_of(q) if q < 250 else of(q)})
               for size, changes in by_floats("a_ref_of", by_logarithm(159, 141))]
LOGARITHMS += [("a_urban by logarithms of whole PMRs", by_floats("a_urban_of", by_logarithm(63, 9, lambda q: q // 10 * 10))[1][1]),
               ("a_urban with the factor 62.9", by_floats("a_urban_of", by_logarithm(62.9, 9))[1][1]),
               ("a_urban with the factor 63.1", by_floats("a_urban_of", by_logarithm(63.1, 9))[1][1])]


# Floats for fractions.

def weighed_in_decibels(kind, level_i, level_j, k):
    L_i, L_j = kind(level_i) / kind(10), kind(level_j) / kind(10)
    return kind(10) * (L_j + kind(k) / kind(100) * (L_i - L_j))


FLOATS = [(f"{words} by {size} floats", changes) for words, name, formula in (
    ("PMR", "pmr_tenths", lambda kind, vehicle: kind(1000) * kind(vehicle.power) / kind(vehicle.mass)),
    ("PMR from P in kW", "pmr_tenths",
     lambda kind, vehicle: kind(10) * (kind(1000) * (kind(vehicle.power) / kind(10)) / kind(vehicle.mass))),
    ("PMR from P / m", "pmr_tenths", lambda kind, vehicle: kind(vehicle.power) / kind(vehicle.mass) * kind(1000)),
    ("k", "k_hundredths", lambda kind, R, a_i, a_j: kind(100) * (kind(R - a_j) / kind(a_i - a_j))),
    ("k from m/s²", "k_hundredths", lambda kind, R, a_i, a_j: kind(100) * (
        (kind(R) / kind(100) - kind(a_j) / kind(100)) / (kind(a_i) / kind(100) - kind(a_j) / kind(100)))),
    ("a weighed level", "weighed_tenths", lambda kind, L_i, L_j, k: kind(L_j) + kind(k) / kind(100) * kind(L_i - L_j)),
    ("a weighed level in dB", "weighed_tenths", weighed_in_decibels),
) for size, changes in by_floats(name, formula)]


def kp_by_floats(kind):
    def kp(PMR, W, C, a_urban, a_test):
        if PMR < CONSTANT_SPEED_PMR or W < C or a_test < a_urban:
            return PAPER["kp_hundredths"](PMR, W, C, a_urban, a_test)
        return math.floor(float(kind(100) * (kind(1) - kind(a_urban) / kind(a_test)) + kind(0.5)))
    return {"kp_hundredths": kp}


def L_urban_by_floats(kind):
    def L_urban(PMR, W, C, kp):
        level = kind(W) / kind(10)
        if PMR >= CONSTANT_SPEED_PMR:
            level = level - kind(kp) / kind(100) * (level - kind(C) / kind(10))
        return math.floor(float(level + kind(0.5)))
    return {"L_urban_of": L_urban}


def near_by_floats(kind):
    """Rule 2 in m/s²."""
    def is_near(a, R):
        return abs(kind(a) / kind(100) - kind(R) / kind(100)) <= kind(0.05) * (kind(R) / kind(100)) and a <= CEILING
    return {"is_near": is_near}


FLOATS += [(f"{words} by {size} floats", of(kind))
           for words, of in (("kp", kp_by_floats), ("L_urban", L_urban_by_floats), ("rule 2", near_by_floats))
           for size, kind in (("32-bit", Single), ("64-bit", float))]


# Gears that stay.

DROPPED = by_edit(*((words, "is_dropped", "any(run.engine_speed > vehicle.rated_speed for run in window)", new) for words, new in (
    ("a gear is dropped at S", "any(run.engine_speed >= vehicle.rated_speed for run in window)"),
    ("no gear is dropped", "False"),
    ("a gear is dropped if all four are above S", "all(run.engine_speed > vehicle.rated_speed for run in window)"),
    ("a gear is dropped if two are above S", "sum(run.engine_speed > vehicle.rated_speed for run in window) > 1"),
    ("a gear is dropped by the mean engine speed", "sum(run.engine_speed for run in window) > 4 * vehicle.rated_speed"),
    ("a gear is dropped above S + 50", "any(run.engine_speed > vehicle.rated_speed + 50 for run in window)"),
    ("a gear is dropped above 90 % of S", "any(10 * run.engine_speed > 9 * vehicle.rated_speed for run in window)"),
    *((f"run {at + 1} alone drops a gear", f"window[{at}].engine_speed > vehicle.rated_speed") for at in range(4)),
    *((f"run {at + 1} does not drop a gear", f"any(run.engine_speed > vehicle.rated_speed for run in window[:{at}] + window[{at + 1}:])")
      for at in range(4)),
)))


def with_engine_speeds(runs_of):
    """The window's runs have the highest engine speed of some runs."""
    def find_window(runs, vehicle, kind, gear):
        window = PAPER["find_window"](runs, vehicle, kind, gear)
        highest = max((run.engine_speed for run in runs_of(runs, vehicle, kind, gear)), default=0)
        return window and tuple(run._replace(engine_speed=highest) for run in window)
    return find_window


def struck_gears_forgotten(runs, vehicle):
    return PAPER["acceleration_windows"]([run for run in runs if not run.struck], vehicle)


def dropped_gears_forgotten(runs, vehicle):
    """A gear with an engine speed above S and no window is dropped before refusals 7 and 14."""
    fast = {run.gear for run in runs if run.kind == ACCELERATION_RUN and run.engine_speed > vehicle.rated_speed}
    lost = {gear for gear in fast if reckon.find_window(runs, vehicle, ACCELERATION_RUN, gear) is None}
    return PAPER["acceleration_windows"]([run for run in runs if run.gear not in lost], vehicle)


def falling_before_dropping(runs, vehicle):
    windows = PAPER["acceleration_windows"](runs, vehicle)
    PAPER["refuse_unless_falling"]([(gear, reckon.gear_acceleration(window)) for gear, window in windows.items()])
    return windows


def invalid_gears_forgotten(runs, vehicle):
    """A gear without a valid run needs no window."""
    valid = {run.gear for run in runs if run.kind == ACCELERATION_RUN and reckon.valid_run(run, vehicle)}
    return PAPER["acceleration_windows"]([run for run in runs if run.gear in valid], vehicle)


def runs_of(kind, keep):
    """The windows of a kind over the runs of it that are kept."""
    name = "acceleration_windows" if kind == ACCELERATION_RUN else "constant_windows"
    return {name: lambda runs, *rest: PAPER[name]([run for run in runs if run.kind != kind or keep(run)], *rest)}


GEARS = simple(
    ("a gear is dropped for any of its runs", "find_window",
     with_engine_speeds(lambda runs, vehicle, kind, gear: [run for run in runs if (run.kind, run.gear) == (kind, gear)])),
    ("a gear is dropped for any of its runs, at constant speed too", "find_window",
     with_engine_speeds(lambda runs, vehicle, kind, gear: [run for run in runs if run.gear == gear])),
    ("a gear is dropped for any of its valid runs", "find_window", with_engine_speeds(lambda runs, vehicle, kind, gear: [
        run for run in runs if (run.kind, run.gear) == (kind, gear) and reckon.valid_run(run, vehicle)])),
    ("a gear is dropped for the first four of its runs", "find_window", with_engine_speeds(lambda runs, vehicle, kind, gear: [
        run for run in runs if (run.kind, run.gear) == (kind, gear)][:4])),
    ("a gear with struck acceleration runs only needs no window", "acceleration_windows", struck_gears_forgotten),
    ("a gear without a valid run needs no window", "acceleration_windows", invalid_gears_forgotten),
    ("a gear above S needs no window", "acceleration_windows", dropped_gears_forgotten),
    ("falling is asked before gears are dropped", "acceleration_windows", falling_before_dropping),
) + by_edit(
    ("the highest gear without a window is named", "acceleration_windows", "    for gear in gears:\n",
     "    for gear in reversed(gears):\n"),
    ("the first gear driven without a window is named", "acceleration_windows", "    for gear in gears:\n",
     "    for gear in dict.fromkeys(run.gear for run in runs if run.kind == ACCELERATION_RUN):\n"),
    ("refusals 7 and 14 name the gear by its place among the gears", "acceleration_windows", "gear), gear)",
     "gear), gears.index(gear) + 1)"),
    ("gears without a window are left out", "acceleration_windows", "    for gear in gears:\n",
     "    windows = {gear: four for gear, four in windows.items() if four}\n    for gear in windows:\n"),
    ("the lowest gear alone needs a window", "acceleration_windows", "    for gear in gears:\n",
     "    windows = {gear: four for gear, four in windows.items() if four or gear == gears[0]}\n    for gear in windows:\n"),
    ("every gear of the sheet needs an acceleration window", "acceleration_windows", " if run.kind == ACCELERATION_RUN}", "}"),
    ("gears by the order in which they were driven", "acceleration_windows",
     "sorted({run.gear for run in runs if run.kind == ACCELERATION_RUN})",
     "list(dict.fromkeys(run.gear for run in runs if run.kind == ACCELERATION_RUN))"),
    ("no acceleration run: struck ones do not count", "acceleration_windows", "if not gears",
     "if all(run.struck for run in runs if run.kind == 2)"),
    ("no acceleration run is refusal 9", "acceleration_windows", "Refused(7, 0)", "Refused(9, 0)"),
    ("falling is asked of all gears but the last two", "refuse_unless_falling", "gears[1:]", "gears[1:-1]"),
    ("falling is asked of all gears but the first two", "refuse_unless_falling", "zip(gears, gears[1:])", "zip(gears[1:], gears[2:])"),
    ("falling is asked of the first two gears", "refuse_unless_falling", "gears[1:]", "gears[1:2]"),
    ("falling is asked of the first and the last gear", "refuse_unless_falling", "zip(gears, gears[1:])", "zip(gears[:1], gears[1:][-1:])"),
    ("falling is asked of neighbouring numbers only", "refuse_unless_falling", "(_, next_a) in", "(above, next_a) in", "if not a",
     "if above == gear + 1 and not a"),
    ("the last neighbours are named", "refuse_unless_falling", "zip(gears, gears[1:])", "reversed(list(zip(gears, gears[1:])))"),
    ("the higher gear is named", "refuse_unless_falling", "(gear, a), (_, next_a)", "(_, a), (gear, next_a)"),
    ("the gear is named by its place", "refuse_unless_falling", "Refused(8, gear)",
     "Refused(8, [one for one, _ in gears].index(gear) + 1)"),
    ("the lowest gear is named", "refuse_unless_falling", "Refused(8, gear)", "Refused(8, gears[0][0])"),
    ("equal accelerations fall", "refuse_unless_falling", "a > next_a", "a >= next_a"),
    ("accelerations have to rise", "refuse_unless_falling", "a > next_a", "a < next_a"),
    ("falling is not asked", "refuse_unless_falling", "if not a > next_a", "if False"),
    ("falling by 0.02 at the least", "refuse_unless_falling", "a > next_a", "a > next_a + 1"),
)
GEARS += [(f"{words} of gear {gear} are not looked at", runs_of(kind, lambda run, gear=gear: run.gear != gear))
          for words, kind in (("acceleration runs", ACCELERATION_RUN), ("constant-speed runs", CONSTANT_RUN)) for gear in range(1, 17)]


# Gear rules.

RULES = by_edit(
    ("rule 1 only up to 3.00", "choose_gears", "if len(gears) == 1:", "if len(gears) == 1 and gears[0][1] <= CEILING:"),
    ("rule 1 only from a_urban", "choose_gears", "if len(gears) == 1:", "if len(gears) == 1 and gears[0][1] >= a_urban:"),
    ("rule 1 only from R", "choose_gears", "if len(gears) == 1:", "if len(gears) == 1 and gears[0][1] >= R:"),
    ("rule 2 before rule 1", "choose_gears", "if len(gears) == 1:", "if len(gears) == 1 and not is_near(gears[0][1], R):"),
    ("no rule 1", "choose_gears", "if len(gears) == 1:", "if False:"),
    ("no rule 2", "choose_gears", "if near:", "if False:"),
    ("rule 2 takes the higher number on a tie", "choose_gears", "(abs(a - R), gear) for", "(abs(a - R), -gear) for", "min(near)[1]",
     "-min(near)[1]"),
    ("rule 2 takes the first", "choose_gears", "min(near)[1]", "near[0][1]"),
    ("rule 2 takes the last", "choose_gears", "min(near)[1]", "near[-1][1]"),
    ("rule 2 takes the furthest", "choose_gears", "min(near)[1]", "max(near)[1]"),
    ("rule 2 takes the nearest from R on", "choose_gears", "(abs(a - R), gear) for", "((a < R, abs(a - R)), gear) for"),
    ("rule 2 takes the nearest below R first", "choose_gears", "(abs(a - R), gear) for", "((a > R, abs(a - R)), gear) for"),
    ("rule 2 by the part of a", "choose_gears", "(abs(a - R), gear) for", "(Fraction(abs(a - R), a or 1), gear) for"),
    ("rule 2 asks the ceiling of the nearest gear only", "choose_gears", "    if near:",
     "    if min((abs(a - R), a) for _, a in gears)[1] > CEILING:\n        near = []\n    if near:"),
    ("rule 2 asks the nearest gear only", "choose_gears", "    if near:",
     "    if not is_near(min((abs(a - R), -a) for _, a in gears)[1] * -1, R):\n        near = []\n    if near:"),
    ("rule 2 around a_urban", "choose_gears", "if is_near(a, R)]", "if is_near(a, a_urban)]"),
    ("rule 2 only where all gears are near", "choose_gears", "if near:", "if len(near) == len(gears):"),
    ("rule 2 only for two gears", "choose_gears", "if near:", "if near and len(gears) < 3:"),
    ("i is the last with a above R", "choose_gears", "a >= R", "a > R"),
    ("i is the first with a from R on", "choose_gears", "at = max(", "at = min("),
    ("i is the nearest to R", "choose_gears", "at = max((at for at, (_, a) in enumerate(gears) if a >= R), default=None)",
     "at = min(range(len(gears)), key=lambda at: abs(gears[at][1] - R))"),
    ("i is the last from a_urban on", "choose_gears", "if a >= R), default", "if a >= a_urban), default"),
    ("j is the last gear", "choose_gears", "gears[at + 1]\n", "gears[-1]\n"),
    ("j has the next number", "choose_gears", "if a_i <= CEILING", "if j != i + 1:\n        raise Refused(9, 0)\n    if a_i <= CEILING"),
    ("without j, i alone", "choose_gears", "if at is None or at + 1 == len(gears):",
     "if at is not None and at + 1 == len(gears):\n        return 3, gears[at][0], None\n    if at is None:"),
    ("without i, the first gear alone", "choose_gears", "if at is None or at + 1 == len(gears):",
     "if at is None:\n        return 3, gears[0][0], None\n    if at + 1 == len(gears):"),
    ("without i, the first two gears", "choose_gears", "if at is None or", "if at is None:\n        at = 0\n    if"),
    ("without j, the last two gears", "choose_gears", "if at is None or at + 1 == len(gears):",
     "if at is not None and at + 1 == len(gears):\n        at -= 1\n    if at is None:"),
    ("where no rule applies, the nearest gear", "choose_gears", "if at is None or at + 1 == len(gears):\n        raise Refused(9, 0)",
     "if at is None or at + 1 == len(gears):\n        return 2, min((abs(a - R), gear) for gear, a in gears)[1], None"),
    ("no gear remains is refusal 7", "choose_gears", "if not gears:\n        raise Refused(9, 0)",
     "if not gears:\n        raise Refused(7, 0)"),
    ("no rule is refusal 8", "choose_gears", "len(gears):\n        raise Refused(9, 0)", "len(gears):\n        raise Refused(8, 0)"),
    ("refusal 9 names the last gear", "choose_gears", "len(gears):\n        raise Refused(9, 0)",
     "len(gears):\n        raise Refused(9, gears[-1][0])"),
    ("rule 3 for a(i) below 3.00", "choose_gears", "a_i <= CEILING", "a_i < CEILING"),
    ("rule 3 for a(j) up to 3.00", "choose_gears", "a_i <= CEILING", "a_j <= CEILING"),
    ("rule 3 always", "choose_gears", "if a_i <= CEILING", "if True"),
    ("no rule 3", "choose_gears", "if a_i <= CEILING", "if False"),
    ("rule 3 takes i alone", "choose_gears", "return 3, i, j", "return 3, i, None"),
    ("rule 3 takes j alone", "choose_gears", "return 3, i, j", "return 3, j, None"),
    ("rule 4 for a(j) above a_urban", "choose_gears", "a_j >= a_urban", "a_j > a_urban"),
    ("rule 4 for a(i) from a_urban on", "choose_gears", "a_j >= a_urban", "a_i >= a_urban"),
    ("rule 4 for a(j) from R on", "choose_gears", "a_j >= a_urban", "a_j >= R"),
    ("rule 4 for a(j) below 3.00", "choose_gears", "a_j >= a_urban", "a_j < CEILING"),
    ("no rule 4", "choose_gears", "if a_j >= a_urban", "if False"),
    ("rule 4 up to 3.00", "choose_gears", "if a < CEILING", "if a <= CEILING"),
    ("rule 4 takes the last gear below 3.00", "choose_gears", "below[0]", "below[-1]"),
    ("rule 4 takes j", "choose_gears", "return 4, below[0]", "return 4, j"),
    ("rule 4 takes i", "choose_gears", "return 4, below[0]", "return 4, i"),
    ("rule 4 takes the pair", "choose_gears", "return 4, below[0], None", "return 4, i, j"),
    ("rule 4 takes the gear nearest to R below 3.00", "choose_gears", "return 4, below[0]",
     "return 4, min((abs(a - R), gear) for gear, a in gears if a < CEILING)[1]"),
    ("rule 4 is numbered 5", "choose_gears", "return 4,", "return 5,"),
    ("rule 5 takes j alone", "choose_gears", "return 5, i, j", "return 5, j, None"),
    ("rule 5 takes i alone", "choose_gears", "return 5, i, j", "return 5, i, None"),
    ("rule 5 is numbered 3", "choose_gears", "return 5,", "return 3,"),
    ("rule 5 is refused", "choose_gears", "return 5, i, j", "raise Refused(9, 0)"),
    ("only the first 15 gears", "choose_gears", "if not gears", "gears = gears[:15]\n    if not gears"),
    ("only the first 8 gears", "choose_gears", "if not gears", "gears = gears[:8]\n    if not gears"),
    ("only the first 3 gears", "choose_gears", "if not gears", "gears = gears[:3]\n    if not gears"),
    ("only the first 2 gears", "choose_gears", "if not gears", "gears = gears[:2]\n    if not gears"),
)

NEAR = by_edit(*((words, "is_near", "20 * abs(a - R) <= R and a <= CEILING", new) for words, new in (
    ("rule 2 below 5 %", "20 * abs(a - R) < R and a <= CEILING"),
    ("rule 2 without the ceiling", "20 * abs(a - R) <= R"),
    ("rule 2 below 3.00", "20 * abs(a - R) <= R and a < CEILING"),
    ("rule 2 within 5 % of a", "20 * abs(a - R) <= a and a <= CEILING"),
    ("rule 2 within 10 %", "10 * abs(a - R) <= R and a <= CEILING"),
    ("rule 2 within 0.05", "abs(a - R) <= 5 and a <= CEILING"),
    ("rule 2 with R up to 3.00", "20 * abs(a - R) <= R and R <= CEILING"),
    ("rule 2 above R only", "0 <= 20 * (a - R) <= R and a <= CEILING"),
    ("rule 2 below R only", "0 <= 20 * (R - a) <= R and a <= CEILING"),
    ("rule 2 with 5 % cut", "abs(a - R) <= R // 20 and a <= CEILING"),
    ("rule 2 with 5 % rounded", "abs(a - R) <= rounded(Fraction(R, 20)) and a <= CEILING"),
    ("rule 2 with 5 % rounded up", "abs(a - R) <= -(-R // 20) and a <= CEILING"),
    ("rule 2 below R strictly", "(20 * (a - R) <= R if a >= R else 20 * (R - a) < R) and a <= CEILING"),
    ("rule 2 above R strictly", "(20 * (a - R) < R if a >= R else 20 * (R - a) <= R) and a <= CEILING"),
)))


# k, weighed levels, kp and L_urban.

def negative_product_rounded_away(level_i, level_j, k):
    product = Fraction(k, 100) * (level_i - level_j)
    return level_j + (rounded(product) if product >= 0 else -rounded(-product))


def exact_k_for_levels():
    """Levels weighed by k before its rounding; k is printed as it is."""
    return edited("reckon", "W, C = weighed_level(wot_windows, k), weighed_level(crs_windows, k)",
                  "e = k if j is None else 100 * exact_k(a_ref, a[i], a[j])\n"
                  "    W, C = weighed_level(wot_windows, e), weighed_level(crs_windows, e)")


def exact_kp_for_L_urban():
    return edited("reckon", "L_urban = L_urban_of(PMR, W, C, kp)",
                  "e = kp if PMR < CONSTANT_SPEED_PMR or W < C else 100 * exact_kp(a_urban, a_test)\n"
                  "    L_urban = L_urban_of(PMR, W, C, e)")


EXACT_LEVELS = """levels = [[condition_level(one) for one in windows] for windows in (wot_windows, crs_windows)]
    w, c = (one[0] if j is None else weighed(*one, Fraction(k, 100)) for one in levels)"""


def exact_levels_for_L_urban():
    """L_urban from weighed levels before their rounding."""
    return edited("reckon", "L_urban = L_urban_of(PMR, W, C, kp)", EXACT_LEVELS + "\n    L_urban = L_urban_of(PMR, w, c, kp)")


def exact_levels_for_kp():
    """W < C asked before the rounding."""
    return edited("reckon", "kp = kp_hundredths(PMR, W, C, a_urban, a_test)",
                  EXACT_LEVELS + "\n    kp = kp_hundredths(PMR, w, c, a_urban, a_test)")


def exact_pass():
    """The limit asked of L_urban before its rounding."""
    return edited("reckon", "is_pass(L_urban, limit_found(vehicle, PMR))",
                  "(Fraction(W) if PMR < 250 else C if W < C else W - Fraction(kp, 100) * (W - C)) <= 10 * limit_found(vehicle, PMR)")


def weighed_from_exact_means(windows, k):
    means = [reckon.mean_level(window) for window in windows]
    return rounded(means[0] if len(means) == 1 else reckon.weighed(means[0], means[1], Fraction(k, 100)))


def no_constant_speed_below_25(runs, vehicle, chosen):
    if PAPER["pmr_tenths"](vehicle) >= CONSTANT_SPEED_PMR:
        return PAPER["constant_windows"](runs, vehicle, chosen)
    return without_refusal(runs, vehicle, chosen)


def without_refusal(runs, vehicle, chosen):
    """Constant-speed windows, with levels of 0 where there is none."""
    windows = {gear: reckon.find_window(runs, vehicle, CONSTANT_RUN, gear) for gear in chosen}
    return {gear: window or (ValidRun(0, 0, 0, 0, 0),) * 4 for gear, window in windows.items()}


def spared(condition):
    """Where a condition holds of the evaluation, no constant-speed window is asked."""
    def evaluate(sheet):
        answer = PAPER["evaluate"](sheet)
        if answer[0] == "REFUSED" and answer[1] in NO_WINDOW[CONSTANT_RUN]:
            paper, reckon.constant_windows = reckon.constant_windows, without_refusal
            try:
                other = PAPER["reckon"](sheet)
            finally:
                reckon.constant_windows = paper
            return ("OK", *other.fields()) if condition(other, answer[2]) else answer
        return answer
    return {"evaluate": evaluate}


SPARED = [(f"no constant-speed window is asked {words}", spared(condition)) for words, condition in (
    ("at all", lambda result, place: True),
    ("below PMR 25.0", lambda result, place: result.PMR < 250),
    ("where kp is 0", lambda result, place: result.kp == 0),
    ("where kp is 0 from PMR 25.0 on", lambda result, place: result.kp == 0 and result.PMR >= 250),
    ("of gear j where k is 1.00", lambda result, place: result.k == 100 and place == result.j),
    ("of gear i where k is 0.00", lambda result, place: result.k == 0 and place == result.i),
    ("of gear i", lambda result, place: result.j is not None and place == result.i),
    ("of gear j", lambda result, place: place == result.j),
    *((f"in rule {rule}", lambda result, place, rule=rule: result.rule == rule) for rule in range(1, 6)),
    ("of gear i in rule 5", lambda result, place: result.rule == 5 and place == result.i),
    ("of gear j in rule 5", lambda result, place: result.rule == 5 and place == result.j),
)]

CONSTANT = by_edit(
    ("the higher chosen gear without a constant-speed window is named", "constant_windows", "sorted(chosen)",
     "sorted(chosen, reverse=True)"),
    ("refusals 10 and 15 name the chosen gear's place", "constant_windows", "gear), gear)", "gear), chosen.index(gear) + 1)"),
    ("refusals 10 and 15 name gear i", "constant_windows", "gear), gear)", "gear), chosen[0])"),
    ("refusals 10 and 15 name gear j", "constant_windows", "gear), gear)", "gear), chosen[-1])"),
    ("constant speed is asked of all remaining gears", "reckon", "constant_windows(runs, vehicle, chosen)",
     "constant_windows(runs, vehicle, remaining)"),
    ("constant speed is asked of all gears driven", "reckon", "constant_windows(runs, vehicle, chosen)",
     "constant_windows(runs, vehicle, list(windows))"),
    ("constant speed of gear i for both", "reckon", "constant[gear] for gear in chosen", "constant[i] for gear in chosen"),
    ("constant speed of gear j for both", "reckon", "constant[gear] for gear in chosen", "constant[chosen[-1]] for gear in chosen"),
    ("acceleration of gear i for both", "reckon", "tuple(windows[gear] for gear in chosen)", "tuple(windows[i] for gear in chosen)"),
    ("acceleration of gear j for both", "reckon", "tuple(windows[gear] for gear in chosen)",
     "tuple(windows[chosen[-1]] for gear in chosen)"),
    ("acceleration for constant speed", "reckon", "weighed_level(crs_windows, k)", "weighed_level(wot_windows, k)"),
    ("constant speed for acceleration", "reckon", "weighed_level(wot_windows, k)", "weighed_level(crs_windows, k)"),
    ("constant speed is not weighed", "reckon", "weighed_level(crs_windows, k)", "condition_level(crs_windows[0])"),
    ("constant speed is weighed by 0.50", "reckon", "weighed_level(crs_windows, k)", "weighed_level(crs_windows, 50)"),
)

FACTORS = [
    ("levels weighed by k before its rounding", exact_k_for_levels()),
    ("L_urban from kp before its rounding", exact_kp_for_L_urban()),
    ("L_urban from weighed levels before their rounding", exact_levels_for_L_urban()),
    ("W < C asked before their rounding", exact_levels_for_kp()),
    ("the limit asked before L_urban's rounding", exact_pass()),
    *simple(("a negative product is rounded by itself", "weighed_tenths", negative_product_rounded_away),
            ("weighed from means not rounded", "weighed_level", weighed_from_exact_means),
            ("below PMR 25.0 no constant-speed window is needed", "constant_windows", no_constant_speed_below_25)),
    *by_edit(
        ("k turned", "exact_k", "Fraction(R - a_j, a_i - a_j)", "Fraction(a_i - R, a_i - a_j)"),
        ("k over R", "exact_k", "a_i - a_j)", "R)"),
        ("k over a(i)", "exact_k", "a_i - a_j)", "a_i)"),
        ("k is cut", "k_hundredths", "rounded(100 * exact_k(R, a_i, a_j))", "int(100 * exact_k(R, a_i, a_j))"),
        ("k is rounded up", "k_hundredths", "rounded(100 * exact_k(R, a_i, a_j))", "-int(-100 * exact_k(R, a_i, a_j) // 1)"),
        ("k to tenths", "k_hundredths", "rounded(100 * exact_k(R, a_i, a_j))", "10 * rounded(10 * exact_k(R, a_i, a_j))"),
        ("k to thousandths first", "k_hundredths", "rounded(100 * exact_k(R, a_i, a_j))",
         "rounded(Fraction(rounded(1000 * exact_k(R, a_i, a_j)), 10))"),
        ("k from a_urban", "reckon", "k_hundredths(a_ref,", "k_hundredths(a_urban,"),
        ("k from 0.01 to 0.99", "k_hundredths", "return rounded(100 * exact_k(R, a_i, a_j))",
         "return min(99, max(1, rounded(100 * exact_k(R, a_i, a_j))))"),
        ("k at least 0.01", "k_hundredths", "return rounded(100 * exact_k(R, a_i, a_j))",
         "return max(1, rounded(100 * exact_k(R, a_i, a_j)))"),
        ("k at most 0.99", "k_hundredths", "return rounded(100 * exact_k(R, a_i, a_j))",
         "return min(99, rounded(100 * exact_k(R, a_i, a_j)))"),
        ("k 1.00 is one gear", "reckon", "a_test = a_test_of", "i, j = (i, None) if k == 100 else (i, j)\n    a_test = a_test_of"),
        ("k 0.00 is gear j alone", "reckon", "a_test = a_test_of", "i, j = (j, None) if k == 0 else (i, j)\n    a_test = a_test_of"),
        ("k is 0 for one gear", "reckon", "k = 100 if", "k = 0 if"),
        ("weighed from gear i towards j", "weighed", "level_j + k * (level_i - level_j)", "level_i + k * (level_j - level_i)"),
        ("weighed from gear i", "weighed", "level_j + k * (level_i - level_j)", "level_i + k * (level_i - level_j)"),
        ("weighed by the difference without its sign", "weighed", "(level_i - level_j)", "abs(level_i - level_j)"),
        ("the product is rounded by itself", "weighed_tenths", "rounded(weighed(level_i, level_j, Fraction(k, 100)))",
         "level_j + rounded(Fraction(k, 100) * (level_i - level_j))"),
        ("the product is cut", "weighed_tenths", "rounded(weighed(level_i, level_j, Fraction(k, 100)))",
         "level_j + int(Fraction(k, 100) * (level_i - level_j))"),
        ("both parts are rounded", "weighed_tenths", "rounded(weighed(level_i, level_j, Fraction(k, 100)))",
         "rounded(Fraction(k * level_i, 100)) + rounded(Fraction((100 - k) * level_j, 100))"),
        ("a weighed level is cut", "weighed_tenths", "rounded(weighed(level_i, level_j, Fraction(k, 100)))",
         "int(weighed(level_i, level_j, Fraction(k, 100)))"),
        ("a' is a_ref for one gear", "a_test_of", "a_i if alone else a_ref", "a_ref"),
        ("a' is a(i) for a pair", "a_test_of", "a_i if alone else a_ref", "a_i"),
        ("a' is weighed for a pair", "reckon", "a_test_of(a_ref, a[i], j is None)",
         "a[i] if j is None else weighed_tenths(a[i], a[j], k)"),
        ("a' is the mean for a pair", "reckon", "a_test_of(a_ref, a[i], j is None)",
         "a[i] if j is None else rounded(Fraction(a[i] + a[j], 2))"),
        ("a' is at most a_ref", "a_test_of", "a_i if alone else a_ref", "min(a_i, a_ref) if alone else a_ref"),
        ("a' is at least a_urban", "reckon", "a_test = a_test_of(a_ref, a[i], j is None)",
         "a_test = max(a_urban, a_test_of(a_ref, a[i], j is None))"),
        ("a' is at most 3.00", "reckon", "a_test = a_test_of(a_ref, a[i], j is None)",
         "a_test = min(CEILING, a_test_of(a_ref, a[i], j is None))"),
        ("kp from a_ref, a' printed as it is", "reckon", "kp_hundredths(PMR, W, C, a_urban, a_test)",
         "kp_hundredths(PMR, W, C, a_urban, a_ref)"),
        ("a_urban / a' is rounded first", "kp_hundredths", "return rounded(100 * exact_kp(a_urban, a_test))",
         "return 0 if a_test < a_urban else 100 - rounded(Fraction(100 * a_urban, a_test))"),
        ("kp is cut", "kp_hundredths", "rounded(100 * exact_kp(a_urban, a_test))", "int(100 * exact_kp(a_urban, a_test))"),
        ("kp to thousandths first", "kp_hundredths", "rounded(100 * exact_kp(a_urban, a_test))",
         "rounded(Fraction(rounded(1000 * exact_kp(a_urban, a_test)), 10))"),
        ("kp below 0 where a' is below a_urban", "exact_kp", "Fraction(0) if a_test < a_urban else ", ""),
        ("kp is 0 at a' = a_urban", "exact_kp", "a_test < a_urban", "a_test <= a_urban"),
        ("kp is 1 where a' is below a_urban", "exact_kp", "Fraction(0) if", "Fraction(1) if"),
        ("a' below a_urban decides before W < C", "kp_hundredths", "if W < C:", "if W < C and a_test >= a_urban:"),
        ("W < C decides before PMR below 25.0", "kp_hundredths", "if PMR < CONSTANT_SPEED_PMR:", "if PMR < CONSTANT_SPEED_PMR and W >= C:"),
        ("kp 1 where W = C", "kp_hundredths", "if W < C", "if W <= C"),
        ("kp is not 1 where W < C", "kp_hundredths", "if W < C", "if False"),
        ("kp 0 at PMR 25.0", "kp_hundredths", "PMR < CONSTANT_SPEED_PMR", "PMR <= CONSTANT_SPEED_PMR"),
        ("kp as it comes below PMR 25.0", "kp_hundredths", "if PMR < CONSTANT_SPEED_PMR", "if False"),
        ("L_urban is W at PMR 25.0", "L_urban_of", "PMR < CONSTANT_SPEED_PMR", "PMR <= CONSTANT_SPEED_PMR"),
        ("L_urban by kp below PMR 25.0", "L_urban_of", "PMR < CONSTANT_SPEED_PMR", "False"),
        ("L_urban is the larger of W and C below PMR 25.0", "L_urban_of", "level = Fraction(W)", "level = Fraction(max(W, C))"),
        ("L_urban is W where W < C", "L_urban_of", "level = Fraction(C)", "level = Fraction(W)"),
        ("L_urban is the mean where W < C", "L_urban_of", "level = Fraction(C)", "level = Fraction(W + C, 2)"),
        ("kp from C", "L_urban_of", "W - Fraction(kp, 100) * (W - C)", "C + Fraction(kp, 100) * (W - C)"),
        ("kp taken off twice", "L_urban_of", "Fraction(kp, 100) * (W - C)", "2 * Fraction(kp, 100) * (W - C)"),
        ("L_urban to a tenth, then to a whole", "L_urban_of", "rounded(level / 10)", "rounded(Fraction(rounded(level), 10))"),
        ("L_urban is cut", "L_urban_of", "rounded(level / 10)", "int(level / 10)"),
        ("L_urban is rounded up", "L_urban_of", "rounded(level / 10)", "-int(-level // 10)"),
        ("1 dB off L_urban", "L_urban_of", "rounded(level / 10)", "rounded(level / 10) - 1"),
        ("L_urban is 70", "L_urban_of", "return rounded(level / 10)", "return 70"),
        ("a pass is below the limit", "is_pass", "L_urban <= limit", "L_urban < limit"),
        ("a pass up to 1 dB above the limit", "is_pass", "L_urban <= limit", "L_urban <= limit + 1"),
        ("every sheet passes", "is_pass", "L_urban <= limit", "True"),
        ("the limit is asked of W", "reckon", "is_pass(L_urban, ", "is_pass(rounded(Fraction(W, 10)), "),
        ("the limit is asked of the larger of W and L_urban", "reckon", "is_pass(L_urban, limit_found(vehicle, PMR))",
         "W <= 10 * limit_found(vehicle, PMR)"),
    ),
]


# Some of these for one gear rule.

PAIRS = ("a negative product is rounded by itself", "levels weighed by k before its rounding", "weighed from means not rounded", "k turned",
         "k is cut", "k from a_urban", "weighed from gear i towards j", "a weighed level is cut", "a' is a(i) for a pair",
         "a' is weighed for a pair")
ALONE = ("a' is a_ref for one gear", "a' is at most a_ref", "k is 0 for one gear")
ANY = ("L_urban from kp before its rounding", "a_urban / a' is rounded first", "kp is cut", "L_urban is cut", "L_urban is W where W < C",
       "L_urban to a tenth, then to a whole", "the limit asked before L_urban's rounding", "kp 0 at PMR 25.0",
       "kp as it comes below PMR 25.0", "kp is not 1 where W < C", "kp 1 where W = C")
BY_RULE = [(f"{words}, rule {rule} only", for_rule(rule, dict(FACTORS)[words]))
           for names, rules in ((PAIRS, (3, 5)), (ALONE, (1, 2, 4)), (ANY, range(1, 6))) for words in names for rule in rules]


# What is printed.

def printed(change):
    return answers(lambda word, *fields: (word, *change(list(fields))) if word == "OK" else (word, *fields))


def exchanged(first, second):
    def change(fields):
        fields[first], fields[second] = fields[second], fields[first]
        return fields
    return change


NAMES = ("rule", "i", "j", "k", "kp", "W", "C", "L_urban", "a_urban", "a_ref", "PMR", "a'", "pass")
PRINTED = [
    *((f"{NAMES[at]} and {NAMES[at + 1]} exchanged", printed(exchanged(at, at + 1))) for at in range(12)),
    ("pass in its place in the record", printed(lambda fields: fields[:5] + fields[12:] + fields[5:12])),
    ("gear i for j where there is one gear", printed(lambda fields: fields[:2] + [fields[2] or fields[1]] + fields[3:])),
    ("a' left out", printed(lambda fields: fields[:11] + fields[12:])),
    ("a refused sheet has a third number", answers(lambda word, *rest: (word, *rest, 0) if word == "REFUSED" else (word, *rest))),
]

READINGS = PMR + LOGARITHMS + FLOATS + DROPPED + GEARS + RULES + NEAR + SPARED + CONSTANT + FACTORS + BY_RULE + PRINTED



# What the reasons below rest on, to be tried.

def same_for_every_PMR():
    """a_urban and a_ref by logarithms."""
    functions = [change for words, changes in LOGARITHMS for change in changes.items() if "-bit" in words]
    return all(function(q) == PAPER[name](q) for name, function in functions for q in range(50, 6001))


def no_kp_half_with_a_ref():
    """200 x kp is no odd number for a_ref of any PMR."""
    halves = (200 * PAPER["exact_kp"](PAPER["a_urban_of"](q), PAPER["a_ref_of"](q)) for q in range(CONSTANT_SPEED_PMR, 6001))
    return all(half % 2 != 1 for half in halves)


def no_rule_4_up_to_25():
    """No acceleration from a_urban on is below R and out of its 5 %."""
    references = {(PAPER["a_urban_of"](q), PAPER["a_ref_of"](q)) for q in range(50, CONSTANT_SPEED_PMR + 1)}
    return all(PAPER["is_near"](a, R) for a_urban, R in references for a in range(a_urban, R))


TRIED = (same_for_every_PMR, no_kp_half_with_a_ref, no_rule_4_up_to_25)

# Readings that give the same answer on every sheet, by the reason.
EQUIVALENT = {
    "`same_for_every_PMR` tries all of them": [f"{a} by {size} logarithms" for a in ("a_urban", "a_ref") for size in ("32-bit", "64-bit")],
    "a half is exact, and any other quotient is further from one than its error": ["PMR by 64-bit floats"],
    "the gears up to i are above 3.00, and j is below it: at 3.00 it would be below R 3.01, and rule 2 would have it": [
        "rule 4 up to 3.00", "rule 4 takes j", "rule 4 takes the gear nearest to R below 3.00"],
    "accelerations are whole hundredths": ["rule 2 with 5 % cut"],
    "L(j) is a whole number of tenths, and a half goes up wherever it stands": ["the product is rounded by itself"],
    "1 - a_urban / a' is 0 there": ["kp is 0 at a' = a_urban"],
    "with a_ref no PMR has a kp on a half (`no_kp_half_with_a_ref`)": [
        f"a_urban / a' is rounded first, rule {rule} only" for rule in (3, 5)],
    "the gear of rule 4 is j, and a(j) is below R": ["a' is at most a_ref, rule 4 only"],
    "rule 4 needs a(j) from a_urban on and out of 5 % below R: up to PMR 25.0 there is none (`no_rule_4_up_to_25`)": [
        "kp 0 at PMR 25.0, rule 4 only", "kp as it comes below PMR 25.0, rule 4 only"],
}
