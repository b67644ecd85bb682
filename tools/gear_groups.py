"""Groups of the corpus about the gear rules, the weighing factors and L_urban: refusals 8 to 10 and 15."""

from fractions import Fraction

import sheets
from make import (QUIET_PMRS, USUAL_PMRS, Gear, car_of, constant_runs, first_above, first_below, gear_runs, interleaved, is_near,
                  loud_copy, one_gear_sheet, pair_around, references, sheet_of, spoiled)
from reckon import ACCELERATION_RUN, CONSTANT_RUN, CONSTANT_SPEED_PMR, a_ref_of, a_urban_of, rounded
from sheets import run, sheet, tenths, vehicle


# Refusals 8 to 10.

def not_falling(random):
    """Equal or rising neighbours among the remaining gears; some are cured by dropping a gear."""
    for _ in range(70):
        car = car_of(random, random.pick(USUAL_PMRS), rated_speed=5000)
        accelerations = sorted((random.between(40, 320) for _ in range(random.between(2, 4))), reverse=True)
        at = random.below(len(accelerations) - 1)
        accelerations[at + 1] = accelerations[at] + random.pick((0, 0, 1, 30))
        gears = [Gear(2 + 2 * n, a, 700, 650 if random.chance(30) else None, 5001 if random.chance(12) else 5000)
                 for n, a in enumerate(accelerations)]
        yield sheet_of(random, car, gears)


def no_rule(random):
    """Refusal 9: all gears dropped, all above R, or all below R."""
    for _ in range(70):
        q = random.pick(QUIET_PMRS + USUAL_PMRS)
        car = car_of(random, q, rated_speed=5000)
        R = a_ref_of(q)
        way = random.below(3)
        if way == 0:
            gears = [Gear(2 + n, 200 - 20 * n, 700, None, random.pick((5001, 20000)))
                     for n in range(random.between(1, 3))]
        elif way == 1:
            last = first_above(R) + random.pick((0, 0, 5))
            gears = [Gear(2, last + 40, 720), Gear(3, last, 700)]
        else:
            first = first_below(R) - random.pick((0, 0, 3))
            gears = [Gear(1, first, 720), Gear(2, first - 12, 700)]
        yield sheet_of(random, car, gears)


def no_constant_window(random):
    """Refusals 10 and 15 for one gear, for i, for j and for both."""
    for at in range(75):
        q = random.pick(QUIET_PMRS + USUAL_PMRS[:7])
        car = car_of(random, q, background=400)
        a_i, a_j = pair_around(q, random.below(20), random.below(10))
        pair = at % 3 != 0
        gears = [Gear(4, a_i, 720), Gear(6, a_j, 700)] if pair else [Gear(4, a_i, 720)]
        runs = gear_runs(random, car, gears)
        with_window = random.below(3) if pair else 2
        for n, gear in enumerate((4, 6)):
            constant = constant_runs(random, gear, 650, plain=True)
            if n != with_window:
                constant = without_window(random, constant)
            runs += constant
        yield sheet(vehicle(**car), interleaved(random, runs))


def without_window(random, runs):
    """Four runs that hold no window."""
    at = random.below(4)
    way = random.below(3)
    if way == 0:
        return runs[:at] + runs[at + 1:]
    if way == 1:
        return runs[:at] + [spoiled(random, runs[at])] + runs[at + 1:]
    return runs[:at] + [loud_copy(runs[at], random.pick((629, 671)))] + runs[at + 1:]


# The gear rules.

def rule_1(random):
    """One gear: its acceleration at 0, around a_urban and at the ceiling; W around C; both sides of PMR 25.0."""
    for at in range(150):
        q = random.pick(QUIET_PMRS + USUAL_PMRS)
        a_urban, R = references(q)
        a = random.pick((0, a_urban - 1, a_urban, a_urban + 1, R, 200, 299, 300, 301, 450))
        C = random.between(600, 700)
        W = C + random.pick((-30, -1, 0, 1, 37, 80))
        yield sheet_of(random, car_of(random, q), [Gear(random.between(1, 16), a, W, C)])


def rule_1_of_several(random):
    """One gear remains because the others are dropped by engine speed."""
    for _ in range(25):
        car = car_of(random, random.pick(USUAL_PMRS), rated_speed=5000)
        high = random.pick((5001, 6500))
        gears = [Gear(2, 260, 740, None, high), Gear(3, 170, 710, 650, 5000), Gear(4, 175, 690, None, high)]
        yield sheet_of(random, car, gears[:random.between(2, 3)])


def rule_2(random):
    """Accelerations at the edges of 5 %, at R, at the ceiling, and at equal distances from R."""
    for q in [random.pick(QUIET_PMRS + USUAL_PMRS) for _ in range(100)]:
        R = a_ref_of(q)
        inside = R // 20
        first = R + random.pick((-inside, -1, 0, 1, inside, inside + 1))
        second = random.pick((2 * R - first, R - inside, R - inside - 1, R - 1))
        if first > second >= 0:
            C = 650 if random.chance(50) else 640
            yield sheet_of(random, car_of(random, q), [Gear(2, first, 720, C), Gear(4, second, 700, C)])


def rule_2_exact(random):
    """20 × |a − R| = R, for every R that is a whole number of twentieths."""
    for R in range(100, 301, 20):
        q = next(q for q in range(CONSTANT_SPEED_PMR, 6001) if a_ref_of(q) == R)
        for a in (R + R // 20, R + R // 20 + 1, R - R // 20, R - R // 20 - 1):
            other = Gear(3, R - 45, 690, 640) if a > R else Gear(1, R + 60, 740, 670)
            gears = sorted([Gear(2, a, 720, 650), other])
            yield sheet_of(random, car_of(random, q), gears)


def rule_2_nearest(random):
    """Two or three gears within 5 % of R: the nearest, wherever it stands."""
    for _ in range(24):
        q = random.pick(USUAL_PMRS[2:8])
        R = a_ref_of(q)
        away = sorted({random.between(-(R // 20), R // 20) for _ in range(3)}, reverse=True)
        gears = [Gear(2 + n, R + one, 720 - 10 * n, 660) for n, one in enumerate(away)]
        yield sheet_of(random, car_of(random, q), gears)


def rule_2_equal_distances(random):
    """Two gears as far from R on either side: the lower number."""
    for _ in range(25):
        q = random.pick(USUAL_PMRS[:7])
        R = a_ref_of(q)
        away = random.between(1, R // 20)
        gears = [Gear(2, R + away, 720, 660), Gear(3, R - away, 700, 640)]
        yield sheet_of(random, car_of(random, q), gears)


def ceiling_near_R(random):
    """Rule 2 about 3.00 where R is 2.86 to 3.01: the nearer gear may lie above the ceiling."""
    for R in (286, 287, 290, 295, 299, 300, 301):
        q = next(q for q in range(CONSTANT_SPEED_PMR, 6001) if a_ref_of(q) == R)
        for first in (299, 300, 301, 302, 315, 320):
            second = random.pick((298, 290, R - R // 20, R - R // 20 - 1, 200, 120))
            if first > second:
                yield sheet_of(random, car_of(random, q), [Gear(1, first, 740, 680), Gear(2, second, 710, 650)])


def rule_3(random):
    """Pairs at the edges outside 5 %, and at the ceiling; levels rising or falling from i to j."""
    for _ in range(190):
        q = random.pick(QUIET_PMRS + USUAL_PMRS[:8])
        a_i, a_j = pair_around(q, random.pick((0, 0, 1, 13, 40)), random.pick((0, 0, 1, 7, 20)))
        a_i = random.pick((a_i, a_i, 300, 301)) if a_i < 300 else a_i
        W, C = random.between(660, 740), random.between(620, 700)
        gears = [Gear(3, a_i, W + random.between(-30, 60), C + random.between(-30, 60)), Gear(4, a_j, W, C)]
        if random.chance(12):
            gears.insert(0, Gear(2, a_i + 30, 760))
        if random.chance(12) and a_j > 10:
            gears.append(Gear(5, a_j - 10, 650))
        yield sheet_of(random, car_of(random, q), gears)


def k_halves(q):
    """Pairs of accelerations of rule 3 whose k lies half-way between two hundredths."""
    R = a_ref_of(q)
    return [(a_i, a_j) for a_i in range(first_above(R), 301) for a_j in range(first_below(R) + 1)
            if (200 * (R - a_j)) % (a_i - a_j) == 0 and 200 * (R - a_j) // (a_i - a_j) % 2 == 1]


def pair_k_halves(random):
    for q in [random.pick(QUIET_PMRS + USUAL_PMRS[:8]) for _ in range(40)]:
        a_i, a_j = random.pick(k_halves(q))
        yield sheet_of(random, car_of(random, q), [Gear(3, a_i, 730, 660), Gear(4, a_j, 700, 641)])


def k_of(R, a_i, a_j):
    return rounded(Fraction(100 * (R - a_j), a_i - a_j))


def weighed_halves(random):
    """Weighed totals half-way between two tenths, the product of k and the difference above and below zero."""
    for _ in range(60):
        q = random.pick(QUIET_PMRS + USUAL_PMRS[:7])
        a_i, a_j = pair_around(q, random.between(0, 40), random.between(0, 20))
        k = k_of(a_ref_of(q), a_i, a_j)
        gaps = [gap for gap in range(-60, 61) if k * gap % 100 == 50]
        if gaps:
            gap, W = random.pick(gaps), random.between(680, 720)
            yield sheet_of(random, car_of(random, q), [Gear(3, a_i, W + gap, 655), Gear(4, a_j, W, 655 - gap // 2)])


def k_at_ends(random):
    """k that rounds to 0.00 or 1.00 stays a pair."""
    for q in (50, 100, 249, 250, 400):
        R = a_ref_of(q)
        for a_i, a_j in ((300, first_below(R)), (first_above(R), 0)):
            yield sheet_of(random, car_of(random, q), [Gear(3, a_i, 740, 660), Gear(4, a_j, 700, 640)])
    for q, a_j in ((250, 76), (251, 76), (667, 105)):  # rule 5 with a very high a(i): k near 0
        for a_i in (1500, 3000, 6000):
            car = car_of(random, q, length=100, start_line=1)
            yield sheet_of(random, car, [Gear(1, a_i, 760, 650), Gear(2, a_j, 700, 640)], plain=True)


def R_above_ceiling(random):
    """PMR 600.0 has R 3.01: a gear at R is above the ceiling, so i may have exactly R."""
    for a_i in (301, 302, 303, 340):
        for a_j in (0, 100, 165, 166, 167, 284, 285, 286, 300):
            yield sheet_of(random, car_of(random, 6000), [Gear(1, a_i, 760, 650), Gear(2, a_j, 700, 640)])


def rule_4_and_5(random):
    """a(i) above 3.00, a(j) around a_urban."""
    for _ in range(150):
        q = random.pick(QUIET_PMRS + USUAL_PMRS)
        a_urban, R = references(q)
        a_i = max(random.pick((301, 302, 350)), first_above(R))
        a_j = random.pick((a_urban + 10, a_urban + 1, a_urban, a_urban - 1, a_urban - 15))
        if a_j >= R or is_near(a_j, R):
            a_j = first_below(R)
        C_j, C_i = 640, random.pick((None, 660)) if a_j >= a_urban else 660
        gears = [Gear(2, a_i, 750, C_i), Gear(3, a_j, random.between(660, 700), C_j)]
        if random.chance(15):
            gears.insert(0, Gear(1, a_i + 40, 770))
        if random.chance(15):
            gears.append(Gear(5, a_j - 20, 650))
        yield sheet_of(random, car_of(random, q), gears)


# kp, L_urban and the limit.

def kp_halves(random):
    """kp half-way between two hundredths. Only one gear has such a kp: no PMR gives one with a_ref."""
    for _ in range(40):
        q = random.pick(USUAL_PMRS)
        a_urban = a_urban_of(q)
        halves = [a for a in range(a_urban, 500) if is_kp_half(a_urban, a)]
        if halves:
            yield sheet_of(random, car_of(random, q), [Gear(3, random.pick(halves), 720, 640)])


def is_kp_half(a_urban, a):
    return 200 * (a - a_urban) % a == 0 and 200 * (a - a_urban) // a % 2 == 1


def kp_of(a_urban, a):
    return rounded(100 * (1 - Fraction(a_urban, a)))


def L_urban_halves(random):
    """L_urban half-way between two decibels: from W alone, from C alone and from both."""
    for _ in range(25):
        W = 10 * random.between(64, 74) + 5
        q = random.pick(QUIET_PMRS)
        yield sheet_of(random, car_of(random, q), [Gear(3, 90, W + random.pick((0, -1)), 640)])
    for _ in range(25):
        C = 10 * random.between(64, 74) + 5
        gear = Gear(3, 200, C - random.pick((0, 1, 20)), C - random.pick((0, 0, 1)))
        yield sheet_of(random, car_of(random, 667), [gear])
    for _ in range(40):
        q = random.pick(USUAL_PMRS)
        a_urban = a_urban_of(q)
        a = random.between(a_urban, 300)
        kp, W = kp_of(a_urban, a), random.between(680, 740)
        halves = [C for C in range(600, W) if (100 * W - kp * (W - C)) % 1000 == 500]
        if halves:
            yield sheet_of(random, car_of(random, q), [Gear(3, a, W, random.pick(halves))])


def equal_levels(random):
    """W just below, at and above C, for one gear and for a pair."""
    for q in QUIET_PMRS[2:] + USUAL_PMRS[:6]:
        for gap in (-1, 0, 1):
            yield sheet_of(random, car_of(random, q), [Gear(3, 150, 655 + gap, 655)], plain=True)
            a_i, a_j = pair_around(q, 0, 0)
            gears = [Gear(3, a_i, 657 + gap, 657), Gear(4, a_j, 655 + gap, 655)]
            yield sheet_of(random, car_of(random, q), gears, plain=True)


def slow_and_quiet(random):
    """a' below a_urban, and W below, at and above C: W < C decides."""
    for q in QUIET_PMRS[-1:] + USUAL_PMRS[:5]:
        for gap in (-25, -1, 0, 1):
            yield sheet_of(random, car_of(random, q), [Gear(3, a_urban_of(q) - random.between(1, 30), 665 + gap, 665)])


def limits(random):
    """L_urban one below, at and one above the limit; a pass is decided after rounding."""
    for W in (694, 695, 700, 704, 705):
        for limit in (69, 70, 71):
            yield one_gear_sheet(random, W=W, C=W, limit=limit)
            yield one_gear_sheet(random, W=W, C=600, limit=limit, power=249, mass=1000)


def exactly_as_far(random):
    """Sheets whose error is exactly 0.6 + 0.005 × Dk: below PMR 25.0, every rounding is a half going up."""
    for q in (50, 100, 180, 249):
        for a_i, a_j in k_halves(q)[:40]:
            k = k_of(a_ref_of(q), a_i, a_j)
            gap = next((gap for gap in range(1, 101) if k * gap % 100 == 50), None)
            W_j = None if gap is None else next(W for W in range(650, 800) if (100 * W + k * gap) % 1000 == 450)
            if W_j is not None:
                yield sheet(vehicle(power=q, mass=1000), half_runs(3, a_i, W_j + gap) + half_runs(4, a_j, W_j))
                break


def half_runs(gear, a, level):
    """Acceleration runs whose mean lies half a tenth below a level, and louder constant-speed runs, so that Dp is 0."""
    start, end = sheets.speeds_for(a, 2450)
    levels = (level - 1, level, level - 1, level)
    return ([run(ACCELERATION_RUN, gear, tenths(one), tenths(one), start, end) for one in levels]
            + [run(CONSTANT_RUN, gear, tenths(820), tenths(820))] * 4)


# What the other gears do not change.

def rising_gears(random):
    """Refusal 8 at the first neighbours that do not fall, where later ones do not fall either."""
    for accelerations in ((100, 120, 140), (100, 100, 100), (200, 100, 120, 140), (150, 150, 120, 120), (90, 100, 95, 96),
                          tuple(range(100, 260, 10))):
        for step in (1, 3):
            gears = [Gear(1 + step * n, a, 700, 650) for n, a in enumerate(accelerations)]
            if gears[-1].gear <= 16:
                yield sheet_of(random, {}, gears, plain=True)
                yield sheet_of(random, {"rated_speed": 5000}, [Gear(gears[0].gear, 300, 740, None, 5001)] + gears[1:], plain=True)


def constant_speed_always_needed(random):
    """Refusal 10 where the level would not count: kp 0, k 1.00 without gear j, k 0.00 without gear i; and in rules 4 and 5."""
    for a in (80, 105, 106):  # a_urban is 1.06
        yield sheet_of(random, {}, [Gear(3, a, 700)], plain=True)
        yield sheet_of(random, {}, [Gear(16, a, 700)], plain=True)
    for q, a_i, a_j in ((6000, 301, 100), (6000, 301, 160), (5917, 301, 60),  # k is 1.00
                        (250, 1500, 76), (260, 3000, 79), (400, 6000, 91),  # k is 0.00
                        (667, 320, 100), (1000, 310, 90), (250, 400, 70), (667, 200, 100), (249, 200, 60)):
        for lacking in ((0,), (1,), (0, 1)):
            gears = [Gear(3, a_i, 740, 660), Gear(4, a_j, 700, 640)]
            gears = [gear._replace(C=None) if at in lacking else gear for at, gear in enumerate(gears)]
            yield sheet_of(random, dict(power=q, mass=1000, length=100, start_line=1), gears, plain=True)
    for q, a_i, a_j in ((667, 320, 120), (1000, 310, 150), (1500, 305, 170)):  # rule 4
        yield sheet_of(random, dict(power=q, mass=1000), [Gear(3, a_i, 740, 660), Gear(4, a_j, 700)], plain=True)


def negative_halves_of_rule_5(random):
    """Rule 5 with k × (L(i) − L(j)) half a tenth past a whole one and below zero, for W and for C."""
    for q in (250, 400, 667, 1000, 1500, 2500):
        a_urban, R = references(q)
        pairs = [(a_i, a_j) for a_i in range(301, 420) for a_j in range(a_urban - 20, a_urban) if k_of(R, a_i, a_j) % 50]
        for _ in range(3):
            a_i, a_j = random.pick(pairs)
            gaps = [gap for gap in range(-60, 0) if k_of(R, a_i, a_j) * gap % 100 == 50]
            if gaps:
                gap = random.pick(gaps)
                yield sheet_of(random, dict(power=q, mass=1000), [Gear(3, a_i, 720 + gap, 660 + gap), Gear(4, a_j, 720, 660)])


def nearest_by_hundredths(random):
    """Rule 2 takes the gear below R, one hundredth nearer than the one above, though that one is nearer by its own part."""
    for R in (260, 270, 280, 285):
        q = next(q for q in range(CONSTANT_SPEED_PMR, 6001) if a_ref_of(q) == R)
        gears = [Gear(3, R + R // 20, 720, 650), Gear(4, R - R // 20 + 1, 700, 640)]
        yield sheet_of(random, car_of(random, q), gears, plain=True)


def sixteenth_gear(random):
    """Sixteen gears remain: the pair is 15 and 16, or 16 alone, or 16 does not fall."""
    for q in (667, 1000):
        R = a_ref_of(q)
        last = first_above(R) + 3
        gears = [Gear(gear, last + 5 * (15 - gear), 700, 650 if gear > 14 else None) for gear in range(1, 16)]
        for a in (first_below(R) - 4, R, last):
            yield sheet_of(random, dict(power=q, mass=1000), gears + [Gear(16, a, 690, 640)], plain=True)


def equal_after_rounding(random):
    """Weighed levels that differ, W below C, and are equal once rounded: kp is not 1."""
    for a_i, a_j in ((200, 100), (210, 105), (240, 120)):  # R is 1.49
        k = k_of(149, a_i, a_j)
        gap = next(gap for gap in range(1, 100) if 0 < k * gap % 100 < 50)
        for C_j in (640, 655, 660):
            W = C_j + k * gap // 100
            yield sheet_of(random, {}, [Gear(3, a_i, W, C_j + gap), Gear(4, a_j, W, C_j)], plain=True)


def pair_with_k(k):
    """PMR 100.0 and a pair of accelerations of rule 3 with this k."""
    R = a_ref_of(1000)
    return next((a_i, a_j) for a_i in range(first_above(R), 301) for a_j in range(first_below(R) + 1) if k_of(R, a_i, a_j) == k)


def weighed_by_floats(random):
    """Weighed levels on a half, of gears so far apart that 32-bit or 64-bit floats miss it."""
    for L_i, L_j, k in ((750, 200, 53), (275, 900, 66), (225, 900, 66), (225, 1000, 66), (250, 800, 81), (350, 900, 81),
                        (250, 1000, 67), (1350, 200, 69)):
        a_i, a_j = pair_with_k(k)
        gears = [Gear(3, a_i, L_i, L_i), Gear(4, a_j, L_j, L_j)]
        yield sheet_of(random, dict(power=1000, mass=1000, background=0), gears, plain=True)


def L_urban_by_floats(random):
    """L_urban on a half that 32-bit or 64-bit floats miss."""
    for W, C, kp in ((642, 572, 10), (642, 592, 14), (647, 567, 15), (647, 572, 16), (641, 566, 8), (641, 581, 10), (641, 591, 12),
                     (641, 601, 15)):
        a = next(a for a in range(106, 301) if kp_of(106, a) == kp)  # a_urban is 1.06
        yield sheet_of(random, {}, [Gear(3, a, W, C)], plain=True)


def k_and_kp_by_floats(random):
    """k and kp on a half that 32-bit or 64-bit floats miss."""
    for q, a_i, a_j in ((50, 54, 14), (100, 92, 12), (249, 98, 58), (250, 119, 39), (50, 52, 12), (100, 88, 8), (249, 96, 56),
                        (250, 98, 58)):
        yield sheet_of(random, dict(power=q, mass=1000), [Gear(3, a_i, 740, 660), Gear(4, a_j, 700, 640)], plain=True)
    for q, a in ((328, 120), (682, 200), (880, 240), (4085, 160), (264, 120), (568, 240), (707, 160), (1967, 320)):
        yield sheet_of(random, dict(power=q, mass=1000), [Gear(3, a, 720, 640)], plain=True)


def equal_levels_by_rule(random):
    """W = C under rules 2, 4 and 5: kp is not 1."""
    for q, a_i, a_j in ((667, 200, 150), (1000, 178, 120), (667, 320, 120), (1000, 310, 150), (667, 320, 100), (1000, 310, 90)):
        for level in (655, 700):
            gears = [Gear(3, a_i, level + 5, level + 5), Gear(4, a_j, level, level)]
            yield sheet_of(random, dict(power=q, mass=1000), gears, plain=True)


def rule_2_kp_halves(random):
    """kp half-way between two hundredths for the one gear of rule 2."""
    for q, a in ((294, 96), (409, 120), (707, 160), (1096, 192), (1223, 200), (1316, 200)):
        gears = [Gear(3, first_above(a_ref_of(q)) + 20, 740), Gear(4, a, 720, 640)]
        yield sheet_of(random, dict(power=q, mass=1000), gears, plain=True)


def rule_4_levels(random):
    """Rule 4 with W below C, and with a kp half-way between two hundredths."""
    for q, a_i, a_j in ((667, 320, 120), (1000, 310, 150), (1500, 305, 170)):
        yield sheet_of(random, dict(power=q, mass=1000), [Gear(3, a_i, 740, 660), Gear(4, a_j, 640, 655)], plain=True)
    for q in (667, 1000, 1300, 1500, 1700, 2000, 2500, 3000):
        a_urban, R = references(q)
        for a_j in range(a_urban, first_below(R) + 1):
            if is_kp_half(a_urban, a_j):
                gears = [Gear(3, first_above(R) + 200, 740, 660), Gear(4, a_j, 720, 640)]
                yield sheet_of(random, dict(power=q, mass=1000), gears, plain=True)


def kp_rounded_first(random):
    """A pair of rule 3 and one of rule 5 whose L_urban is another one if kp is not rounded before it."""
    for q in (400, 667, 1000, 1500, 2500, 4000):
        a_urban, R = references(q)
        kp, exact = Fraction(kp_of(a_urban, R), 100), 1 - Fraction(a_urban, R)
        levels = [(W, C) for W in range(680, 720) for C in range(600, 660)
                  if rounded((W - kp * (W - C)) / 10) != rounded((W - exact * (W - C)) / 10)]
        for a_i, a_j in ((first_above(R), first_below(R)), (first_above(R) + 200, a_urban - 10)):
            W, C = random.pick(levels)
            yield sheet_of(random, dict(power=q, mass=1000), [Gear(3, a_i, W, C), Gear(4, a_j, W, C)], plain=True)
