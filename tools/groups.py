"""The groups of sheets of the corpus. Each group is a generator of sheets from a pseudo-random source."""

import background_groups as of_backgrounds
import gear_groups as of_gears
import limit_groups as of_limits
import sheet_groups as of_sheets
import sheets
import shortage_groups as of_shortages
import window_groups as of_windows
from make import (Gear, acceleration_runs, car_of, changed, constant_runs, gear_runs, interleaved, loud_copy, one_gear_sheet,
                  random_session, sheet_of)
from reckon import records_of
from sheets import sheet, vehicle


# Many gears and many records.

def sixteen_gears(random):
    for q in (250, 667, 1500, 4000, 6000):
        car = car_of(random, q, rated_speed=5000)
        gears = [Gear(gear, 340 - 19 * gear, 780 - 9 * gear, 690 - 4 * gear, 5001 if random.chance(20) else 5000)
                 for gear in range(1, 17)]
        yield sheet_of(random, car, gears)


def longest(random):
    """1,024 records: all of one kind, mixed gears, a window at the very end, and a broken last run."""
    car = car_of(random, 667, background=400)
    gears = [Gear(gear, 340 - 19 * gear, 780 - 9 * gear, 690 - 4 * gear) for gear in range(1, 17)]
    many = [gear_runs(random, car, gears) for _ in range(8)]
    runs = interleaved(random, [one for part in many for one in part][:1022])
    yield sheet(vehicle(**car), runs)
    window = acceleration_runs(random, car, Gear(3, 149, 700)) + constant_runs(random, 3, 655)
    swing = [loud_copy(one, 660 + 30 * (at % 2)) for at in range(507) for one in (window[0], window[4])]
    yield sheet(vehicle(**car), swing + window)
    whole = sheet(vehicle(**car), swing + window)
    yield changed(whole, 32 * 1022 + 31, 1)


# Half a session, and damage.

def bases(random):
    """Sheets to cut and to damage: document 01's whole sheet, and a plain sheet of one gear."""
    return sheets.worked_sheet(), one_gear_sheet(random)


def cut(random):
    """Sheets cut at each kind of place, and half sessions closed with a count of their own."""
    for whole in bases(random):
        for length in (0, 1, 31, 32, 33, 40, 63, 64, 65, 96, 160, 161, 175, len(whole) - 64, len(whole) - 33,
                       len(whole) - 32, len(whole) - 31, len(whole) - 16, len(whole) - 1):
            yield whole[:length]
        records = records_of(whole)
        for kept in range(1, len(records)):
            yield b"".join(records[:kept])
            yield sheet(records[0], records[1:kept])
            if kept % 3 == 0:
                yield b"".join(records[:kept]) + records[-1]
                yield b"".join(records[kept:])


def damaged(random):
    """One byte changed."""
    for _ in range(260):
        whole = bases(random)[0 if random.chance(25) else 1]
        at = random.below(len(whole))
        difference = random.between(1, 255) if random.chance(60) else 1 << random.below(8)
        yield changed(whole, at, whole[at] ^ difference)


def random_sessions(random):
    """Sessions with nothing planned but their ranges."""
    for _ in range(240):
        yield random_session(random)


GROUPS = (
    of_sheets.sizes, of_sheets.first_bytes, of_sheets.last_records, of_sheets.vehicle_layouts, of_sheets.run_layouts,
    of_sheets.reading_layouts, of_sheets.closing_layouts, of_sheets.broken_twice, of_sheets.middle_kinds,
    of_sheets.pmr_edges, of_sheets.accepted_edges, of_windows.no_acceleration, of_windows.no_acceleration_window,
    of_windows.gears_without_windows, of_windows.negative_zeros, of_windows.near_misses_on_one_side,
    of_gears.not_falling, of_gears.no_rule, of_gears.no_constant_window, of_gears.rule_1, of_gears.rule_1_of_several,
    of_gears.rule_2, of_gears.rule_2_exact, of_gears.rule_2_nearest, of_gears.rule_2_equal_distances,
    of_gears.ceiling_near_R, of_gears.rule_3, of_gears.pair_k_halves, of_gears.weighed_halves, of_gears.k_at_ends,
    of_gears.R_above_ceiling, of_gears.rule_4_and_5, of_gears.kp_halves, of_gears.L_urban_halves,
    of_gears.equal_levels, of_gears.slow_and_quiet, of_gears.limits, of_gears.exactly_as_far, of_windows.differences,
    of_windows.rounded_differences, of_windows.spans_after_correction, of_windows.late_windows,
    of_windows.shuffled_runs, of_windows.acceleration_halves, of_windows.engine_speeds, of_windows.floats_in_a_tenth,
    sixteen_gears, longest, cut, damaged, random_sessions, of_sheets.sizes_before_kinds, of_sheets.two_causes,
    of_sheets.faults_beside_a_result, of_sheets.pmr_rounded, of_sheets.pmr_below_halves, of_windows.first_window_at,
    of_windows.three_runs_of_a_gear, of_windows.sixteen_without_one, of_windows.engine_speed_of_one_run,
    of_windows.quiet_constant_speed, of_windows.accelerations_below_halves, of_gears.rising_gears,
    of_gears.constant_speed_always_needed, of_gears.negative_halves_of_rule_5, of_sheets.pmr_halves,
    of_sheets.reference_starts, of_sheets.high_bits, of_sheets.range_ends, of_sheets.unnamed_bytes,
    of_sheets.kinds_of_bytes, of_sheets.whole_numbers_for_floats, of_sheets.vehicle_not_first, of_sheets.far_places,
    of_windows.quiet_and_absent, of_windows.still_engines, of_windows.fast_runs, of_windows.last_window_of_all,
    of_gears.nearest_by_hundredths, of_gears.sixteenth_gear, of_gears.equal_after_rounding, of_gears.weighed_by_floats,
    of_gears.L_urban_by_floats, of_windows.struck_alone, of_gears.k_and_kp_by_floats,
    of_windows.set_aside_between, of_gears.equal_levels_by_rule, of_gears.rule_2_kp_halves,
    of_gears.rule_4_levels, of_gears.kp_rounded_first, of_windows.each_tenth_of_d,
    of_windows.each_tenth_of_d_on_one_side, of_windows.floats_at_steps, of_windows.spans_within_by_rounding,
    of_windows.spans_within_by_dropping, of_windows.rising_at_steps, of_backgrounds.each_tenth_of_d_by_side,
    of_backgrounds.edges_on_both_sides, of_backgrounds.quieter_side_alone, of_backgrounds.near_run_among_five,
    of_backgrounds.spans_by_side, of_backgrounds.floats_at_steps_by_side, of_backgrounds.which_fields,
    of_backgrounds.same_as_the_left_there, of_backgrounds.zero_against_one, of_backgrounds.right_numbers,
    of_backgrounds.numbers_of_both_sides, of_backgrounds.right_bits, of_backgrounds.right_and_other_causes,
    of_backgrounds.unnamed_beside_the_right, of_backgrounds.worked_sheet_on_the_right,
    of_backgrounds.only_the_right_differs, of_backgrounds.mirrored_pairs, of_backgrounds.two_sided_sessions,
    of_backgrounds.window_by_side, of_backgrounds.place_by_side, of_backgrounds.constant_speed_by_side,
    of_backgrounds.rising_by_side, of_backgrounds.rising_on_both_sides, of_limits.each_level_by_class,
    of_limits.classes_between_edges, of_limits.any_PMR_above_200, of_limits.far_from_the_limit,
    of_limits.rounded_at_an_edge, of_limits.cars_near_an_edge, of_limits.written_as_found,
    of_limits.written_beside_the_table, of_limits.looked_up_for_N1, of_limits.phases_and_classes,
    of_limits.phase_bytes, of_limits.class_bytes, of_limits.limit_and_other_causes, of_limits.limit_numbers,
    of_limits.limits_below_50, of_limits.written_with_a_look_up, of_limits.look_up_bits,
    of_limits.look_up_and_broken_records, of_limits.worked_sheet_by_phase, of_limits.rules_by_phase,
    of_limits.sessions_by_class, of_shortages.too_wide, of_shortages.too_few, of_shortages.counts_without_a_window,
    of_shortages.valid_among_others, of_shortages.spans_at_the_edge, of_shortages.parted_runs,
    of_shortages.short_by_one_background, of_shortages.windows_at_part_edges, of_shortages.long_gears_mixed,
    of_shortages.low_and_high_shortage, of_shortages.shortages_of_a_pair, of_shortages.few_beside_many,
    of_shortages.each_gear_by_its_shortage, of_shortages.sixteen_without_two, of_shortages.shortage_above_S,
    of_shortages.constant_speed_of_others, of_shortages.shortage_and_other_causes,
    of_shortages.longest_without_a_window, of_shortages.sessions_with_shortages,
    of_shortages.shortage_above_S_at_constant_speed, of_shortages.refused_before_a_shortage,
)
