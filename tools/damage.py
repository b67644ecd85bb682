"""Damaged variants of sheets, and changes of levels for pairs of sheets."""

import sheets
from make import BACKGROUND_PLACES, bits_of, changed, float_step, random_session, spoiled, with_look_up, with_right_backgrounds
from reckon import ABSENT, ACCELERATION_RUN, CONSTANT_RUN, records_of

LONGEST_BASE = 3000  # bytes: longer sheets are seldom taken as a base
LOWEST_FLOAT, HIGHEST_FLOAT = sheets.decibels(20), sheets.decibels(140)


# One change of a sheet each. Those on records keep the closing count right.

def rejoined(records):
    """A sheet of records whose closing record counts its runs."""
    first, last = records[0], bytearray(records[-1])
    sheets.put(last, 2, max(len(records) - 2, 0))
    return first + b"".join(records[1:-1]) + bytes(last)


def any_byte(random, whole):
    return changed(whole, random.below(len(whole)), random.below(256))


def one_bit(random, whole):
    at = random.below(len(whole))
    return changed(whole, at, whole[at] ^ 1 << random.below(8))


def cut_short(random, whole):
    return whole[:random.below(len(whole))]


def swapped(random, whole):
    records = records_of(whole)
    first, second = random.between(1, len(records) - 2), random.between(1, len(records) - 2)
    records[first], records[second] = records[second], records[first]
    return rejoined(records)


def repeated(random, whole):
    records = records_of(whole)
    records.insert(random.between(1, len(records) - 1), records[random.between(1, len(records) - 2)])
    return rejoined(records)


def removed(random, whole):
    records = records_of(whole)
    del records[random.between(1, len(records) - 2)]
    return rejoined(records)


def with_a_run(random, whole, change):
    """One run record changed, or all runs of its gear and kind."""
    records = records_of(whole)
    at = random.between(1, len(records) - 2)
    same = [at] if random.chance(60) else [n for n in range(1, len(records) - 1) if records[n][:2] == records[at][:2]]
    for n in same:
        records[n] = bytes(change(bytearray(records[n])))
    return rejoined(records)


def spoiled_run(random, whole):
    return with_a_run(random, whole, lambda record: spoiled(random, record))


def other_gear(random, whole):
    gear = random.between(0, 17)
    return with_a_run(random, whole, lambda record: record[:1] + bytes([gear]) + record[2:])


def other_speeds(random, whole):
    at, step = random.pick((16, 18)), random.between(-12, 12)
    def change(record):
        sheets.put(record, at, (record[at] + 256 * record[at + 1] + step) % 65536)
        return record
    return with_a_run(random, whole, change)


def other_engine_speed(random, whole):
    speed = random.pick((0, 3999, 4000, 5000, 5001, 6000, 6001, 20000, 20001))
    def change(record):
        sheets.put(record, 20, speed)
        return record
    return with_a_run(random, whole, change)


def other_levels(random, whole):
    step = random.pick((random.between(-200000, 200000), random.between(-14000, 14000)))
    return with_a_run(random, whole, lambda record: moved_level(record, random.pick((8, 12)), step))


def moved_level(record, at, step):
    """A record whose float at a place is moved by steps, kept from 20.0 to 140.0; a float of no level stays."""
    four = bytes(record[at:at + 4])
    if bits_of(LOWEST_FLOAT) <= bits_of(four) <= bits_of(HIGHEST_FLOAT):
        record[at:at + 4] = float_step(four, clamped_step(four, step))
    return record


def clamped_step(four, step):
    return max(bits_of(LOWEST_FLOAT) - bits_of(four), min(step, bits_of(HIGHEST_FLOAT) - bits_of(four)))


def other_vehicle_number(random, whole):
    at = random.pick((4, 6, 8, 10, 12, 14, 18))
    value = (whole[at] + 256 * whole[at + 1] + random.between(-40, 40)) % 65536
    return whole[:at] + value.to_bytes(2, "little") + whole[at + 2:]


def other_background(random, whole):
    """One of the four fields."""
    records = [bytearray(record) for record in records_of(whole)]
    record, *places = random.pick(BACKGROUND_PLACES)
    sheets.put(records[record], random.pick(places), random.between(380, 650))
    return b"".join(records)


ROUGH = (any_byte, one_bit, cut_short)
GENTLE = (swapped, repeated, removed, spoiled_run, other_gear, other_speeds, other_engine_speed, other_levels,
          other_levels, other_speeds, other_vehicle_number, other_background, with_right_backgrounds, with_look_up)


def damaged_sheets(random, bases, count):
    """So many sheets: damaged variants of the bases, sessions of their own, and arbitrary bytes."""
    short = [base for base in bases if 96 <= len(base) <= LONGEST_BASE and len(base) % 32 == 0]
    for _ in range(count):
        way = random.below(100)
        if way < 3:
            yield bytes(random.below(256) for _ in range(random.below(200)))
        elif way < 20:
            whole = random_session(random)
            for change in (with_right_backgrounds, with_look_up):
                whole = change(random, whole) if random.chance(50) else whole
            yield whole
        elif way < 35:
            yield random.pick(ROUGH)(random, random.pick(short))
        else:
            yield gently(random, random.pick(short))


def gently(random, whole):
    """A few changes that mostly keep the layout."""
    for _ in range(random.between(1, 3)):
        if len(records_of(whole)) > 3:
            whole = random.pick(GENTLE)(random, whole)
    return whole


# Pairs for "rising": chosen runs' levels are raised, other runs' levels are changed as it comes.

def raised(random, whole, chosen):
    """A sheet with no chosen run's level lower, alike in every byte but floats of run records."""
    records = records_of(whole)
    # in floats: at 70 dB(A), 131,072 of them are 1.0 dB
    reach = random.pick((3, 3000, 14000, 60000, 300000, 1000000))
    # a rise of decibels keeps a window only if all of its runs take part
    far = reach > 60000
    together = random.between(0, reach) if far or random.chance(50) else None
    percent = 100 if far else random.pick((10, 50, 100))
    others = random.pick((0, 0, 4000, 400000))
    return records[0] + b"".join(
        raised_record(random, bytearray(record), together, reach, percent) if at in chosen
        else disturbed_record(random, bytearray(record), others)
        for at, record in enumerate(records[1:-1], start=1)) + records[-1]


def raised_record(random, record, together, reach, percent):
    for at in (8, 12):
        if random.chance(percent):
            moved_level(record, at, random.between(0, reach) if together is None else together)
    return bytes(record)


def disturbed_record(random, record, reach):
    """A run that is not chosen: any level it may have."""
    for side in (0, 1):
        if record[0] in (ACCELERATION_RUN, CONSTANT_RUN) and record[3 + side] != ABSENT:
            moved_level(record, 8 + 4 * side, random.between(-reach, reach))
    return bytes(record)
