"""Groups of the corpus about the bytes of a sheet: refusals 2 to 6, and both ends of every field."""

import sheets
from make import (Gear, beside_starts, changed, float_step, gear_runs, loud_copy, one_gear_sheet, short_runs, short_sheet, whole_with_runs,
                  with_bytes, with_number)
from reckon import (ABSENT, ACCELERATION_RUN, CLOSING_NUMBERS, CLOSING_UNNAMED, CONSTANT_RUN, LEVEL, LOOK_UP_BYTES, N1, OVERLOAD,
                    RUN_NUMBERS, RUN_UNNAMED, VEHICLE_NUMBERS, VEHICLE_UNNAMED, WRITTEN_LIMIT, number, records_of)
from sheets import run, sheet, tenths, vehicle


# Refusals 2 to 4.

def sizes(random):
    """Refusal 2: empty, not whole records, too long."""
    yield b""
    whole = short_sheet()
    for length in range(1, len(whole)):
        if length < 34 or length % 32 in (1, 16, 31):
            yield whole[:length]
    yield whole + bytes(1)
    yield whole + whole[:31]
    yield sheet(vehicle(), short_runs()[:1] * 1022) + bytes(1)
    yield sheet(vehicle(), short_runs()[:1] * 1023)


def first_bytes(random):
    """Refusal 3: the first record is not a vehicle record."""
    whole = short_sheet()
    for value in (0, 2, 3, 4, 8, 9, 10, 17, 129, 255):
        yield changed(whole, 0, value)
        yield changed(whole[:32], 0, value)
        yield changed(changed(whole, 0, value), 96, 7)
    yield whole[-32:]
    yield whole[32:]
    yield bytes(32)
    yield bytes(64)


def last_records(random):
    """Refusal 4: the last record is not closing, or its count is wrong; a wrong count comes before a broken record."""
    whole = short_sheet()
    last = len(whole) - 32
    for value in (0, 1, 2, 3, 8, 10, 25, 255):
        yield changed(whole, last, value)
        yield changed(changed(whole, last, value), 1, 0)
    for count in (0, 1, 3, 4, 258, 512, 65535):
        yield with_number(whole, 3, 2, count)
        yield changed(with_number(whole, 3, 2, count), 33, 0)
    for records in (1, 2, 3):
        yield whole[:32 * records]
    yield whole + whole[-32:]
    yield whole + whole
    yield vehicle() + sheets.closing(1)
    yield vehicle() + sheets.closing(65535)
    yield vehicle() + sheets.closing(0)


# Refusal 5, with both sides of each field's range.

# Bytes of the right's background (document 02, wish 8); `background_groups` has its ranges.
RIGHT_BEFORE, RIGHT_AFTER = (18, 19), (6, 7)


def vehicle_layouts(random):
    """Each field, and each byte from 16 on beside a written limit, unnamed or of the right's background.

    A limit of 0 breaks no layout; without a phase it is refusal 12.
    """
    whole = short_sheet()
    for at, values in ((1, (0, 1, 2, 3, 255)), (2, (0, 1, 2, 255)), (3, (1, 255))):
        for value in values:
            yield changed(whole, at, value)
    for at, lowest, highest in ((4, 10, 20000), (6, 300, 5000), (8, 100, 2000), (10, 500, 20000), (12, 0, 1000),
                                (14, 50, 100)):
        for value in (lowest - 1, lowest, highest, highest + 1, 0, 65535):
            if value >= 0:
                yield with_number(whole, 0, at, value)
    for at in range(16, 32):
        yield changed(whole, at, random.pick((1, 128, 255)))


def run_layouts(random):
    whole = short_sheet()
    for record in (1, 2):
        base = 32 * record
        for at, values in ((0, (0, 1, 2, 3, 4, 9, 255)), (1, (0, 1, 16, 17, 255)), (2, (0, 1, 2, 255)),
                           (3, (3, 0, 255)), (4, (3, 0, 255))):
            for value in values:
                yield changed(whole, base + at, value)
        for at, lowest, highest in ((16, 10, 1500), (18, 10, 1500), (20, 0, 20000)):
            for value in (lowest - 1, lowest, highest, highest + 1, 65535):
                if value >= 0:
                    yield with_number(whole, record, at, value)
        for at in (5, 6, 7, *range(22, 32)):
            yield changed(whole, base + at, random.pick((1, 128, 255)))
        for end in (449, 450, 451):  # below, at and above the start speed: asked of acceleration runs only
            yield with_number(with_number(whole, record, 16, 450), record, 18, end)


def reading_layouts(random):
    """Kinds and floats: both ends of the range, values that are not finite, zeros of both signs."""
    lowest, highest = sheets.decibels(20), sheets.decibels(140)
    floats = (lowest, float_step(lowest, -1), highest, float_step(highest, 1), bytes(4), bytes((0, 0, 0, 128)),
              bytes((1, 0, 0, 0)), bytes((0, 0, 128, 127)), bytes((0, 0, 128, 255)), bytes((0, 0, 192, 127)),
              bytes((1, 0, 128, 127)), bytes((0, 0, 144, 194)), bytes((0, 0, 144, 66)), bytes((255, 255, 127, 0)))
    whole = short_sheet()
    for kind in (ABSENT, LEVEL, OVERLOAD):
        for side in (0, 1):
            for four in floats:
                record = random.between(1, 2)
                yield with_bytes(changed(whole, 32 * record + 3 + side, kind), record, 8 + 4 * side, four)


def closing_layouts(random):
    """The left's background, and each other byte but the run number's, unnamed or of the right's background."""
    whole = short_sheet()
    for background in (0, 1, 999, 1000, 1001, 65535):
        yield with_number(whole, 3, 4, background)
    for at in (1, *range(6, 32)):
        yield changed(whole, 96 + at, random.pick((1, 128, 255)))


def broken_twice(random):
    """Two broken records: the lower one is named."""
    whole = sheet(vehicle(), short_runs() * 3)
    for _ in range(30):
        first, second = random.below(8), random.below(8)
        yield changed(changed(whole, 32 * first + 30, 1), 32 * second + 31, 2)


def middle_kinds(random):
    """A vehicle or closing record among the runs."""
    runs = short_runs()
    for stray in (vehicle(), sheets.closing(0), sheets.closing(3), bytes(32)):
        yield sheet(vehicle(), [stray] + runs)
        yield sheet(vehicle(), runs + [stray])


# PMR and the vehicle's ranges, on sheets with a result.

def pmr_edges(random):
    """Refusal 6, and the edges 5.0, 25.0 and 600.0, with halves (mass 2,000 gives PMR in half tenths)."""
    for power in (10, 11, 50, 97, 98, 99, 100, 101, 498, 499, 500, 501, 11999, 12000, 12001, 12002, 13000, 20000):
        yield one_gear_sheet(random, power=power, mass=2000)
        yield sheet(vehicle(power=power, mass=2000), short_runs())
    for power, mass in ((10, 300), (10, 5000), (20000, 300), (20000, 3333), (20000, 3334), (20000, 5000), (247, 5000),
                        (248, 5000), (249, 5000), (1800, 300), (1801, 300), (15, 300), (1247, 5000), (1248, 5000)):
        yield one_gear_sheet(random, power=power, mass=mass)
    for _ in range(20):
        yield one_gear_sheet(random, power=2 * random.between(60, 5900) + 1, mass=2000)
    for _ in range(12):
        yield sheet(vehicle(power=random.between(10, 50), mass=random.between(1100, 5000)), short_runs())
        yield sheet(vehicle(power=random.between(15000, 20000), mass=random.between(300, 2400)), short_runs())


def accepted_edges(random):
    """Both ends of each range on sheets with a result."""
    for fields in (dict(length=100), dict(length=2000), dict(category=2), dict(start_line=1), dict(limit=50),
                   dict(limit=100), dict(background=0), dict(background=550), dict(rated_speed=4000),
                   dict(rated_speed=20000), dict(power=20000, mass=5000), dict(power=1500, mass=300)):
        yield one_gear_sheet(random, **fields)
    whole = one_gear_sheet(random)
    for start, end in ((10, 10), (10, 1500), (1500, 1500), (10, 11)):
        speeds = start.to_bytes(2, "little") + end.to_bytes(2, "little")
        yield whole_with_runs(whole, lambda record: record[:16] + speeds + record[20:])
    for gear in (1, 16):
        yield whole_with_runs(whole, lambda record: record[:1] + bytes([gear]) + record[2:])
    for level in (200, 1400):
        low = sheet(vehicle(background=0), [loud_copy(one, level) for one in records_of(whole)[1:-1]], 0)
        yield low


# Two causes at once, and faults beside runs that would give a result.

def sizes_before_kinds(random):
    """Refusal 2 although the first byte is 9 or the run number is wrong: no whole records, or 1,025 of them."""
    for length in (1, 31, 33, 40, 63, 65, 95):
        yield (sheets.closing(0) * 3)[:length]
    short, long = short_sheet(), sheet(vehicle(), short_runs()[:1] * 1023)
    for extra in (1, 31):
        yield changed(short, 0, 9)[:32 + extra]
        yield changed(short, 0, 9) + bytes(extra)
        yield with_number(short, 3, 2, 7) + bytes(extra)
    yield changed(long, 0, 9)
    yield sheets.closing(1023) * 1025
    for count in (0, 1022):
        yield with_number(long, 1024, 2, count)


def two_causes(random):
    """Two causes of the table of refusals, each in two ways: the earlier one is given."""
    for first in range(2, 11):
        for second in range(first + 1, 11):
            for way in range(4):
                yield session_with(random, {first: way // 2, second: way % 2})


# The fields of a vehicle to which a cause applies, in the ways 0 and 1.
CARS_WITH = {6: (dict(power=10, mass=5000), dict(power=20000, mass=300)),
             11: (dict(limit=0, category=N1, phase=1), dict(limit=0, category=N1, phase=3, low_car=1)),
             12: (dict(limit=0, phase=4), dict(limit=0, phase=1, low_car=2))}


def session_with(random, causes):
    """A sheet to which these causes apply, each in the way 0 or 1, 7 and 10 also in the way 2; PMR is 66.7 and R 1.49 but for cause 6."""
    car = {}
    for cause in sorted(CARS_WITH.keys() & causes.keys()):
        car.update(CARS_WITH[cause][causes[cause]])
    whole = sheet(vehicle(rated_speed=5000, **car), runs_with(random, causes))
    last = len(whole) // 32 - 1
    if 5 in causes:
        whole = changed(whole, (63, len(whole) - 1)[causes[5]], 1)
    if 4 in causes:
        whole = (changed(whole, 32 * last, 8), with_number(whole, last, 2, last))[causes[4]]
    if 3 in causes:
        whole = changed(whole, 0, (9, 2)[causes[3]])
    if 2 in causes:
        whole = (whole + bytes(1), whole[:-1])[causes[2]]
    return whole


def runs_with(random, causes):
    """Runs to which causes 7 to 10 apply: gears 2 and 4, and for cause 7 none in acceleration, or three of gear 6, or four too wide."""
    below = causes.get(9) == 1
    first, second = (20, 10) if below else (200, 100)
    if 8 in causes:
        second = first + (0, 30)[causes[8]]
    engine = 5001 if causes.get(9) == 0 and 8 not in causes else 5000
    gears = [Gear(2, first, 720, 650, engine), Gear(4, second, 700, 640, engine)]
    runs = gear_runs(random, {}, gears, plain=True)
    if 10 in causes:
        constant = [one for one in runs if one[0] == CONSTANT_RUN]
        lacking = ([], constant[:3] + constant[5:], too_wide(constant))[causes[10]]
        runs = [one for one in runs if one[0] == ACCELERATION_RUN] + lacking
    if 7 in causes:
        four = gear_runs(random, {}, [Gear(6, 60, 690)], plain=True)
        runs = (without_acceleration(runs), runs + four[:3], runs + too_wide(four))[causes[7]]
    return runs


def without_acceleration(runs):
    """The constant-speed runs, or one where there is none."""
    return [one for one in runs if one[0] == CONSTANT_RUN] or short_runs()[1:]


def too_wide(runs):
    """Copies of runs, 2.1 dB apart in turn."""
    return [loud_copy(one, 690 + 21 * (at % 2)) for at, one in enumerate(runs)]


ZERO = bytes(4)
LOUD, TOO_LOUD, TOO_QUIET = tenths(700), float_step(tenths(1400), 1), float_step(tenths(200), -1)

# Faults of a run record, by what stands at a place.
RUN_FAULTS = (
    (1, b"\x00"), (1, b"\x11"), (2, b"\x02"), (3, b"\x03"), (4, b"\x03"), (3, b"\xff"), (5, b"\x01"), (7, b"\x80"), (22, b"\x01"),
    (31, b"\x01"), (8, TOO_LOUD), (12, TOO_LOUD), (8, TOO_QUIET), (12, TOO_QUIET), (16, b"\x09\x00"), (16, b"\xdd\x05"),
    (18, b"\x09\x00"), (18, b"\xdd\x05"), (20, b"\x21\x4e"),
    (3, b"\x00\x01\x00\x00\x00" + LOUD), (4, b"\x00"),  # absent with a level
    *((3, bytes((kind, 1, 0, 0, 0)) + ZERO) for kind in (1, 2, 3, 255)),  # zero bytes on the left without being absent
    *((3, bytes((1, kind, 0, 0, 0)) + LOUD + ZERO) for kind in (1, 2, 3, 255)),
    (3, bytes((3, 3, 0, 0, 0)) + ZERO + ZERO),
    (16, b"\xf4\x01\xf3\x01"), (16, b"\xdc\x05\x0a\x00"),  # slower at BB': a fault of acceleration runs alone
)


def faults_beside_a_result(random):
    """Refusal 5: each fault in a run that the result does not need: valid, struck, with an overload or an absent reading."""
    runs = records_of(one_gear_sheet(random))[1:-1]
    for kind in (ACCELERATION_RUN, CONSTANT_RUN):
        for stray in (run(kind, 3, LOUD, LOUD, 450, 520), run(kind, 3, LOUD, LOUD, 450, 520, struck=1),
                      run(kind, 3, LOUD, LOUD, 450, 520, left_kind=OVERLOAD), run(kind, 3, LOUD, ZERO, 450, 520, right_kind=ABSENT)):
            for at, part in RUN_FAULTS:
                place = random.pick((0, 4, 8))
                yield sheet(vehicle(), runs[:place] + [stray[:at] + part + stray[at + len(part):]] + runs[place:])


# PMR near its edges.

def pmr_rounded(random):
    """Exact PMRs outside 5.0 to 600.0 or below 25.0 that rounding brings in, beside those that it does not."""
    for power, mass in ((18001, 3000), (14401, 2400), (19999, 3333), (18002, 3000), (19802, 3300), (149, 3000),
                        (199, 4000), (148, 3000), (197, 4000), (749, 3000), (1249, 5000), (748, 3000)):
        yield one_gear_sheet(random, power=power, mass=mass)


def pmr_below_halves(random):
    """PMRs 1/(2m) of a tenth below a half, so near that a 32-bit float has the half; and as far above one."""
    yield one_gear_sheet(random, power=8656, mass=2049)
    for mass in range(2051, 3300, 59):
        if mass % 2 and mass % 5:
            for beside in (-1, 1):
                power = pow(2000, -1, mass) * beside % mass + random.between(4, 5) * mass
                yield one_gear_sheet(random, power=power, mass=mass)


def pmr_halves(random):
    """PMRs on a half that 64-bit floats miss where P is in kW or is divided by m first."""
    for power, mass in ((1292, 320), (323, 304), (651, 336), (323, 400), (641, 400), (201, 400), (803, 400), (1613, 400)):
        yield one_gear_sheet(random, power=power, mass=mass)


def reference_starts(random):
    """The lowest PMR of each hundredth of a_urban and of a_ref, and the one before."""
    for q in beside_starts():
        yield one_gear_sheet(random, power=q, mass=1000)


# Every bit and byte on sheets with a result.

def high_bits(random):
    """A 16-bit number with its highest bit set: refusal 5, and 4 for the run number."""
    for whole in (one_gear_sheet(random), one_gear_sheet(random, W=720, power=1200)):
        last = len(whole) // 32 - 1
        for record, places in ((0, (4, 6, 8, 10, 12, 14)), (1, (16, 18, 20)), (5, (16, 18, 20)), (last, (2, 4))):
            for at in places:
                yield with_number(whole, record, at, number(records_of(whole)[record], at) + 32768)


def range_ends(random):
    """Both ends of each range of the vehicle, of a constant-speed run and of the closing record, and one past them.

    The right's backgrounds have groups of their own.
    """
    whole = one_gear_sheet(random)
    for record, numbers, others in ((0, (*VEHICLE_NUMBERS, WRITTEN_LIMIT), RIGHT_BEFORE), (5, RUN_NUMBERS, ()),
                                    (9, CLOSING_NUMBERS, RIGHT_AFTER)):
        for at, lowest, highest in sorted(one for one in numbers if one[0] not in others):
            for value in (lowest - 1, lowest, highest, highest + 1):
                if value >= 0:
                    yield with_number(whole, record, at, value)


def unnamed_bytes(random):
    """Each unnamed byte of each kind of record, which is refusal 5, and in their places the bytes of the right's background.

    The limit is written, so the bytes of a look-up are unnamed.
    """
    whole = one_gear_sheet(random)
    for record, places in ((0, VEHICLE_UNNAMED + LOOK_UP_BYTES + RIGHT_BEFORE), (1, RUN_UNNAMED), (8, RUN_UNNAMED),
                           (9, CLOSING_UNNAMED + RIGHT_AFTER)):
        for at in sorted(places):
            yield changed(whole, 32 * record + at, 1 << random.below(8))


def kinds_of_bytes(random):
    """Category, start line and struck byte with each low bit pattern."""
    whole = one_gear_sheet(random)
    for at in (1, 2, 34, 162):
        for value in (0, 1, 2, 3, 4, 17, 128):
            yield changed(whole, at, value)


def whole_numbers_for_floats(random):
    """Refusal 5: the bytes of a level are those of a whole number of decibels or tenths."""
    whole = one_gear_sheet(random)
    for value in (20, 60, 70, 140, 200, 700, 1400):
        for record, at in ((1, 8), (2, 12), (5, 12), (8, 8)):
            yield with_bytes(whole, record, at, value.to_bytes(4, "little"))


def vehicle_not_first(random):
    """Refusal 3: the vehicle record stands second, or before the closing record."""
    for whole in (short_sheet(), one_gear_sheet(random)):
        first, *runs, last = records_of(whole)
        yield b"".join([runs[0], first, *runs[1:], last])
        yield b"".join([*runs, first, last])


def far_places(random):
    """Refusals 4 and 5 at records from 255 on."""
    one = short_runs()[0]
    whole = sheet(vehicle(), [one] * 300)
    for record in (255, 256, 257, 301):
        yield changed(whole, 32 * record + 31, 1)
    for count in (44, 299, 301):  # 44 has the low byte of 300
        yield with_number(whole, 301, 2, count)
    yield changed(sheet(vehicle(), [one] * 1010), 32 * 1005 + 30, 1)
