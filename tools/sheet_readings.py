"""Other readings of "The sheet" and of the table of refusals, with document 02's refusals 11, 12, 14 and 15 in it."""

from itertools import combinations

import sheets
from misread import PAPER, answers, by_edit, reading, simple
from reckon import ACCELERATION_RUN, CLOSING, CONSTANT_RUN, VEHICLE, number, records_of, rounded

RUNS = (ACCELERATION_RUN, CONSTANT_RUN)


# Fields: where a 16-bit number stands and how it is read.

NUMBERS = (("power", (VEHICLE,), 4), ("mass", (VEHICLE,), 6), ("length", (VEHICLE,), 8), ("S", (VEHICLE,), 10),
           ("left background before", (VEHICLE,), 12), ("limit", (VEHICLE,), 14), ("right background before", (VEHICLE,), 18),
           ("start speed", RUNS, 16), ("speed at BB'", RUNS, 18), ("engine speed", RUNS, 20), ("run number", (CLOSING,), 2),
           ("left background after", (CLOSING,), 4), ("right background after", (CLOSING,), 6))
WAYS = (("from its low byte alone", lambda record, at: record[at]),
        ("from its high byte alone", lambda record, at: 256 * record[at + 1]),
        ("high byte first", lambda record, at: 256 * record[at] + record[at + 1]),
        ("by 15 bits", lambda record, at: number(record, at) % 32768),
        ("one byte on", lambda record, at: number(record, at + 1)),
        ("from the place before", lambda record, at: number(record, at - 2)),
        ("from the place after", lambda record, at: number(record, at + 2)))
SIGNED = ("as a signed number", lambda record, at: number(record, at) - 65536 * (record[at + 1] > 127))


def read_so(kinds, at, way):
    """One field of the records of some kinds read in another way."""
    return {"number": lambda record, place: (way if place == at and record[0] in kinds else number)(record, place)}


FIELDS = [(f"{name} {words}", read_so(kinds, at, way)) for name, kinds, at in NUMBERS for words, way in (*WAYS, SIGNED)]


# Bytes that are not looked at.

def without(places, at):
    return tuple(place for place in places if place != at)


UNNAMED = [(f"byte {at} of a {record} record may hold anything", {name: without(PAPER[name], at)})
           for record, name in (("vehicle", "VEHICLE_UNNAMED"), ("run", "RUN_UNNAMED"), ("closing", "CLOSING_UNNAMED"))
           for at in PAPER[name]]


# Layout tests of a run that some runs are spared: what would make the record pass, and the runs.

def with_part(record, at, part):
    return record[:at] + part + record[at + len(part):]


TESTS = (("the gear", lambda record: with_part(record, 1, b"\x01")),
         ("the struck byte", lambda record: with_part(record, 2, b"\x00")),
         ("the left reading", lambda record: with_part(with_part(record, 3, b"\x00"), 8, bytes(4))),
         ("the right reading", lambda record: with_part(with_part(record, 4, b"\x00"), 12, bytes(4))),
         ("the start speed", lambda record: with_part(record, 16, min(1500, max(10, number(record, 16))).to_bytes(2, "little"))),
         ("the speed at BB'", lambda record: with_part(record, 18, min(1500, max(10, number(record, 18))).to_bytes(2, "little"))),
         ("the engine speed", lambda record: with_part(record, 20, bytes(2))),
         ("the unnamed bytes", lambda record: with_part(with_part(record, 5, bytes(3)), 22, bytes(10))),
         ("BB' against the start", lambda record: with_part(record, 18, max(record[16:18], record[18:20], key=value_of))
          if number(record, 18) >= 10 else record))
SPARED = (("of any run", lambda record: True), ("of struck runs", lambda record: record[2] == 1),
          ("of constant-speed runs", lambda record: record[0] == CONSTANT_RUN),
          ("of acceleration runs", lambda record: record[0] == ACCELERATION_RUN),
          ("of runs with an overload", lambda record: 2 in record[3:5]),
          ("of runs with an absent reading", lambda record: 0 in record[3:5]))


def value_of(two):
    return int.from_bytes(two, "little")


def spare(mend, spared):
    return {"run_layout": lambda record: PAPER["run_layout"](mend(record) if spared(record) else record)}


LAYOUTS = [(f"{test} is not asked {runs}", spare(mend, spared)) for test, mend in TESTS for runs, spared in SPARED]

# Records that the layout is not asked of.
RECORDS = by_edit(*((f"layout is asked of records with {test} only", "refuse_form", "if not layout", f"if {test} and not layout")
                    for test in ("at != 0", "at != last", "at != 1", "at != last - 1", "at < 16", "at < 256", "at < 512",
                                 "at < 1000", "at % 2 == 0", "at % 2 == 1", "record[1] < 16", "record[:2] != records[at - 1][:2]")))


def reading_in_range_once_rounded(kind, four):
    value = PAPER["float_value"](four)
    if kind in (1, 2) and value is not None:
        return 200 <= rounded(10 * value) <= 1400
    return PAPER["reading_layout"](kind, four)


def absent_by_value(kind, four):
    return PAPER["float_value"](four) == 0 if kind == 0 else PAPER["reading_layout"](kind, four)


def absent_unlooked(kind, four):
    return kind == 0 or PAPER["reading_layout"](kind, four)


def zero_bytes_are_absent(kind, four):
    return four == bytes(4) or PAPER["reading_layout"](kind, four)


def overload_unlooked(kind, four):
    return kind == 2 or PAPER["reading_layout"](kind, four)


def overload_above_140(kind, four):
    value = PAPER["float_value"](four)
    return PAPER["reading_layout"](kind, four) or kind == 2 and value is not None and value > 140


OTHERS = simple(
    ("a level's range is asked after rounding", "reading_layout", reading_in_range_once_rounded),
    ("absent by value, so -0.0 is absent", "reading_layout", absent_by_value),
    ("the bytes of an absent level may hold anything", "reading_layout", absent_unlooked),
    ("four zero bytes are an absent reading of any kind", "reading_layout", zero_bytes_are_absent),
    ("the level of an overload may be anything", "reading_layout", overload_unlooked),
    ("the level of an overload may be above 140.0", "reading_layout", overload_above_140),
) + by_edit(
    ("reading kinds up to 3", "reading_layout", "kind in (LEVEL, OVERLOAD)", "kind in (LEVEL, OVERLOAD, 3)"),
    ("any reading kind but 0 has a level", "reading_layout", "kind in (LEVEL, OVERLOAD) and", ""),
    ("a category 3", "vehicle_layout", "in (M1, N1)", "in (M1, N1, 3)"),
    ("a start line 2", "vehicle_layout", "in (0, 1)", "in (0, 1, 2)"),
    ("no category", "vehicle_layout", "record[1] in (M1, N1)", "record[1] in (0, M1, N1)"),
    ("any start line", "vehicle_layout", " and record[2] in (0, 1)", ""),
    ("any category", "vehicle_layout", " and record[1] in (M1, N1)", ""),
    ("a struck byte above 1 is no fault of layout", "run_layout", " and record[2] in (0, 1)", ""),
    ("a struck byte above 1 strikes", "run_layout", " and record[2] in (0, 1)", " and record[2] in range(256)"),
    ("BB' not below the start speed in constant-speed runs too", "run_layout", "record[0] == ACCELERATION_RUN and ", ""),
    ("BB' above the start speed", "run_layout", "number(record, 18) < number(record, 16)", "number(record, 18) <= number(record, 16)"),
    ("gears from 0", "run_layout", "1 <= record[1]", "0 <= record[1]"),
    ("a vehicle record among the runs is passed over", "run_layout", "return (", "return record[0] == VEHICLE or ("),
    ("a closing record among the runs is passed over", "run_layout", "return (", "return record[0] == CLOSING or ("),
    ("a record of zeros is passed over", "run_layout", "return (", "return not any(record) or ("),
    ("a part of a record at the end is passed over", "refuse_form", " or len(sheet) % RECORD_BYTES != 0", ""),
    ("at most 1,024 runs", "refuse_form", "len(sheet) > MOST_SHEET_BYTES", "len(sheet) > MOST_SHEET_BYTES + 64"),
    ("at most 1,022 records", "refuse_form", "len(sheet) > MOST_SHEET_BYTES", "len(sheet) > MOST_SHEET_BYTES - 64"),
    ("at least two records", "refuse_form", "if not sheet", "if len(sheet) < 64"),
    ("at least three records", "refuse_form", "if not sheet", "if len(sheet) < 96"),
    ("the run number counts all records", "refuse_form", "len(records) - 2", "len(records)"),
    ("the run number leaves out the closing record only", "refuse_form", "len(records) - 2", "len(records) - 1"),
    ("the run number leaves out struck runs", "refuse_form", "len(records) - 2", "sum(one[2] != 1 for one in records[1:-1])"),
    ("the run number counts acceleration runs", "refuse_form", "len(records) - 2", "sum(one[0] == 2 for one in records)"),
    ("the run number counts records of kinds 2 and 3", "refuse_form", "len(records) - 2", "sum(one[0] in (2, 3) for one in records)"),
    ("the run number by its low byte", "refuse_form", "number(records[last], 2) != len(records) - 2",
     "(number(records[last], 2) - len(records) + 2) % 256 != 0"),
    ("the run number is not looked at", "refuse_form", " or number(records[last], 2) != len(records) - 2", ""),
    ("the first byte may be 0", "refuse_form", "records[0][0] != VEHICLE", "records[0][0] not in (0, VEHICLE)"),
    ("byte 0 by its low four bits", "refuse_form", "records[0][0] != VEHICLE", "records[0][0] % 16 != VEHICLE"),
    ("the first record that is a vehicle record counts", "refuse_form", "records[0][0] != VEHICLE",
     "VEHICLE not in [one[0] for one in records]"),
    ("a closing record is looked for from the front", "refuse_form", "last = len(records) - 1",
     "last = next((at for at, one in enumerate(records) if one[0] == CLOSING), len(records) - 1)"),
    ("the highest broken record is named", "refuse_form", "enumerate(records)", "reversed(list(enumerate(records)))"),
    ("closing is checked before the runs", "refuse_form", "enumerate(records)",
     "sorted(enumerate(records), key=lambda one: one[0] != last)"),
    ("the vehicle record is checked last", "refuse_form", "enumerate(records)", "sorted(enumerate(records), key=lambda one: one[0] == 0)"),
    ("refusal 5 counts runs from 0", "refuse_form", "Refused(5, at)", "Refused(5, max(at - 1, 0))"),
    ("refusal 5 names the byte", "refuse_form", "Refused(5, at)", "Refused(5, 32 * at)"),
    ("refusal 4 names the number of records", "refuse_form", "Refused(4, last)", "Refused(4, last + 1)"),
    ("refusal 4 names the run number", "refuse_form", "Refused(4, last)", "Refused(4, number(records[last], 2))"),
    ("refusal 4 has no place", "refuse_form", "Refused(4, last)", "Refused(4, 0)"),
    ("a category N1 starts from PP'", "read_vehicle", "from_pp=first[2] == 1", "from_pp=first[2] == 1 or first[1] == 2"),
    ("a category N1 has 1 dB more", "limit_found", "else vehicle.limit", "else vehicle.limit + (vehicle.category == N1)"),
    ("a category N1 has 25 kg more", "read_vehicle", "mass=number(first, 6)", "mass=number(first, 6) + 25 * (first[1] == 2)"),
)


# The order of the table, by rows. A sheet is mended of one cause after the other, to see which comes next.

ORDER = ((2,), (3,), (4,), (5,), (11,), (12,), (6,), (7, 14), (8,), (9,), (10, 15))
MENDED = ORDER[:ORDER.index((9,))]  # what comes after these rows can be told


def numbers_of(rows):
    return [number_ for row in rows for number_ in row]


def words_of(row):
    return " and ".join(str(number_) for number_ in row)


def joined(first, runs, last):
    return first + b"".join(runs) + last[:2] + len(runs).to_bytes(2, "little") + last[4:]


def mended(sheet, number_, place):
    """The sheet without a cause of refusal; None where it cannot be mended."""
    records = records_of(sheet)
    if number_ == 2 and records:
        return b"".join(records)
    if number_ == 3:
        return b"\x01" + sheet[1:]
    if number_ == 4 and len(records) > 1:
        return joined(records[0], records[1:-1], b"\x09" + records[-1][1:])
    if number_ == 5 and PAPER["vehicle_layout"](records[0]):
        runs = [record for record in records[1:-1] if PAPER["run_layout"](record)]
        return joined(records[0], runs, sheets.closing(0, *(min(number(records[-1], at), 1000) for at in (4, 6))))
    if number_ == 11:
        return with_part(sheet, 1, b"\x01")
    if number_ == 12:
        return with_part(sheet, 16, bytes((min(max(sheet[16], 1), 3), min(sheet[17], 1))))
    if number_ == 6:
        low = 1000 * number(records[0], 4) < 50 * number(records[0], 6)
        return with_part(sheet, 4, (50 if low else 6000).to_bytes(2, "little") + (1000).to_bytes(2, "little"))
    if number_ in (7, 14) and place:
        return joined(records[0], [record for record in records[1:-1] if record[:2] != bytes((2, place))], records[-1])
    return None


def answer_without(sheet, causes):
    """The answer where some causes do not count, or None where nothing can be said."""
    changes = {"MOST_SHEET_BYTES": 2 ** 32}
    if 8 in causes:
        changes["refuse_unless_falling"] = lambda gears: None
    with reading(changes):
        while sheet is not None:
            answer = PAPER["evaluate"](sheet)
            if answer[0] == "OK" or answer[1] not in causes:
                return answer
            sheet = mended(sheet, *answer[1:])
    return None


def passing_over(causes, wanted):
    """An evaluation that passes over some causes where what comes next is wanted."""
    def evaluate(sheet):
        answer = PAPER["evaluate"](sheet)
        if answer[0] == "REFUSED" and answer[1] in causes:
            other = answer_without(sheet, causes)
            return other if other and wanted(*other[:2]) else answer
        return answer
    return {"evaluate": evaluate}


def moved_up(row, above):
    """A row checked before another one that stands above it."""
    return passing_over(numbers_of(ORDER[ORDER.index(above):ORDER.index(row)]), lambda word, number_: word == "REFUSED" and number_ in row)


def moved_down(row, below):
    """A row checked after another one that stands below it."""
    wanted = numbers_of(ORDER[:ORDER.index(below) + 1])
    return passing_over(row, lambda word, number_: word == "REFUSED" and number_ in wanted)


def left_out(row):
    return passing_over(row, lambda word, number_: True)


ORDERS = [
    *((f"refusal {words_of(second)} before {words_of(first)}", moved_up(second, first))
      for first, second in combinations(ORDER, 2) if first in MENDED),
    *((f"refusal {words_of(first)} after {words_of(second)}", moved_down(first, second)) for first, second in combinations(ORDER, 2)
      if first in MENDED[:-1] and second != ORDER[ORDER.index(first) + 1]),
    *((f"no refusal {words_of(row)}", left_out(row)) for row in MENDED),
]


# The place of a refusal.

def placed(cause, change):
    return answers(lambda word, *rest: (word, cause, change(rest[1])) if (word, rest[0]) == ("REFUSED", cause) else (word, *rest))


OF_GEARS = (7, 8, 10, 14, 15)  # the refusals that name a gear
CHANGES = (("one more", numbers_of(ORDER), lambda place: place + 1), ("one less", (4, 5, *OF_GEARS), lambda place: max(place - 1, 0)),
           ("0", (4, 5, *OF_GEARS), lambda place: 0), ("1 at the least", (4, 5, 7), lambda place: max(place, 1)),
           ("by 8 bits", (4, 5), lambda place: place % 256), ("by 4 bits", (7, 10, 14, 15), lambda place: place % 16))
PLACES = [(f"place of refusal {cause}: {words}", placed(cause, change)) for words, causes, change in CHANGES for cause in causes]

READINGS = FIELDS + UNNAMED + LAYOUTS + RECORDS + OTHERS + ORDERS + PLACES

# Readings that give the same answer on every sheet, by the reason.
EQUIVALENT = {
    "a number from 32,768 on is above its range, and as a signed one below it; no sheet has so many runs":
        [f"{name} as a signed number" for name, _, _ in NUMBERS],
    "the struck byte of a struck run is 1": ["the struck byte is not asked of struck runs"],
    "it is asked of acceleration runs alone": ["BB' against the start is not asked of constant-speed runs"],
}
