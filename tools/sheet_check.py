#!/usr/bin/env python3
"""Checks sheet.py against the reckoner, which reads the layout by itself.

    python3 tools/sheet_check.py [N [SEED]]     the corpus, and N damaged and random sheets (5,000 unless said)

Every sheet must come back from its table byte for byte. `show` must find a fault of the sheet if and only if the reckoner
refuses it with 2, 3 or 4; of the other sheets, its lowest record with a fault must be the place of refusal 5.
"""

import os
import subprocess
import sys
from itertools import product

import sheets
from corpus import all_sheets
from damage import damaged_sheets
from make import Random
from reckon import ABSENT, ACCELERATION_RUN, CONSTANT_RUN, OVERLOAD, RECORD_BYTES, Refused, refuse_form
from sheet import FIELDS, Unreadable, faults_of, level_bytes, level_cell, sheet_faults, sheet_of, shown_sheet, table_of

TOOL = os.path.join(os.path.dirname(os.path.abspath(__file__)), "sheet.py")
LONGEST_RANDOM = 200  # bytes

# A table as a crew may write it: columns in an order of their own, blank rows, a blank level of an absent reading, a blank right
# background, which means the left's, and no columns for phase and low car, which a written limit does not need.
HEADER = ("kind,gear,left reading,left level [dB(A)],right reading,right level [dB(A)],struck,speed at the start line [km/h],"
          "speed at BB' [km/h],highest engine speed [per minute],category,start line,power [kW],mass in running order [kg],"
          "length [cm],rated engine speed [per minute],left background before [dB(A)],limit [dB(A)],left background after [dB(A)],"
          "right background after [dB(A)],right background before [dB(A)],number of runs")
BY_HAND = f"""{HEADER}
vehicle,,,,,,,,,,N1,PP',86.5,2049,450,5500,40.3,72,,,39.1,
,,,,,,,,,,,,,,,,,,,
acceleration run,3,level,72.25,overload,139.9,no,44.2,54.5,4000
constant-speed run,4,absent,,level,65.1875,yes,50,50.0,0

closing,,,,,,,,,,,,,,,,,,38,,,2
"""

FROM_HAND = sheets.sheet(
    sheets.vehicle(2, 1, 865, 2049, 450, 5500, 403, 72, 391),
    [sheets.run(ACCELERATION_RUN, 3, sheets.decibels("72.25"), sheets.decibels("139.9"), 442, 545, 4000, right_kind=OVERLOAD),
     sheets.run(CONSTANT_RUN, 4, bytes(4), sheets.decibels("65.1875"), 500, 500, 0, struck=1, left_kind=ABSENT)], 380)

# Tables of a sheet without a run that has one background for both sides: columns of no side, of the left alone, of both.
NO_SIDE = ("kind,category,start line,power [kW],mass in running order [kg],length [cm],rated engine speed [per minute],limit [dB(A)],"
           "number of runs,background before [dB(A)],background after [dB(A)]")
LEFT_SIDE = NO_SIDE.replace("background", "left background")
BOTH_SIDES = f"{LEFT_SIDE},right background before [dB(A)],right background after [dB(A)]"
VEHICLE_CELLS, CLOSING_CELLS = "vehicle,N1,PP',86.5,2049,450,5500,72,,40.3,", "closing,,,,,,,,0,,38"
ONE_BACKGROUND = (
    f"{NO_SIDE}\n{VEHICLE_CELLS}\n{CLOSING_CELLS}",
    f"{LEFT_SIDE}\n{VEHICLE_CELLS}\n{CLOSING_CELLS}",
    f"{BOTH_SIDES}\n{VEHICLE_CELLS}\n{CLOSING_CELLS}",
    f"{BOTH_SIDES}\n{VEHICLE_CELLS},0,\n{CLOSING_CELLS},,0.0",
)
FROM_ONE = sheets.sheet(sheets.vehicle(2, 1, 865, 2049, 450, 5500, 403, 72), [], 380)


def with_limit(sheet, limit, phase, low_car):
    """A sheet with other bytes from 14 to 17."""
    return sheet[:14] + limit.to_bytes(2, "little") + bytes([phase, low_car]) + sheet[18:]


# Tables of the same sheet with columns for phase and low car, and of sheets whose limit is looked up, one of them without these.
CLASS_COLUMNS = f"{NO_SIDE},low car,phase"
LOOKED_UP_CELLS = VEHICLE_CELLS.replace("N1", "M1").replace("72", "0")
FROM_M1 = sheets.sheet(sheets.vehicle(1, 1, 865, 2049, 450, 5500, 403, 72), [], 380)
BY_CLASS = with_limit(FROM_M1, 0, 2, 1)
WITH_CLASS = (
    (f"{CLASS_COLUMNS}\n{VEHICLE_CELLS},no,0\n{CLOSING_CELLS}", FROM_ONE),
    (f"{CLASS_COLUMNS}\n{VEHICLE_CELLS},,\n{CLOSING_CELLS}", FROM_ONE),
    (f"{CLASS_COLUMNS}\n{LOOKED_UP_CELLS},yes,2\n{CLOSING_CELLS}", BY_CLASS),
    (f"{CLASS_COLUMNS}\n{LOOKED_UP_CELLS},no,3\n{CLOSING_CELLS}", with_limit(FROM_M1, 0, 3, 0)),
    (f"{CLASS_COLUMNS}\n{LOOKED_UP_CELLS},7,255\n{CLOSING_CELLS}", with_limit(FROM_M1, 0, 255, 7)),
    (f"{CLASS_COLUMNS}\n{LOOKED_UP_CELLS},,\n{CLOSING_CELLS}", with_limit(FROM_M1, 0, 0, 0)),
    (f"{NO_SIDE}\n{LOOKED_UP_CELLS}\n{CLOSING_CELLS}", with_limit(FROM_M1, 0, 0, 0)),
)

# Backgrounds at the ends of their range and of their bytes, beside these, and with the bytes of the highest swapped.
ENDS = (0, 1, 255, 256, 999, 1000, 1001, 0xE803, 65535)

# Limits likewise, with the bytes of the lowest and the highest swapped, and phase and low car at the ends of what has a limit.
LIMITS = (0, 1, 49, 50, 72, 100, 101, 255, 256, 0x3200, 0x6400, 65535)
PHASES, LOW_CARS = (0, 1, 2, 3, 4, 255), (0, 1, 2, 255)

# What `show` must say of a right background, a limit, phase and low car.
SHOWN = (
    (FROM_HAND, "    right background before   39.1 dB(A)"),
    (FROM_HAND, "    right background after    0.0 dB(A), which means the left's: 38.0 dB(A)"),
    (FROM_ONE, "    right background before   0.0 dB(A), which means the left's: 40.3 dB(A)"),
    (FROM_ONE[:38] + b"\xE9\x03" + FROM_ONE[40:],
     "  FAULT right background after, byte 6 (38 of the sheet): 100.1 dB(A); allowed: 0.0 to 100.0 dB(A)"),
    (FROM_ONE, "    limit                     72 dB(A)"),
    (FROM_ONE, "    phase                     0"),
    (FROM_ONE, "    low car                   no"),
    (BY_CLASS, "    limit                     0 dB(A), which means by class (paragraph 6.2.2)"),
    (BY_CLASS, "    phase                     2"),
    (BY_CLASS, "    low car                   yes"),
    (BY_CLASS, "0 faults of the sheet; records with a fault: none"),
    (with_limit(FROM_ONE, 0, 2, 1), "    limit                     0 dB(A), which means by class (paragraph 6.2.2), for M1 alone"),
    (with_limit(FROM_ONE, 0, 2, 1), "0 faults of the sheet; records with a fault: none"),
    (with_limit(FROM_M1, 0, 4, 2), "    phase                     4, for which there is no limit"),
    (with_limit(FROM_M1, 0, 4, 2), "    low car                   2, for which there is no limit"),
    (with_limit(FROM_M1, 0, 4, 2), "0 faults of the sheet; records with a fault: none"),
    (with_limit(FROM_M1, 0, 0, 0), "    phase                     0, for which there is no limit"),
    (with_limit(FROM_M1, 72, 1, 0), "  FAULT phase, byte 16 (16 of the sheet): 1; allowed: 0, since the limit is not 0"),
    (with_limit(FROM_M1, 72, 0, 1), "  FAULT low car, byte 17 (17 of the sheet): yes; allowed: 0, since the limit is not 0"),
    (with_limit(FROM_M1, 49, 0, 0), "  FAULT limit, byte 14 (14 of the sheet): 49 dB(A); allowed: 0 (by class) or 50 to 100 dB(A)"),
    (with_limit(FROM_M1, 256, 0, 0), "  FAULT limit, byte 14 (14 of the sheet): 256 dB(A); allowed: 0 (by class) or 50 to 100 dB(A)"),
)

# Floats by their bits, and the cell of each: the shortest decimal, or the bits where no decimal names the float.
LEVEL_CELLS = ((0x42908000, "72.25"), (0x42940000, "74.0"), (0x430BE666, "139.9"), (0x428C4000, "70.125"), (0xC2910000, "-72.5"),
               (0x42908001, "72.25001"), (0x00000000, ""), (0x80000000, "0x80000000"), (0x7FC00000, "0x7FC00000"),
               (0xFF800000, "0xFF800000"), (0x00000001, "0x00000001"))

# Rows under that header, or headers, that cannot be read, and where the message must say the fault is.
VEHICLE_ROW, _, RUN_ROW, ABSENT_ROW, _, CLOSING_ROW = BY_HAND.splitlines()[1:]
UNREADABLE = (
    (f"{HEADER}\n{RUN_ROW.replace('44.2', '44.25')}", "row 2, column 'speed at the start line [km/h]': '44.25' "),
    (f"{HEADER}\n{RUN_ROW.replace('44.2', '6553.6')}", "row 2, column 'speed at the start line [km/h]': '6553.6' "),
    (f"{HEADER}\n\n{RUN_ROW.replace('54.5', 'fast')}", "row 3, column \"speed at BB' [km/h]\": 'fast' "),
    (f"{HEADER}\n{RUN_ROW.replace('54.5', '-54.5')}", "row 2, column \"speed at BB' [km/h]\": '-54.5' "),
    (f"{HEADER}\n{RUN_ROW.replace('72.25', '72;25')}", "row 2, column 'left level [dB(A)]': '72;25' "),
    (f"{HEADER}\n{RUN_ROW.replace('72.25', '1e39')}", "row 2, column 'left level [dB(A)]': '1e39' "),
    (f"{HEADER}\n{RUN_ROW.replace('72.25', '0x42')}", "row 2, column 'left level [dB(A)]': '0x42' "),
    (f"{HEADER}\n{RUN_ROW.replace('run,3', 'run,256')}", "row 2, column 'gear': '256' "),
    (f"{HEADER}\n{RUN_ROW.replace('overload', 'over')}", "row 2, column 'right reading': 'over' "),
    (f"{HEADER}\n{RUN_ROW.replace('acceleration', 'slow')}", "row 2, column 'kind': 'slow run' "),
    (f"{HEADER}\n{VEHICLE_ROW.replace('vehicle,', 'vehicle,3')}", "row 2, column 'gear': '3' "),
    (f"{HEADER}\n{VEHICLE_ROW.replace('39.1', '39.15')}", "row 2, column 'right background before [dB(A)]': '39.15' "),
    (f"{HEADER}\n{CLOSING_ROW.replace(',,2', ',39.1,2')}", "row 2, column 'right background before [dB(A)]': '39.1' "),
    (f"{CLASS_COLUMNS}\n{LOOKED_UP_CELLS},2.5,1", "row 2, column 'low car': '2.5' "),
    (f"{CLASS_COLUMNS}\n{LOOKED_UP_CELLS},no,256", "row 2, column 'phase': '256' "),
    (f"{CLASS_COLUMNS}\n{LOOKED_UP_CELLS},no,two", "row 2, column 'phase': 'two' "),
    (f"{CLASS_COLUMNS}\n{CLOSING_CELLS},,1", "row 2, column 'phase': '1' "),
    (f"{HEADER}\n{VEHICLE_ROW},1", "row 2: "),
    (f"{HEADER},colour\n", "row 1: 'colour' "),
    (f"{HEADER},kind\n", "row 1: 'kind' "),
    (f"{HEADER},background after [dB(A)]\n", "row 1: 'left background after [dB(A)]' is there twice"),
    (f"{HEADER},other bytes\n{VEHICLE_ROW},4=01", "row 2, column 'other bytes': '4=01' "),
    (f"{HEADER},other bytes\n{VEHICLE_ROW},31=0102", "row 2, column 'other bytes': '31=0102' "),
    ("kind,other bytes\n7,5=01 5=01", "row 2, column 'other bytes': '5=01 5=01' "),
    ("kind,other bytes\n7,5:01", "row 2, column 'other bytes': '5:01' "),
    ("kind,other bytes\nleft over,1=01", "row 2, column 'other bytes': "),
    (f"kind,other bytes\nleft over,0={'00' * 32}", "row 2, column 'other bytes': "),
    ("kind,other bytes\nleft over,0=00\n7,", "row 2, column 'kind': "),
    ("kind\nvehicle", "row 2, column 'category' is blank"),
    (f"{HEADER.removesuffix(',number of runs')}\n{CLOSING_ROW.removesuffix(',2')}", "row 2, column 'number of runs' is blank"),
    ("", "no table: "),
)


def blanked(row):
    """A row with each of its cells that may not be blank so in turn, and what must be said of it."""
    cells = row.split(",")
    for at, (column, cell) in enumerate(zip(HEADER.split(","), cells)):
        if cell and "level" not in column and "right background" not in column:
            yield f"{HEADER}\n{','.join([*cells[:at], '', *cells[at + 1:]])}", f"row 2, column {column!r} is blank"


BLANK = [case for row in (VEHICLE_ROW, RUN_ROW, ABSENT_ROW, CLOSING_ROW) for case in blanked(row)]


def refusal_of_form(sheet):
    """The reckoner's refusal with 2 to 5 as number and place; None if it has another answer."""
    try:
        refuse_form(sheet)
        return None
    except Refused as refusal:
        return refusal.number, refusal.place


def shown_refusal(sheet):
    """What the faults that are shown say of it: (5, lowest record), None, or any of 2 to 4 as an empty pair."""
    if list(sheet_faults(sheet)):
        return ()
    return next(((5, at) for at, faults in enumerate(faults_of(sheet)) if faults), None)


def agrees(sheet):
    """Whether the faults agree with the reckoner's refusal, and the sheet comes back from its table."""
    refusal = refusal_of_form(sheet)
    expected = () if refusal and refusal[0] < 5 else refusal
    shown = list(shown_sheet(sheet))
    lowest = next((line for line in shown if "FAULT" in line), None)
    return (shown_refusal(sheet) == expected and (lowest is None) == (refusal is None) and sheet_of(table_of(sheet)) == sheet)


def report(words, wrong, count):
    """Prints how many of a kind are right, and the first that is not; returns whether all are."""
    print(f"{count - len(wrong)} of {count} {words}" + (f"; the first that is not: {wrong[0]!r}" if wrong else ""), flush=True)
    return not wrong


def check_sheets(words, found):
    found = list(found)
    return report(words, [sheet for sheet in found if not agrees(sheet)], len(found))


def random_bytes(random, count):
    for _ in range(count):
        yield bytes(random.below(256) for _ in range(random.below(LONGEST_RANDOM)))


def changed_bytes():
    """Sheets with a written limit and with one that is looked up, each byte of each kind of record at each value."""
    for sheet in (FROM_HAND, BY_CLASS):
        for at in range(len(sheet)):
            for value in range(256):
                yield at, sheet[:at] + bytes([value]) + sheet[at + 1:]


def backgrounds_at_ends():
    """A sheet with each background at each of the ends."""
    for at in (12, 18, len(FROM_HAND) - RECORD_BYTES + 4, len(FROM_HAND) - RECORD_BYTES + 6):
        for value in ENDS:
            sheet = bytearray(FROM_HAND)
            sheets.put(sheet, at, value)
            yield bytes(sheet)


def limits_at_ends():
    """Sheets of both categories with each limit and each class."""
    return (with_limit(sheet, *fields) for sheet in (FROM_M1, FROM_ONE) for fields in product(LIMITS, PHASES, LOW_CARS))


def may_be_named(fault, place):
    """Whether a change of the byte at a place of a record may cause a fault: by its field, its reading, its speeds, its limit."""
    if fault.name == "unnamed bytes":
        return place in map(int, (group.split("=")[0] for group in fault.value.split()))
    field = next(field for fields in FIELDS.values() for field in fields if field.name == fault.name)
    of_others = {"left level": (3,), "right level": (4,), "speed at BB'": (16, 17), "phase": (14, 15), "low car": (14, 15)}
    places = of_others.get(fault.name, ())
    return place in (*range(field.at, field.at + field.size), *places)


def check_names():
    """A fault after the change of one byte must name the field that the byte belongs to."""
    wrong, count = [], 0
    for at, sheet in changed_bytes():
        if at % RECORD_BYTES:
            found = [(n, fault) for n, faults in enumerate(faults_of(sheet)) for fault in faults]
            count += len(found)
            wrong += [(at, fault) for n, fault in found if n != at // RECORD_BYTES or not may_be_named(fault, at % RECORD_BYTES)]
    return report("faults after the change of one byte name its field", wrong, count)


def patterns(random, count):
    """Floats at the ends of every exponent, and as it comes."""
    edges = [sign << 31 | exponent << 23 | fraction for sign in (0, 1) for exponent in range(256)
             for fraction in (0, 1, 0x3FFFFF, 0x400000, 0x7FFFFF)]
    return [bits.to_bytes(4, "little") for bits in edges + [random.below(2 ** 32) for _ in range(count)]]


def level_returns(four):
    cell = level_cell(four)
    return (level_bytes(cell) if cell else bytes(4)) == four


def check_levels(random, count):
    found = patterns(random, count)
    cells = [(f"{bits:08X}", level_cell(bits.to_bytes(4, "little")), cell) for bits, cell in LEVEL_CELLS]
    known = report("floats have the cells that they should", [pair for pair in cells if pair[1] != pair[2]], len(cells))
    return report("floats come back from their cells", [four for four in found if not level_returns(four)], len(found)) and known


def told(table):
    """What is said of a table that cannot be read; blank if it is read."""
    try:
        sheet_of(table)
        return ""
    except Unreadable as why:
        return str(why)


def check_by_hand():
    tables = ((BY_HAND, FROM_HAND), *((table, FROM_ONE) for table in ONE_BACKGROUND), *WITH_CLASS)
    hand = report("tables written by hand give their sheets", [table for table, sheet in tables if sheet_of(table) != sheet], len(tables))
    unreadable = (*UNREADABLE, *BLANK)
    wrong = [(table, told(table)) for table, words in unreadable if not told(table).startswith(words)]
    return report("tables that cannot be read are told with row and column", wrong, len(unreadable)) and hand


def check_shown():
    wrong = [line for sheet, line in SHOWN if line not in shown_sheet(sheet)]
    return report("lines on right backgrounds, limits and classes are shown", wrong, len(SHOWN))


def tool(arguments, content):
    """Runs the tool on standard input: its output and its status."""
    found = subprocess.run([sys.executable, TOOL, *arguments, "-"], input=content, capture_output=True)
    return found.stdout, found.returncode


def check_commands():
    """The commands themselves: a damaged sheet to a table and back, and nothing written for an unreadable table."""
    damaged = FROM_HAND[:40] + b"\xFF\xC0\x7F" + FROM_HAND[43:] + b"left over"
    table, status = tool(["show", "--csv"], damaged)
    answers = (
        ("show", tool(["show"], damaged), ("".join(line + "\n" for line in shown_sheet(damaged)).encode(), 0)),
        ("show --csv", (table, status), (table_of(damaged).encode(), 0)),
        ("make", tool(["make"], table), (damaged, 0)),
        ("make, from a spreadsheet", tool(["make"], b"\xEF\xBB\xBF" + table.replace(b"\n", b"\r\n")), (damaged, 0)),
        ("make, unreadable", tool(["make"], UNREADABLE[0][0].encode()), (b"", 1)),
        ("make, a blank cell", tool(["make"], BY_HAND.replace("54.5,4000", "54.5,").encode()), (b"", 1)),
        ("make, no text", tool(["make"], bytes(range(256))), (b"", 1)),
    )
    wrong = [name for name, found, expected in answers if found != expected]
    return report("commands answer as they should", wrong, len(answers))


def main(count=5000, seed=1):
    random, stored = Random(seed), all_sheets()
    return all([
        check_sheets("sheets of the corpus agree", stored),
        check_sheets("damaged sheets agree", damaged_sheets(random, stored, count)),
        check_sheets("random byte strings agree", random_bytes(random, count // 10)),
        check_sheets("sheets with one byte changed agree", (sheet for _, sheet in changed_bytes())),
        check_sheets("sheets with a background at an end agree", backgrounds_at_ends()),
        check_sheets("sheets with a limit and a class at an end agree", limits_at_ends()),
        check_names(),
        check_levels(random, count),
        check_by_hand(),
        check_shown(),
        check_commands(),
    ])


if __name__ == "__main__":
    sys.exit(0 if main(*[int(argument) for argument in sys.argv[1:]]) else 1)
