#!/usr/bin/env python3
"""A sheet shown field by field, and as a table that can be edited. It gives no verdict and reckons no level, window or gear.

    python3 tools/sheet.py show SHEET             every record and field, and each fault of layout
    python3 tools/sheet.py show --csv SHEET       the records as a table
    python3 tools/sheet.py make TABLE > SHEET     the sheet of a table, byte for byte; nothing if a cell cannot be read

A dash stands for standard input. The table has a row for each record and a column for each field, in any order. A blank
level is four zero bytes, as an absent reading has. A blank right background is zero, which means the left's of the same
record, and a blank phase or low car is zero, as beside a written limit; their columns may be missing. Every other field of
the row's kind needs its cell. The cells:

    words          kind, category, start line, low car, struck and readings, as `show` prints them; a byte with no word is its
                   number
    numbers        in the column's unit, with a decimal point: 44.2; a limit of 0 is looked up by PMR, phase and low car, which
                   is `yes` for the class of low cars with at most four seats
    levels         decimals, for which the nearest 32-bit float is taken: 72.25; or the float's bits: 0x7FC00000
    other bytes    the bytes that have no column, by their place in the record: 5=01 22=FF00

The column "record" is for the reader only. A column "background before [dB(A)]" or "background after [dB(A)]" is read as
the left's. A row of the kind `left over` has the bytes after the last whole record.
"""

import csv
import io
import re
import signal
import sys
from dataclasses import dataclass
from fractions import Fraction
from functools import lru_cache, partial
from typing import NamedTuple

from reckon import (ABSENT, ACCELERATION_RUN, CLOSING, CLOSING_NUMBERS, CONSTANT_RUN, HIGHEST_LEVEL, LEVEL,
                    LOWEST_LEVEL, M1, MOST_SHEET_BYTES, N1, OVERLOAD, RECORD_BYTES, RUN_NUMBERS, VEHICLE, VEHICLE_NUMBERS,
                    WRITTEN_LIMIT, float_value, number, reading_layout, records_of)
from sheets import float_bytes

LOWEST_NORMAL, HIGHEST_FINITE = Fraction(1, 2 ** 126), 2 ** 128 - 2 ** 104  # of 32-bit floats
MOST_DIGITS = 9  # that a decimal needs to tell a 32-bit float from all others

DECIMAL = re.compile(r"-?[0-9]{1,50}(\.[0-9]{0,150})?([eE][-+]?[0-9]{1,2})?")
PATTERN = re.compile(r"0x[0-9A-Fa-f]{8}")
GROUP = re.compile(r"([0-9]{1,2})=((?:[0-9A-Fa-f]{2})+)")


class Unreadable(Exception):
    """Why a cell or a table cannot be read."""


class Fault(NamedTuple):
    """A field that breaks the layout."""

    name: str
    at: int
    value: str
    allowed: str


def decimal_of(cell):
    if not DECIMAL.fullmatch(cell):
        raise Unreadable("is no decimal number")
    return Fraction(cell)


# The fields. Each turns its bytes into a cell and back, and says what documents 01 and 02 allow in its place.

@dataclass
class Field:
    name: str
    at: int
    unit: str = ""
    size: int = 1

    def column(self):
        return f"{self.name} [{self.unit}]" if self.unit else self.name

    def part(self, record):
        return bytes(record[self.at:self.at + self.size])

    def with_unit(self, text):
        return f"{text} {self.unit}".rstrip()

    def shown(self, record):
        return self.with_unit(self.cell(self.part(record)))

    def faults(self, record):
        if not self.is_allowed(record):
            yield Fault(self.name, self.at, self.shown(record), self.allowed(record))


@dataclass
class Number(Field):
    """A number with a range, low byte first; with one decimal it counts tenths of its unit."""

    size: int = 2
    decimals: int = 0
    lowest: int = 0
    highest: int = 65535

    def text(self, value):
        return f"{value // 10}.{value % 10}" if self.decimals else str(value)

    def cell(self, part):
        return self.text(int.from_bytes(part, "little"))

    def bytes_of(self, cell):
        value, most = decimal_of(cell) * 10 ** self.decimals, 256 ** self.size - 1
        if value.denominator != 1 or not 0 <= value <= most:
            raise Unreadable(f"is no number from {self.text(0)} to {self.text(most)}, in steps of {self.text(1)}")
        return int(value).to_bytes(self.size, "little")

    def is_allowed(self, record):
        return self.lowest <= int.from_bytes(self.part(record), "little") <= self.highest

    def allowed(self, record):
        return self.with_unit(f"{self.text(self.lowest)} to {self.text(self.highest)}")


@dataclass
class RightBackground(Number):
    """Zero means the left's of the same record; its cell is blank, since nobody measured 0.0 dB(A)."""

    left: Number = None

    def cell(self, part):
        return super().cell(part) if any(part) else ""

    def shown(self, record):
        if any(self.part(record)):
            return super().shown(record)
        return f"{self.with_unit(self.text(0))}, which means the left's: {self.left.shown(record)}"


@dataclass
class Choice(Field):
    """A byte that has a word for each number that is allowed."""

    words: tuple = ()

    def cell(self, part):
        return dict(self.words).get(part[0], str(part[0]))

    def bytes_of(self, cell):
        known = {word: value for value, word in self.words}
        if cell in known:
            return bytes([known[cell]])
        if not re.fullmatch("[0-9]{1,3}", cell) or int(cell) > 255:
            raise Unreadable(f"is none of {', '.join(known)}, and no number from 0 to 255")
        return bytes([int(cell)])

    def is_allowed(self, record):
        return record[self.at] in dict(self.words)

    def allowed(self, record):
        return " or ".join(f"{value} ({word})" for value, word in self.words)


@dataclass
class Limit(Number):
    """Zero means the limit that paragraph 6.2.2 has for the class of an M1."""

    def is_looked_up(self, record):
        return not any(self.part(record))

    def shown(self, record):
        if not self.is_looked_up(record):
            return super().shown(record)
        by_class = f"{super().shown(record)}, which means by class (paragraph 6.2.2)"
        return f"{by_class}, for M1 alone" if record[CATEGORY.at] == N1 else by_class

    def is_allowed(self, record):
        return self.is_looked_up(record) or super().is_allowed(record)

    def allowed(self, record):
        return f"0 (by class) or {super().allowed(record)}"


@dataclass
class LookUpByte(Choice):
    """A byte by which the limit is looked up. Its words are what the table of limits has; the layout allows any byte, but only
    zero if the limit is not looked up."""

    limit: Limit = None

    def shown(self, record):
        has_no_limit = self.limit.is_looked_up(record) and not super().is_allowed(record)
        return f"{super().shown(record)}, for which there is no limit" if has_no_limit else super().shown(record)

    def is_allowed(self, record):
        return self.limit.is_looked_up(record) or record[self.at] == 0

    def allowed(self, record):
        return "0, since the limit is not 0"


@dataclass
class Level(Field):
    """A 32-bit float. What is allowed depends on the kind of its reading."""

    unit: str = "dB(A)"
    size: int = 4
    reading: int = 0

    def cell(self, part):
        return level_cell(part)

    def shown(self, record):
        cell = self.cell(self.part(record))
        return self.with_unit(cell) if DECIMAL.fullmatch(cell) else f"bits {cell}" if cell else "four zero bytes"

    def bytes_of(self, cell):
        return level_bytes(cell)

    def is_allowed(self, record):
        kind = record[self.reading]
        return kind not in dict(READINGS) or reading_layout(kind, self.part(record))  # a kind with no word is its own fault

    def allowed(self, record):
        if record[self.reading] == ABSENT:
            return "four zero bytes, since the reading is absent"
        return self.with_unit(f"a finite level from {float(LOWEST_LEVEL)} to {float(HIGHEST_LEVEL)}")


def level_bytes(cell):
    """The float nearest to a decimal, or with the bits that are given."""
    if PATTERN.fullmatch(cell):
        return int(cell, 16).to_bytes(4, "little")
    value = decimal_of(cell)
    if value == 0:
        return bytes(4)
    if not LOWEST_NORMAL <= abs(value) <= HIGHEST_FINITE:
        raise Unreadable("is out of the range of 32-bit floats")
    four = float_bytes(abs(value))
    return four[:3] + bytes([four[3] | (0x80 if value < 0 else 0)])


@lru_cache(maxsize=None)
def level_cell(four):
    """The shortest decimal that gives the same float; blank for zero bytes, and the float's bits if no decimal does."""
    value = float_value(four)
    if four == bytes(4):
        return ""
    for digits in range(1, MOST_DIGITS + 1) if value is not None else ():
        decimal = f"{float(value):.{digits}g}"
        if gives(decimal, four):
            return decimal if re.search("[.e]", decimal) else f"{decimal}.0"
    return f"0x{int.from_bytes(four, 'little'):08X}"


def gives(cell, four):
    try:
        return level_bytes(cell) == four
    except Unreadable:
        return False


def ranged(ranges, name, at, unit, decimals=0, field=Number):
    """A 16-bit number whose range the reckoner has."""
    lowest, highest = next(bounds for place, *bounds in ranges if place == at)
    return field(name, at, unit, decimals=decimals, lowest=lowest, highest=highest)


def backgrounds(ranges, when, left_at, right_at):
    """The backgrounds of a record, left and right."""
    left = ranged(ranges, f"left background {when}", left_at, "dB(A)", decimals=1)
    of_left = partial(RightBackground, left=left)
    return left, ranged(ranges, f"right background {when}", right_at, "dB(A)", decimals=1, field=of_left)


READINGS = ((LEVEL, "level"), (OVERLOAD, "overload"), (ABSENT, "absent"))

CATEGORY = Choice("category", 1, words=((M1, "M1"), (N1, "N1")))
LIMIT = ranged((WRITTEN_LIMIT,), "limit", 14, "dB(A)", field=Limit)
VEHICLE_FIELDS = (
    CATEGORY,
    Choice("start line", 2, words=((0, "AA'"), (1, "PP'"))),
    ranged(VEHICLE_NUMBERS, "power", 4, "kW", decimals=1),
    ranged(VEHICLE_NUMBERS, "mass in running order", 6, "kg"),
    ranged(VEHICLE_NUMBERS, "length", 8, "cm"),
    ranged(VEHICLE_NUMBERS, "rated engine speed", 10, "per minute"),
    *backgrounds(VEHICLE_NUMBERS, "before", 12, 18),
    LIMIT,
    LookUpByte("phase", 16, words=((1, "1"), (2, "2"), (3, "3")), limit=LIMIT),
    LookUpByte("low car", 17, words=((0, "no"), (1, "yes")), limit=LIMIT),
)
START_SPEED = ranged(RUN_NUMBERS, "speed at the start line", 16, "km/h", decimals=1)
END_SPEED = ranged(RUN_NUMBERS, "speed at BB'", 18, "km/h", decimals=1)
RUN_FIELDS = (
    Number("gear", 1, size=1, lowest=1, highest=16),
    Choice("struck", 2, words=((0, "no"), (1, "yes"))),
    Choice("left reading", 3, words=READINGS),
    Choice("right reading", 4, words=READINGS),
    Level("left level", 8, reading=3),
    Level("right level", 12, reading=4),
    START_SPEED,
    END_SPEED,
    ranged(RUN_NUMBERS, "highest engine speed", 20, "per minute"),
)
RUNS = Number("number of runs", 2)
CLOSING_FIELDS = (RUNS, *backgrounds(CLOSING_NUMBERS, "after", 4, 6))

RUN_KINDS = ((ACCELERATION_RUN, "acceleration run"), (CONSTANT_RUN, "constant-speed run"))
RUN_KIND = Choice("kind", 0, words=RUN_KINDS)
KIND = Choice("kind", 0, words=((VEHICLE, "vehicle"), *RUN_KINDS, (CLOSING, "closing")))
FIELDS = {VEHICLE: VEHICLE_FIELDS, ACCELERATION_RUN: RUN_FIELDS, CONSTANT_RUN: RUN_FIELDS, CLOSING: CLOSING_FIELDS}


def fields_of(kind):
    """The fields of a record by its byte 0; none if that is no kind."""
    return FIELDS.get(kind, ())


@lru_cache(maxsize=None)
def unnamed(kind):
    """The places of a record that no field has."""
    named = {0}.union(*(range(field.at, field.at + field.size) for field in fields_of(kind)))
    return [at for at in range(RECORD_BYTES) if at not in named]


# Bytes that have no field, as text.

def groups_text(record, places):
    """The bytes at these places that are not zero; neighbours stand together."""
    found = [at for at in places if record[at] != 0]
    starts = [at for at in found if at - 1 not in found]
    ends = [at + 1 for at in found if at + 1 not in found]
    return " ".join(f"{start}={record[start:end].hex().upper()}" for start, end in zip(starts, ends))


def groups_of(cell):
    """Each group as its place and its bytes."""
    for word in cell.split():
        group = GROUP.fullmatch(word)
        if not group:
            raise Unreadable("is no list of places and bytes such as 5=01 22=FF00")
        yield int(group[1]), bytes.fromhex(group[2])


def put_groups(record, cell, places):
    """Puts groups into a record, each byte at one of these places."""
    free = set(places)
    for start, content in groups_of(cell):
        for at, byte in enumerate(content, start):
            if at not in free:
                raise Unreadable(f"names byte {at}, which another cell or group has or the record has not")
            free.remove(at)
            record[at] = byte


# Faults.

def falling_speed(record):
    if record[0] == ACCELERATION_RUN and number(record, END_SPEED.at) < number(record, START_SPEED.at):
        yield Fault(END_SPEED.name, END_SPEED.at, END_SPEED.shown(record),
                    f"in an acceleration run at least {START_SPEED.shown(record)}, as at the start line")


def unnamed_bytes(record):
    places = unnamed(record[0])
    if record[0] in FIELDS and any(record[at] for at in places):
        found = groups_text(record, places)
        yield Fault("unnamed bytes", int(found.split("=")[0]), found, "zero")


def record_faults(record, is_between):
    """The faults of a record, by the kind that it says it is. Between the first and the last record, each is a run."""
    fields = (*([RUN_KIND] if is_between else []), *fields_of(record[0]))
    found = [fault for field in fields for fault in field.faults(record)]
    return [*found, *falling_speed(record), *unnamed_bytes(record)]


def sheet_faults(sheet):
    """The faults that are no record's: document 01's refusals 2 to 4."""
    records = records_of(sheet)
    if not sheet:
        yield "it is empty"
    if len(sheet) > MOST_SHEET_BYTES:
        yield f"it has {len(sheet)} bytes; allowed: at most {MOST_SHEET_BYTES}"
    if len(sheet) % RECORD_BYTES:
        yield f"it has {len(sheet) % RECORD_BYTES} bytes after its last whole record; allowed: whole records only"
    if records and records[0][0] != VEHICLE:
        yield f"its first record is no vehicle: byte 0 is {records[0][0]}; allowed: {VEHICLE}"
    if records and records[-1][0] != CLOSING:
        yield f"its last record is no closing: byte 0 is {records[-1][0]}; allowed: {CLOSING}"
    elif len(records) > 1 and number(records[-1], RUNS.at) != len(records) - 2:
        yield f"its closing counts {RUNS.shown(records[-1])} runs; allowed: all records less two, {len(records) - 2}"


def faults_of(sheet):
    """The faults of each whole record."""
    records = records_of(sheet)
    return [record_faults(record, 0 < at < len(records) - 1) for at, record in enumerate(records)]


# Show.

def left_over(sheet):
    """The bytes after the last whole record."""
    return sheet[len(sheet) - len(sheet) % RECORD_BYTES:]


def shown_fields(record):
    """Each field with its value; of a record that is of no kind, the bytes."""
    if record[0] not in FIELDS:
        return [("bytes 1 to 31", record[1:].hex(" "))]
    return [(field.name, field.shown(record)) for field in fields_of(record[0])]


def shown_record(at, record, faults):
    first = at * RECORD_BYTES
    kind = KIND.cell(record[:1])
    yield f"record {at}, bytes {first} to {first + RECORD_BYTES - 1}: {kind if record[0] in FIELDS else f'kind {kind}, which is none'}"
    for name, value in shown_fields(record):
        yield f"    {name:<26}{value}"
    for fault in faults:
        yield f"  FAULT {fault.name}, byte {fault.at} ({first + fault.at} of the sheet): {fault.value}; allowed: {fault.allowed}"


def shown_sheet(sheet):
    """The lines of a sheet."""
    records, of_sheet, of_records = records_of(sheet), list(sheet_faults(sheet)), faults_of(sheet)
    yield f"{len(sheet)} bytes, {len(records)} whole records"
    for fault in of_sheet:
        yield f"  FAULT of the sheet: {fault}"
    for at, (record, faults) in enumerate(zip(records, of_records)):
        yield from shown_record(at, record, faults)
    if left_over(sheet):
        yield f"left over, from byte {len(records) * RECORD_BYTES}: {left_over(sheet).hex(' ')}"
    faulty = [str(at) for at, faults in enumerate(of_records) if faults]
    yield f"{len(of_sheet)} faults of the sheet; records with a fault: {', '.join(faulty) or 'none'}"


# The table.

RECORD, OTHER_BYTES, LEFT_OVER = "record", "other bytes", "left over"
COLUMNS = (RECORD, KIND.name, *(field.column() for field in (*VEHICLE_FIELDS, *RUN_FIELDS, *CLOSING_FIELDS)), OTHER_BYTES)
WITHOUT_SIDE = {f"background {when} [dB(A)]": f"left background {when} [dB(A)]" for when in ("before", "after")}


def row_of(at, record):
    cells = {field.column(): field.cell(field.part(record)) for field in (KIND, *fields_of(record[0]))}
    return {RECORD: at, **cells, OTHER_BYTES: groups_text(record, unnamed(record[0]))}


def table_of(sheet):
    """The text of a sheet's table."""
    text = io.StringIO()
    table = csv.DictWriter(text, COLUMNS, restval="", lineterminator="\n")
    table.writeheader()
    table.writerows(row_of(at, record) for at, record in enumerate(records_of(sheet)))
    if left_over(sheet):
        table.writerow({KIND.name: LEFT_OVER, OTHER_BYTES: f"0={left_over(sheet).hex().upper()}"})
    return text.getvalue()


def check_header(header):
    for column in header:
        if column not in COLUMNS or header.count(column) > 1:
            raise Unreadable(f"row 1: {column!r} is {'there twice' if column in COLUMNS else 'no column'}; "
                             f"the columns are {', '.join(COLUMNS)}")


def rows_of(text):
    """Each row that is not blank: its number in the table, which counts the header, and its cells by column."""
    try:
        rows = [[cell.strip() for cell in row] for row in csv.reader(io.StringIO(text, newline=""))]
    except csv.Error as error:
        raise Unreadable(f"no table: {error}") from error
    if not rows:
        raise Unreadable("no table: it is empty")
    header = [WITHOUT_SIDE.get(column, column) for column in rows[0]]
    check_header(header)
    for at, row in enumerate(rows[1:], start=2):
        if any(row[len(header):]):
            raise Unreadable(f"row {at}: there are more cells than columns")
        if any(row):
            yield at, {column: cell for column, cell in zip(header, row) if cell}


def read_cell(cells, column, read):
    """What is read from a cell that is not blank; None from a blank one."""
    try:
        return read(cells[column]) if column in cells else None
    except Unreadable as why:
        raise Unreadable(f"column {column!r}: {cells[column]!r} {why}") from why


def refuse_others(cells, columns):
    """No cell may stand where the row's kind has no field."""
    for column in cells:
        if column not in (RECORD, KIND.name, OTHER_BYTES, *columns):
            raise Unreadable(f"column {column!r}: {cells[column]!r} stands where {cells[KIND.name]!r} has no field")


def left_over_of(cells):
    """The bytes of a row `left over`."""
    refuse_others(cells, ())
    groups = read_cell(cells, OTHER_BYTES, lambda cell: list(groups_of(cell))) or []
    if len(groups) != 1 or groups[0][0] != 0 or len(groups[0][1]) >= RECORD_BYTES:
        raise Unreadable(f"column {OTHER_BYTES!r}: a row {LEFT_OVER!r} has one group, from 0, of 1 to {RECORD_BYTES - 1} bytes")
    return groups[0][1]


def field_bytes(cells, field):
    """The bytes of a field. A level, a right background, phase or low car alone may be blank."""
    part = read_cell(cells, field.column(), field.bytes_of)
    if part is None and not isinstance(field, (Level, RightBackground, LookUpByte)):
        raise Unreadable(f"column {field.column()!r} is blank")
    return part or bytes(field.size)


def record_of(cells):
    """The record of a row."""
    if KIND.name not in cells:
        raise Unreadable(f"column {KIND.name!r} is blank")
    if cells[KIND.name] == LEFT_OVER:
        return left_over_of(cells)
    record = bytearray(RECORD_BYTES)
    record[0:1] = read_cell(cells, KIND.name, KIND.bytes_of)
    fields = fields_of(record[0])
    refuse_others(cells, [field.column() for field in fields])
    for field in fields:
        record[field.at:field.at + field.size] = field_bytes(cells, field)
    read_cell(cells, OTHER_BYTES, lambda cell: put_groups(record, cell, unnamed(record[0])))
    return bytes(record)


def sheet_of(text):
    """The sheet of a table; Unreadable names every row that cannot be read."""
    rows = list(rows_of(text))
    records, unreadable = [], []
    for at, cells in rows:
        try:
            records.append(record_of(cells))
        except Unreadable as why:
            unreadable.append(f"row {at}, {why}")
    kinds = [cells.get(KIND.name) for _, cells in rows]
    if LEFT_OVER in kinds[:-1]:
        unreadable.append(f"row {rows[kinds.index(LEFT_OVER)][0]}, column {KIND.name!r}: {LEFT_OVER!r} stands in the last row only")
    if unreadable:
        raise Unreadable("\n".join(unreadable))
    return b"".join(records)


def content_of(path):
    if path == "-":
        return sys.stdin.buffer.read()
    with open(path, "rb") as file:
        return file.read()


def main(arguments):
    signal.signal(signal.SIGPIPE, signal.SIG_DFL)  # `show SHEET | head` ends quietly
    try:
        if len(arguments) == 2 and arguments[0] == "show":
            print("\n".join(shown_sheet(content_of(arguments[1]))))
        elif len(arguments) == 3 and arguments[:2] == ["show", "--csv"]:
            print(table_of(content_of(arguments[2])), end="")
        elif len(arguments) == 2 and arguments[0] == "make":
            table = content_of(arguments[1]).decode("utf-8-sig", errors="backslashreplace")
            sys.stdout.buffer.write(sheet_of(table))
        else:
            sys.exit(__doc__)
    except (OSError, Unreadable) as why:
        sys.exit(str(why))


if __name__ == "__main__":
    main(sys.argv[1:])
