"""Other readings of document 02's wish 8: a background for each side."""

import reckon
from misread import PAPER, by_edit, edited, for_kind, reading, simple
from reckon import (ACCELERATION_RUN, CLOSING_NUMBERS, CLOSING_UNNAMED, CONSTANT_RUN, LOOK_UP_BYTES, VEHICLE_NUMBERS, VEHICLE_UNNAMED,
                    Sides, number)

# The larger of before and after, on each side and on both.

SIDES = ("left", "right")


def of_both(words, side_words):
    """A reading of the two backgrounds of one side, for each side and for both."""
    parts = {side: (f"max(before.{side}, after.{side})", side_words.replace("SIDE", side)) for side in SIDES}
    yield from ((f"{words}, {side} only", "read_vehicle", *parts[side]) for side in SIDES)
    yield words, "read_vehicle", *parts["left"], *parts["right"]


LARGER = by_edit(
    *of_both("background before only", "before.SIDE"), *of_both("background after only", "after.SIDE"),
    *of_both("the smaller background", "min(before.SIDE, after.SIDE)"),
    *of_both("the mean background", "rounded(Fraction(before.SIDE + after.SIDE, 2))"),
    *of_both("the background after, unless it is zero", "after.SIDE or before.SIDE"),
    *of_both("the background before, unless it is zero", "before.SIDE or after.SIDE"),
    *of_both("the smaller background above zero", "min(filter(None, (before.SIDE, after.SIDE)), default=0)"),
    *of_both("backgrounds in whole dB", "max(before.SIDE, after.SIDE) // 10 * 10"),
    *of_both("backgrounds to the nearest whole dB", "10 * rounded(Fraction(max(before.SIDE, after.SIDE), 10))"),
)


# What the fields of a record come to, by the left's and the right's.

RECORD = "Sides(left, left if right == 0 else right)"

READ = by_edit(*((words, "read_background", RECORD, new) for words, new in (
    ("sides exchanged, zero on the left means the right's", "Sides(right, left or right)"),
    ("the old fields are the right's", "Sides(left if right == 0 else right, left)"),
    ("zero on the right is 0.0", "Sides(left, right)"),
    ("zero on the left means the right's too", "Sides(left or right, right or left)"),
    ("zero on the left means the right's, and on the right 0.0", "Sides(left or right, right)"),
    ("0.1 on the right means the left's too", "Sides(left, left if right <= 1 else right)"),
    ("0.1 on the right alone means the left's", "Sides(left, left if right == 1 else right)"),
    ("below 1.0 on the right it is the left's", "Sides(left, left if right < 10 else right)"),
    ("zero on the right is the lowest number, 0.1", "Sides(left, max(right, 1))"),
    ("the right is not read", "Sides(left, left)"),
    ("the right's is both sides'", "Sides(right or left, right or left)"),
    ("the right's is at least the left's", "Sides(left, max(left, right))"),
    ("the right's is at most the left's", "Sides(left, min(left, right) if right else left)"),
    ("the left's is at least the right's", "Sides(max(left, right), left if right == 0 else right)"),
    ("the larger in the record is both sides'", "Sides(max(left, right), max(left, right))"),
    ("the smaller in the record is both sides'", "Sides(*[min(left, right or left)] * 2)"),
    ("the mean in the record is both sides'", "Sides(*[rounded(Fraction(left + (right or left), 2))] * 2)"),
    ("the right's is added to the left's", "Sides(left, left + right)"),
    ("the right's is whole decibels", "Sides(left, left if right == 0 else right // 10 * 10)"),
)))


def with_records(of):
    """`read_vehicle` with both sides' backgrounds from the four fields: before and after on the left, and on the right."""
    def read_vehicle(first, last):
        vehicle = PAPER["read_vehicle"](first, last)
        return vehicle._replace(background=Sides(*of(number(first, 12), number(last, 4), number(first, 18), number(last, 6))))
    return read_vehicle


ACROSS = simple(*((words, "read_vehicle", with_records(of)) for words, of in (
    ("zero on the right is decided after the larger", lambda *of: (max(of[:2]), max(of[2:]) or max(of[:2]))),
    ("zero on the right means the left's larger",
     lambda lb, la, rb, ra: (max(lb, la), max(rb or max(lb, la), ra or max(lb, la)))),
    ("zero on the right means the left in the other record", lambda lb, la, rb, ra: (max(lb, la), max(rb or la, ra or lb))),
    ("zero on the right before means the left's, after 0.0", lambda lb, la, rb, ra: (max(lb, la), max(rb or lb, ra))),
    ("zero on the right after means the left's, before 0.0", lambda lb, la, rb, ra: (max(lb, la), max(rb, ra or la))),
    ("zero on the right in one record is the left's in both",
     lambda lb, la, rb, ra: (max(lb, la), max(rb, ra) if rb and ra else max(lb, la))),
    ("zero on the right after is the left's in both", lambda lb, la, rb, ra: (max(lb, la), max(rb or lb, ra) if ra else max(lb, la))),
    ("zero on the right before is the left's in both", lambda lb, la, rb, ra: (max(lb, la), max(rb, ra or la) if rb else max(lb, la))),
    ("the right's before is not read", lambda lb, la, rb, ra: (max(lb, la), max(lb, ra or la))),
    ("the right's after is not read", lambda lb, la, rb, ra: (max(lb, la), max(rb or lb, la))),
    ("the right's before stands for after too", lambda lb, la, rb, ra: (max(lb, la), rb or max(lb, ra or la))),
    ("the right's before and after exchanged", lambda lb, la, rb, ra: (max(lb, la), max(ra or lb, rb or la))),
    ("the largest of the four is both sides'", lambda *of: (max(of), max(of))),
    ("the right's is the largest of the four", lambda *of: (max(of[:2]), max(of))),
    ("the left's is the largest of the four", lambda lb, la, rb, ra: (max(lb, la, rb, ra), max(rb or lb, ra or la))),
    ("before is the left's and after the right's", lambda lb, la, rb, ra: (max(lb, rb), max(la, ra))),
)))


# Which background validity asks, and which the correction.

OWN = {side: f"corrected(run.{side}.value, vehicle.background.{side})" for side in SIDES}
OTHERS = (("other side's", "vehicle.background.{other}"), ("larger", "max(vehicle.background)"), ("smaller", "min(vehicle.background)"))


def asked(side, validity, correction):
    """The corrected level of a side, with one background for validity and one for the correction."""
    tenths = f"level_tenths(run.{side}.value)"
    return (f"(None if {tenths} - {validity} < LOWEST_DIFFERENCE else {tenths} - correction({tenths} - {correction}))")


def by_background():
    """Each side by another background than its own: its validity, its correction, or both."""
    for (name, text), side in ((pair, side) for pair in OTHERS for side in SIDES):
        own, other = f"vehicle.background.{side}", text.format(other=SIDES[1 - SIDES.index(side)])
        yield f"the {side}'s validity by the {name}", "valid_run", OWN[side], asked(side, other, own)
        yield f"the {side}'s correction by the {name}", "valid_run", OWN[side], asked(side, own, other)
        yield f"the {side} by the {name}", "valid_run", OWN[side], asked(side, other, other)
    for name, text in OTHERS[1:]:
        for words, parts in (("validity", (text, None)), ("correction", (None, text)), ("sides", (text, text))):
            changes = [part for side in SIDES
                       for part in (OWN[side], asked(side, *(one or f"vehicle.background.{side}" for one in parts)))]
            yield f"both {words} by the {name}", "valid_run", *changes


BY_SIDE = by_edit(*by_background())


# The layout of the right's fields.

def with_range(highest):
    """The fields of the right with another highest number, before, after and in both."""
    before = {"VEHICLE_NUMBERS": (*VEHICLE_NUMBERS[:-1], (18, 0, highest))}
    after = {"CLOSING_NUMBERS": (*CLOSING_NUMBERS[:-1], (6, 0, highest))}
    return (("before", before), ("after", after), ("before and after", {**before, **after}))


RANGES = [(f"{words}, {which}", changes) for words, highest in (
    ("the right's is not asked", 65535), ("the right's up to 99.9", 999), ("the right's up to 100.1", 1001),
    ("the right's up to 100.9", 1009), ("the right's up to 140.0", 1400), ("the right's up to ten bits", 1023),
    ("the right's up to 10,000", 10000), ("the right's up to 25.5", 255)) for which, changes in with_range(highest)]


def clamped(record, at):
    """A number of the right above 1,000 taken as 1,000."""
    is_right = (record[0], at) in ((reckon.VEHICLE, 18), (reckon.CLOSING, 6))
    return min(number(record, at), 1000) if is_right else number(record, at)


def as_the_left(record, at):
    """A number of the right above 1,000 taken as none."""
    return number(record, at) if clamped(record, at) == number(record, at) else 0


def without_right(change):
    """An evaluation without the right's ranges, and what is made of its answer and of the records with a fault there."""
    def evaluate(sheet):
        with reading({"VEHICLE_NUMBERS": VEHICLE_NUMBERS[:-1], "CLOSING_NUMBERS": CLOSING_NUMBERS[:-1]}):
            answer = PAPER["evaluate"](sheet)
        records = reckon.records_of(sheet)
        places = ((0, 18), (len(records) - 1, 6))
        faults = [record for record, at in places if records and number(records[record], at) > 1000]
        return change(answer, faults)
    return {"evaluate": evaluate}


def asked_late(causes):
    """The right's range asked only of a sheet without some causes of refusal."""
    return without_right(lambda answer, faults: ("REFUSED", 5, faults[0]) if faults and (answer[0] == "OK" or answer[1] not in causes)
                         else answer)


def named_as(place):
    """Another place where nothing but the right's range is broken."""
    def change(answer, faults):
        is_form = answer[0] == "REFUSED" and answer[1] < 6 and not (answer[1] == 5 and faults and faults[0] < answer[2])
        return answer if is_form or not faults else ("REFUSED", 5, place(faults))
    return without_right(change)


LAYOUTS = [
    ("a number of the right above 1,000 is 1,000", {"number": clamped}),
    ("a number of the right above 1,000 is none", {"number": as_the_left}),
    *((f"the right's range is asked after refusal {last}", asked_late(range(2, last + 1))) for last in range(5, 11)),
    ("the right's range is asked before refusal 5", asked_late((2, 3, 4))),
    ("the right's fault has the place 0", named_as(lambda faults: 0)),
    ("the right's fault has the higher place", named_as(lambda faults: faults[-1])),
    ("the right's fault has the place 1 more", named_as(lambda faults: faults[0] + 1)),
]


# The bytes of the right's fields, and those around them.

def with_places(vehicle_at, closing_at, vehicle_named, closing_named):
    """The right's fields at other places, and the bytes that are named for them."""
    text = edited("read_vehicle", "read_background(first, 12, 18)", f"read_background(first, 12, {vehicle_at})",
                  "read_background(last, 4, 6)", f"read_background(last, 4, {closing_at})")
    return {**text, "VEHICLE_NUMBERS": (*VEHICLE_NUMBERS[:-1], (vehicle_at, 0, 1000)),
            "CLOSING_NUMBERS": (*CLOSING_NUMBERS[:-1], (closing_at, 0, 1000)),
            "VEHICLE_UNNAMED": unnamed(VEHICLE_UNNAMED + (18, 19), vehicle_named),
            "LOOK_UP_BYTES": unnamed(LOOK_UP_BYTES, vehicle_named),
            "CLOSING_UNNAMED": unnamed(CLOSING_UNNAMED + (6, 7), closing_named)}


def unnamed(places, named):
    return tuple(at for at in places if at not in named)


PLACES = [
    ("the right's before stands at 16", with_places(16, 6, (16, 17), (6, 7))),
    ("the right's before stands at 17", with_places(17, 6, (17, 18), (6, 7))),
    ("the right's before stands at 20", with_places(20, 6, (20, 21), (6, 7))),
    ("the right's after stands at 8", with_places(18, 8, (18, 19), (8, 9))),
    ("the right's after stands at 18", with_places(18, 18, (18, 19), (18, 19))),
    ("bytes 18 and 19 of a vehicle record are not named", {"VEHICLE_UNNAMED": VEHICLE_UNNAMED + (18, 19)}),
    ("bytes 6 and 7 of a closing record are not named", {"CLOSING_UNNAMED": CLOSING_UNNAMED + (6, 7)}),
    *((f"byte {at} of a vehicle record is not named", {"VEHICLE_UNNAMED": VEHICLE_UNNAMED + (at,)}) for at in (18, 19)),
    *((f"byte {at} of a closing record is not named", {"CLOSING_UNNAMED": CLOSING_UNNAMED + (at,)}) for at in (6, 7)),
    *((f"bytes {words} of a vehicle record may hold anything", {"VEHICLE_UNNAMED": unnamed(VEHICLE_UNNAMED, named)})
      for words, named in (("20 and 21", (20, 21)), ("20 to 31", range(20, 32)))),
    ("bytes 16 to 31 of a vehicle record may hold anything",
     {"VEHICLE_UNNAMED": unnamed(VEHICLE_UNNAMED, range(16, 32)), "LOOK_UP_BYTES": ()}),
    *((f"bytes {words} of a closing record may hold anything", {"CLOSING_UNNAMED": unnamed(CLOSING_UNNAMED, named)})
      for words, named in (("8 and 9", (8, 9)), ("8 to 31", range(8, 32)), ("18 and 19", (18, 19)))),
]

# Some of these once more, each for one kind of run.
KINDS = [(f"{words}, {runs}", for_kind(kind, changes)) for words, changes in BY_SIDE
         for runs, kind in (("acceleration runs only", ACCELERATION_RUN), ("constant speed only", CONSTANT_RUN))]

READINGS = LARGER + READ + ACROSS + BY_SIDE + RANGES + LAYOUTS + PLACES + KINDS

# Readings that give the same answer on every sheet, by the reason.
EQUIVALENT = {}
