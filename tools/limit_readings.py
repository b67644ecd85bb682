"""Other readings of document 02's wish 1: limits by class.

`sheet_readings` has the order and the places of refusals 11 and 12, and `edits` each entry of the table and each edge one more
and one less.
"""

from fractions import Fraction
from math import ceil, floor

from misread import PAPER, answers, by_edit, edited, half_down, half_to_even, rounded, simple, with_sign
from reckon import LIMITS_ABOVE, LIMITS_UP_TO, LOW_CAR_LIMITS, LOW_CARS_ABOVE, M1, N1, VEHICLE, WRITTEN_LIMIT, Refused, number

class_limits, limit_found, refuse_look_up = PAPER["class_limits"], PAPER["limit_found"], PAPER["refuse_look_up"]


def is_looked_up(vehicle):
    return vehicle.limit == 0


# The PMR that decides on the class.

def exact(vehicle):
    """The PMR in tenths, not rounded."""
    return Fraction(1000 * vehicle.power, vehicle.mass)


EDGES = (*(highest for highest, _ in LIMITS_UP_TO), LOW_CARS_ABOVE)


def at_edge(edge, PMR, other):
    """A PMR on the side of one edge that another PMR lies on, and the PMR itself if it lies there."""
    return PMR if (PMR > edge) == (other > edge) else edge + (other > edge)


def by_pmr(of):
    """The class by another PMR, which `of` makes of the vehicle: at all edges and at each of them."""
    def found(changed):
        return {"limit_found": lambda vehicle, PMR: limit_found(vehicle, changed(PMR, of(vehicle)))}
    yield "", found(lambda PMR, other: other)
    for edge in EDGES:
        yield f", at {edge // 10}.0 only", found(lambda PMR, other, edge=edge: at_edge(edge, PMR, other))


PMRS = [(f"the class by the PMR {words}{where}", changes) for words, of in (
    ("before its rounding", exact),
    ("cut to a tenth", lambda vehicle: floor(exact(vehicle))),
    ("rounded up to a tenth", lambda vehicle: ceil(exact(vehicle))),
    ("with a half going down", lambda vehicle: half_down(exact(vehicle))),
    ("with a half going to the even tenth", lambda vehicle: half_to_even(exact(vehicle))),
    ("cut to a whole number", lambda vehicle: 10 * floor(exact(vehicle) / 10)),
    ("rounded to a whole number", lambda vehicle: 10 * rounded(exact(vehicle) / 10)),
) for where, changes in by_pmr(of)]


def below(edge):
    """The PMR of an edge belongs to the class above it."""
    return {"class_limits": lambda PMR, is_low_car: class_limits(PMR + (PMR == edge), is_low_car)}


BELOW = [(f"PMR {edge // 10}.0 belongs to the class above", below(edge)) for edge in EDGES] + [
    ("each edge belongs to the class above", {"class_limits": lambda PMR, is_low_car: class_limits(PMR + 1, is_low_car)}),
    ("the classes' PMRs are up to 120.9 and 160.9", {"LIMITS_UP_TO": tuple((edge + 9, limits) for edge, limits in LIMITS_UP_TO)}),
    ("the classes' PMRs are whole numbers", {"LIMITS_UP_TO": tuple((edge // 10, limits) for edge, limits in LIMITS_UP_TO)}),
    ("the class by the power", {"limit_found": lambda vehicle, PMR: limit_found(vehicle, vehicle.power)}),
]


# The rows of the table.

def with_rows(*rows):
    """The four rows of the table replaced: up to 120.0, up to 160.0, above, and low cars above 200.0."""
    return {"LIMITS_UP_TO": tuple((edge, row) for (edge, _), row in zip(LIMITS_UP_TO, rows)), "LIMITS_ABOVE": rows[2],
            "LOW_CAR_LIMITS": rows[3]}


ROWS = (*(limits for _, limits in LIMITS_UP_TO), LIMITS_ABOVE, LOW_CAR_LIMITS)
TABLES = [
    ("the class up to 120.0 is not known", with_rows(ROWS[1], *ROWS[1:])),
    ("the class up to 160.0 is not known", with_rows(ROWS[0], ROWS[2], *ROWS[2:])),
    ("the class up to 160.0 is as up to 120.0", with_rows(ROWS[0], ROWS[0], *ROWS[2:])),
    ("the class above is as up to 160.0", with_rows(*ROWS[:2], ROWS[1], ROWS[3])),
    ("all classes are as up to 120.0", with_rows(*[ROWS[0]] * 4)),
    ("low cars have 1 dB more in each phase", with_rows(*ROWS[:3], tuple(limit + 1 for limit in LIMITS_ABOVE))),
    ("low cars have 1 dB less in each phase", with_rows(*ROWS[:3], tuple(limit - 1 for limit in LIMITS_ABOVE))),
    ("rows in the other order", with_rows(ROWS[2], ROWS[1], ROWS[0], ROWS[3])),
    ("the last two rows exchanged", with_rows(ROWS[0], ROWS[1], ROWS[3], ROWS[2])),
    *((f"2 dB {words} in each phase {row}", with_rows(*(tuple(limit + by * (at == place) for limit in limits)
                                                       for place, limits in enumerate(ROWS))))
      for words, by in (("more", 2), ("less", -2)) for at, row in enumerate(("up to 120.0", "up to 160.0", "above", "of low cars"))),
]


# The phase.

def with_field(name, change):
    """A byte of a look-up replaced before anything is asked of it."""
    def read_vehicle(first, last):
        vehicle = PAPER["read_vehicle"](first, last)
        return vehicle._replace(**{name: change(getattr(vehicle, name))})
    return {"read_vehicle": read_vehicle}


PHASES = [(words, with_field("phase", change)) for words, change in (
    ("phases reversed", lambda phase: 4 - phase),
    ("phase 3 is read as 2", lambda phase: 2 if phase == 3 else phase),
    ("phase 2 is read as 3", lambda phase: 3 if phase == 2 else phase),
    ("phase 2 is read as 1", lambda phase: 1 if phase == 2 else phase),
    ("phase 1 is read as 2", lambda phase: 2 if phase == 1 else phase),
    ("phases 2 and 3 exchanged", lambda phase: {2: 3, 3: 2}.get(phase, phase)),
    ("phases 1 and 2 exchanged", lambda phase: {1: 2, 2: 1}.get(phase, phase)),
    ("every phase is 1", lambda phase: 1), ("every phase is 3", lambda phase: 3),
    ("phases from 0", lambda phase: phase + 1),
    ("phase 0 is phase 1", lambda phase: phase or 1),
    ("phase 0 is phase 3", lambda phase: phase or 3),
    ("a phase above 3 is phase 3", lambda phase: min(phase, 3)),
    ("phase 4 is phase 3", lambda phase: 3 if phase == 4 else phase),
    ("phase 255 is phase 1", lambda phase: 1 if phase == 255 else phase),
    ("the phase by 7 bits", lambda phase: phase % 128),
    ("the phase by 4 bits", lambda phase: phase % 16),
    ("the phase by 2 bits", lambda phase: phase % 4),
    ("the phase's sign is dropped", lambda phase: abs(with_sign(phase, 8))),
)]


# Byte 17.

def low_cars_in(phase):
    """Low cars have their own limit in one phase only."""
    return {"limit_found": lambda vehicle, PMR: limit_found(vehicle if vehicle.phase == phase else vehicle._replace(low_car=0), PMR)}


LOW_CARS = [(words, with_field("low_car", change)) for words, change in (
    ("byte 17 is not looked at", lambda low_car: 0), ("every car is low", lambda low_car: 1),
    ("byte 17 turned", lambda low_car: {0: 1, 1: 0}.get(low_car, low_car)),
    ("byte 17 above 1 is as 1", lambda low_car: min(low_car, 1)), ("byte 17 above 1 is as 0", lambda low_car: int(low_car == 1)),
    ("byte 17 by its lowest bit", lambda low_car: low_car % 2), ("byte 17 by 7 bits", lambda low_car: low_car % 128),
    ("byte 17 by 4 bits", lambda low_car: low_car % 16), ("byte 17 may be 255, as 1", lambda low_car: 1 if low_car == 255 else low_car),
    ("byte 17 may be 2, as 0", lambda low_car: 0 if low_car == 2 else low_car),
)] + [
    *((f"byte 17 counts {words}", {"LOW_CARS_ABOVE": edge}) for words, edge in (
        ("at any PMR", 0), ("above 120.0", 1200), ("above 160.0", 1600), ("from 200.0 on", 1999), ("above 200.9", 2009),
        ("above 250.0", 2500))),
    ("byte 17 counts up to 200.0",
     {"class_limits": lambda PMR, is_low_car: LOW_CAR_LIMITS if is_low_car and PMR <= LOW_CARS_ABOVE else class_limits(PMR, False)}),
    ("low cars from 160.1 to 200.0 are as up to 160.0",
     {"class_limits": lambda PMR, is_low_car: class_limits(1600 if is_low_car and PMR <= LOW_CARS_ABOVE else PMR, is_low_car)}),
    ("low cars up to 200.0 are refused with 12", edited("reckon", "    a_urban, a_ref =", """\
    if vehicle.limit == 0 and vehicle.low_car == 1 and PMR <= LOW_CARS_ABOVE:
        raise Refused(12, 0)
    a_urban, a_ref =""")),
    *((f"byte 17 counts in phase {phase} only", low_cars_in(phase)) for phase in (2, 3)),
]


# The bytes of a look-up.

BYTES = by_edit(
    ("phase and class exchanged", "read_vehicle", "phase=first[16], low_car=first[17]", "phase=first[17], low_car=first[16]"),
    ("the phase stands at 17", "read_vehicle", "phase=first[16]", "phase=first[17]"),
    ("the phase stands at 15", "read_vehicle", "phase=first[16]", "phase=first[15]"),
    ("the phase stands at 18", "read_vehicle", "phase=first[16]", "phase=first[18]"),
    ("the phase is two bytes", "read_vehicle", "phase=first[16]", "phase=number(first, 16)"),
    ("the class stands at 16", "read_vehicle", "low_car=first[17]", "low_car=first[16]"),
    ("the class stands at 18", "read_vehicle", "low_car=first[17]", "low_car=first[18]"),
    ("the class stands at 19", "read_vehicle", "low_car=first[17]", "low_car=first[19]"),
    ("the class is two bytes", "read_vehicle", "low_car=first[17]", "low_car=number(first, 17)"),
)


# The limit field.

def read_limit(change):
    """The limit read in another way, in the layout, too."""
    def read(record, at):
        is_limit = at == 14 and record[0] == VEHICLE
        return change(number(record, at), record) if is_limit else number(record, at)
    return {"number": read}


LIMITS = [(words, read_limit(change)) for words, change in (
    ("a limit whose low byte is 0 is looked up", lambda limit, record: 0 if record[14] == 0 else limit),
    ("a limit below 50 is looked up", lambda limit, record: 0 if limit < 50 else limit),
    ("a limit of 256 is looked up", lambda limit, record: 0 if limit == 256 else limit),
    ("a limit of 1 is looked up, too", lambda limit, record: 0 if limit == 1 else limit),
    ("a limit of 49 is looked up, too", lambda limit, record: 0 if limit == 49 else limit),
    ("a limit above 100 is looked up", lambda limit, record: 0 if limit > 100 else limit),
    ("a limit of 65,535 is looked up", lambda limit, record: 0 if limit == 65535 else limit),
    ("a limit of 65,535 is looked up instead of 0", lambda limit, record: {0: 65535, 65535: 0}.get(limit, limit)),
    ("a limit below 50 is 50", lambda limit, record: max(limit, 50) if limit else limit),
    ("a limit above 100 is 100", lambda limit, record: min(limit, 100)),
    ("a written limit beside a phase is looked up", lambda limit, record: 0 if record[16] else limit),
    ("a written limit beside a phase or a class is looked up", lambda limit, record: 0 if record[16] or record[17] else limit),
    ("a limit of 0 without a phase is 50", lambda limit, record: limit if record[16] else max(limit, 50)),
)] + [
    (f"written limits {words}", {"WRITTEN_LIMIT": (14, lowest, highest)}) for words, lowest, highest in (
        ("from 1", 1, 100), ("from 40", 40, 100), ("from 60", 60, 100), ("up to 90", 50, 90), ("up to 110", 50, 110),
        ("up to 255", 50, 255), ("of any number", 1, 65535), ("from 68 to 75 only", 68, 75))
]


# What the pass field asks.

def found_as(change):
    """The limit found replaced, where it is looked up."""
    return {"limit_found": lambda vehicle, PMR: change(vehicle, PMR) if is_looked_up(vehicle) else vehicle.limit}


def pass_of_look_ups(test):
    """The pass field by another test, where the limit is looked up; `test` is a text with L_urban, W, C and found."""
    return edited("reckon", "is_pass(L_urban, limit_found(vehicle, PMR))",
                  f"(lambda found: {test} if vehicle.limit == 0 else L_urban <= found)(limit_found(vehicle, PMR))")


PASSES = [(words, found_as(change)) for words, change in (
    ("the pass field reads the written 0", lambda vehicle, PMR: 0),
    ("a limit of 0 is no limit", lambda vehicle, PMR: 65535),
    ("a limit of 0 is 72", lambda vehicle, PMR: 72),
    ("a limit of 0 is 50", lambda vehicle, PMR: 50),
    ("a limit of 0 is 100", lambda vehicle, PMR: 100),
    ("the limit of low cars is taken where it is higher, at any PMR",
     lambda vehicle, PMR: max(limit_found(vehicle, PMR), LOW_CAR_LIMITS[vehicle.phase - 1] if vehicle.low_car else 0)),
    ("below PMR 25.0 the lowest limit", lambda vehicle, PMR: limit_found(vehicle._replace(phase=3) if PMR < 250 else vehicle, PMR)),
    ("the limit found plus 1 dB", lambda vehicle, PMR: limit_found(vehicle, PMR) + 1),
    ("the limit found less 1 dB", lambda vehicle, PMR: limit_found(vehicle, PMR) - 1),
)] + [(words, pass_of_look_ups(test)) for words, test in (
    ("a pass is below the limit found", "L_urban < found"),
    ("the limit found asked of W", "rounded(Fraction(W, 10)) <= found"),
    ("the limit found asked of the unrounded L_urban",
     "(Fraction(W) if PMR < 250 else C if W < C else W - Fraction(kp, 100) * (W - C)) <= 10 * found"),
    ("a pass is at the limit found", "L_urban == found"),
)] + simple(
    ("a written limit is at most that of its class in phase 1", "limit_found",
     lambda vehicle, PMR: min(limit_found(vehicle, PMR), class_limits(PMR, False)[0])),
    ("a written limit is at least that of its class in phase 3", "limit_found",
     lambda vehicle, PMR: max(limit_found(vehicle, PMR), class_limits(PMR, False)[2])),
    ("a written limit of M1 is looked up in phase 1", "limit_found",
     lambda vehicle, PMR: limit_found(vehicle._replace(limit=0, phase=1) if vehicle.category == M1 and vehicle.limit else vehicle, PMR)),
)


# The layout of the bytes 16 and 17.

def beside_zero(test):
    """A limit of 0 only where the test of its record holds; refusal 5 elsewhere."""
    return {"limit_layout": lambda record: PAPER["limit_layout"](record) and (number(record, 14) != 0 or test(record))}


def beside_written(spared):
    """The zeros beside a written limit not asked of the records that are spared."""
    def limit_layout(record):
        lowest, highest = WRITTEN_LIMIT[1:]
        return PAPER["limit_layout"](record) or lowest <= number(record, 14) <= highest and spared(record)
    return {"limit_layout": limit_layout}


LAYOUTS = [(f"beside a written limit {words}", beside_written(spared)) for words, spared in (
    ("bytes 16 and 17 may hold anything", lambda record: True),
    ("byte 16 may hold anything", lambda record: record[17] == 0), ("byte 17 may hold anything", lambda record: record[16] == 0),
    ("a good phase and class may stand", lambda record: record[16] in (1, 2, 3) and record[17] in (0, 1)),
    ("a good phase may stand", lambda record: record[16] in (1, 2, 3) and record[17] == 0),
    ("a good phase or none may stand, with a class", lambda record: record[16] < 4 and record[17] < 2),
    ("byte 17 may be 1", lambda record: record[16:18] == b"\x00\x01"),
    ("bytes 16 and 17 may hold anything for N1", lambda record: record[1] == N1),
    ("bytes 16 and 17 may hold anything for M1", lambda record: record[1] == M1),
)] + [(f"a limit of 0 is refused with 5 {words}", beside_zero(test)) for words, test in (
    ("always", lambda record: False), ("with a phase", lambda record: record[16] == 0), ("with a class", lambda record: record[17] == 0),
    ("with a phase or a class", lambda record: record[16:18] == bytes(2)), ("without a phase", lambda record: record[16] != 0),
    ("without a phase and a class", lambda record: record[16:18] != bytes(2)),
    ("with a phase outside 1 to 3", lambda record: record[16] in (1, 2, 3)),
    ("with a byte 17 above 1", lambda record: record[17] in (0, 1)),
    ("with a phase outside 1 to 3 or a byte 17 above 1", lambda record: record[16] in (1, 2, 3) and record[17] in (0, 1)),
    ("for N1", lambda record: record[1] == M1),
)]


# Refusals 11 and 12.

def refused_if(number_, test, rest=refuse_look_up):
    """A refusal at place 0 where a test of the vehicle holds, before the others, which are the paper's unless said."""
    def refuse(vehicle):
        if test(vehicle):
            raise Refused(number_, 0)
        rest(vehicle)
    return {"refuse_look_up": refuse}


def exchanged(word, *rest):
    """Refusals 11 and 12 with their numbers exchanged."""
    return (word, {11: 12, 12: 11}.get(rest[0], rest[0]), *rest[1:]) if word == "REFUSED" else (word, *rest)


def bad_phase(vehicle):
    return not 1 <= vehicle.phase <= 3


def of_N1(limits):
    """N1 has limits of its own, by phase."""
    def found(vehicle, PMR):
        is_own = is_looked_up(vehicle) and vehicle.category == N1
        return limits[vehicle.phase - 1] if is_own else limit_found(vehicle, PMR)
    return {"refuse_look_up": lambda vehicle: refuse_look_up(vehicle._replace(category=M1)), "limit_found": found}


def named_as(cause, place):
    """One of the refusals with another place."""
    return answers(lambda *answer: (*answer[:2], place) if answer[:2] == ("REFUSED", cause) else answer)


REFUSALS = [
    ("refusals 11 and 12 exchanged", answers(exchanged)),
    *((f"refusal {cause} names byte {place}", named_as(cause, place))
      for cause, place in ((11, 1), (11, 14), (12, 14), (12, 16), (12, 17))),
    ("refusal 11 for every N1", refused_if(11, lambda vehicle: vehicle.category == N1)),
    ("refusal 11 for every look-up", refused_if(11, is_looked_up)),
    ("refusal 11 for M1 in the place of N1",
     {"refuse_look_up": lambda vehicle: refuse_look_up(vehicle._replace(category=M1 + N1 - vehicle.category))}),
    ("refusal 11 for a phase outside 1 to 3", refused_if(11, lambda vehicle: is_looked_up(vehicle) and bad_phase(vehicle))),
    ("refusal 11 in the place of 12",
     refused_if(11, lambda vehicle: is_looked_up(vehicle) and (bad_phase(vehicle) or vehicle.low_car > 1))),
    ("refusal 11 for N1 with a phase outside 1 to 3 only", refused_if(
        11, lambda vehicle: is_looked_up(vehicle) and vehicle.category == N1 and bad_phase(vehicle),
        lambda vehicle: refuse_look_up(vehicle._replace(category=M1)))),
    ("refusal 11 is not given to low cars",
     {"refuse_look_up": lambda vehicle: refuse_look_up(vehicle._replace(category=M1) if vehicle.low_car == 1 else vehicle)}),
    ("refusal 12 in the place of 11", refused_if(12, lambda vehicle: is_looked_up(vehicle) and vehicle.category == N1)),
    ("refusal 12 for a written limit without a phase", refused_if(12, bad_phase)),
    ("refusal 12 for N1 with a written limit", refused_if(12, lambda vehicle: not is_looked_up(vehicle) and vehicle.category == N1)),
    ("N1 has 72, 71, 69", of_N1((72, 71, 69))), ("N1 has 74, 73, 71", of_N1((74, 73, 71))),
]

READINGS = PMRS + BELOW + TABLES + PHASES + LOW_CARS + BYTES + LIMITS + PASSES + LAYOUTS + REFUSALS

# Readings that give the same answer on every sheet, by the reason.
EQUIVALENT = {}
