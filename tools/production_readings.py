"""Other readings of document 02, wish 11, and document 001, annex 7, 3, and 8.1, and the lists that tell each from the reckoner's.

A reading is its words with the names of `production` that it replaces. Readings that answer every list as the papers do stand in
EQUIVALENT, by the reason.
"""

from fractions import Fraction
from statistics import median

import misread
import production
from misread import half_down, reading, replaced, turned, with_sign
from production import cars_taken, cars_wanted, conforms, meets, refusal, results, status

CONFORMS, FAILS = "CONFORMS", "DOES-NOT-CONFORM"
paper = production.evaluate


# The requirement.

REQUIREMENTS = replaced(
    "meets",
    ("the limit without the 1 dB", lambda car, limit: car <= limit),
    ("below the limit plus 1 dB", lambda car, limit: car < limit + 1),
    ("the 1 dB taken from the limit", lambda car, limit: car <= limit - 1),
    ("the 1 dB added to the car too", lambda car, limit: car + 1 <= limit + 1),
    ("2 dB added", lambda car, limit: car <= limit + 2),
    ("a tenth of a dB added", lambda car, limit: car <= limit + Fraction(1, 10)),
    ("the limit in tenths", lambda car, limit: 10 * car <= limit + 10),
    ("only a car at the limit plus 1 dB", lambda car, limit: car == limit + 1),
    ("only a car at the limit or 1 dB above it", lambda car, limit: 0 <= car - limit <= 1),
    ("a difference of 1 dB to either side", lambda car, limit: abs(car - limit) <= 1),
    ("the limit plus 1 dB by 16 bits", lambda car, limit: car <= (limit + 1) % 2 ** 16),
    ("the limit plus 1 dB by 8 bits", lambda car, limit: car <= (limit + 1) % 2 ** 8),
    ("the limit plus 1 dB by 16 bits with a sign", lambda car, limit: car <= with_sign(limit + 1)),
    ("the limit plus 1 dB at most 65,535", lambda car, limit: car <= min(limit + 1, 2 ** 16 - 1)),
    ("the limit plus 1 dB at most 65,534", lambda car, limit: car <= min(limit + 1, 2 ** 16 - 2)),
    ("no car meets a limit of 65,535", lambda car, limit: limit < 2 ** 16 - 1 and meets(car, limit)),
    ("every car meets a limit of 65,535", lambda car, limit: limit == 2 ** 16 - 1 or meets(car, limit)),
    ("every car meets a limit of 65,533", lambda car, limit: limit >= 2 ** 16 - 3 or meets(car, limit)),
    ("every car meets a limit of 0", lambda car, limit: limit == 0 or meets(car, limit)),
    ("no car meets a limit of 0", lambda car, limit: limit > 0 and meets(car, limit)),
    ("the limit by 8 bits", lambda car, limit: meets(car, limit % 2 ** 8)),
    ("the limit by 15 bits", lambda car, limit: meets(car, limit % 2 ** 15)),
    ("the limit with a sign", lambda car, limit: meets(car, with_sign(limit))),
    ("the limit's high byte first", lambda car, limit: meets(car, turned(limit))),
    ("the car by 8 bits", lambda car, limit: meets(car % 2 ** 8, limit)),
    ("the car by 15 bits", lambda car, limit: meets(car % 2 ** 15, limit)),
    ("the car with a sign", lambda car, limit: meets(with_sign(car), limit)),
    ("the car's high byte first", lambda car, limit: meets(turned(car), limit)),
    ("car and limit with a sign", lambda car, limit: meets(with_sign(car), with_sign(limit))),
    ("car and limit with their high bytes first", lambda car, limit: meets(turned(car), turned(limit))),
    ("the car less 1 dB against the limit", lambda car, limit: car - 1 <= limit),
    ("the car less 1 dB, by 16 bits, against the limit", lambda car, limit: (car - 1) % 2 ** 16 <= limit),
    ("the car less 1 dB, at least 0, against the limit", lambda car, limit: max(car - 1, 0) <= limit),
    ("the car less the limit, by 16 bits", lambda car, limit: (car - limit) % 2 ** 16 <= 1),
    ("the car less the limit, by 16 bits with a sign", lambda car, limit: with_sign(car - limit) <= 1),
    ("below the limit plus 2 dB", lambda car, limit: car < limit + 2),
    ("a car of 0 fails", lambda car, limit: car > 0 and meets(car, limit)),
    ("a car of 65,535 fails", lambda car, limit: car < 2 ** 16 - 1 and meets(car, limit)),
    ("a car of 65,535 meets every limit", lambda car, limit: car == 2 ** 16 - 1 or meets(car, limit)),
    ("every car meets it", lambda car, limit: True),
    ("no car meets it", lambda car, limit: False),
    ("meeting and failing turned", lambda car, limit: not meets(car, limit)),
)


# How many cars, and the verdict on them.

def taken_if(start, number):
    """So many cars taken where the cars start like this, else as many as the papers say."""
    return lambda met: number if met[:len(start)] == start else cars_taken(met)


def by_levels(test):
    """The verdict on three cars by a test of their L_urban and the limit, all other steps as they are."""
    def evaluate(limit, cars):
        with reading({"conforms": lambda met: test(cars[:3], limit) if len(met) == 3 else conforms(met)}, production):
            return paper(limit, cars)
    return evaluate


def pairs_until_one_meets(met):
    """Two more cars after each pair that fails."""
    taken = cars_taken(met)
    while 1 < taken <= len(met) and not all(met[taken - 2:taken]):
        taken += 2
    return taken


def two_in_a_row(met):
    """Cars taken until two in a row meet the requirement."""
    rows = [at + 2 for at in range(1, len(met) - 1) if met[at] and met[at + 1]]
    return 1 if all(met[:1]) else rows[0] if rows else max(3, len(met) + 1)


NUMBERS = replaced(
    "MORE_CARS", ("no more cars after the first", 0), ("one more car", 1), ("three more cars", 3), ("four more cars", 4),
) + replaced(
    "cars_taken",
    ("always one car", lambda met: 1),
    ("always three cars", lambda met: 3),
    ("a verdict as soon as the second fails", taken_if([False, False], 2)),
    ("a verdict as soon as the second meets it", taken_if([False, True], 2)),
    ("the second decides", taken_if([False], 2)),
    ("a third after a second that meets it only", lambda met: 1 if all(met[:1]) else 3 if met[1:2] == [True] else 2),
    ("two cars more after a second that fails", taken_if([False, False], 4)),
    ("two cars more after a pair that fails", pairs_until_one_meets),
    ("cars until two in a row meet it", two_in_a_row),
    ("two more cars after a first that meets it", lambda met: 3 if all(met[:1]) and met else 1),
    ("three cars wanted from the start", lambda met: cars_taken(met) if met else 3),
    ("no car wanted at the start", lambda met: cars_taken(met) if met else 0),
)

VERDICTS = replaced(
    "conforms",
    ("either of the two is enough", lambda met: any(met[1:] or met)),
    ("the third alone decides", lambda met: met[-1]),
    ("the second alone decides", lambda met: (met[1:] or met)[0]),
    ("two of the three are enough", lambda met: len(met) == 1 or sum(met) >= 2),
    ("one of the three is enough", any),
    ("all three must meet it", all),
    ("exactly one of the two", lambda met: sum(met[1:] or met) == 1),
    ("three cars always conform", lambda met: True),
    ("three cars never conform", lambda met: len(met) == 1),
    ("the verdict turned", lambda met: not conforms(met)),
    ("the verdict on three cars turned", lambda met: conforms(met) == (len(met) == 1)),
) + replaced(
    "evaluate",
    ("the mean of the three", by_levels(lambda cars, limit: meets(Fraction(sum(cars), 3), limit))),
    ("the mean of the three, a half down", by_levels(lambda cars, limit: meets(half_down(Fraction(sum(cars), 3)), limit))),
    ("the mean of the two", by_levels(lambda cars, limit: meets(Fraction(sum(cars[1:]), 2), limit))),
    ("the quietest of the three", by_levels(lambda cars, limit: meets(min(cars), limit))),
    ("the quieter of the two", by_levels(lambda cars, limit: meets(min(cars[1:]), limit))),
    ("the loudest of the three", by_levels(lambda cars, limit: meets(max(cars), limit))),
    ("the louder of the two", by_levels(lambda cars, limit: meets(max(cars[1:]), limit))),
    ("the median of the three", by_levels(lambda cars, limit: meets(median(cars), limit))),
    ("both no louder than the first", by_levels(lambda cars, limit: max(cars[1:]) <= cars[0])),
    ("both quieter than the first", by_levels(lambda cars, limit: max(cars[1:]) < cars[0])),
    ("both, without the 1 dB", by_levels(lambda cars, limit: max(cars[1:]) <= limit)),
)


# The status and the cars wanted.

def said(function, *rows):
    """A function of `met` that says otherwise where `met` is like this."""
    others = {tuple(met): other for met, other in rows}
    return lambda met: others.get(tuple(met), function(met))


def provisional(met):
    """A status that the cars so far would give, before the verdict."""
    return status(met) if not cars_wanted(met) or not met else CONFORMS if all(met[1:] or met) else FAILS


STATES = replaced(
    "status",
    ("conforms without a car", said(status, ([], CONFORMS))),
    ("does not conform without a car", said(status, ([], FAILS))),
    ("does not conform once the first fails", said(status, ([False], FAILS))),
    ("does not conform once the second fails, one still wanted", said(status, ([False, False], FAILS))),
    ("conforms once the second meets it, one still wanted", said(status, ([False, True], CONFORMS))),
    ("a status of the cars so far", provisional),
    ("open for ever after three that do not conform", lambda met: "OPEN" if status(met) == FAILS else status(met)),
    ("open after the first car", said(status, ([True], "OPEN"))),
    ("the two verdicts by each other's name", lambda met: {CONFORMS: FAILS, FAILS: CONFORMS}.get(status(met), "OPEN")),
) + replaced(
    "cars_wanted",
    ("cars wanted kept at the verdict", lambda met: cars_wanted(met) or 1),
    ("cars wanted kept at the first car", said(cars_wanted, ([True], 1))),
    ("cars wanted not less after the second", lambda met: 2 if len(met) == 2 and not met[0] else cars_wanted(met)),
    ("cars wanted not less after a second that fails", said(cars_wanted, ([False, False], 2))),
    ("cars wanted not less after a second that meets it", said(cars_wanted, ([False, True], 2))),
    ("no car wanted after a second that fails", said(cars_wanted, ([False, False], 0))),
    ("one car wanted after a first that fails", said(cars_wanted, ([False], 1))),
    ("three cars wanted after a first that fails", said(cars_wanted, ([False], 3))),
    ("two cars wanted after three that do not conform", lambda met: 2 if status(met) == FAILS else cars_wanted(met)),
    ("one car wanted after three that do not conform", lambda met: 1 if status(met) == FAILS else cars_wanted(met)),
    ("three cars wanted at the start", said(cars_wanted, ([], 3))),
    ("no car wanted at the start, open", said(cars_wanted, ([], 0))),
    ("cars measured for cars wanted", lambda met: min(len(met), cars_taken(met))),
    ("cars taken for cars wanted", cars_taken),
    ("cars wanted by late ones too", lambda met: abs(cars_taken(met) - len(met))),
    ("cars wanted below 0 by 8 bits", lambda met: (cars_taken(met) - len(met)) % 2 ** 8),
    ("cars wanted with a sign", lambda met: cars_taken(met) - len(met)),
    ("cars wanted from three", lambda met: max(3 - len(met), 0)),
)


# Cars after the verdict.

def refused_if(test):
    """A refusal where the papers have one and a test of `met` holds; else the late car changes nothing."""
    return lambda met: refusal(met) if refusal(met) and test(met) else ()


def at_place(place):
    return lambda met: (20, place(met)) if refusal(met) else ()


def after_verdicts(met):
    """The cars of the check that the last one belongs to, if the car after a verdict starts another."""
    while len(met) > cars_taken(met):
        met = met[cars_taken(met):]
    return met


def without_late(limit, cars):
    """The cars that count, and the last of them once more if there are late ones."""
    taken = cars_taken(results(limit, cars))
    return cars[:taken] + cars[taken - 1:taken] * (len(cars) > taken)


def with_late(change):
    """The status, changed where the last car is refused."""
    return lambda met: change(met) if refusal(met) else status(met)


LATE = replaced(
    "refusal",
    ("a late car is not refused", lambda met: ()),
    ("a late car is refused if it fails", refused_if(lambda met: not met[-1])),
    ("a late car is refused if it meets the requirement", refused_if(lambda met: met[-1])),
    ("only the first late car is refused", refused_if(lambda met: len(met) == cars_taken(met) + 1)),
    ("only the second late car is refused", refused_if(lambda met: len(met) > cars_taken(met) + 1)),
    ("a late car is refused after `conforms` only", refused_if(lambda met: status(met) == CONFORMS)),
    ("a late car is refused after `does not conform` only", refused_if(lambda met: status(met) == FAILS)),
    ("a late car is refused after one car only", refused_if(lambda met: met[0])),
    ("a late car is refused after three cars only", refused_if(lambda met: not met[0])),
    ("a late car is refused from the fourth on", refused_if(lambda met: len(met) > 3)),
    ("the car of the verdict is refused", lambda met: (20, cars_taken(met)) if met and not cars_wanted(met) else ()),
    ("refusal 19", lambda met: (19, cars_taken(met)) if refusal(met) else ()),
    ("refusal 21", lambda met: (21, cars_taken(met)) if refusal(met) else ()),
    ("20 at one more", at_place(lambda met: cars_taken(met) + 1)),
    ("20 at one less", at_place(lambda met: cars_taken(met) - 1)),
    ("20 at 0", at_place(lambda met: 0)),
    ("20 at 1", at_place(lambda met: 1)),
    ("20 at 2 after three", at_place(lambda met: 1 if met[0] else 2)),
    ("20 at 3", at_place(lambda met: 3)),
    ("20 at the cars offered", at_place(len)),
    ("20 at the cars offered before", at_place(lambda met: len(met) - 1)),
    ("20 at the cars offered before, by 8 bits", at_place(lambda met: (len(met) - 1) % 2 ** 8)),
    ("20 at the late cars", at_place(lambda met: len(met) - cars_taken(met))),
    ("20 at the cars that meet the requirement", at_place(lambda met: sum(met[:cars_taken(met)]))),
    ("20 at the cars that fail it", at_place(lambda met: cars_taken(met) - sum(met[:cars_taken(met)]))),
    ("20 at the cars wanted", at_place(cars_wanted)),
) + replaced(
    "status",
    ("a late car opens the check", with_late(lambda met: "OPEN")),
    ("a late car that fails opens the check", with_late(lambda met: status(met) if met[-1] else "OPEN")),
    ("a late car decides", with_late(lambda met: CONFORMS if met[-1] else FAILS)),
    ("a late car that fails ends `conforms`", with_late(lambda met: status(met) if met[-1] else FAILS)),
    ("a late car that meets the requirement ends `does not conform`", with_late(lambda met: CONFORMS if met[-1] else status(met))),
    ("late cars must all meet the requirement", lambda met: FAILS if refusal(met) and not all(met[1:]) else status(met)),
    ("a late car ends `conforms` by one car", with_late(lambda met: "OPEN" if met[0] else status(met))),
    ("two late cars that meet the requirement end `does not conform`",
     with_late(lambda met: CONFORMS if len(met) > 4 and met[-1] and met[-2] else status(met))),
) + replaced(
    "cars_wanted",
    ("a late car makes one wanted", lambda met: 1 if refusal(met) else cars_wanted(met)),
    ("a late car that fails makes two wanted", lambda met: 2 if refusal(met) and not met[-1] else cars_wanted(met)),
    ("late cars counted as wanted", lambda met: max(len(met) - cars_taken(met), cars_wanted(met))),
)


# Which cars.

def cars_first(change):
    """The papers' answer for cars that are changed first."""
    return lambda limit, cars: paper(limit, change(limit, cars))


def once_each(limit, cars):
    return list(dict.fromkeys(cars))


def another_check(limit, cars):
    """The car after a verdict starts another check."""
    return cars[len(cars) - len(after_verdicts(results(limit, cars))):]


CARS = replaced(
    "evaluate",
    ("a late car starts another check", cars_first(another_check)),
    ("the last three cars", cars_first(lambda limit, cars: cars[-3:])),
    ("the last four cars", cars_first(lambda limit, cars: cars[-4:])),
    ("the cars from the last on", cars_first(lambda limit, cars: cars[::-1])),
    ("the quietest car first", cars_first(lambda limit, cars: sorted(cars))),
    ("the loudest car first", cars_first(lambda limit, cars: sorted(cars, reverse=True))),
    ("cars with the same L_urban counted once", cars_first(once_each)),
    ("a car of 0 not counted", cars_first(lambda limit, cars: [car for car in cars if car])),
    ("a car of 65,535 not counted", cars_first(lambda limit, cars: [car for car in cars if car < 2 ** 16 - 1])),
    ("the number of cars by 8 bits", cars_first(lambda limit, cars: cars[:len(cars) % 2 ** 8])),
    ("the first car is the limit", lambda limit, cars: paper(cars[0], cars[1:]) if cars else paper(limit, cars)),
    ("the second and the third turned", cars_first(lambda limit, cars: cars[:1] + cars[1:3][::-1] + cars[3:])),
    ("late cars as the last one that counts", cars_first(without_late)),
)


# The requirement by the car's number, and each of its readings once more for one car.

def by_number(test):
    """Results by a test of a car's number, its L_urban and the limit."""
    return lambda limit, cars: [test(number, car, limit) for number, car in enumerate(cars, start=1)]


def at_number(number, changes):
    other = changes["meets"]
    return {"results": by_number(lambda at, car, limit: other(car, limit) if at == number else meets(car, limit))}


BY_NUMBER = replaced(
    "results",
    ("the 1 dB for the first car only", by_number(lambda at, car, limit: car <= limit + (at == 1))),
    ("the 1 dB for the two further cars only", by_number(lambda at, car, limit: car <= limit + (at > 1))),
    ("the 1 dB once more for each car", by_number(lambda at, car, limit: car <= limit + at)),
    ("the 1 dB once more after the first car", by_number(lambda at, car, limit: car <= limit + min(at, 2))),
)
EACH_CAR = [(f"{words}, at {number}", at_number(number, changes)) for words, changes in REQUIREMENTS for number in (1, 2, 3)]

READINGS = REQUIREMENTS + NUMBERS + VERDICTS + STATES + LATE + CARS + BY_NUMBER + EACH_CAR

# Readings that give the same answer on every list, by the reason.
EQUIVALENT = {
    "no car is above 65,535": ["the limit plus 1 dB at most 65,535", "every car meets a limit of 65,535"],
    "the same inequality in whole numbers": [
        "the car less 1 dB against the limit", "the car less 1 dB, at least 0, against the limit", "below the limit plus 2 dB"],
    "a second car counts only if the first fails, and none fails a limit of 65,534 or 65,535": [
        f"{words}, at {number}" for number in (2, 3) for words in (
            "the limit plus 1 dB by 16 bits", "the limit plus 1 dB at most 65,534", "no car meets a limit of 65,535",
            "a car of 65,535 fails")],
    "three cars are taken only if the first fails, and then two of them are the others": [
        "two of the three are enough", "the median of the three"],
    "both are at most a number if and only if the louder one is": ["the louder of the two"],
    "the verdict asks the same of both": ["the second and the third turned"],
    "what a late car is changes nothing": ["late cars as the last one that counts"],
}


def tell_apart(lists):
    return misread.tell_apart(production, READINGS, EQUIVALENT, lists, "lists")
