#!/usr/bin/env python3
"""Separate reckoning of production checks, written from document 02, wish 11, and document 001, annex 7, 3, and 8.1, alone.

    python3 tools/production.py LIMIT [CAR ...]    prints the line of a list of cars, each its L_urban, in the order measured
    python3 tools/production.py --write DIR        writes data/lists.bin and stdout
    python3 tools/production.py --check DIR        fails unless DIR holds what --write would write
    python3 tools/production.py --spread           the answers of each group; fails if one is thin
    python3 tools/production.py --readings         how many lists tell each other reading of the papers apart

DIR is crates/car_lists. LIMIT and CAR are 16-bit numbers of whole dB. A line is `OPEN`, `CONFORMS` or `DOES-NOT-CONFORM` after
the last car, and the cars still wanted; then, if the last car came after the verdict, `REFUSED`, the refusal's number and its
place.

A file of lists has for each the limit, the number of cars and each car, in two bytes each, low byte first.
"""

import os
import sys

from corpus import LEAST_OF_EACH, LINES, command, example_inputs, print_groups, print_line
from make import of_groups
from production_groups import GROUPS

TOLERANCE = 1  # whole dB above the limit
MORE_CARS = 2  # after a first that fails


# The evaluation. `met` says of each car offered, in order, whether it meets the requirement.

def meets(car, limit):
    return car <= limit + TOLERANCE


def results(limit, cars):
    return [meets(car, limit) for car in cars]


def cars_taken(met):
    """How many cars the check takes, as far as they tell: one, and two more if the first fails."""
    return 1 if all(met[:1]) else 1 + MORE_CARS


def conforms(met):
    """The verdict on all cars that the check takes: both further ones must meet the requirement, or the only one."""
    return all(met[1:] or met)


def status(met):
    taken = cars_taken(met)
    if len(met) < taken:
        return "OPEN"
    return "CONFORMS" if conforms(met[:taken]) else "DOES-NOT-CONFORM"


def cars_wanted(met):
    return max(cars_taken(met) - len(met), 0)


def refusal(met):
    """Refusal 20 of the last car, at the number of cars counted; nothing if it is one of these."""
    taken = cars_taken(met)
    return (20, taken) if len(met) > taken else ()


def evaluate(limit, cars):
    """(status, cars wanted), and if the last car is refused ('REFUSED', number, place) after these."""
    met = results(limit, cars)
    refused = refusal(met)
    return status(met), cars_wanted(met), *(("REFUSED", *refused) if refused else ())


def line(limit, cars):
    return " ".join(str(part) for part in evaluate(limit, cars))


# Examples.

# The limit and the cars, and what they should give.
EXAMPLES = (
    ("72", "OPEN 1"),
    ("72 73", "CONFORMS 0"),
    ("72 73 73", "CONFORMS 0 REFUSED 20 1"),
    ("72 73 74", "CONFORMS 0 REFUSED 20 1"),
    ("72 73 74 74 74", "CONFORMS 0 REFUSED 20 1"),
    ("72 74", "OPEN 2"),
    ("72 74 80", "OPEN 1"),
    ("72 74 73", "OPEN 1"),
    ("72 74 80 70", "DOES-NOT-CONFORM 0"),
    ("72 74 80 70 71", "DOES-NOT-CONFORM 0 REFUSED 20 3"),
    ("72 74 80 70 74", "DOES-NOT-CONFORM 0 REFUSED 20 3"),
    ("72 74 80 70 71 71 71", "DOES-NOT-CONFORM 0 REFUSED 20 3"),
    ("72 74 73 74", "DOES-NOT-CONFORM 0"),
    ("72 74 74 74", "DOES-NOT-CONFORM 0"),
    ("72 74 73 73", "CONFORMS 0"),
    ("72 74 73 73 80", "CONFORMS 0 REFUSED 20 3"),
    ("72 74 73 73 72 80", "CONFORMS 0 REFUSED 20 3"),
    ("0", "OPEN 1"),
    ("0 0", "CONFORMS 0"),
    ("0 1", "CONFORMS 0"),
    ("0 2", "OPEN 2"),
    ("0 2 1 1", "CONFORMS 0"),
    ("0 2 1 2", "DOES-NOT-CONFORM 0"),
    # the limit plus 1 dB is 65,534, 65,535 and 65,536
    ("65533 65534", "CONFORMS 0"),
    ("65533 65535", "OPEN 2"),
    ("65534 65535", "CONFORMS 0"),
    ("65535 65535", "CONFORMS 0"),
    ("65535 0", "CONFORMS 0"),
    ("65535 65535 65535", "CONFORMS 0 REFUSED 20 1"),
)


def list_of(limit, *cars):
    """A list from the numbers of the command line."""
    return limit, list(cars)


# The lists and their lines.

LISTS = os.path.join("data", "lists.bin")
SEED = 11
ANSWERS = ("OPEN 1 of none", "CONFORMS 0 of 1", "OPEN 2 of 1", "OPEN 1 of 2", "CONFORMS 0 of 3", "DOES-NOT-CONFORM 0 of 3",
           "CONFORMS 0 REFUSED 20 1", "CONFORMS 0 REFUSED 20 3", "DOES-NOT-CONFORM 0 REFUSED 20 3")


def all_lists():
    """Each list with the name of its group."""
    yield from (("examples", one) for one in example_inputs(EXAMPLES, list_of, line))
    yield from of_groups(GROUPS, SEED)


def packed(limit, cars):
    return b"".join(number.to_bytes(2, "little") for number in (limit, len(cars), *cars))


def made():
    """Each file of the crate, with its bytes."""
    lists = [one for _, one in all_lists()]
    return {LISTS: b"".join(packed(*one) for one in lists), LINES: "".join(line(*one) + "\n" for one in lists).encode()}


def answer_of(limit, cars):
    """A line by the name that it has in the spread: with the number of cars, unless the last is refused."""
    text = line(limit, cars)
    return text if "REFUSED" in text else f"{text} of {len(cars) or 'none'}"


def spread():
    """Prints the spread; returns whether each answer comes up often enough."""
    totals = print_groups([(name, answer_of(*one)) for name, one in all_lists()], ANSWERS)
    return set(totals) == set(ANSWERS) and min(totals.values()) >= LEAST_OF_EACH


def readings():
    from production_readings import tell_apart  # it replaces names of this module, which it imports by its own name
    return tell_apart([one for _, one in all_lists()])


def main(arguments):
    if arguments and not arguments[0].startswith("--"):
        return print_line(arguments, lambda *numbers: line(*list_of(*numbers)))
    return command(arguments, __doc__, made, {"--spread": spread, "--readings": readings})


if __name__ == "__main__":
    sys.exit(0 if main(sys.argv[1:]) else 1)
