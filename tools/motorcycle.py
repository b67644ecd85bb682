#!/usr/bin/env python3
"""Separate reckoning of motorcycles, written from document 02, wish 14, and document 003, annex 3, 1.5, alone.

    python3 tools/motorcycle.py LEVEL LEVEL LEVEL LEVEL LIMIT    prints the line of four levels, 1 and 2 left, 3 and 4 right
    python3 tools/motorcycle.py --write DIR                      writes data/levels.bin and stdout
    python3 tools/motorcycle.py --check DIR                      fails unless DIR holds what --write would write
    python3 tools/motorcycle.py --spread                         the answers of each group; fails if one is thin
    python3 tools/motorcycle.py --readings                       how many fours tell each other reading of the papers apart

DIR is crates/four_levels. A LEVEL is a number, taken as the nearest 32-bit float; nan, inf or -inf; or a pattern such as
0x42a00000. The LIMIT is in whole dB. A line is `OK`, the mean in quarters of a dB and 1 for pass or 0 for fail; or
`REFUSED`, the refusal's number and its place.

A file of fours has 18 bytes for each: the patterns of the levels in four bytes each and the limit in two, low byte first.
"""

import os
import sys
from fractions import Fraction

from corpus import LEAST_OF_EACH, LINES, command, print_groups
from make import of_groups
from motorcycle_groups import GROUPS, raised_by_one_float
from reckon import HIGHEST_LEVEL, LOWEST_LEVEL, Refused, float_value, level_tenths, rounded
from sheet import Unreadable, level_bytes

WIDEST_DIFFERENCE = 2  # whole dB
TAKEN_OFF = 1  # whole dB, from each level


# The evaluation. A value is that of a float, None if it is not finite.

def is_level(value):
    return value is not None and LOWEST_LEVEL <= value <= HIGHEST_LEVEL


def refuse_no_level(values):
    """Refusal 22: the lowest number of a float that is no level."""
    for at, value in enumerate(values, start=1):
        if not is_level(value):
            raise Refused(22, at)


def whole_decibels(value):
    """To tenths, as every level, and then to whole dB: a half goes up each time."""
    return rounded(Fraction(level_tenths(value), 10))


def refuse_sides(levels):
    """Refusal 23: the first side, 1 left and 2 right, whose two levels in whole dB differ too much."""
    for side, (first, second) in enumerate((levels[:2], levels[2:]), start=1):
        if abs(first - second) > WIDEST_DIFFERENCE:
            raise Refused(23, side)


def mean_quarters(levels):
    """A quarter of the sum, in quarters, is the sum."""
    return sum(level - TAKEN_OFF for level in levels)


def is_pass(mean, limit):
    return mean <= 4 * limit


def reckon(floats, limit):
    """The mean in quarters of a dB and whether it passes; raises Refused otherwise."""
    values = [float_value(four) for four in floats]
    refuse_no_level(values)
    levels = [whole_decibels(value) for value in values]
    refuse_sides(levels)
    mean = mean_quarters(levels)
    return mean, is_pass(mean, limit)


def evaluate(floats, limit):
    """('OK', mean, 1 or 0) or ('REFUSED', number, place)."""
    try:
        mean, passes = reckon(floats, limit)
        return "OK", mean, int(passes)
    except Refused as refusal:
        return "REFUSED", refusal.number, refusal.place


def line(floats, limit):
    return " ".join(str(part) for part in evaluate(floats, limit))


# Examples.

NAMED = {"nan": 0x7FC00000, "inf": 0x7F800000, "-inf": 0xFF800000}

# Levels, limit, and the answer of the papers.
EXAMPLES = (
    ("80.0 81.0 80.0 80.0", 80, "OK 317 1"),
    ("80.0 81.0 80.0 80.0", 79, "OK 317 0"),
    # rounded to tenths and then to whole dB: 72.46 is 73, and 72.45, which no float is, lies between the two after it
    ("72.46 72.0 72.0 72.0", 71, "OK 285 0"),
    ("72.46 72.0 72.0 72.0", 72, "OK 285 1"),
    ("72.45 72.0 72.0 72.0", 71, "OK 284 1"),
    ("0x4290e667 72.0 72.0 72.0", 71, "OK 285 0"),
    ("72.0 72.0 72.0 72.0", 71, "OK 284 1"),
    ("72.0 72.0 72.0 72.0", 70, "OK 284 0"),
    ("80.0 80.0 19.999998 80.0", 80, "REFUSED 22 3"),
    ("20.0 20.0 20.0 20.0", 19, "OK 76 1"),
    ("20.0 20.0 20.0 20.0", 18, "OK 76 0"),
    ("140.0 140.0 140.0 140.0", 139, "OK 556 1"),
    ("140.0 140.0 140.0 140.0", 138, "OK 556 0"),
    ("0x430c0001 140.0 140.0 140.0", 139, "REFUSED 22 1"),
    ("140.0 140.0 140.0 0x430c0001", 139, "REFUSED 22 4"),
    ("80.0 inf 80.0 nan", 80, "REFUSED 22 2"),
    ("80.0 80.0 80.0 nan", 80, "REFUSED 22 4"),
    ("80.0 83.0 80.0 83.0", 80, "REFUSED 23 1"),
    ("80.0 82.0 80.0 83.0", 80, "REFUSED 23 2"),
    ("80.0 82.0 80.0 82.0", 80, "OK 320 1"),
    ("80.4 82.5 80.0 80.0", 80, "REFUSED 23 1"),
    ("80.4 82.4 80.0 80.0", 80, "OK 318 1"),
    ("80.0 82.4 80.0 82.5", 80, "REFUSED 23 2"),
    ("80.0 82.4 80.0 82.4", 80, "OK 320 1"),
    ("73.5 73.4 72.4 72.5", 72, "OK 288 1"),
    ("73.5 73.4 72.4 72.5", 71, "OK 288 0"),
    ("20.0 140.0 19.999998 80.0", 80, "REFUSED 22 3"),
    ("20.0 140.0 20.0 80.0", 80, "REFUSED 23 1"),
    ("80.0 81.0 80.0 80.0", 0, "OK 317 0"),
    ("80.0 81.0 80.0 80.0", 65535, "OK 317 1"),
)


def float_of(word):
    """The four bytes of a float, low byte first, from a word of the command line."""
    return NAMED[word].to_bytes(4, "little") if word in NAMED else level_bytes(word)


def example_fours():
    """The fours of the examples; fails if the papers and the reckoner differ."""
    fours = []
    for words, limit, paper in EXAMPLES:
        floats = tuple(float_of(word) for word in words.split())
        if line(floats, limit) != paper:
            raise SystemExit(f"{words}, limit {limit}: the papers have {paper}, the reckoner {line(floats, limit)}")
        fours.append((floats, limit))
    return fours


# The fours and their lines.

LEVELS = os.path.join("data", "levels.bin")
SEED = 14
ANSWERS = ("pass", "fail", "22 at 1", "22 at 2", "22 at 3", "22 at 4", "23 at 1", "23 at 2")


def all_fours():
    """Each four with the name of its group."""
    yield from (("examples", one) for one in example_fours())
    yield from of_groups(GROUPS, SEED)


def made():
    """Each file of the crate, with its bytes."""
    fours = [one for _, one in all_fours()]
    levels = b"".join(b"".join(floats) + limit.to_bytes(2, "little") for floats, limit in fours)
    return {LEVELS: levels, LINES: "".join(line(*one) + "\n" for one in fours).encode()}


def answer_of(one):
    """An answer by the name that it has in the spread."""
    word, number, at = evaluate(*one)
    return f"{number} at {at}" if word == "REFUSED" else "pass" if at else "fail"


def check_rising(fours):
    """Prints how many pairs rise; returns whether no mean falls where a level is raised by one float."""
    answers = [evaluate(*one) for one in fours]
    steps = [after[1] - before[1] for before, after in zip(answers[::2], answers[1::2]) if before[0] == after[0] == "OK"]
    risen, fallen = sum(step > 0 for step in steps), sum(step < 0 for step in steps)
    print(f"a level raised by one float: of {len(steps)} pairs with two means {risen} rise, {steps.count(0)} stay, {fallen} fall")
    return risen > 0 and fallen == 0


def spread():
    """Prints the spread; returns whether each answer comes up often enough, and no mean falls."""
    fours = list(all_fours())
    totals = print_groups([(name, answer_of(one)) for name, one in fours], ANSWERS)
    rising = check_rising([one for name, one in fours if name == raised_by_one_float.__name__])
    return rising and set(totals) == set(ANSWERS) and min(totals.values()) >= LEAST_OF_EACH


def readings():
    from motorcycle_readings import tell_apart  # it replaces names of this module, which it imports by its own name
    return tell_apart([one for _, one in all_fours()])


def print_line(words):
    """Prints the line of four levels and a limit in words, or what cannot be read."""
    *levels, limit = words
    try:
        floats = [float_of(word) for word in levels]
    except Unreadable as error:
        print(f"a level {error}", file=sys.stderr)
        return False
    if not limit.isdecimal() or int(limit) >= 2 ** 16:
        print("the limit is no 16-bit number", file=sys.stderr)
        return False
    print(line(floats, int(limit)))
    return True


def main(arguments):
    if len(arguments) == 5:
        return print_line(arguments)
    return command(arguments, __doc__, made, {"--spread": spread, "--readings": readings})


if __name__ == "__main__":
    sys.exit(0 if main(sys.argv[1:]) else 1)
