#!/usr/bin/env python3
"""Separate reckoning of the test mass of lorries, written from document 02, wish 13, and document 004, 2.2.1 and 2.2.7.4, alone.

    python3 tools/lorry.py POWER FRONT REAR REAR_MAX [OWN]    prints the line of a lorry
    python3 tools/lorry.py --write DIR                        writes data/lorries.bin and stdout
    python3 tools/lorry.py --check DIR                        fails unless DIR holds what --write would write
    python3 tools/lorry.py --spread                           the answers of each group, and the edges; fails if one is thin
    python3 tools/lorry.py --readings                         how many lorries tell each other reading of the papers apart

DIR is crates/test_masses. A lorry is 16-bit numbers: POWER in tenths of a kW and, in whole kg, the unladen loads FRONT and REAR
of its axles and the rear axle's maximum REAR_MAX. With its own unladen mass OWN it has more than two axles, and the others are
those of its two-axle stand-in. A line is `OK`, the test mass, the load and the two ends of the band, in ten-thousandths of a kg;
or `REFUSED`, the refusal's number and its place.

A file of lorries has 12 bytes for each: 2 for two axles or 3 for more, POWER, FRONT, REAR, REAR_MAX and OWN, which is 0 for two
axles, in two bytes each, low byte first.
"""

import os
import sys
from collections import Counter
from fractions import Fraction

from corpus import LEAST_OF_EACH, LINES, command, example_inputs, print_groups, print_line
from lorry_groups import GROUPS, MORE, TWO
from make import of_groups
from reckon import Refused

PER_KILOWATT = 50  # kg of the target
DRIVER = 75  # kg
REAR_SHARE = Fraction(75, 100)  # of the rear axle's maximum
BAND = Fraction(95, 100), Fraction(105, 100)  # of the test mass
UNITS = 10000  # of the results, in a kg


# The evaluation. Masses are in kg, and exact.

def target_mass(power):
    return PER_KILOWATT * Fraction(power, 10)


def rear_limit(rear_max):
    return REAR_SHARE * rear_max


def refuse_rear(rear, limit):
    """Refusal 21: the rear axle has too much on it before anything is loaded."""
    if rear > limit:
        raise Refused(21, 0)


def extra_load(mass, unladen):
    """What an unladen lorry and its driver need to come to a mass; negative if they are above it."""
    return mass - DRIVER - unladen


def needs_none(extra):
    return extra < 0


def rear_bears(extra, rear, limit):
    return extra + rear <= limit


def mass_without_load(unladen):
    return unladen + DRIVER


def mass_at_limit(front, limit):
    """The mass once the rear axle has on it all that it may have."""
    return limit + DRIVER + front


def two_axle_mass(power, front, rear, rear_max):
    limit = rear_limit(rear_max)
    refuse_rear(rear, limit)
    target = target_mass(power)
    extra = extra_load(target, front + rear)
    if needs_none(extra):
        return mass_without_load(front + rear)
    return target if rear_bears(extra, rear, limit) else mass_at_limit(front, limit)


def more_axle_mass(stand_in_mass, own):
    """The mass of a lorry of more axles, from that of its two-axle stand-in."""
    return mass_without_load(own) if needs_none(extra_load(stand_in_mass, own)) else stand_in_mass


def load_of(mass, unladen):
    return mass - DRIVER - unladen


def band_of(mass):
    return [share * mass for share in BAND]


def reckon(axles, power, front, rear, rear_max, own):
    """The test mass, the load and the two ends of the band, in kg; raises Refused otherwise."""
    mass, unladen = two_axle_mass(power, front, rear, rear_max), front + rear
    if axles == MORE:
        mass, unladen = more_axle_mass(mass, own), own
    return mass, load_of(mass, unladen), *band_of(mass)


def in_units(mass):
    """A mass in ten-thousandths of a kg. Nothing is rounded, so that it has to be whole."""
    units = UNITS * mass
    if units.denominator != 1:
        raise ValueError(f"{mass} kg is no whole number of ten-thousandths")
    return int(units)


def evaluate(*lorry):
    """('OK', mass, load, lowest, highest) or ('REFUSED', number, place)."""
    try:
        return "OK", *(in_units(mass) for mass in reckon(*lorry))
    except Refused as refusal:
        return "REFUSED", refusal.number, refusal.place


def line(*lorry):
    return " ".join(str(part) for part in evaluate(*lorry))


# Examples.

# The lorry as on the command line, and what it should give.
EXAMPLES = (
    # up to the target
    ("2000 4000 3000 11500", "OK 100000000 29250000 95000000 105000000"),
    # up to 75% of the rear axle's maximum: 8,625 kg, and 8,625.75 kg
    ("3000 4000 3000 11500", "OK 127000000 56250000 120650000 133350000"),
    ("3000 4000 3000 11501", "OK 127007500 56257500 120657125 133357875"),
    ("3000 4000 3000 11502", "OK 127015000 56265000 120664250 133365750"),
    ("3000 4000 3000 11503", "OK 127022500 56272500 120671375 133373625"),
    # no load
    ("1000 4000 3000 11500", "OK 70750000 0 67212500 74287500"),
    ("0 4000 3000 11500", "OK 70750000 0 67212500 74287500"),
    # an extra of -5, 0 and 5 kg
    ("1414 4000 3000 11500", "OK 70750000 0 67212500 74287500"),
    ("1415 4000 3000 11500", "OK 70750000 0 67212500 74287500"),
    ("1416 4000 3000 11500", "OK 70800000 50000 67260000 74340000"),
    # an extra that fills the rear axle, and 5 kg more
    ("2540 4000 3000 11500", "OK 127000000 56250000 120650000 133350000"),
    ("2541 4000 3000 11500", "OK 127000000 56250000 120650000 133350000"),
    # the unladen rear axle at 75% of the maximum and above it: 8,625, 8,625.75 and 8,624.25 kg
    ("3000 4000 8625 11500", "OK 127000000 0 120650000 133350000"),
    ("3000 4000 8625 11501", "OK 127007500 7500 120657125 133357875"),
    ("3000 4000 8625 11499", "REFUSED 21 0"),
    ("3000 4000 8626 11500", "REFUSED 21 0"),
    ("0 4000 8626 11500", "REFUSED 21 0"),
    # more axles: the stand-in's mass, and its own one without a load
    ("3000 4000 3000 11500 9000", "OK 127000000 36250000 120650000 133350000"),
    ("3000 4000 3000 11500 0", "OK 127000000 126250000 120650000 133350000"),
    ("3000 4000 3000 11500 12625", "OK 127000000 0 120650000 133350000"),
    ("3000 4000 3000 11500 12626", "OK 127010000 0 120659500 133360500"),
    ("3000 4000 3000 11501 12625", "OK 127007500 7500 120657125 133357875"),
    ("3000 4000 3000 11501 12626", "OK 127010000 0 120659500 133360500"),
    ("2000 4000 3000 11500 9000", "OK 100000000 9250000 95000000 105000000"),
    ("1000 4000 3000 11500 6999", "OK 70750000 10000 67212500 74287500"),
    ("1000 4000 3000 11500 7001", "OK 70760000 0 67222000 74298000"),
    ("3000 4000 8626 11500 9000", "REFUSED 21 0"),
    ("0 4000 8626 11500 65535", "REFUSED 21 0"),
    # the ends of 16 bits
    ("0 0 0 0", "OK 750000 0 712500 787500"),
    ("0 0 0 0 0", "OK 750000 0 712500 787500"),
    ("15 0 0 0", "OK 750000 0 712500 787500"),
    ("65535 0 0 0", "OK 750000 0 712500 787500"),
    ("0 65535 49151 65535", "OK 1147610000 0 1090229500 1204990500"),
    ("65535 65535 0 65535", "OK 1147612500 491512500 1090231875 1204993125"),
    ("65535 65535 65535 65535", "REFUSED 21 0"),
    ("65535 0 1 0", "REFUSED 21 0"),
    ("65535 0 0 0 65535", "OK 656100000 0 623295000 688905000"),
    ("65535 65535 0 65535 65535", "OK 1147612500 491512500 1090231875 1204993125"),
)


def lorry_of(power, front, rear, rear_max, own=None):
    """A lorry from the numbers of the command line."""
    return (TWO, power, front, rear, rear_max, 0) if own is None else (MORE, power, front, rear, rear_max, own)


# The lorries and their lines.

LORRIES = os.path.join("data", "lorries.bin")
SEED = 13


def all_lorries():
    """Each lorry with the name of its group."""
    yield from (("examples", one) for one in example_inputs(EXAMPLES, lorry_of, line))
    yield from of_groups(GROUPS, SEED)


def packed(lorry):
    return b"".join(number.to_bytes(2, "little") for number in lorry)


def made():
    """Each file of the crate, with its bytes."""
    lorries = [one for _, one in all_lorries()]
    return {LORRIES: b"".join(packed(one) for one in lorries), LINES: "".join(line(*one) + "\n" for one in lorries).encode()}


# The spread.

KINDS = {TWO: "two", MORE: "more"}
CASES = NO_LOAD, TARGET, AT_LIMIT = "no load", "target", "75%"
ANSWERS = (*(f"two: {answer}" for answer in ("21", *CASES)),
           *(f"more: {answer}" for answer in ("21", *CASES, *(f"{case}, own" for case in CASES))))

QUARTERS = [Fraction(quarters, 4) for quarters in range(-4, 5)]
WHOLE = [Fraction(step) for step in (-1, 0, 1)]
# By how many kg a lorry may be beside each edge; only 75% of a maximum has a fraction.
EDGES = {
    **{f"{kind}: {edge}": steps for kind in KINDS.values() for edge, steps in (
        ("rear - 75%", QUARTERS), ("extra", WHOLE), ("extra + rear - 75%", QUARTERS))},
    **{f"more: {case} - 75 - own": steps for case, steps in zip(CASES, (WHOLE, WHOLE, QUARTERS))},
}


def case_of(mass, target):
    """How a two-axle test mass came about: above the target nothing is loaded, below it the rear axle bears no more."""
    return NO_LOAD if mass > target else TARGET if mass == target else AT_LIMIT


def answer_of(axles, power, front, rear, rear_max, own):
    """An answer by its name in the spread: the stand-in's case, and `own` if the lorry itself is heavier with its driver."""
    try:
        mass = two_axle_mass(power, front, rear, rear_max)
    except Refused as refusal:
        return f"{KINDS[axles]}: {refusal.number}"
    is_own = axles == MORE and more_axle_mass(mass, own) > mass
    return f"{KINDS[axles]}: {case_of(mass, target_mass(power))}{', own' if is_own else ''}"


def distances(axles, power, front, rear, rear_max, own):
    """How far a lorry is from each edge that its evaluation comes to, in kg."""
    kind, target, limit = KINDS[axles], target_mass(power), rear_limit(rear_max)
    yield f"{kind}: rear - 75%", rear - limit
    if rear > limit:
        return
    extra = extra_load(target, front + rear)
    yield f"{kind}: extra", extra
    if extra >= 0:
        yield f"{kind}: extra + rear - 75%", extra + rear - limit
    if axles == MORE:
        mass = two_axle_mass(power, front, rear, rear_max)
        yield f"{kind}: {case_of(mass, target)} - 75 - own", extra_load(mass, own)


def check_edges(lorries):
    """Prints how many lorries are at each edge and beside it; returns whether they are enough."""
    found = Counter(at for lorry in lorries for at in distances(*lorry))
    for edge, steps in EDGES.items():
        print(f"{edge:<28}" + ", ".join(f"{float(step):g} kg {found[edge, step]}" for step in steps))
    return all(found[edge, step] >= LEAST_OF_EACH for edge, steps in EDGES.items() for step in steps)


def spread():
    """Prints the spread; returns whether each answer and each edge comes up often enough."""
    lorries = list(all_lorries())
    totals = print_groups([(name, answer_of(*one)) for name, one in lorries], ANSWERS)
    edges = check_edges([one for _, one in lorries])
    return edges and set(totals) == set(ANSWERS) and min(totals.values()) >= LEAST_OF_EACH


def readings():
    from lorry_readings import tell_apart  # it replaces names of this module, which it imports by its own name
    return tell_apart([one for _, one in all_lorries()])


def main(arguments):
    if len(arguments) in (4, 5):
        return print_line(arguments, lambda *numbers: line(*lorry_of(*numbers)))
    return command(arguments, __doc__, made, {"--spread": spread, "--readings": readings})


if __name__ == "__main__":
    sys.exit(0 if main(sys.argv[1:]) else 1)
