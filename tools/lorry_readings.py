"""Other readings of document 02, wish 13, and document 004, 2.2.1 and 2.2.7.4, and the lorries that tell each from the
reckoner's.

A reading is its words with the names of `lorry` that it replaces. Readings that answer every lorry as the papers do stand in
EQUIVALENT, by the reason.
"""

from fractions import Fraction
from math import ceil, floor
from typing import NamedTuple

import lorry
import misread
from lorry import (DRIVER, REAR_SHARE, UNITS, band_of, extra_load, in_units, load_of, mass_at_limit, mass_without_load,
                   more_axle_mass, needs_none, rear_bears, rear_limit, reckon, refuse_rear, target_mass, two_axle_mass)
from lorry_groups import MORE, TWO
from misread import Single, half_down, half_to_even, reading, replaced, turned, with_sign
from reckon import Refused, rounded

paper = lorry.evaluate


class Lorry(NamedTuple):
    axles: int
    power: int
    front: int
    rear: int
    rear_max: int
    own: int


# What readings are made of.

def by_lorry(changes_of):
    """The reckoning with the names replaced that a function of the lorry gives."""
    def changed(*numbers):
        with reading(changes_of(Lorry(*numbers)), lorry):
            return reckon(*numbers)
    return changed


def by_stand_in(changes_of):
    """The mass of two axles with the names replaced that a function of its power, front, rear and rear_max gives."""
    def changed(*numbers):
        with reading(changes_of(*numbers), lorry):
            return two_axle_mass(*numbers)
    return changed


def lorry_first(change):
    """The papers' answer for a lorry that is changed first."""
    return lambda *numbers: reckon(*change(Lorry(*numbers)))


PARTS = {1: "kg", 4: "quarters", UNITS: "ten-thousandths"}


def in_bits(what, name, *rows):
    """Readings of a function whose mass, in parts of a kg, has so many bits, with a sign or without."""
    function = vars(lorry)[name]

    def by_bits(parts, bits, sign):
        lost = with_sign if sign else lambda number, bits: number % 2 ** bits
        return lambda *arguments: Fraction(lost(parts * function(*arguments), bits), parts)
    return replaced(name, *((f"{what} in {PARTS[parts]} by {bits} bits{' with a sign' * sign}", by_bits(parts, bits, sign))
                            for parts, bits, sign in rows))


ROUNDINGS = (("rounded down", floor), ("rounded up", ceil), ("a half up", rounded))
ALL_ROUNDINGS = (*ROUNDINGS, ("a half down", half_down), ("a half to the even number", half_to_even))


def in_roundings(what, name, changed, roundings=ROUNDINGS):
    """Readings that round to whole kg: `changed` makes the replacement from a rounding."""
    return replaced(name, *((f"{what} to whole kg, {words}", changed(rounding)) for words, rounding in roundings))


# The target.

def whole_kilowatts(rounding):
    return lambda power: target_mass(10 * rounding(Fraction(power, 10)))


TARGETS = replaced(
    "PER_KILOWATT", ("5 kg per kW", 5), ("49 kg per kW", 49), ("75 kg per kW", 75), ("100 kg per kW", 100),
) + replaced(
    "target_mass",
    ("the power in whole kW", lambda power: target_mass(10 * power)),
    ("the power in hundredths of a kW", lambda power: target_mass(power) / 10),
    *((f"the power to whole kW, {words}", whole_kilowatts(rounding)) for words, rounding in ALL_ROUNDINGS),
    ("the target without the driver", lambda power: target_mass(power) + DRIVER),
    ("no target without power", lambda power: target_mass(power or 2 ** 16)),
    ("the target at most 65,535", lambda power: min(target_mass(power), Fraction(2 ** 16 - 1))),
) + in_bits(
    "the target", "target_mass", (1, 16, False), (1, 16, True), (1, 17, False), (1, 18, False), (1, 19, False),
    (4, 20, False), (UNITS, 31, False), (UNITS, 32, False), (UNITS, 32, True),
)


# 75% of the rear axle's maximum.

LIMITS = replaced(
    "REAR_SHARE", ("a quarter of the maximum", Fraction(1, 4)), ("half of the maximum", Fraction(1, 2)),
    ("70% of the maximum", Fraction(7, 10)), ("80% of the maximum", Fraction(4, 5)), ("the whole maximum", Fraction(1)),
) + replaced(
    "rear_limit",
    ("three times a quarter in whole kg", lambda rear_max: Fraction(rear_max // 4 * 3)),
    ("the maximum less a quarter in whole kg", lambda rear_max: Fraction(rear_max - rear_max // 4)),
    ("75 times a hundredth in whole kg", lambda rear_max: Fraction(rear_max // 100 * 75)),
    ("75% to half kilograms, rounded down", lambda rear_max: Fraction(floor(2 * rear_limit(rear_max)), 2)),
    ("75% to tenths of a kg, a half up", lambda rear_max: Fraction(rounded(10 * rear_limit(rear_max)), 10)),
    ("75 times the maximum by 16 bits", lambda rear_max: Fraction(75 * rear_max % 2 ** 16, 100)),
    ("3 times the maximum by 16 bits", lambda rear_max: Fraction(3 * rear_max % 2 ** 16, 4)),
    ("3 times the maximum by 16 bits with a sign", lambda rear_max: Fraction(with_sign(3 * rear_max), 4)),
    ("3 times the maximum by 17 bits", lambda rear_max: Fraction(3 * rear_max % 2 ** 17, 4)),
    ("7,500 times the maximum by 31 bits", lambda rear_max: Fraction(7500 * rear_max % 2 ** 31, UNITS)),
) + in_roundings(
    "75%", "rear_limit", lambda rounding: lambda rear_max: rounding(rear_limit(rear_max)), ALL_ROUNDINGS,
) + in_roundings(
    "75% in the refusal only", "refuse_rear", lambda rounding: lambda rear, limit: refuse_rear(rear, rounding(limit)),
) + in_roundings(
    "75% in the comparison only", "rear_bears",
    lambda rounding: lambda extra, rear, limit: rear_bears(extra, rear, rounding(limit)),
) + in_roundings(
    "75% in the mass only", "mass_at_limit", lambda rounding: lambda front, limit: mass_at_limit(front, rounding(limit)),
)


# Refusal 21: which rear axles.

def refused_if(test, number=21, place=0):
    """The refusal by a test of the unladen rear axle and the 75%."""
    def refuse(rear, limit):
        if test(rear, limit):
            raise Refused(number, place)
    return refuse


def is_over(rear, limit):
    return rear > limit


REFUSALS = replaced(
    "refuse_rear",
    ("21 at 75% too", refused_if(lambda rear, limit: rear >= limit)),
    ("21 from a kg above 75%", refused_if(lambda rear, limit: rear >= limit + 1)),
    ("21 not asked", refused_if(lambda rear, limit: False)),
    ("21 by the whole maximum", refused_if(lambda rear, limit: REAR_SHARE * rear > limit)),
    ("21 with the driver on the rear axle", refused_if(lambda rear, limit: rear + DRIVER > limit)),
    ("21 without a maximum", refused_if(lambda rear, limit: limit == 0 or rear > limit)),
    ("no 21 without a maximum", refused_if(lambda rear, limit: limit > 0 and rear > limit)),
    ("21 by 4 times the rear axle in 16 bits", refused_if(lambda rear, limit: 4 * rear % 2 ** 16 > 4 * limit)),
    ("21 by 100 times the rear axle in 16 bits", refused_if(lambda rear, limit: 100 * rear % 2 ** 16 > 100 * limit)),
    ("21 by both sides in 16 bits", refused_if(lambda rear, limit: 4 * rear % 2 ** 16 > 4 * limit % 2 ** 16)),
    ("20 for 21", refused_if(is_over, number=20)),
    ("22 for 21", refused_if(is_over, number=22)),
    ("21 at 1", refused_if(is_over, place=1)),
    ("21 at 2", refused_if(is_over, place=2)),
)


# Refusal 21: when it is asked, and of what else.

def extra_of(one):
    return extra_load(target_mass(one.power), one.front + one.rear)


def refused_too(test):
    """Refusal 21 before all else by a test of the lorry, too."""
    def changed(*numbers):
        if test(Lorry(*numbers)):
            raise Refused(21, 0)
        return reckon(*numbers)
    return changed


def not_asked_if(test):
    """Refusal 21 asked only of lorries that a test does not hold for."""
    return by_lorry(lambda one: {"refuse_rear": refused_if(lambda rear, limit: False)} if test(one) else {})


def is_own_above(one):
    """Whether the own mass is above the stand-in's, by which the lorry would have no load if 21 were not asked."""
    with reading({"refuse_rear": refused_if(lambda rear, limit: False)}, lorry):
        mass = two_axle_mass(one.power, one.front, one.rear, one.rear_max)
    return one.axles == MORE and extra_load(mass, one.own) < 0


ASKED = replaced(
    "reckon",
    ("21 after a negative extra", not_asked_if(lambda one: extra_of(one) < 0)),
    ("21 only if something is to be loaded", not_asked_if(lambda one: extra_of(one) <= 0)),
    ("no 21 without power", not_asked_if(lambda one: one.power == 0)),
    ("21 after the own mass", not_asked_if(is_own_above)),
    ("21 by the front axle too", refused_too(lambda one: one.front > rear_limit(one.rear_max))),
    ("21 by the unladen mass too", refused_too(lambda one: one.front + one.rear > rear_limit(one.rear_max))),
    ("21 by the extra too", refused_too(lambda one: extra_of(one) + one.rear > rear_limit(one.rear_max))),
    ("21 by a negative extra too", refused_too(lambda one: extra_of(one) < 0)),
    ("21 by the own mass too", refused_too(lambda one: one.own > rear_limit(one.rear_max))),
)


# The extra, of two axles and of more.

EXTRAS = replaced(
    "extra_load",
    ("the extra without the driver", lambda mass, unladen: mass - unladen),
    ("the extra with the driver added", lambda mass, unladen: mass + DRIVER - unladen),
    ("the extra without the unladen mass", lambda mass, unladen: mass - DRIVER),
    ("the extra never below 0", lambda mass, unladen: max(extra_load(mass, unladen), 0)),
    ("the extra without its sign", lambda mass, unladen: abs(extra_load(mass, unladen))),
) + in_roundings(
    "the extra", "extra_load", lambda rounding: lambda mass, unladen: rounding(extra_load(mass, unladen)),
) + in_bits(
    "the extra", "extra_load", (1, 16, False), (1, 16, True), (1, 19, True), (1, 20, True), (1, 32, False), (UNITS, 32, True),
) + replaced(
    "needs_none",
    ("nothing loaded at an extra of 0", lambda extra: extra <= 0),
    ("nothing loaded below an extra of 1 kg", lambda extra: extra < 1),
    ("nothing loaded from an extra of -1 kg down", lambda extra: extra <= -1),
    ("nothing loaded below an extra of -1 kg", lambda extra: extra < -1),
    ("nothing loaded below an extra of the driver", lambda extra: extra < DRIVER),
    ("nothing loaded if the unladen mass alone is above", lambda extra: extra < -DRIVER),
    ("the sign of the extra not asked", lambda extra: False),
    ("nothing ever loaded", lambda extra: True),
    ("the sign of the extra turned", lambda extra: extra > 0),
)
OF_TWO = replaced(
    "two_axle_mass",
    ("the extra without the front axle",
     by_stand_in(lambda power, front, rear, rear_max: {"extra_load": lambda mass, unladen: extra_load(mass, rear)})),
    ("the extra without the rear axle",
     by_stand_in(lambda power, front, rear, rear_max: {"extra_load": lambda mass, unladen: extra_load(mass, front)})),
    ("the extra from the unladen mass by 16 bits",
     by_stand_in(lambda *_: {"extra_load": lambda mass, unladen: extra_load(mass, unladen % 2 ** 16)})),
    ("the extra from the unladen mass and the driver by 16 bits",
     by_stand_in(lambda *_: {"extra_load": lambda mass, unladen: mass - (unladen + DRIVER) % 2 ** 16})),
)


# Whether the rear axle bears the extra, and the masses.

def limit_first(power, front, rear, rear_max):
    """The 75% asked before the sign of the extra, which then counts only where the rear axle bears it."""
    return {"needs_none": lambda extra: rear_bears(extra, rear, rear_limit(rear_max)) and needs_none(extra)}


def target_first(power, front, rear, rear_max):
    """The target wherever the rear axle bears the extra, also a negative one."""
    return {"needs_none": lambda extra: not rear_bears(extra, rear, rear_limit(rear_max)) and needs_none(extra)}


def nearest_load(power, front, rear, rear_max):
    """The load nearest to the extra from nothing to what the rear axle bears."""
    limit = rear_limit(rear_max)
    refuse_rear(rear, limit)
    return front + rear + DRIVER + min(max(extra_load(target_mass(power), front + rear), 0), limit - rear)


def at_limit(change):
    """The mass at 75% from the front and the rear axle, and the 75%."""
    return by_stand_in(lambda power, front, rear, rear_max: {"mass_at_limit": lambda _, limit: change(front, rear, limit)})


MASSES = replaced(
    "rear_bears",
    ("the extra and the rear axle below 75%", lambda extra, rear, limit: extra + rear < limit),
    ("the extra and the rear axle up to a kg above 75%", lambda extra, rear, limit: extra + rear <= limit + 1),
    ("the extra and the rear axle up to a kg below 75%", lambda extra, rear, limit: extra + rear <= limit - 1),
    ("the extra alone up to 75%", lambda extra, rear, limit: extra <= limit),
    ("the driver on the rear axle", lambda extra, rear, limit: extra + rear + DRIVER <= limit),
    ("the extra and the rear axle up to the maximum", lambda extra, rear, limit: REAR_SHARE * (extra + rear) <= limit),
    ("the rear axle bears any extra", lambda extra, rear, limit: True),
    ("the rear axle bears no extra", lambda extra, rear, limit: False),
    ("the extra and the rear axle by 16 bits", lambda extra, rear, limit: (extra + rear) % 2 ** 16 <= limit),
    ("the extra and the rear axle by 16 bits with a sign", lambda extra, rear, limit: with_sign(extra + rear) <= limit),
    ("4 times the extra and the rear axle by 16 bits", lambda extra, rear, limit: 4 * (extra + rear) % 2 ** 16 <= 4 * limit),
) + replaced(
    "mass_at_limit",
    ("75% without the driver", lambda front, limit: limit + front),
    ("75% without the front axle", lambda front, limit: limit + DRIVER),
    ("75% alone", lambda front, limit: limit),
    ("the maximum with the driver and the front axle", lambda front, limit: limit / REAR_SHARE + DRIVER + front),
) + in_bits("75%, driver and front axle", "mass_at_limit", (1, 16, False), (4, 16, False)) + replaced(
    "mass_without_load",
    ("no driver without a load", lambda unladen: unladen),
    ("two drivers without a load", lambda unladen: unladen + 2 * DRIVER),
    ("the unladen mass and the driver by 16 bits", lambda unladen: (unladen + DRIVER) % 2 ** 16),
    ("the unladen mass and the driver at most 65,535", lambda unladen: min(unladen + DRIVER, 2 ** 16 - 1)),
)
OF_TWO += replaced(
    "two_axle_mass",
    ("75% before the sign of the extra", by_stand_in(limit_first)),
    ("the target before the sign of the extra", by_stand_in(target_first)),
    ("the load nearest to the extra", nearest_load),
    ("the target at most", lambda *stand_in: min(two_axle_mass(*stand_in), target_mass(stand_in[0]))),
    ("the target at least", lambda *stand_in: max(two_axle_mass(*stand_in), target_mass(stand_in[0]))),
    ("75% with the rear axle too", at_limit(lambda front, rear, limit: limit + DRIVER + front + rear)),
    ("75% with the rear axle for the front axle", at_limit(lambda front, rear, limit: limit + DRIVER + rear)),
)


# More axles.

def own_if(test):
    """The own mass by a test of the lorry and of the stand-in's mass."""
    return by_lorry(lambda one: {"more_axle_mass": lambda mass, own: mass_without_load(own) if test(one, mass) else mass})


MORE_AXLES = replaced(
    "more_axle_mass",
    ("always the stand-in's mass", lambda mass, own: mass),
    ("always the own mass", lambda mass, own: mass_without_load(own)),
    ("the heavier mass", lambda mass, own: max(mass, mass_without_load(own))),
    ("the lighter mass", lambda mass, own: min(mass, mass_without_load(own))),
    ("the own mass compared without the driver", lambda mass, own: mass_without_load(own) if own > mass else mass),
    ("the own mass taken without the driver", lambda mass, own: own if extra_load(mass, own) < 0 else mass),
    ("the driver added to the stand-in's mass", lambda mass, own: more_axle_mass(mass + DRIVER, own)),
    ("the own mass and the driver by 16 bits", lambda mass, own: max(mass, (own + DRIVER) % 2 ** 16)),
    ("the stand-in's mass by 16 bits", lambda mass, own: more_axle_mass(mass % 2 ** 16, own)),
) + in_roundings(
    "the stand-in's mass", "more_axle_mass",
    lambda rounding: lambda mass, own: more_axle_mass(rounding(mass), own), ALL_ROUNDINGS,
) + in_roundings(
    "the stand-in's mass in the comparison only", "more_axle_mass",
    lambda rounding: lambda mass, own: mass_without_load(own) if extra_load(rounding(mass), own) < 0 else mass,
) + replaced(
    "reckon",
    ("the own mass against the target", own_if(lambda one, mass: extra_load(target_mass(one.power), one.own) < 0)),
    ("the own mass against the stand-in's unladen one", own_if(lambda one, mass: one.own > one.front + one.rear)),
    ("the own mass against 75%", own_if(lambda one, mass: one.own > rear_limit(one.rear_max))),
    ("the own mass if the stand-in has no load, too",
     own_if(lambda one, mass: extra_load(mass, one.own) < 0 or extra_load(mass, one.front + one.rear) == 0)),
    ("the own mass with the stand-in's load",
     by_lorry(lambda one: {"more_axle_mass": lambda mass, own: mass - one.front - one.rear + own})),
    ("the own mass in the stand-in's extra", by_lorry(
        lambda one: {"extra_load": lambda mass, unladen: extra_load(mass, one.own if one.axles == MORE else unladen)})),
    ("more axles as two", lorry_first(lambda one: one._replace(axles=TWO))),
    ("two axles as more without an own mass", lorry_first(lambda one: one._replace(axles=MORE))),
    ("two axles as more with their own mass", lorry_first(
        lambda one: one if one.axles == MORE else one._replace(axles=MORE, own=one.front + one.rear))),
    ("an own mass of 0 is none", lorry_first(lambda one: one if one.own else one._replace(axles=TWO))),
)


# The load.

def load_by(change):
    """The load by a function of the lorry, its test mass and its unladen mass."""
    return by_lorry(lambda one: {"load_of": lambda mass, unladen: change(one, mass, unladen)})


LOADS = replaced(
    "load_of",
    ("the load with the driver", lambda mass, unladen: mass - unladen),
    ("the load with the unladen mass", lambda mass, unladen: mass - DRIVER),
    ("the mass for the load", lambda mass, unladen: mass),
    ("the load never below 0", lambda mass, unladen: max(load_of(mass, unladen), 0)),
    ("no load", lambda mass, unladen: 0),
) + in_roundings(
    "the load", "load_of", lambda rounding: lambda mass, unladen: rounding(load_of(mass, unladen)), ALL_ROUNDINGS,
) + in_bits("the load", "load_of", (1, 16, False), (4, 16, False), (UNITS, 31, False)) + replaced(
    "reckon",
    ("the load above the stand-in's unladen mass", load_by(lambda one, mass, unladen: load_of(mass, one.front + one.rear))),
    ("the load above the rear axle alone", load_by(lambda one, mass, unladen: load_of(mass, one.rear))),
    ("the load with what the rear axle has", load_by(lambda one, mass, unladen: load_of(mass, unladen) + one.rear)),
    ("the extra for the load", load_by(lambda one, mass, unladen: extra_load(target_mass(one.power), unladen))),
    ("a positive extra for the load", load_by(lambda one, mass, unladen: max(extra_load(target_mass(one.power), unladen), 0))),
)


# The band.

def ends_by(lowest, highest):
    """Each end of the band changed."""
    return lambda mass: [change(end) for change, end in zip((lowest, highest), band_of(mass))]


def by_products(lost):
    """Each end as a hundredth of a product in ten-thousandths of a kg that loses bits."""
    return lambda mass: [Fraction(lost(percent * in_units(mass)) // 100, UNITS) for percent in (95, 105)]


def by_floats(kind):
    """Each end by floats of a kind, in kg, the fraction of a ten-thousandth dropped."""
    return lambda mass: [Fraction(floor(float(kind(share) * kind(float(mass)) * kind(UNITS))), UNITS) for share in (0.95, 1.05)]


def band_by(change):
    """The band by a function of the lorry and its test mass."""
    return by_lorry(lambda one: {"band_of": lambda mass: change(one, mass)})


def not_below_unloaded(*numbers):
    mass, load, lowest, highest = reckon(*numbers)
    return mass, load, max(lowest, mass - load), highest


BANDS = replaced(
    "BAND", *((f"a band from {lowest}% to {highest}%", (Fraction(lowest, 100), Fraction(highest, 100))) for lowest, highest in (
        (90, 110), (95, 100), (100, 105), (105, 95), (90, 120))),
) + replaced(
    "band_of",
    ("a band of 5 kg", lambda mass: [mass - 5, mass + 5]),
    ("a band of 5% without the driver", lambda mass: [end + DRIVER for end in band_of(mass - DRIVER)]),
    ("5% for both ends of the band", lambda mass: [mass / 20, mass / 20]),
    ("the band to whole kg, inwards", ends_by(ceil, floor)),
    ("the band to whole kg, outwards", ends_by(floor, ceil)),
    ("the band of whole kg of the mass", lambda mass: band_of(floor(mass))),
    ("the band by products of 32 bits", by_products(lambda number: number % 2 ** 32)),
    ("the band by products of 32 bits with a sign", by_products(lambda number: with_sign(number, 32))),
    ("the band by products of 64 bits", by_products(lambda number: number % 2 ** 64)),
    ("the band by 32-bit floats", by_floats(Single)),
    ("the band by 64-bit floats", by_floats(float)),
) + in_roundings("the band", "band_of", lambda rounding: ends_by(rounding, rounding)) + replaced(
    "reckon",
    ("the band of the target", band_by(lambda one, mass: band_of(target_mass(one.power)))),
    ("no band above the target", band_by(lambda one, mass: [mass, mass] if mass > target_mass(one.power) else band_of(mass))),
    ("no band below the target", band_by(lambda one, mass: [mass, mass] if mass < target_mass(one.power) else band_of(mass))),
    ("the band not below the mass without a load", not_below_unloaded),
)


# The results, and the driver.

def load_first(*numbers):
    mass, load, *ends = reckon(*numbers)
    return load, mass, *ends


RESULTS = replaced(
    "UNITS", ("results in kg", 1), ("results in thousandths", 1000), ("results in hundred-thousandths", 100000),
) + in_roundings("the results", "in_units", lambda rounding: lambda mass: UNITS * rounding(mass)) + replaced(
    "in_units",
    ("the results by 16 bits", lambda mass: in_units(mass) % 2 ** 16),
    ("the results by 30 bits", lambda mass: in_units(mass) % 2 ** 30),
    ("the results by 32 bits with a sign", lambda mass: with_sign(in_units(mass), 32)),
    ("the results by 32-bit floats", lambda mass: floor(float(Single(float(mass)) * Single(UNITS)))),
) + replaced("reckon", ("the load before the mass", load_first)) + replaced(
    "DRIVER", ("no driver", 0), ("a driver of 70 kg", 70), ("a driver of 80 kg", 80),
)


# The numbers of a lorry.

def field_first(name, change):
    return lorry_first(lambda one: one._replace(**{name: change(getattr(one, name))}))


def swapped(one, other):
    return lorry_first(lambda numbers: numbers._replace(**{one: getattr(numbers, other), other: getattr(numbers, one)}))


FIELDS = replaced(
    "reckon",
    *((f"{name} {words}", field_first(name, change)) for name in Lorry._fields[1:] for words, change in (
        ("by 15 bits", lambda number: number % 2 ** 15), ("with a sign", with_sign), ("with its high byte first", turned))),
    *((f"{one} and {other} swapped", swapped(one, other)) for one, other in (
        ("power", "front"), ("front", "rear"), ("rear", "rear_max"), ("front", "rear_max"), ("rear_max", "own"))),
)


# Some readings once more, each for one kind of lorry.

def of_kind(axles, changes):
    def evaluate(*numbers):
        with reading(changes if numbers[0] == axles else {}, lorry):
            return paper(*numbers)
    return {"evaluate": evaluate}


FOR_ONE_KIND = (
    "21 at 75% too", "21 from a kg above 75%", "21 not asked", "21 after a negative extra",
    "the extra without the driver", "the extra with the driver added", "the extra without the unladen mass",
    "the extra never below 0", "the extra without its sign",
)
BY_WORDS = dict(REFUSALS + ASKED + EXTRAS)
EACH_KIND = [(f"{words}, {name} axles only", of_kind(axles, BY_WORDS[words]))
             for words in FOR_ONE_KIND for axles, name in ((TWO, "two"), (MORE, "more"))]

READINGS = (TARGETS + LIMITS + REFUSALS + ASKED + EXTRAS + OF_TWO + MASSES + MORE_AXLES + LOADS + BANDS + RESULTS + FIELDS
            + EACH_KIND)

# Readings that give the same answer on every lorry, by the reason.
EQUIVALENT = {
    "no target is above 327,675 kg, and no 75% above 49,151.25 kg": [
        "the target in kg by 19 bits", "the target in ten-thousandths by 32 bits", "7,500 times the maximum by 31 bits"],
    "no extra is as far as 2^19 kg from 0": ["the extra in kg by 20 bits with a sign"],
    "no result is negative or as high as 2^31, and 105 times one is below 2^64": [
        "the load never below 0", "the load in ten-thousandths by 31 bits", "the results by 32 bits with a sign",
        "the band by products of 64 bits"],
    "what is compared with the 75%, or with the stand-in's mass, is whole": [
        "75% in the refusal only to whole kg, rounded down", "75% in the comparison only to whole kg, rounded down",
        "the extra to whole kg, rounded down", "the stand-in's mass in the comparison only to whole kg, rounded down"],
    "at an extra of 0, and at the 75%, both masses are the same": [
        "nothing loaded at an extra of 0", "the extra and the rear axle below 75%"],
    "a rear axle that is not refused bears a negative extra": ["75% before the sign of the extra"],
    "the papers' cases are those of the load between its two ends": ["the load nearest to the extra"],
    "an extra is negative if and only if the mass without a load is the heavier one": ["the heavier mass"],
    "two axles never have less than their unladen mass and the driver": ["two axles as more with their own mass"],
}


def tell_apart(lorries):
    return misread.tell_apart(lorry, READINGS, EQUIVALENT, lorries, "lorries")
