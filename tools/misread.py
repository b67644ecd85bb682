"""What other readings of the papers are made of. A reading is its words with the names of a reckoner that it replaces: of
`reckon`, unless another one is named."""

import inspect
import struct
from collections import Counter
from contextlib import contextmanager
from fractions import Fraction
from math import floor

import reckon

PAPER = dict(vars(reckon))
ENOUGH = 2


@contextmanager
def reading(changes, module=reckon):
    """The reckoner with some of its names replaced."""
    kept = {name: vars(module)[name] for name in changes}
    vars(module).update(changes)
    try:
        yield
    finally:
        vars(module).update(kept)


def edited(name, *parts):
    """A function of the reckoner with parts of its text replaced: old, new, old, new and so on."""
    text = inspect.getsource(PAPER[name])
    for old, new in zip(parts[::2], parts[1::2]):
        if text.count(old) != 1:
            raise ValueError(f"{name} has {text.count(old)} times {old}")
        text = text.replace(old, new)
    given = {}
    exec(text, vars(reckon), given)
    return {name: given[name]}


def by_edit(*rows):
    """Readings from rows of words, a function and what `edited` takes."""
    return [(words, edited(name, *parts)) for words, name, *parts in rows]


def simple(*rows):
    """Readings that replace one function: words, name, replacement."""
    return [(words, {name: replacement}) for words, name, replacement in rows]


def replaced(name, *rows):
    """Readings that replace one name: words, replacement."""
    return simple(*((words, name, replacement) for words, replacement in rows))


def before(name, change):
    """A function of the reckoner whose arguments are changed first."""
    return {name: lambda *arguments: PAPER[name](*change(*arguments))}


def for_kind(kind, changes):
    """A reading of the runs of one kind only: of their windows, and of the shortage of a gear without one."""
    def changed(name):
        def function(runs, vehicle, of, gear):
            if of != kind:
                return PAPER[name](runs, vehicle, of, gear)
            with reading({name: PAPER[name], **changes}):
                return vars(reckon)[name](runs, vehicle, of, gear)
        return function
    return {name: changed(name) for name in ("find_window", "shortage")}


def one_sided(run, vehicle, side):
    """A run and its vehicle with the level and the background of one side on both."""
    level, background = getattr(run, side), getattr(vehicle.background, side)
    return run._replace(left=level, right=level), vehicle._replace(background=reckon.Sides(background, background))


def for_side(side, changes):
    """A reading of the levels on one side only."""
    other = "right" if side == "left" else "left"
    def valid_run(run, vehicle):
        with reading(changes):
            read = PAPER["valid_run"](*one_sided(run, vehicle, side))
        kept = PAPER["valid_run"](*one_sided(run, vehicle, other))
        return read and kept and read._replace(**{other: getattr(kept, other)})
    return {"valid_run": valid_run}


def for_rule(rule, changes):
    """A reading of the sheets that one gear rule decides."""
    def evaluate(sheet):
        answer = PAPER["evaluate"](sheet)
        if answer[:2] != ("OK", rule):
            return answer
        with reading(changes):
            return PAPER["evaluate"](sheet)
    return {"evaluate": evaluate}


def answers(change):
    """An evaluation whose answer is changed."""
    return {"evaluate": lambda sheet: change(*PAPER["evaluate"](sheet))}


# Roundings.

rounded = PAPER["rounded"]


def half_down(value):
    return -rounded(-value)


def half_to_even(value):
    return round(Fraction(value))


def half_from_zero(value):
    return rounded(value) if value >= 0 else -rounded(-value)


def by_a_tenth_first(value):
    """Rounded to a tenth of the unit, and then to the unit."""
    return rounded(Fraction(rounded(10 * value), 10))


def not_at_all(value):
    return Fraction(value)


def rounding_in(name, rounding):
    """The named function with another rounding inside."""
    def changed(*arguments):
        with reading({"rounded": rounding}):
            return PAPER[name](*arguments)
    return {name: changed}


# Numbers that lose a bit or more.

def with_sign(number, bits=16):
    """A number by so many bits as one with a sign."""
    return (number + 2 ** (bits - 1)) % 2 ** bits - 2 ** (bits - 1)


def turned(number):
    """A number of 16 bits with its two bytes turned."""
    return number // 256 + number % 256 * 256


# Floats in the place of fractions.

class Single:
    """A 32-bit float: each result of an operation is rounded to one."""

    def __init__(self, value):
        self.value = struct.unpack("f", struct.pack("f", value))[0]

    def __add__(self, other):
        return Single(self.value + other.value)

    def __sub__(self, other):
        return Single(self.value - other.value)

    def __mul__(self, other):
        return Single(self.value * other.value)

    def __truediv__(self, other):
        return Single(self.value / other.value)

    def __abs__(self):
        return Single(abs(self.value))

    def __le__(self, other):
        return self.value <= other.value

    def __float__(self):
        return self.value


def by_floats(name, formula):
    """A function by a formula in 32-bit and in 64-bit floats, a half going up; the formula gets the kind of float first."""
    def function(kind):
        return lambda *arguments: floor(float(formula(kind, *arguments) + kind(0.5)))
    return (("32-bit", {name: function(Single)}), ("64-bit", {name: function(float)}))


# Readings of a reckoner whose inputs are few and short: every reading is tried on every input.

def other_line(module, one):
    """The line under a reading, or None if the reading ends in an error."""
    try:
        return module.line(*one)
    except Exception:
        return None


def reasons_of(readings, equivalent):
    """The reason of each equivalent reading; a name stands for the readings of a part, such as `NAME, at 1`, too."""
    return {words: reason for reason, names in equivalent.items() for name in names
            for words, _ in readings if words == name or words.startswith(f"{name}, ")}


def faults_of_names(readings, equivalent):
    names = Counter(words for words, _ in readings)
    faults = [f"no reading: {name}" for names_of in equivalent.values() for name in names_of if name not in names]
    return faults + [f"two readings: {words}" for words in names if names[words] > 1]


def remark_on(words, told, reasons):
    """What to say of a reading that so many inputs tell apart, and whether it is as it should be."""
    if words in reasons:
        return (f": equivalent, {reasons[words]}", True) if told == 0 else (": CALLED EQUIVALENT, TOLD APART", False)
    return ("", True) if told >= ENOUGH else (": TOLD APART BY TOO FEW", False)


def tell_apart(module, readings, equivalent, inputs, name):
    """Prints how many of the inputs, which are called `name`, tell each reading apart; returns whether each is as it should be."""
    known = [(one, module.line(*one)) for one in inputs]
    reasons, faults = reasons_of(readings, equivalent), faults_of_names(readings, equivalent)
    least = len(known)
    for words, changes in readings:
        with reading(changes, module):
            told = sum(other_line(module, one) not in (None, line) for one, line in known)
        became, is_right = remark_on(words, told, reasons)
        faults += [] if is_right else [words]
        least = least if words in reasons else min(least, told)
        print(f"{told:>6}  {words}{became}", flush=True)
    print("".join(f"FAULT {fault}\n" for fault in faults), end="")
    print(f"{len(readings)} readings: {len(reasons)} equivalent, the others told apart by at least {least} of {len(known)} {name}")
    return not faults
