"""The lorries that `crates/test_masses` evaluates. Each group is a generator of (axles, power, front, rear, rear_max, own) from
a pseudo-random source: 2 for two axles or 3 for more; the power in tenths of a kW; in whole kg the unladen axle loads and the
rear axle's maximum, of the two-axle stand-in if there are more, and the unladen mass of a lorry of more axles, 0 for two."""

from itertools import product

from make import numbers

TWO, MORE = 2, 3
HIGHEST = 65535
DRIVER = 75


# Parts of a lorry.

def share(rear_max):
    """75% of a maximum, the fraction of a kg dropped."""
    return 3 * rear_max // 4


def some_maxima(random):
    """Maxima of every remainder by 4: at the ends, usual ones, any, and about where 3 and 75 times one wrap in 16 bits."""
    for fours in (0, 1, 25, 218, 2873, 2875, random.between(1250, 3250), random.below(2 ** 14), 5461, 10922, 2 ** 14 - 1):
        yield from range(4 * fours, 4 * fours + 4)


def power_and_front(random, behind, heaviest):
    """A power and a front load, at most the heaviest, whose target is `behind` more than the front load and the driver."""
    lowest, highest = max(-(-(behind + DRIVER) // 5), 0), min((behind + DRIVER + heaviest) // 5, HIGHEST)
    usual = min(max((behind + DRIVER + random.between(2500, 7500)) // 5, lowest), highest)
    power = random.pick((lowest, usual, usual, random.between(lowest, highest), highest))
    return power, 5 * power - DRIVER - behind


def with_extra(random, extra, rear, rear_max, heaviest=HIGHEST):
    """A two-axle lorry with an extra."""
    return *power_and_front(random, extra + rear, heaviest), rear, rear_max


def without_driver(power, front, rear, rear_max):
    """The test mass of a two-axle lorry less the driver, the fraction of a kg dropped."""
    return max(front + rear, min(5 * power - DRIVER, share(rear_max) + front))


def some_own(random, power, front, rear, rear_max):
    """An own mass beside the stand-in's test mass, below or above its unladen mass, at an end, or any."""
    beside = without_driver(power, front, rear, rear_max) + random.between(-2, 2)
    unladen = front + rear + random.pick((-1000, -1, 0, 1, 1000))
    return random.pick(numbers(beside, unladen, 0, HIGHEST, random.below(2 ** 16)))


def of_both_kinds(random, stand_in):
    """A two-axle lorry, and one of more axles that it stands in for."""
    yield TWO, *stand_in, 0
    yield MORE, *stand_in, some_own(random, *stand_in)


# The unladen rear axle.

def rear_beside_75_percent(random):
    """The unladen rear axle up to a kg and a fraction beside the 75%, with an extra below 0, of 0 and above behind it."""
    for rear_max in some_maxima(random):
        for rear in numbers(*(share(rear_max) + step for step in (-1, 0, 1, 2))):
            for extra in (random.between(-2000, -1), 0, random.between(1, 20000)):
                yield from of_both_kinds(random, with_extra(random, extra, rear, rear_max))


def rear_too_heavy(random):
    """Refusal 21 by far, whatever the other numbers are; often without power."""
    for _ in range(120):
        rear_max = random.pick((0, 1, random.between(2, 100), random.between(5000, 13000), random.below(2 ** 16)))
        rear = random.pick((HIGHEST, random.between(share(rear_max) + 1, HIGHEST)))
        power = random.pick((0, 0, random.between(800, 4000), HIGHEST))
        yield from of_both_kinds(random, (power, random.pick((0, 4000, random.below(2 ** 16))), rear, rear_max))


def rear_below_its_maximum(random):
    """Unladen rear axles between 75% of the maximum and the whole of it, at that and above, and front axles beside the 75%."""
    for _ in range(60):
        rear_max = random.between(5000, 13000)
        for rear, front in ((random.between(share(rear_max) + 1, rear_max), 4000), (rear_max, 4000), (rear_max + 1, 4000),
                            (3000, share(rear_max) + random.between(0, 1))):
            yield from of_both_kinds(random, (random.between(0, 4000), front, rear, rear_max))


# The extra of two axles.

def extra_beside_0(random):
    """An extra of 0, beside it, and so far from it as the driver weighs; the rear axle empty, at its 75% and between."""
    for extra in (-DRIVER - 1, -DRIVER, 1 - DRIVER, -5, -2, -1, 0, 1, 2, 5, DRIVER - 1, DRIVER, DRIVER + 1):
        for rear_max in (0, 3, *range(11500, 11504), random.between(5000, 13000), random.below(2 ** 16), HIGHEST):
            for rear in sorted({0, random.between(0, share(rear_max)), share(rear_max)}):
                yield from of_both_kinds(random, with_extra(random, extra, rear, rear_max))


def loads_beside_75_percent(random):
    """The extra and the unladen rear axle up to a kg and a fraction beside the 75%, and so far as the driver weighs."""
    for rear_max in some_maxima(random):
        for step in (-DRIVER, DRIVER, *(-1, 0, 1) * 3):
            behind = share(rear_max) + step
            rear = random.between(0, max(min(behind, share(rear_max)), 0))
            yield from of_both_kinds(random, with_extra(random, behind - rear, rear, rear_max))


def masses_at_75_percent(random):
    """The rear axle at its 75%, with any fraction of a kg, from an extra that is by far too much."""
    for rear_max in (*some_maxima(random), *(random.between(5000, 13000) for _ in range(80))):
        rear = random.between(0, share(rear_max))
        extra = share(rear_max) - rear + random.between(3, 30000)
        yield from of_both_kinds(random, with_extra(random, extra, rear, rear_max))


# More axles.

def some_stand_in(random, case, rear_max):
    """A two-axle lorry without a load, at its target, or with the rear axle at its 75%."""
    rear = random.between(0, share(rear_max))
    room = share(rear_max) - rear
    extra = {"no load": random.between(-3000, -1), "target": random.between(0, room), "75%": room + random.between(1, 9000)}[case]
    return with_extra(random, extra, rear, rear_max, heaviest=15000)


def owns_beside(power, front, rear, rear_max):
    """Own masses beside the stand-in's test mass, with the driver and without, and beside its unladen mass."""
    mass, unladen = without_driver(power, front, rear, rear_max), front + rear
    return numbers(*range(mass - 1, mass + 3), mass + DRIVER, mass + DRIVER + 1, unladen - 1, unladen, unladen + 1)


def own_beside_the_mass(random):
    """The own mass up to a kg and a fraction beside each kind of test mass, with maxima of every remainder by 4."""
    for case, count in (("no load", 16), ("target", 16), ("75%", 34)):
        for at in range(4 * count):
            fours = random.pick((random.between(1250, 3250), random.between(1250, 3250), random.below(13000)))
            stand_in = some_stand_in(random, case, 4 * fours + at % 4)
            yield from ((MORE, *stand_in, own) for own in owns_beside(*stand_in))


def own_anywhere(random):
    """Own masses at the ends and far below and above the stand-in's, its axles and its target."""
    for case in ("no load", "target", "75%"):
        for _ in range(16):
            power, front, rear, rear_max = stand_in = some_stand_in(random, case, random.between(5000, 13000))
            for own in numbers(0, 1, HIGHEST, front, rear, rear_max, share(rear_max), 5 * power, random.below(2 ** 16)):
                yield MORE, *stand_in, own


# Ends, and sums and products that wrap.

def ends_of_16_bits(_):
    """All lorries of numbers at the ends."""
    yield from ((TWO, *some, 0) for some in product((0, 1, HIGHEST - 1, HIGHEST), repeat=4))
    yield from ((MORE, *some) for some in product((0, 1, HIGHEST), repeat=5))


# The ends of a byte, of 15 bits and of 16, and where 3, 4 and 5 times a number wrap in 16.
AT_ENDS = (0, 1, 127, 128, 255, 256, 257, 6553, 6554, 8191, 8192, 13107, 13108, 16383, 16384, 21845, 21846, 26214, 26215, 32767,
           32768, 32769, 43690, 43691, 49151, 49152, 65279, 65280, HIGHEST - 1, HIGHEST)


def one_number_at_an_end(random):
    """A usual lorry with one number replaced."""
    for at in range(5):
        for number in AT_ENDS:
            lorry = list(usual_lorry(random))
            lorry[at] = number
            if at < 4:
                yield TWO, *lorry[:4], 0
            yield MORE, *lorry


def targets_that_wrap(random):
    """Targets beside 2^15 to 2^18 kg and beside 2^31 ten-thousandths of a kg."""
    bounds = (2 ** 15, 2 ** 16, 2 ** 16 + 2 ** 15, 2 ** 17, 2 ** 18, 2 ** 31 // 10000)
    for power in numbers(*(bound // 5 + step for bound in bounds for step in (-1, 0, 1, 2))):
        for rear_max in (random.between(5000, 13000), HIGHEST, HIGHEST - random.below(4000)):
            rear = random.between(0, share(rear_max))
            front = random.pick(numbers(5 * power - DRIVER - rear + random.between(-1, 1), 4000, HIGHEST))
            yield from of_both_kinds(random, (power, front, rear, rear_max))


def sums_that_wrap(random):
    """Unladen masses beside 2^15 and 2^16 kg, without the driver and with it, and an extra near 0 or far from it."""
    for bound in (2 ** 15, 2 ** 16):
        for unladen in (bound + step for step in (-DRIVER - 1, -DRIVER, 1 - DRIVER, -1, 0, 1, DRIVER, 4000)):
            for extra in (-40000, -1, 0, 1, 4000, 40000):
                rear = random.between(max(unladen - HIGHEST, 0), min(unladen, 49151))
                rear_max = random.between(-(-4 * rear // 3), HIGHEST)
                power = min(max(-(-(unladen + DRIVER + extra) // 5), 0), HIGHEST)
                yield from of_both_kinds(random, (power, unladen - rear, rear, rear_max))


# Small numbers, usual ones and any.

def small_numbers(random):
    """Masses of the driver's size."""
    for _ in range(200):
        rear_max = random.between(0, 200)
        stand_in = random.between(0, 80), random.between(0, 120), random.between(0, share(rear_max) + 1), rear_max
        yield TWO, *stand_in, 0
        yield MORE, *stand_in, random.between(0, 250)


def usual_lorry(random):
    """The numbers of a lorry of more axles; without the last, those of one of two."""
    front, rear = random.between(2500, 5500), random.between(1500, 4500)
    return random.between(800, 4000), front, rear, random.between(6000, 13000), front + rear + random.between(-500, 6000)


def usual_lorries(random):
    for _ in range(300):
        *stand_in, own = usual_lorry(random)
        yield TWO, *stand_in, 0
        yield MORE, *stand_in, own


def any_numbers(random):
    """Any numbers; with the rear axle within its 75%, and without regard to it."""
    for _ in range(250):
        power, front, rear_max = (random.below(2 ** 16) for _ in range(3))
        rear = random.between(0, share(rear_max)) if random.chance(75) else random.below(2 ** 16)
        yield from of_both_kinds(random, (power, front, rear, rear_max))


GROUPS = (
    rear_beside_75_percent, rear_too_heavy, rear_below_its_maximum, extra_beside_0, loads_beside_75_percent,
    masses_at_75_percent, own_beside_the_mass, own_anywhere, ends_of_16_bits, one_number_at_an_end, targets_that_wrap,
    sums_that_wrap, small_numbers, usual_lorries, any_numbers,
)
