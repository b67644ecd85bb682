"""The lists of cars that `crates/car_lists` follows. Each group is a generator of (limit, cars) from a pseudo-random source; a
car is its L_urban in whole dB."""

from itertools import product

from make import numbers

HIGHEST = 65535
HIGHEST_LIMIT_FAILED = HIGHEST - 2  # the highest limit that some car fails
LONG, VERY_LONG = 40, (255, 256, 257, 258, 259, 260)  # cars; a number of cars in eight bits starts over at 256

# Whether each car that is counted meets the requirement: the five ways to a verdict.
WAYS = ((True,), (False, True, True), (False, True, False), (False, False, True), (False, False, False))


# Cars.

def meeting(random, limit):
    """A car that meets the requirement, most often at the edge."""
    highest = min(limit + 1, HIGHEST)
    return random.pick((highest, highest, limit, max(limit - 1, 0), 0, random.between(0, highest)))


def failing(random, limit):
    """A car that fails it, most often at the edge."""
    lowest = limit + 2
    return random.pick((lowest, lowest, min(lowest + 1, HIGHEST), HIGHEST, random.between(lowest, HIGHEST)))


def cars_of(random, limit, met):
    return [meeting(random, limit) if one else failing(random, limit) for one in met]


def usual_limit(random):
    """A limit that some car fails: of the regulation's size, at an end, or any."""
    usual = random.between(68, 80), random.between(68, 80)
    return random.pick((*usual, 0, 1, HIGHEST_LIMIT_FAILED, random.between(0, HIGHEST_LIMIT_FAILED)))


# Short lists.

def every_short_list(_):
    """All lists of up to five cars beside the limit plus 1 dB and at the ends, for limits at the ends and a usual one."""
    for limit in (0, 72, HIGHEST - 1, HIGHEST):
        cars = numbers(0, limit - 1, limit, limit + 1, limit + 2, HIGHEST)
        for length in range(6):
            yield from ((limit, list(some)) for some in product(cars, repeat=length))


def no_car(random):
    for limit in (*numbers(0, 1, 72, 255, 256, 32767, 32768, HIGHEST - 1, HIGHEST), *(random.below(2 ** 16) for _ in range(40))):
        yield limit, []


# Limits at the ends of 16 bits, of a byte and of a number with a sign.
EDGES = numbers(0, 1, 2, 70, 71, 73, 75, 126, 127, 128, 253, 254, 255, 256, 257, 511, 512, 18432, 32765, 32766, 32767, 32768,
                32769, 65279, 65280, 65281, HIGHEST - 3, HIGHEST - 2, HIGHEST - 1, HIGHEST)


def beside_a_limit(random):
    """A car that alone decides as the first, the second or the third: beside the limit plus 1 dB, and beside it once a bit is lost."""
    for limit in EDGES:
        beside = (limit + far + step for far in (0, -256, 256, -32768, 32768) for step in (-1, 0, 1, 2, 3))
        for car in numbers(*beside, 0, 1, HIGHEST - 1, HIGHEST):
            yield limit, [car]
            if limit <= HIGHEST_LIMIT_FAILED:
                yield limit, [failing(random, limit), car, meeting(random, limit)]
                yield limit, [failing(random, limit), meeting(random, limit), car]


# Cars after the verdict.

def late_cars(random):
    """For each way to a verdict, lists with late cars that meet the requirement, fail it, and both: every length up to 40."""
    for way in WAYS:
        for late in ((True,), (False,), (True, False), (False, True, True), (False, False, True)):
            limit = usual_limit(random)
            cars = cars_of(random, limit, way + late * LONG)
            yield from ((limit, cars[:length]) for length in range(1, LONG + 1))


def hundreds_of_cars(random):
    for way in WAYS:
        for length in VERY_LONG:
            limit = usual_limit(random)
            met = [*way, *(random.chance(50) for _ in range(length - len(way)))]
            yield limit, cars_of(random, limit, met)


# Random lists.

def random_ways(random):
    """Each way to a verdict and the starts of it, with up to five late cars."""
    for _ in range(300):
        for way in WAYS:
            limit = usual_limit(random)
            met = [*way, *(random.chance(50) for _ in range(random.below(6)))]
            cars = cars_of(random, limit, met)
            yield limit, cars
            yield limit, cars[:random.between(1, len(way))]


def random_lists(random):
    """Up to eight cars, near the limit plus 1 dB or anywhere, for any limit."""
    for _ in range(1200):
        limit = random.pick((random.between(60, 90), random.below(2 ** 16), random.between(HIGHEST - 4, HIGHEST)))
        near = numbers(*range(limit - 2, limit + 5))
        yield limit, [random.pick(near) if random.chance(80) else random.below(2 ** 16) for _ in range(random.below(9))]


GROUPS = (every_short_list, no_car, beside_a_limit, late_cars, hundreds_of_cars, random_ways, random_lists)
