"""The cases of comparing two bands."""
import array
import functools
import itertools

import floats
import rules
from cases import around, LIMIT, wrong
from plane_cases import PAST
from protocol import Case, COMPARE_BANDS

KINDS = (floats.whole, floats.raw, floats.special, floats.some_special)
NANS = (0x7FF8000000000000, 0xFFF8000000000000, 0x7FF0000000000001, 0xFFFFFFFFFFFFFFFF)
NEGATIVE_ZERO = 0x8000000000000000


def compared(width, height, first, second):
    return Case(COMPARE_BANDS, (width, height), [first, second])


def other(rng, word):
    """Another number, often a single bit away; a NaN is no other NaN."""
    while True:
        drawn = rng.choice((word ^ 1, word ^ 2**63, word ^ 1 << rng.randrange(64), rng.choice(floats.SPECIALS[rng.width])))
        if rules.one_nan(drawn) != rules.one_nan(word):
            return drawn


def changed(rng, words, places, into=None):
    words = array.array('Q', words)
    for place in places:
        words[place] = into if into is not None else other(rng, words[place])
    return words


def comparing(rng):
    yield from small(rng)
    yield from pairs_of_specials(rng)
    yield from wrong_lengths(rng)
    yield from told_alone(rng)


def small(rng):
    """Equal bands, a difference at every place, two differences, and NaNs of other bits."""
    for width, height in itertools.product(range(1, 6), repeat=2):
        count = width * height
        for kind in KINDS:
            words = kind(rng, count)
            yield compared(width, height, words, array.array('Q', words))
        for place in range(count):
            words = rng.choice(KINDS)(rng, count)
            yield compared(width, height, words, changed(rng, words, [place]))
            yield compared(width, height, words, changed(rng, words, {place, rng.randrange(count)}))
            nans = changed(rng, words, [place], NANS[0])
            yield compared(width, height, nans, changed(rng, nans, [place], rng.choice(NANS)))


def pairs_of_specials(rng):
    for x, y in itertools.product(floats.SPECIALS[rng.width], repeat=2):
        yield compared(1, 1, array.array('Q', [x]), array.array('Q', [y]))


def wrong_lengths(rng):
    for width, height in itertools.product((0, 1, 2, 3, 7), repeat=2):
        for first, second in itertools.product(wrong(width * height), repeat=2):
            yield compared(width, height, floats.whole(rng, first), floats.whole(rng, second))


def told_alone(rng):
    for width, height in itertools.product((0, 1, 16, 17, *around(4096), *PAST), repeat=2):
        if max(width, height) > 4000:
            yield compared(width, height, floats.whole(rng, rng.randrange(9)), floats.whole(rng, rng.randrange(9)))


# --- the ends of the domain; a list of functions, since long cases are made one at a time

def limits(rng):
    shapes = ((LIMIT, 1), (1, LIMIT), (LIMIT, 2), (2, LIMIT), (LIMIT + 1, 1), (1, LIMIT + 1))
    return [functools.partial(long, rng, width, height, differences) for (width, height), differences in itertools.product(shapes, (0, 1, 2))]


def long(rng, width, height, differences):
    """Bands of many numbers: equal, the last number another, one in the middle besides."""
    count = width * height
    words = floats.tiled(rng, count, floats.some_special)
    return compared(width, height, words, changed(rng, words, [count - 1, count // 2][:differences], NEGATIVE_ZERO))
