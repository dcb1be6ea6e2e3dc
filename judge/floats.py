"""Lists of floats as arrays of their bits, each kind by a function of a random generator, which has the width, and a count."""
import array
import random

from widths import NARROW, WIDE


class Chance(random.Random):
    """What is drawn by it is of 64-bit floats."""
    width = WIDE


class NarrowChance(Chance):
    """What is drawn by it is of 32-bit floats."""
    width = NARROW


def specials(width):
    sign, infinity, one, quiet, least = width.sign, width.infinity, width.one, width.nan, 1 << width.fraction
    return [
        0, sign,  # zeros
        infinity, sign | infinity,  # infinities
        quiet, sign | quiet, quiet | 0x1234, 2 * sign - 1,  # quiet NaNs, with payloads too
        infinity | 1, sign | infinity | 1, infinity | least // 4 | 0x5678,  # signalling NaNs
        1, sign | 1, least - 1, sign | least - 1,  # subnormals
        least, sign | least,  # the smallest normal numbers
        infinity - 1, sign | infinity - 1,  # the largest
        one, sign | one, one + 1, one - 1,  # one and its neighbours
        one + (width.fraction + 1) * least, one - width.fraction * least,  # 2^53 and 2^-52, or 2^24 and 2^-23
    ]


WHOLES = {width: list(width.bits_of(range(-1000, 1001))) for width in (WIDE, NARROW)}
# Of 32 bits also numbers whose products and sums lie halfway: 4097 times 4099, 2^24 + 2 and 1, 1 and 2^-24, and 2^-75 times 2^-75, half of the smallest number.
HALFWAY = NARROW.bits_of([4097, -4097, 4099, 2**24 - 1, 1 - 2**24, 2**24 + 2, 2.0**-24, -2.0**-24, 2.0**-75, 3 * 2.0**-75])
SPECIALS = {WIDE: specials(WIDE), NARROW: specials(NARROW) + list(HALFWAY)}


def spread(rng, count, below, sizes):
    """Random numbers whose exponents are one of so many, from so many below that of 1."""
    width = rng.width
    kept, least = width.sign | (1 << width.fraction) - 1, width.one - (below << width.fraction)
    return array.array('Q', [w & kept | least + ((w >> width.fraction & sizes - 1) << width.fraction) for w in raw(rng, count)])


def raw(rng, count):
    """Random bits."""
    return array.array('Q', array.array(rng.width.words, rng.randbytes(rng.width.bits // 8 * count)))


def whole(rng, count):
    return array.array('Q', rng.choices(WHOLES[rng.width], k=count))


def ordinary(rng, count):
    """Random numbers whose sizes lie within 2^32 of each other."""
    return spread(rng, count, 16, 32)


def close(rng, count):
    """Random numbers between 1/2 and 8, so that every sum rounds."""
    return spread(rng, count, 1, 4)


def special(rng, count):
    return array.array('Q', rng.choices(SPECIALS[rng.width], k=count))


def some_special(rng, count):
    """Ordinary numbers, now and then a special one."""
    return array.array('Q', [rng.choice(SPECIALS[rng.width]) if rng.random() < 0.1 else w for w in close(rng, count)])


def some_raw(rng, count):
    """Special numbers and random bits."""
    return array.array('Q', [rng.choice(SPECIALS[rng.width]) if rng.random() < 0.5 else w for w in raw(rng, count)])


def dirty(rng, count):
    """What a buffer happens to hold."""
    return rng.choice((raw, raw, whole, special))(rng, count)


def tiled(rng, count, kind=close, block=4099):
    """A long list: one random block over and over."""
    words = kind(rng, min(count, block))
    return (words * (count // block + 1))[:count] if count else words


def rising(rng, count):
    """1, 2, 3 ..: every place can be told from every other."""
    return rng.width.bits_of(range(1, count + 1))
