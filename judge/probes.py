"""Asks both sides for sums whose last bits tell two roundings from one.

    probes.py --work FOLDER --driver COMMAND --host COMMAND

With x = 1 + 2^-30 every sum of 64-bit floats here is -1 + x*x: 2^-29 if the product is rounded before it is added, 2^-29 + 2^-60 if the two are fused. Every sum
of 32-bit floats is 4097*4097 - 4097*4097, which is 0, and 1 if the last product is not rounded; or 2^24 + 1 + 1, which is 2^24, and 2^24 + 2 if the sum is kept
in 64 bits."""
import argparse
import collections
import sys

import rules
from compare import Sides
from protocol import (ANALYSE, ANALYSE_DIRECTLY, ANALYSE_F32, ANALYSE_LEVELS, ANALYSE_PLANE, Case, CONVOLVE, CONVOLVE_F32, in_hex, RESTORE_DIVIDED, RESTORE_LEVELS, results, SYNTHESISE, SYNTHESISE_DIRECTLY, SYNTHESISE_F32,
                      SYNTHESISE_PLANE, words_of)
from widths import NARROW, WIDE

X = 1 + 2.0**-30
# what two roundings give, what else it could be, and what that would be
Told = collections.namedtuple('Told', 'due other why')
PRODUCT = Told(0x3E20000000000000, 0x3E20000000200000, 'fused')
NARROW_PRODUCT = Told(0, 0x3F800000, 'fused')
NARROW_SUM = Told(0x4B800000, 0x4B800001, 'summed in 64 bits')


def listed(*numbers):
    return WIDE.bits_of(numbers)


def plane_split(*samples):
    """Analysis of 2 by 2 samples by 1 and x."""
    return Case(ANALYSE_PLANE, (0, 2, 2), [listed(1, X), listed(1, X), listed(*samples), *[listed(7)] * 4, listed(*[7] * 10)])


def plane_join(*bands):
    """Synthesis of 2 by 2 samples, each band a number."""
    return Case(SYNTHESISE_PLANE, (2, 2), [listed(1, X), listed(1, -1), *map(listed, bands), listed(*[7] * 4), listed(*[7] * 10)])


# the case, which of its lent buffers tells, and from where to where
WIDE_PROBES = (
    ('analysis, approximation', Case(ANALYSE, (0,), [listed(1, X), listed(0, 0), listed(-1, X), listed(7), listed(7), listed(7, 7)]), 0, 0, 1),
    ('analysis, detail', Case(ANALYSE, (0,), [listed(0, 0), listed(1, X), listed(-1, X), listed(7), listed(7), listed(7, 7)]), 1, 0, 1),
    ('synthesis, detail then approximation', Case(SYNTHESISE, (), [listed(0, X), listed(X, 0), listed(X, X), listed(X, X), listed(*[-1] * 4)]), 0, 0, 4),
    ('convolution, one at a time', Case(CONVOLVE, (0, 0), [listed(-1, X), listed(7, 7), listed(7, 7, 7, 7), listed(1, X)]), 0, 0, 1),
    ('convolution, four at a time', Case(CONVOLVE, (0, 0), [listed(-1, X, X, X), listed(7, 7, 7, 7), listed(*[7] * 6), listed(1, X)]), 0, 0, 1),
    ('analysis over 2 levels, the second',
     Case(ANALYSE_LEVELS, (0, 2), [listed(1, X), listed(1, X), listed(-1, 0, X, 0), listed(*[7] * 4), listed(*[7] * 8)]), 0, 2, 4),
    ('restoring of 2 levels, the last join',
     Case(RESTORE_LEVELS, (4, 2), [listed(X, X), listed(-1, -1), listed(1, 1, 0, 1), listed(*[7] * 4), listed(*[7] * 4)]), 1, 0, 4),
    ('restoring of 2 levels divided by 1, the last join',
     Case(RESTORE_DIVIDED, (4, 2, listed(1)[0]), [listed(X, X), listed(-1, -1), listed(1, 1, 0, 1), listed(*[7] * 4), listed(*[7] * 4)]), 1, 0, 4),
    ('analysis without a padded line, approximation', Case(ANALYSE_DIRECTLY, (0,), [listed(1, X), listed(0, 0), listed(*[-1, X] * 9), *[listed(*[7] * 9)] * 2]), 0, 0, 9),
    ('analysis without a padded line, detail', Case(ANALYSE_DIRECTLY, (0,), [listed(0, 0), listed(1, X), listed(*[-1, X] * 9), *[listed(*[7] * 9)] * 2]), 1, 0, 9),
    ('synthesis by the same engine', Case(SYNTHESISE_DIRECTLY, (), [listed(0, X), listed(X, 0), *[listed(*[X] * 20)] * 2, listed(*[-1] * 40)]), 0, 0, 40),
    ('plane analysis, a row', plane_split(-1, X, 0, 0), 0, 0, 1),
    ('plane analysis, a column', plane_split(-1, 0, X, 0), 3, 0, 1),
    ('plane synthesis, a column', plane_join(X, 1, 0, 0), 0, 2, 3),
    ('plane synthesis, a row', plane_join(X, 0, 1, 0), 0, 1, 2),
)


# Of 32-bit floats: lines of one number, in which every place tells, those that are worked out together and those that are left over.

def split_f32(taps, x, n=18):
    m = rules.band(n, len(taps))
    lists = taps, taps, [x] * n, [7] * m, [7] * m, [7] * rules.padded_length(n, len(taps))
    return Case(ANALYSE_F32, (0,), [NARROW.bits_of(numbers) for numbers in lists])


def join_f32(low, high, x, held, m=20):
    lists = [low] * 2, [high] * 2, [x] * m, [x] * m, [held] * (2 * m)
    return Case(SYNTHESISE_F32, (), [NARROW.bits_of(numbers) for numbers in lists])


def convolve_f32(kernel, x, n):
    lists = [x] * n, [7] * n, [7] * (n + sum(rules.pads(len(kernel), 0))), kernel
    return Case(CONVOLVE_F32, (0, 0), [NARROW.bits_of(numbers) for numbers in lists])


def narrow_probes(what, told, split, kernel, x, join):
    """The case, which of its lent buffers tells, and what by."""
    yield 'analysis, approximation, ' + what, split_f32(split, x), 0, told
    yield 'analysis, detail, ' + what, split_f32(split, x), 1, told
    yield 'synthesis, detail then approximation, ' + what, join_f32(*join), 0, told
    yield 'convolution, one at a time, ' + what, convolve_f32(kernel, x, 3), 0, told
    yield 'convolution, many at a time, ' + what, convolve_f32(kernel, x, 37), 0, told


PROBES = (
    *((name, case, buffer, slice(start, end), PRODUCT) for name, case, buffer, start, end in WIDE_PROBES),
    *((name, case, buffer, slice(None), told) for name, case, buffer, told in (
        *narrow_probes('a product of 32-bit floats', NARROW_PRODUCT, [-4097, 4097], [-4097, 4097], 4097, (4097, -4097, 4097, 0)),
        *narrow_probes('a sum of 32-bit floats', NARROW_SUM, [2**24, 1, 1, 0], [2**24, 1, 1], 1, (1, 1, 1, 2**24)))))


def main():
    parser = argparse.ArgumentParser(description=__doc__.splitlines()[0])
    for name in ('work', 'driver', 'host'):
        parser.add_argument('--' + name, required=True)
    options = parser.parse_args()
    cases = [case for _, case, _, _, _ in PROBES]
    bad = 0
    for side, data in zip(('the Rust', 'ours'), Sides(options.work, rust=options.driver, ours=options.host).run(cases), strict=True):
        for (name, _, buffer, places, told), result in zip(PROBES, results(cases, data), strict=True):
            words = set(words_of(result.buffers[buffer])[places])
            good = result.number == 0 and words == {told.due}
            bad += not good
            why = ', ' + told.why if told.other in words else ''
            print('rounding probe, %s, %s: %s%s' % (side, name, in_hex(sorted(words)), ' (two roundings)' if good else ': not two roundings' + why))
    return 1 if bad else 0


if __name__ == '__main__':
    sys.exit(main())
