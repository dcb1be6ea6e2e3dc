"""The tests of docs/RULES.md, written out apart from the library: which number answers a case and what it carries, and how far a done call may write its buffers.

An answer is a tuple, the number first. Two numbers are the C interface's own: NO_BORDER, tested before everything else, and DIFFER, told where two bands that passed every test differ,
and where bands part."""
import itertools

from protocol import (ANALYSE, ANALYSE_DIRECTLY, ANALYSE_LEVELS, ANALYSE_PLANE, ANALYSIS_ANSWER, ANALYSIS_SCRATCH, BACK_ANSWER, BACK_BY_PAIRS, BAND_LENGTH, BORDERS, COMPARE_BANDS,
                      COMPARING_ANSWER, CONVOLUTION_ANSWER, CONVOLUTION_SCRATCH, CONVOLVE, DIRECT_ANSWER, DIVIDED_ANSWER, DIVIDED_BY_PAIRS, DIVIDED_LINE, HANDING_ANSWER, LARGE_PLANE,
                      LEVEL_DETAILS, LEVEL_PART, LEVELS_ANSWER, LEVELS_BACK_ANSWER, LEVELS_SCRATCH,
                      LINE_LENGTH, MIRROR, MOST_LEVELS, one_nan, PACKED_LENGTH, PARTING, PLANE_ANALYSIS_ANSWER, PLANE_BAND_HEIGHT, PLANE_BAND_LENGTH, PLANE_BAND_WIDTH,
                      PLANE_BY_PAIRS, PLANE_SCRATCH, PLANE_SYNTHESIS_ANSWER, READ_PLACE, RESTORE_DIVIDED, RESTORE_LEVELS, RESTORED_BY_PAIRS, RESTORED_LINE,
                      RESTORING_ANSWER, RESTORING_LENGTH, SYNTHESISE, SYNTHESISE_DIRECTLY, SYNTHESISE_PLANE, SYNTHESIS_ANSWER, THERE_AND_BACK, THERE_AND_BACK_LEVELS, TWO_PAIRS)
from widths import WIDE

LIMIT = 1048576
MOST_OF_PLANE = 16777216
MOST_TAPS = 64
NO_BORDER = 26
DIFFER = 27
REFLECT101 = BORDERS.index('Reflect101')


def bad_taps(f):
    """12 where only f is told."""
    return f % 2 != 0 or f == 0 or f > MOST_TAPS


def band(n, f):
    return (n + f - 1) // 2


def padded_length(n, f):
    """The line with its whole padding of 2m + f - 2 - n."""
    return 2 * band(n, f) + f - 2


def joined_length(m, f):
    return 2 * m - f + 2


def pads(f, centre):
    left = max(0, f // 2 - centre - (1 if f % 2 == 0 else 0))
    return left, max(0, f - left)


def beyond(f, centre):
    """A kernel or a centre past its limit."""
    return f > MOST_TAPS or not -2**31 <= centre <= 2**31 - 1


def analyse(border, f, highs, n, approxes, details, scratches):
    if border >= len(BORDERS):
        return NO_BORDER, border
    if bad_taps(f) or f != highs:
        return 12,
    if n > LIMIT:
        return 11,
    if n < f:
        return 1, n, f
    if approxes != band(n, f):
        return 2, approxes
    if details != band(n, f):
        return 2, details
    if scratches < padded_length(n, f):
        return 5, padded_length(n, f), scratches
    return 0,


def synthesise(f, highs, approxes, details, outs):
    if bad_taps(f) or f != highs:
        return 12,
    if approxes > LIMIT or details > LIMIT:
        return 11,
    if approxes != details:
        return 3, approxes, details
    if 2 * approxes + 2 <= f:
        return 7,
    if outs != joined_length(approxes, f):
        return 4, outs, joined_length(approxes, f)
    return 0,


def analyse_directly(border, f, highs, n, approxes, details):
    """The same tests but the last: there is no scratch."""
    return analyse(border, f, highs, n, approxes, details, padded_length(n, f))


def convolve(border, centre, n, outs, scratches, f):
    if border >= len(BORDERS):
        return NO_BORDER, border
    if n > LIMIT or beyond(f, centre):
        return 11,
    if n != outs:
        return 6, n, outs
    if n == 0:
        return 7,
    if f == 0:
        return 0,
    left, right = pads(f, centre)
    if scratches < n + left + right:
        return 5, n + left + right, scratches
    if abs(centre) >= f:
        return 8, abs(centre), f
    if border == REFLECT101 and n > 1 and max(left, right) > n - 2:
        return 13,
    return 0,


def length_told(n, f, length):
    if bad_taps(f):
        return 12,
    if n > LIMIT:
        return 11,
    if n < f:
        return 1, n, f
    return 0, length(n, f)


def line_length(m, f):
    if bad_taps(f):
        return 12,
    if m > LIMIT:
        return 11,
    if 2 * m + 2 <= f:
        return 7,
    return 0, joined_length(m, f)


def convolution_scratch(n, f, centre):
    if n > LIMIT or beyond(f, centre):
        return 11,
    if n == 0:
        return 7,
    return 0, 0 if f == 0 else n + sum(pads(f, centre))


def mirror(f, highs):
    return (12,) if bad_taps(f) or f != highs else (0,)


def two_pairs(f, highs, lowbacks, highbacks):
    return (12,) if bad_taps(f) or not f == highs == lowbacks == highbacks else (0,)


# --- levels: a level's line is the approximations of the one before

def bands(n, f, levels):
    """Each level's band length, the first level's first; None where a level's line is shorter than f. Levels 0 and 1 mean one."""
    lengths = []
    for _ in range(max(1, levels)):
        if n < f:
            return None
        n = band(n, f)
        lengths.append(n)
    return lengths


def packed(n, f, levels):
    """Details 1, details 2 and so on, then the last approximations."""
    lengths = bands(n, f, levels)
    return sum(lengths) + lengths[-1]


def first_scratch(n, f):
    """The padded length of the first line plus 2m of the first level."""
    return padded_length(n, f) + 2 * band(n, f)


def first_joined(n, f):
    """The first level's synthesis length."""
    return joined_length(band(n, f), f)


def part(n, f, levels, level):
    """Where a level's part begins in the packed buffer and how many numbers it has; level 0 names the last approximations."""
    lengths = bands(n, f, levels)
    return (sum(lengths), lengths[-1]) if level == 0 else (sum(lengths[:level - 1]), lengths[level - 1])


def levels_asked(n, f, levels):
    """12, 11, then 1 for one level or 9 for more."""
    if bad_taps(f):
        return 12,
    if n > LIMIT:
        return 11,
    if bands(n, f, levels) is None:
        return (9,) if levels > 1 else (1, n, f)
    return 0,


def levels_held(n, f, levels, packeds):
    """The same, then 10."""
    asked = levels_asked(n, f, levels)
    if asked != (0,):
        return asked
    need = packed(n, f, levels)
    return (10, need, packeds) if packeds != need else (0,)


def level_named(asked, levels, level):
    """What was asked, then 22."""
    if asked != (0,):
        return asked
    return (22, level) if level > max(1, levels) else (0,)


def level_length(n, f, levels, length):
    asked = levels_asked(n, f, levels)
    return (0, length(n, f)) if asked == (0,) else asked


def packed_length(n, f, levels):
    return level_length(n, f, levels, lambda n, f: packed(n, f, levels))


def most_levels(n, f):
    def most(n, f):
        return 0 if n < f else 1 + most(band(n, f), f)
    return level_length(n, f, 1, most)


def level_part(n, f, levels, level):
    named = level_named(levels_asked(n, f, levels), levels, level)
    return (0, *part(n, f, levels, level)) if named == (0,) else named


def analyse_levels(border, levels, f, highs, n, packeds, scratches):
    if border >= len(BORDERS):
        return NO_BORDER, border
    if f != highs:
        return 12,
    held = levels_held(n, f, levels, packeds)
    if held != (0,):
        return held
    return (5, first_scratch(n, f), scratches) if scratches < first_scratch(n, f) else (0,)


def restore_levels(n, levels, f, highs, packeds, firsts, seconds):
    if f != highs:
        return 12,
    held = levels_held(n, f, levels, packeds)
    if held != (0,):
        return held
    for have in (firsts, seconds):
        if have < first_joined(n, f):
            return 5, first_joined(n, f), have
    # the deepest level is joined into the first buffer
    return 0, 1 if max(1, levels) % 2 else 2, first_joined(n, f)


def bad_divisor(s):
    """25: the float that has these bits is not positive, not whole, or above 2^53."""
    s = WIDE.float_of(s)
    return not (0 < s <= WIDE.exact and s.is_integer())


def restore_divided(n, levels, s, f, highs, *lengths):
    """12, then 25, then what restoring tests besides."""
    if bad_taps(f) or f != highs:
        return 12,
    return (25,) if bad_divisor(s) else restore_levels(n, levels, f, highs, *lengths)


def read_place(n, f, levels, level, place, packeds, _):
    named = level_named(levels_held(n, f, levels, packeds), levels, level)
    if named != (0,):
        return named
    return (23, place) if place >= part(n, f, levels, level)[1] else (0,)


# --- planes: rows first, then columns, so that a band has as many columns as a row has pairs

def plane_band(width, height, f):
    """How many numbers each of the four bands has."""
    return band(width, f) * band(height, f)


def plane_need(width, height, f):
    """The rows' bands, the same turned, and the longer padded line."""
    return 4 * band(width, f) * height + max(padded_length(width, f), padded_length(height, f))


def sides(width, height):
    """7, then 11."""
    if width == 0 or height == 0:
        return 7,
    if width > LIMIT or height > LIMIT or width * height > MOST_OF_PLANE:
        return 11,
    return 0,


def plane_asked(width, height, f):
    """12, then the sides."""
    return (12,) if bad_taps(f) else sides(width, height)


def plane_size(length):
    def told(width, height, f):
        asked = plane_asked(width, height, f)
        return (0, length(width, height, f)) if asked == (0,) else asked
    return told


def plane_held(width, height, f, highs, planes, scratches):
    """The same, then 10 for the plane and for the scratch."""
    asked = (12,) if f != highs else plane_asked(width, height, f)
    if asked != (0,):
        return asked
    if planes != width * height:
        return 10, width * height, planes
    if scratches < plane_need(width, height, f):
        return 10, plane_need(width, height, f), scratches
    return 0,


def wrong_band(width, height, f, bands):
    """2 for the first band that has another length."""
    return next(((2, count) for count in bands if count != plane_band(width, height, f)), (0,))


def analyse_plane(border, width, height, f, highs, planes, ll, lh, hl, hh, scratches):
    if border >= len(BORDERS):
        return NO_BORDER, border
    held = plane_held(width, height, f, highs, planes, scratches)
    if held != (0,):
        return held
    for side in (width, height):
        if side < f:
            return 1, side, f
    return wrong_band(width, height, f, (ll, lh, hl, hh))


def synthesise_plane(width, height, f, highs, ll, lh, hl, hh, planes, scratches):
    held = plane_held(width, height, f, highs, planes, scratches)
    if held != (0,):
        return held
    wrong = wrong_band(width, height, f, (ll, lh, hl, hh))
    if wrong != (0,):
        return wrong
    for side in (height, width):
        need = joined_length(band(side, f), f)
        if side != need:
            return 4, side, need
    return 0,


def large_plane(border, width, height, f, highs, blocks, digests):
    """Analysis, then synthesis, every length as ruled."""
    if bad_taps(f):
        return 12,
    bands, need = [plane_band(width, height, f)] * 4, plane_need(width, height, f)
    there = analyse_plane(border, width, height, f, highs, width * height, *bands, need)
    return synthesise_plane(width, height, f, highs, *bands, width * height, need) if there == (0,) else there


def comparing_answer(width, height, firsts, seconds):
    asked = sides(width, height)
    if asked != (0,):
        return asked
    return next(((10, width * height, count) for count in (firsts, seconds) if count != width * height), (0,))


def compare_bands(width, height, first, second):
    """Told the bands themselves: column by column up to the first place where the bits differ, every NaN being one."""
    held = comparing_answer(width, height, len(first), len(second))
    if held != (0,):
        return held
    for place, (x, y) in enumerate(zip(first, second)):
        if x != y and one_nan(x) != one_nan(y):
            return DIFFER, place // height, place % height
    return 0,


def part_at(x, y):
    """The first place where the bits differ, every NaN being one, or that only one list has; None where there is none."""
    same = itertools.takewhile(lambda pair: None not in pair and one_nan(pair[0]) == one_nan(pair[1]), itertools.zip_longest(x, y))
    place = sum(1 for _ in same)
    return place if place < max(len(x), len(y)) else None


def parting(approx, detail, approx2, detail2):
    """Told the bands themselves: 0 and the place where the approximations part, else 1 and the place where the details do."""
    places = enumerate(part_at(x, y) for x, y in ((approx, approx2), (detail, detail2)))
    return next(((DIFFER, which, place) for which, place in places if place is not None), (0,))


# --- tests on lengths alone, and entries that are not for C

def back_answer(f, n, approxes, details, scratches, outs):
    there = analyse(0, f, f, n, approxes, details, scratches)
    return synthesise(f, f, approxes, details, outs) if there == (0,) else there


def handing_answer(n, f, levels, packeds, level):
    return level_named(levels_held(n, f, levels, packeds), levels, level)


def bare(answer):
    """The same as for C, but it carries nothing where it is done."""
    return answer if answer[0] else (0,)


def restoring_answer(n, f, levels, packeds, firsts, seconds):
    return bare(restore_levels(n, levels, f, f, packeds, firsts, seconds))


def divided_answer(n, f, s, levels, packeds, firsts, seconds):
    return bare(restore_divided(n, levels, s, f, f, packeds, firsts, seconds))


def levels_back_answer(n, f, s, levels, packeds, scratches, firsts, seconds):
    there = analyse_levels(0, levels, f, f, n, packeds, scratches)
    return divided_answer(n, f, s, levels, packeds, firsts, seconds) if there == (0,) else there


def alike(f, *others):
    """How many taps four lists have in each; none where they make no bank, and 12 is the first of every test."""
    return f if two_pairs(f, *others) == (0,) else 0


TESTS = {
    ANALYSE: analyse,
    SYNTHESISE: synthesise,
    ANALYSE_DIRECTLY: analyse_directly,
    SYNTHESISE_DIRECTLY: synthesise,
    CONVOLVE: convolve,
    BAND_LENGTH: lambda n, f: length_told(n, f, band),
    LINE_LENGTH: line_length,
    ANALYSIS_SCRATCH: lambda n, f: length_told(n, f, padded_length),
    CONVOLUTION_SCRATCH: convolution_scratch,
    MIRROR: mirror,
    PACKED_LENGTH: packed_length,
    LEVELS_SCRATCH: lambda n, f, levels: level_length(n, f, levels, first_scratch),
    RESTORING_LENGTH: lambda n, f, levels: level_length(n, f, levels, first_joined),
    MOST_LEVELS: most_levels,
    LEVEL_PART: level_part,
    ANALYSE_LEVELS: analyse_levels,
    RESTORE_LEVELS: restore_levels,
    RESTORE_DIVIDED: restore_divided,
    READ_PLACE: read_place,
    PLANE_BAND_WIDTH: plane_size(lambda width, height, f: band(width, f)),
    PLANE_BAND_HEIGHT: plane_size(lambda width, height, f: band(height, f)),
    PLANE_BAND_LENGTH: plane_size(plane_band),
    PLANE_SCRATCH: plane_size(plane_need),
    ANALYSE_PLANE: analyse_plane,
    SYNTHESISE_PLANE: synthesise_plane,
    TWO_PAIRS: two_pairs,
    LARGE_PLANE: large_plane,
    ANALYSIS_ANSWER: lambda f, n, approxes, details, scratches: analyse(0, f, f, n, approxes, details, scratches),
    DIRECT_ANSWER: lambda f, n, approxes, details: analyse_directly(0, f, f, n, approxes, details),
    SYNTHESIS_ANSWER: lambda f, approxes, details, outs: synthesise(f, f, approxes, details, outs),
    CONVOLUTION_ANSWER: lambda border, n, outs, f, centre, scratches: convolve(border, centre, n, outs, scratches, f),
    LEVELS_ANSWER: lambda n, f, levels, packeds, scratches: analyse_levels(0, levels, f, f, n, packeds, scratches),
    RESTORING_ANSWER: restoring_answer,
    DIVIDED_ANSWER: divided_answer,
    LEVELS_BACK_ANSWER: levels_back_answer,
    HANDING_ANSWER: handing_answer,
    PLANE_ANALYSIS_ANSWER: lambda width, height, f, planes, scratches, *bands: analyse_plane(0, width, height, f, f, planes, *bands, scratches),
    PLANE_SYNTHESIS_ANSWER: lambda width, height, f, planes, scratches, *bands: synthesise_plane(width, height, f, f, *bands, planes, scratches),
    COMPARING_ANSWER: comparing_answer,
    BACK_ANSWER: back_answer,
    THERE_AND_BACK: lambda border, f, highs, *lengths: back_answer(f, *lengths) if f == highs else (12,),
    LEVEL_DETAILS: lambda n, f, levels, level, packeds, _: handing_answer(n, f, levels, packeds, level),
    RESTORED_LINE: lambda n, levels, f, highs, packeds, firsts, seconds, _: restoring_answer(n, f, levels, packeds, firsts, seconds) if f == highs else (12,),
    DIVIDED_LINE: lambda n, levels, s, f, highs, packeds, firsts, seconds, _: divided_answer(n, f, s, levels, packeds, firsts, seconds) if f == highs else (12,),
    THERE_AND_BACK_LEVELS: lambda border, levels, s, f, highs, n, *lengths: levels_back_answer(n, f, s, levels, *lengths) if f == highs else (12,),
    BACK_BY_PAIRS: lambda border, low, high, lowback, highback, _, *lengths: back_answer(alike(low, high, lowback, highback), *lengths),
    RESTORED_BY_PAIRS: lambda n, levels, low, high, lowback, highback, _, *lengths: restoring_answer(n, alike(low, high, lowback, highback), levels, *lengths[:-1]),
    DIVIDED_BY_PAIRS: lambda n, levels, s, low, high, lowback, highback, _, *lengths: divided_answer(n, alike(low, high, lowback, highback), s, levels, *lengths[:-1]),
    PLANE_BY_PAIRS: lambda width, height, low, high, lowback, highback, _, *lengths: synthesise_plane(width, height, *[alike(low, high, lowback, highback)] * 2, *lengths),
}


def answer(case):
    """The number that the rules give to the case, and what it carries."""
    if case.op == COMPARE_BANDS:
        return compare_bands(*case.scalars, *case.lists)
    if case.op == PARTING:
        return parting(*case.lists)
    return TESTS[case.wide](*case.scalars, *case.counts)


def unsaid(case):
    """How many places at the front of each lent buffer the rules leave open after a done call: a plane's scratch within its need."""
    fronts = [0] * len(case.shape().lent)
    if case.op in (ANALYSE_PLANE, SYNTHESISE_PLANE):
        fronts[-1] = plane_need(*case.scalars[-2:], case.counts[0])
    return fronts


def may_reach(case):
    """How far a done call may change each lent buffer."""
    reaches = [case.counts[i] for i in case.shape().lent]
    if case.wide == ANALYSE:
        reaches[-1] = padded_length(case.counts[2], case.counts[0])
    if case.wide == CONVOLVE:
        n, f = case.counts[0], case.counts[3]
        reaches[-1] = n + sum(pads(f, case.scalars[1])) if f else 0
    if case.wide == ANALYSE_LEVELS:
        reaches[-1] = first_scratch(case.counts[2], case.counts[0])
    if case.wide in (RESTORE_LEVELS, RESTORE_DIVIDED):
        reaches = [first_joined(case.scalars[0], case.counts[0])] * 2
    if case.wide in (ANALYSE_PLANE, SYNTHESISE_PLANE):
        reaches[-1] = unsaid(case)[-1]
    return reaches
