"""What the list of the rules' answers asks about restoring with each joined line divided by s: the divisors, the divisions, there and back over levels, and refusals."""
from fractions import Fraction

import rules
import sums
from asked import (ask, bits, CLAMP, counted, eights, EVERY, every, FOURS, HUGE, INF, LOW8, MIRROR, MIRROR101, mirrored, NAN, ones, PARTED, premises, REFLECT, REFLECT101, refused, sevens,
                   SIXED, SUMS, taps, times, whole, WRAP, ZEROS)
from asked_direct import shown, TINY
from asked_pairs import FIVE_THREE, told, TURNED, UNLIKE, weight, wrong_lists
from protocol import BORDERS, DIVIDED_ANSWER, DIVIDED_BY_PAIRS, DIVIDED_LINE, LEVELS_BACK_ANSWER, RESTORE_DIVIDED, THERE_AND_BACK_LEVELS
from rules import LIMIT
from widths import WIDE

MOST = 2.0**53
# by their bits: a NaN has more than one
BAD = {'a NaN': WIDE.nan, 'a NaN below zero': WIDE.sign | WIDE.nan, 'a signalling NaN': WIDE.infinity | 1, **{name: bits(s) for name, s in (
    ('infinity', INF), ('-infinity', -INF), ('0.5', 0.5), ('1.5', 1.5), ('2^52 - 0.5', 2.0**52 - 0.5), ('the float below 1', 1 - 2.0**-53), ('the float above 1', 1 + 2.0**-52), ('-1', -1.0),
    ('-50', -50.0), ('-2^53', -MOST), ('2^53 + 2', MOST + 2), ('2^63', 2.0**63), ('2^64', 2.0**64), ('the largest float', (2 - 2.0**-52) * 2.0**1023), ('+0', 0.0), ('-0', -0.0),
    ('the smallest float', TINY))}}
PACKED = [1.0, 2.0, 3.0, 10.0, 20.0, 100.0, 1000.0]
NINE = [3.0, -0.0, 4.0, -1.0, 5.0, -9.0, 2.0, -6.0, 5.0]


def divided(name, bank, packed, n, levels, s, more=(3, 2), held=(7.0, 8.0)):
    """Both buffers, and the line, which is asked for again as a part of one of them."""
    length = rules.first_joined(n, len(bank[0]))
    lent = [[x] * (length + places) for x, places in zip(held, more)]
    answer, (first, second) = ask(name, RESTORE_DIVIDED, (n, levels, bits(s)), *bank, packed, *lent)
    holds = second if max(1, levels) % 2 == 0 else first
    assert answer == (0, 2 if holds is second else 1, length), name
    again, (_, _, line) = ask('', DIVIDED_LINE, (n, levels, bits(s)), *bank, packed, *lent, sevens(length))
    assert again == (0,) and shown(line) == shown(holds[:length])
    return first, second, line


# --- which divisors are taken

def divisors():
    for s, answer in (*((bits(s), (0,)) for s in (1.0, 2.0, 3.0, 50.0, MOST - 1, MOST)), *((s, (25,)) for s in BAD.values())):
        every((DIVIDED_ANSWER,), (answer,), 5, 2, s, 2, 7, 6, 6)
        every((LEVELS_BACK_ANSWER,), (answer,), 5, 2, s, 2, 7, 12, 6, 6)
    for name, s in BAD.items():
        refused('divided by ' + name, (25,), RESTORE_DIVIDED, (5, 2, s), *SUMS, PACKED, sevens(7), eights(6))
    assert divided('divided by 2^53 - 1', SUMS, [0.0, MOST - 1], 2, 1, MOST - 1)[2] == [1, 1]
    assert divided('divided by 2^53', SUMS, [MOST, 1.0, -MOST, MOST, 2.0, MOST], 5, 1, MOST)[2] == [2, 0, 3 / MOST, 1 / MOST, 0, 2]


# --- each joined line is divided, place by place, before it is trimmed and joined again

def nearest(x):
    """A quotient of whole numbers, or a sum, rounded once."""
    return float(Fraction(x))


def divisions():
    # By hand, divided by 2: 100 1000 with 10 20 give 110 90 1020 980 and so 55 45 510 490; the first three with 1 2 3 give 56 54 47 43 513 507.
    first, second, _ = divided('two levels of five samples, divided by 2', SUMS, PACKED, 5, 2, 2.0)
    assert first == [55, 45, 510, 490] + sevens(5) and second == [28, 27, 23.5, 21.5, 256.5, 253.5] + eights(2)
    # 1000 with 100 give 1100 900; 550 450 with 10 20 give 560 540 470 430; the first three of 280 270 235 215 with 1 2 3 give 281 279 272 268 238 232.
    first, second, _ = divided('three levels of five samples, divided by 2', SUMS, PACKED, 5, 3, 2.0)
    assert first == [140.5, 139.5, 136, 134, 119, 116] + sevens(3) and second == [280, 270, 235, 215] + eights(4)
    for levels in (0, 1):
        assert divided('levels %d of five samples, divided by 2' % levels, SUMS, [*PACKED[:5], 30.0], 5, levels, 2.0)[:2] == ([5.5, 4.5, 11, 9, 16.5, 13.5] + sevens(3), eights(8))
    # five thirds is not 5 times a third, and a third of a third not a ninth
    assert 5 / 3 != 5 * (1 / 3) and 11 / 3 / 3 != 11 / 9
    assert divided('5 and 10, divided by 3', SUMS, [-2.5, 7.5], 2, 1, 3.0)[2] == [nearest(Fraction(5, 3)), nearest(Fraction(10, 3))]
    assert divided('11 twice over, divided by 3', SUMS, [0.0, 0.0, 0.0, 11.0], 4, 2, 3.0)[2] == [nearest(Fraction(nearest(Fraction(11, 3))) / 3)] * 4
    thirds = [nearest(Fraction(x, 3)) for x in (110, 90, 1020)]
    sums_of = [nearest(Fraction(x) + d) for x, detail in zip(thirds, (1, 2, 3)) for d in (detail, -detail)]
    assert divided('two levels of five samples, divided by 3', SUMS, PACKED, 5, 2, 3.0)[2] == [nearest(Fraction(x) / 3) for x in sums_of]
    # eleven, seven and five samples are odd, four are not
    up = counted(22)
    for levels, p in ((1, 14), (2, 17), (3, 20), (4, 22)):
        assert rules.packed(11, 4, levels) == p
        divided('%d levels of eleven samples by four taps, divided by 3' % levels, FOURS, up[:p], 11, levels, 3.0, (0, 1))
    divided('three levels of ten samples by four taps, divided by 7', FOURS, up[:16], 10, 3, 7.0, (1, 0))
    divided('fractions by six taps, three levels, divided by 2', mirrored(SIXED), [x / 10 for x in counted(23)], 9, 3, 2.0)
    wide = mirrored(ones(64))
    assert divided('two levels of 65 samples by 64 taps, all 1, divided by 2048', wide, [0.0] * 127 + [4096.0] * 63, 65, 2, 2048.0)[2] == ones(66)
    specials()
    divided_by_one()


def specials():
    for s in (3.0, 2.0**52):
        divided('NaN and infinities, divided by %d' % s, PARTED, [1.0, INF, -0.0, NAN, 4.0, -INF, 2.0], 5, 2, s)
    assert shown(divided('infinities of both signs, divided by 3', SUMS, [INF, 1.0, -INF, -INF, INF, 1.0], 5, 1, 3.0)[2]) == ['nan', '-inf', 'inf', 'inf', '-inf', 'inf']
    assert shown(divided('past the largest float, divided by 4', SUMS, [2.0**1023, 2.0**1023], 2, 1, 4.0)[2]) == ['inf', '0.0']
    assert shown(divided('a third of the smallest float', SUMS, [0.0, -TINY], 2, 1, 3.0)[2]) == ['-0.0', '-0.0']
    assert shown(divided('half of the smallest float and of three, two levels', SUMS, [0.0, 0.0, TINY, -2 * TINY], 4, 2, 2.0)[0][:2]) == ['-0.0', shown([-2 * TINY])[0]]
    assert shown(divided('two levels of -0, divided by 5', SUMS, [-0.0] * 7, 5, 2, 5.0)[2]) == ['0.0'] * 6
    for held in (NAN, INF, -0.0):
        divided('%r in both buffers, divided by 2' % held, SUMS, PACKED, 5, 2, 2.0, held=(held, held))


def divided_by_one():
    """What restoring gives without a divisor."""
    for name, bank, packed, n, levels in (('five samples', SUMS, PACKED, 5, 3), ('seven samples by four taps', FOURS, counted(15), 7, 3), ('fractions by six taps', mirrored(SIXED), times(0.1, counted(23)), 9, 3),
                                          ('NaN and infinity', PARTED, [1.0, INF, 2.0, NAN, -0.0, 3.0, -TINY], 6, 2)):
        *_, line = sums.joins(n, levels, *bank, packed)
        assert shown(divided('%s, %d levels, divided by 1' % (name, levels), bank, packed, n, levels, 1.0)[2]) == shown(line)


# --- there and back over levels: whether each level's line keeps the bound, and what comes back

def whole_lines(border, low, line, levels):
    """The line that each level splits, in whole numbers."""
    low, line, f = [whole(t) for t in low], [whole(x) for x in line], len(low)
    for _ in range(levels):
        yield line
        m = rules.band(len(line), f)
        padded = [whole(x) for x in sums.padded(border, line, f - 2, 2 * m - len(line))]
        line = [sum(t * x for t, x in zip(low, padded[2 * i:])) for i in range(m)]


def bounded(border, low, line, levels):
    T = sum(abs(whole(t)) for t in low)
    return [2 * max(1, max(map(abs, line))) * T**2 <= WIDE.exact for line in whole_lines(border, low, line, levels)]


def returned(name, border, low, line, levels, held=(7.0, 7.0, 8.0)):
    bank, n, f, S = mirrored(low), len(line), len(low), sum(t * t for t in low)
    length = rules.first_joined(n, f)
    packed, first, second = held
    answer, left = ask('there and back over %d levels, %s' % (levels, name), THERE_AND_BACK_LEVELS, (border, levels, bits(S)), *bank, line, [packed] * rules.packed(n, f, levels),
                       [packed] * (rules.first_scratch(n, f) + 1), [first] * (length + 1), [second] * (length + 2))
    assert answer == (0,), name
    return left[3 if levels % 2 == 0 else 2][:length]


def samples(border, line):
    """The samples as they have to come back, zero as +0, and behind an odd line the border's next one."""
    return shown(float(whole(sums.sample(border, line, i))) for i in range(len(line) + len(line) % 2))


def restored(name, border, low, line, levels, **held):
    assert premises(*mirrored(low), line, WIDE.exact) and bounded(border, low, line, levels) == [True] * levels, name
    assert shown(returned(name, border, low, line, levels, **held)) == samples(border, line), name


FOUR = [1.0, 1.0, 1.0, -1.0]
# Samples in thousandths of the largest, found by search: lines of 11, 7 and 5 samples, none of which passes the bound of the first.
THOUSANDTHS = {
    CLAMP: (21, 172, -194, 232, -477, 648, -535, 587, -1000, 556, 8), WRAP: (802, -699, 837, -946, 1000, -281, -279, 144, -163, 461, -729),
    REFLECT: (-22, 19, 196, 207, -1000, 308, 498, -766, 947, -398, 158), ZEROS: (11, 296, -805, 62, 1000, -476, -20, -39, -106, 143, -73),
    REFLECT101: (800, -817, 1000, -672, 213, 142, -261, 319, -639, 400, -68)}
THOUSANDTHS |= {MIRROR: THOUSANDTHS[REFLECT], MIRROR101: THOUSANDTHS[REFLECT101]}


def largest(low):
    """The largest sample that the bound of the first level allows."""
    return WIDE.exact // (2 * whole(sum(map(abs, low)))**2)


def there_and_back():
    A, B, C = (largest(low) for low in (LOW8, SUMS[0], FOUR))
    assert (A, B, C) == (31274997412295, 2**50, 2**48)
    restored('taps 1 1, two samples', CLAMP, SUMS[0], [3.0, -0.0], 1)
    restored('taps 1 1, three samples', WRAP, SUMS[0], [3.0, -0.0, 4.0], 2)
    for levels in (1, 2, 3):
        restored('P8', CLAMP, LOW8, NINE, levels)
    restored('taps 1 1', WRAP, SUMS[0], NINE, 4, held=(NAN, INF, -0.0))
    restored('all zero', REFLECT, LOW8, [0.0, -0.0, -0.0, 0.0, -0.0], 2)
    restored('six taps', REFLECT101, [6.0, 12.0, 3.0, -4.0, 6.0, -3.0], NINE, 3)
    # those of docs/EXACT.md
    for border in (CLAMP, REFLECT101):
        restored("P8's bank, eleven samples, " + BORDERS[border], border, LOW8, [5.0, 0.0, 3.0, -4.0, 9.0, 2.0, -7.0, 1.0, 8.0, -6.0, 4.0], 3)
    for border in (WRAP, ZEROS):
        restored('taps 1 1, the largest A at every level, ' + BORDERS[border], border, SUMS[0], [float(x) for x in (B, -B, B, 0, B - 1, 1, 0, -B, 5, -3, -B, B, -7)], 4)
    for border in EVERY:
        restored("P8's bank, the largest A, " + BORDERS[border], border, LOW8, [float(x * A // 1000) for x in THOUSANDTHS[border]], 3)
        restored('taps 1 1, the largest A, ' + BORDERS[border], border, SUMS[0], [float(x) for x in (-B, 1, B, -3, B - 1, -0.0, -B, 5, 7, -9, 2**48)], 4)
        restored('taps 1 1 1 -1, the largest A, ' + BORDERS[border], border, FOUR, [float(x * C // 981) for x in (42, 230, 171, 981, -463, 552, -461, 196, 37, -250, 87)], 4)


# --- the bound is kept by the first level's line and passed by a deeper one, and another line comes back

def deeper_bound():
    for border, line, kept in (
            (CLAMP, (-31274997412293, -31274997412295, 31274997412293, 31274997412286, 31274997412294), [True, False]),
            (ZEROS, (-31274997412295, -31274997412295, -31274997412295, -31274997412286, -31274997412287), [True, False]),
            (WRAP, (0, 20000000000001, 0, 10000000000001, -29999999999999), [True, False]),
            (REFLECT, (-3064949746405, -2095424826631, 5535674541980, 1282274893903, 750599937893, -5191649570447, -2220524816281), [True, True, False])):
        line, levels = [float(x) for x in line], len(kept)
        assert premises(*mirrored(LOW8), line, WIDE.exact) and bounded(border, LOW8, line, levels) == kept
        name = "P8's bank, a deeper line past the bound, " + BORDERS[border]
        assert shown(returned(name, border, LOW8, line, levels)) != samples(border, line)
        # a level less, and it comes back
        restored(name + ', one level less', border, LOW8, line, levels - 1)


# --- by a bank of two pairs

def by_pairs(name, bank, packed, n, levels, s, held=7.0):
    length = rules.first_joined(n, len(bank[0]))
    answer, left = ask('divided by two pairs, ' + name, DIVIDED_BY_PAIRS, (n, levels, bits(s), *told(bank)), sum(bank, []), packed, [held] * (length + 2), eights(length + 1), sevens(length))
    assert answer == (0,) and shown(left[2]) == shown(left[1 if max(1, levels) % 2 == 0 else 0][:length])
    return left[2]


def pairs():
    # By hand: 5 1 + 2 10 and -7 1 + 3 10, over 2.
    for held in (7.0, NAN):
        assert by_pairs('two samples', (*SUMS, [2.0, 3.0], [5.0, -7.0]), [1.0, 10.0], 2, 1, 2.0, held) == [12.5, 11.5]
    assert weight(FIVE_THREE, 0, 0) == 16
    for border, levels in ((CLAMP, 1), (ZEROS, 2), (WRAP, 3)):
        packed, _ = sums.analyse_levels(border, levels, *FIVE_THREE[:2], NINE, [], [])
        assert by_pairs('5/3, %d levels, %s' % (levels, BORDERS[border]), FIVE_THREE, packed, 9, levels, 16.0, NAN) == [sums.sample(border, NINE, i) for i in range(10)]
    for levels, p in ((0, 10), (3, 15)):
        *_, other = sums.divided_joins(7, levels, bits(3.0), *UNLIKE[:2], counted(p))
        assert by_pairs('pairs apart, %d levels' % levels, UNLIKE, counted(p), 7, levels, 3.0) != other
    assert weight(TURNED, 0, 0) == -16
    refused('divided by two pairs, S is -16', (25,), DIVIDED_BY_PAIRS, (6, 1, bits(-16.0), *told(TURNED)), sum(TURNED, []), ones(10), sevens(6), eights(6), [])


# --- refusals: where several tests fail, the first answers

def refusals():
    half = 0.5
    for name, answer, f, s, n, levels, p, a, b in (
            ('no taps, divided by NaN, nothing lent', (12,), 0, NAN, 0, 0, 0, 0, 0), ('3 taps, divided by a half, 1048577 samples, all wrong', (12,), 3, half, LIMIT + 1, 2, 1, 1, 1),
            ('66 taps, divided by 2, all wrong', (12,), 66, 2.0, 2, 1, 1, 1, 1), ('3 taps, divided by -1, the rest as ruled', (12,), 3, -1.0, 5, 2, 7, 8, 8),
            ('divided by a half, 1048577 samples, all wrong', (25,), 4, half, LIMIT + 1, 2, 1, 1, 1), ('divided by -0, 3 samples, one level, all wrong', (25,), 4, -0.0, 3, 1, 1, 1, 1),
            ('divided by infinity, 3 samples, two levels, all wrong', (25,), 4, INF, 3, 2, 1, 1, 1), ('divided by 2^53 + 2, packed and both buffers short', (25,), 2, MOST + 2, 5, 2, 6, 5, 4),
            ('divided by NaN, both buffers short', (25,), 2, NAN, 5, 2, 7, 5, 4), ('divided by -2, nothing lent', (25,), 2, -2.0, 0, 0, 0, 0, 0),
            ('1048577 samples, all wrong', (11,), 4, 2.0, LIMIT + 1, 2, 1, 1, 1), ('3 samples, one level, all wrong', (1, 3, 4), 4, 2.0, 3, 1, 1, 1, 1), ('3 samples, levels 0, all wrong', (1, 3, 4), 4, MOST, 3, 0, 1, 1, 1),
            ('3 samples, two levels, all wrong', (9,), 4, 1.0, 3, 2, 1, 1, 1), ('18446744073709551615 levels', (9,), 2, 2.0, 5, HUGE, 7, 6, 6), ('packed and both buffers short', (10, 7, 6), 2, 2.0, 5, 2, 6, 5, 4),
            ('packed a place too long', (10, 7, 8), 2, 2.0, 5, 2, 8, 6, 6), ('both buffers short', (5, 6, 5), 2, 2.0, 5, 2, 7, 5, 4), ('the first short', (5, 6, 5), 2, 2.0, 5, 2, 7, 5, 6),
            ('the second short', (5, 6, 4), 2, 2.0, 5, 2, 7, 6, 4), ('no buffers, levels 0', (5, 2, 0), 2, 3.0, 2, 0, 2, 0, 0)):
        refused('divided, ' + name, answer, RESTORE_DIVIDED, (n, levels, bits(s)), *taps(f), ones(p), sevens(a), eights(b))
        refused('divided, no line: ' + name, answer, DIVIDED_LINE, (n, levels, bits(s)), *taps(f), ones(p), sevens(a), eights(b), [])
    for f, h in ((4, 2), (2, 4)):
        for op, more in ((RESTORE_DIVIDED, ()), (DIVIDED_LINE, ([],))):
            refused('divided by a half, lists of %d and %d' % (f, h), (12,), op, (5, 2, bits(half)), ones(f), ones(h), ones(7), sevens(6), sevens(6), *more)
    for lists in list(wrong_lists(6))[::4]:
        refused('divided by a half, lists of %d, %d, %d and %d' % tuple(lists), (12,), DIVIDED_BY_PAIRS, (6, 1, bits(half), *lists), ones(sum(lists)), ones(10), sevens(6), eights(6), [])
    for s, p, a, answer in ((half, 1, 1, (25,)), (2.0, 9, 1, (10, 10, 9)), (2.0, 10, 5, (5, 6, 5))):
        refused('divided by %s, two pairs' % s, answer, DIVIDED_BY_PAIRS, (6, 1, bits(s), *[6] * 4), ones(24), ones(p), sevens(a), eights(a), [])
    of_lengths(half)
    refused_returns(half)


def of_lengths(half):
    """The tests alone, up to lengths that no program could lend."""
    for f, s, n, levels, p, a, b, answer in (
            (3, half, LIMIT + 1, 2, 0, 0, 0, (12,)), (HUGE, NAN, HUGE, HUGE, 0, 0, 0, (12,)), (4, half, HUGE, HUGE, 0, 0, 0, (25,)), (4, 2.0, HUGE, HUGE, 0, 0, 0, (11,)), (2, -1.0, LIMIT, 21, LIMIT, LIMIT, LIMIT, (25,)),
            (2, 2.0, LIMIT, 21, LIMIT, LIMIT, LIMIT, (9,)), (2, 0.0, LIMIT, 20, LIMIT - 1, 0, 0, (25,)), (2, 2.0, LIMIT, 20, LIMIT - 1, LIMIT - 1, LIMIT - 1, (10, LIMIT, LIMIT - 1)),
            (2, INF, LIMIT, 20, LIMIT, LIMIT - 1, LIMIT - 2, (25,)), (2, 2.0, LIMIT, 20, LIMIT, LIMIT - 1, LIMIT - 2, (5, LIMIT, LIMIT - 1)), (2, 2.0, LIMIT, 20, LIMIT, LIMIT, LIMIT - 2, (5, LIMIT, LIMIT - 2)),
            (2, 2.0, LIMIT, 20, LIMIT, LIMIT, LIMIT, (0,)), (64, MOST, LIMIT, 3, rules.packed(LIMIT, 64, 3), HUGE, HUGE, (0,))):
        every((DIVIDED_ANSWER,), (answer,), n, f, bits(s), levels, p, a, b)
    # the way there first, with its scratch, then s and both buffers
    for f, s, n, levels, p, c, a, b, answer in (
            (3, half, LIMIT + 1, 2, 0, 0, 0, 0, (12,)), (2, half, LIMIT + 1, 2, 0, 0, 0, 0, (11,)), (4, half, 3, 1, 0, 0, 0, 0, (1, 3, 4)), (4, half, 3, 2, 0, 0, 0, 0, (9,)), (2, half, LIMIT, 20, 0, 0, 0, 0, (10, LIMIT, 0)),
            (2, half, LIMIT, 20, LIMIT, 0, 0, 0, (5, 2 * LIMIT, 0)), (2, half, LIMIT, 20, LIMIT, 2 * LIMIT, 0, 0, (25,)), (2, 2.0, LIMIT, 20, LIMIT, 2 * LIMIT, 0, 1, (5, LIMIT, 0)),
            (2, 2.0, LIMIT, 20, LIMIT, 2 * LIMIT, LIMIT, 1, (5, LIMIT, 1)), (2, 2.0, LIMIT, 20, LIMIT, 2 * LIMIT, LIMIT, LIMIT, (0,))):
        every((LEVELS_BACK_ANSWER,), (answer,), n, f, bits(s), levels, p, c, a, b)


def refused_returns(half):
    for name, answer, f, s, n, levels, p, c, a, b in (
            ('3 taps, all wrong', (12,), 3, half, 2, 2, 1, 1, 1, 1), ('3 samples, one level, all wrong', (1, 3, 4), 4, half, 3, 1, 1, 1, 1, 1), ('3 samples, two levels, all wrong', (9,), 4, half, 3, 2, 1, 1, 1, 1),
            ('all but the line wrong', (10, 7, 6), 2, half, 5, 2, 6, 11, 5, 4), ('scratch, divisor and both buffers wrong', (5, 12, 11), 2, half, 5, 2, 7, 11, 5, 4),
            ('divisor and both buffers wrong', (25,), 2, half, 5, 2, 7, 12, 5, 4), ('divisor wrong', (25,), 2, -2.0, 5, 2, 7, 12, 6, 6), ('both buffers short', (5, 6, 5), 2, 2.0, 5, 2, 7, 12, 5, 4),
            ('the second short', (5, 6, 4), 2, 2.0, 5, 2, 7, 12, 6, 4)):
        refused('there and back over levels, ' + name, answer, THERE_AND_BACK_LEVELS, (WRAP, levels, bits(s)), *taps(f), ones(n), sevens(p), sevens(c), sevens(a), eights(b))
    refused('there and back over levels, lists that differ', (12,), THERE_AND_BACK_LEVELS, (WRAP, 2, bits(2.0)), ones(4), ones(2), ones(5), sevens(7), sevens(12), sevens(6), sevens(6))
