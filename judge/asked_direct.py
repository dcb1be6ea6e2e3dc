"""What the list of the rules' answers asks about the engine that pads no line: the questions that the other engine has, without a scratch, those that only such an engine can
answer wrongly, and where two pairs of bands part."""
import struct

import asked
import rules
from asked import (APART, ask, CLAMP, counted, EVERY, every, FOURS, HUGE, INF, LOW8, MIRROR, MIRROR101, mirrored, NAN, NONE, ones, PARTED, REFLECT, REFLECT101, sevens, SIXED, SUMS, taps, TENS,
                   times, WRAP, ZEROS)
from protocol import ANALYSE_DIRECTLY, BORDERS, DIRECT_ANSWER, MIRRORS, PARTING, SYNTHESISE_DIRECTLY
from rules import LIMIT

# the smallest number, and the smallest normal one
TINY, LEAST = 2.0**-1074, 2.0**-1022
# NaNs of other bits
OTHER_NAN, NEGATIVE_NAN = (struct.unpack('<d', word.to_bytes(8, 'little'))[0] for word in (0x7FF8000000001234, 0xFFF8000000000000))
SIGNS = ones(4), [1.0, -1.0, 1.0, -1.0]


def analysed(name, border, bank, line, there=sevens):
    m = rules.band(len(line), len(bank[0]))
    answer, left = ask('direct, ' + name, ANALYSE_DIRECTLY, (border,), *bank, line, there(m), there(m))
    assert answer == (0,), name
    return left


def synthesised(name, *told): return asked.synthesised('direct, ' + name, *told, op=SYNTHESISE_DIRECTLY)
def refused(name, answer, op, *told): asked.refused('direct, ' + name, answer, op, *told)
def shown(numbers): return [repr(x) for x in numbers]


# --- the rules' examples, borders and lengths

def lines():
    assert analysed('P4: two taps, two samples', WRAP, SUMS, [3.0, 5.0]) == [[8], [-2]]
    assert shown(analysed('P12: two samples -0', WRAP, SUMS, [-0.0, -0.0])[0]) == ['0.0']
    for border in EVERY:
        analysed('four samples, ' + BORDERS[border], border, (TENS, APART), counted(4))
        analysed('five samples, ' + BORDERS[border], border, (TENS, APART), counted(5))
    approx, detail = analysed("P8: the program's case", CLAMP, mirrored(LOW8), [10.0, 20.0, 30.0, 40.0])
    assert approx == [90, 170, 370] and detail == [-30, 10, 10]
    once = synthesised('P8, into a cleared output', mirrored(LOW8), approx, detail, [0.0] * 4)
    assert once == [500, 1000, 1500, 2000]
    assert synthesised('P8, onto the same output', mirrored(LOW8), approx, detail, once) == [1000, 2000, 3000, 4000]
    approx, detail = analysed('fractions, six taps by the mirror rule', REFLECT, mirrored(SIXED), [0.1, 0.7, -0.3, 1.9, 0.6, -2.3, 0.9])
    synthesised('fractions, six taps, onto sevens', mirrored(SIXED), approx, detail, sevens(8))
    synthesised('one pair, two taps, onto 100 200', SUMS, [3.0], [5.0], [100.0, 200.0])
    synthesised('two pairs, four taps', FOURS, [1.0, 2.0], [4.0, 8.0], [0.0] * 2)
    synthesised('four pairs, four taps, onto sevens', FOURS, counted(4), times(4.0, counted(4)), sevens(6))


def ends():
    """The first tap and the last of 64 reach as far to both sides as any pad: sample -62 and the like, one by one."""
    far = [1.0, *[0.0] * 62, 100.0], [0.0, 1.0, *[0.0] * 60, 100.0, 0.0]
    for border in EVERY:
        approx, _ = analysed('64 taps and 64 samples, the first and the last tap, ' + BORDERS[border], border, far, counted(64))
        assert approx[0] == {CLAMP: 1, WRAP: 3, REFLECT: 62, ZEROS: 0, REFLECT101: 63, MIRROR: 62, MIRROR101: 63}[border] + 100 * 2, (border, approx[0])
    wide = mirrored(ones(64))
    assert analysed('64 taps and 65 samples, all 1', MIRROR101, wide, ones(65)) == [[64] * 64, [0] * 64]
    assert synthesised('32 pairs, 64 taps, all 1', wide, ones(32), [0.0] * 32, [0.0] * 2) == [32] * 2
    assert synthesised('63 pairs, 64 taps, all 1', wide, ones(63), [0.0] * 63, [0.0] * 64) == [32] * 64
    for border, n in ((REFLECT101, 20), (MIRROR, 21)):
        analysed('20 taps and %d samples, %s' % (n, BORDERS[border]), border, mirrored([x / 10 for x in counted(20)]), counted(n))
    # as many places as may be worked out together, and some over
    for border, n in ((WRAP, 37), (ZEROS, 40), (MIRROR, 41)):
        analysed('8 taps and %d samples, %s' % (n, BORDERS[border]), border, mirrored(counted(8)), [x / 10 for x in counted(n)])
    analysed('2 taps and 35 samples', REFLECT101, SUMS, [x / 10 for x in counted(35)])
    for f, m in ((2, 35), (8, 37), (20, 27)):
        synthesised('%d taps and %d pairs' % (f, m), mirrored(counted(f)), [x / 10 for x in counted(m)], counted(m), sevens(rules.joined_length(m, f)))


def roundings():
    big, near = 2.0**53, 1 + 2.0**-30
    assert analysed('analysis, taps rising', ZEROS, SIGNS, [big, 1.0, -big, 0.0])[0][1] == 0
    assert analysed('analysis, products rounded', ZEROS, ([1.0, near], [1.0, near]), [-1.0, near])[0] == [2.0**-29]
    assert synthesised("synthesis, the detail's product first", ([-1.0, 1.0], [1.0, -1.0]), [big], [big], [1.0, 1.0]) == [0, 1]
    assert synthesised('synthesis, products rounded', ([0.0, near], [near, 0.0]), [near], [near], [-1.0, -1.0]) == [2.0**-29] * 2
    assert synthesised('synthesis, pairs rising', (ones(4), [0.0] * 4), [big, -big, big], [0.0] * 3, ones(4))[0] == 0


def specials():
    analysed('samples with infinity, NaN and -0', ZEROS, PARTED, [INF, 1.0, NAN, 2.0, -0.0, 3.0])
    analysed('taps with infinity and NaN', ZEROS, ([INF, 1.0], [NAN, 1.0]), [0.0, 1.0, 2.0, -2.0, -3.0, 4.0])
    analysed('one NaN under four taps', CLAMP, SIGNS, [1.0, 2.0, NAN, 4.0, 5.0, 6.0])
    # a zero of the border is a sample like any other: infinity times it is NaN
    assert shown(analysed('infinite taps over zeros of the border', ZEROS, ([INF, 1.0, 1.0, 1.0], [1.0, 1.0, 1.0, -INF]), counted(4))[0]) == ['nan', 'inf', 'inf']
    assert shown(analysed('infinity at both ends, beside zeros of the border', ZEROS, (TENS, ones(4)), [INF, 1.0, 2.0, 3.0, 4.0, -INF])[0]) == ['inf', 'inf', '-inf', '-inf']
    assert shown(analysed('four samples -0 and negative taps over zeros of the border', ZEROS, (ones(4), times(-1.0, ones(4))), [-0.0] * 4)[1]) == ['0.0'] * 3
    assert shown(analysed('four samples -0', MIRROR, SIGNS, [-0.0] * 4)[0]) == ['0.0'] * 3
    assert analysed('below the smallest number', CLAMP, ([0.5, 0.5], [0.5, 1.0]), [TINY, 3 * TINY, LEAST, -LEAST]) == [[2 * TINY, 0], [3 * TINY, -LEAST / 2]]
    assert shown(synthesised('zeros onto -0', ([1.0, 1.0], [-1.0, 1.0]), [-0.0], [0.0], [-0.0, -0.0])) == ['-0.0', '0.0']
    assert shown(synthesised('infinity times 0, and in the output', ([0.0, 1.0], [0.0, 0.0]), [INF], [1.0], [1.0, -INF])) == ['nan', 'nan']
    assert synthesised('below the smallest number', ([0.5, 1.0], [0.0, 0.5]), [3 * TINY], [TINY], [0.0, LEAST]) == [2 * TINY, LEAST + 3 * TINY]
    synthesised('one NaN among the approximations', SIGNS, [NAN, 1.0, 2.0], [0.0] * 3, [0.0] * 4)
    for held in (NAN, INF, -0.0):
        analysed('bands with %r' % held, WRAP, (TENS, APART), counted(5), lambda n: [held] * n)
        synthesised('onto %r' % held, SUMS, [1.0, -0.0], [2.0, -0.0], [held] * 4)


# --- refusals: where several tests fail, the first answers, and no scratch is asked for

def refusals():
    for border in (NONE, HUGE):
        refused('no border of that number, all wrong', (26, border), ANALYSE_DIRECTLY, (border,), *taps(3), ones(2), sevens(1), sevens(3))
    for border in MIRRORS:
        refused(BORDERS[border] + ', all wrong', (12,), ANALYSE_DIRECTLY, (border,), *taps(3), ones(2), sevens(1), sevens(3))
    for f, h in ((0, 0), (66, 66), (4, 2), (2, 4)):
        refused('lists of %d and %d, all wrong' % (f, h), (12,), ANALYSE_DIRECTLY, (WRAP,), ones(f), ones(h), [1.0], sevens(1), sevens(3))
        refused('synthesis by lists of %d and %d, all wrong' % (f, h), (12,), SYNTHESISE_DIRECTLY, (), ones(f), ones(h), ones(2), ones(1), sevens(3))
    for name, answer, f, n, a, d in (
            ('4 taps, 3 samples, both bands wrong', (1, 3, 4), 4, 3, 1, 2), ('2 taps, no samples', (1, 0, 2), 2, 0, 0, 0), ('64 taps, 63 samples', (1, 63, 64), 64, 63, 63, 63),
            ('both bands wrong', (2, 2), 4, 4, 2, 4), ('approximations too long', (2, 4), 4, 4, 4, 3), ('no approximations', (2, 0), 4, 5, 0, 4),
            ('details too long', (2, 4), 4, 4, 3, 4), ('details too short', (2, 2), 4, 4, 3, 2), ('no details', (2, 0), 2, 2, 1, 0)):
        refused(name, answer, ANALYSE_DIRECTLY, (REFLECT101,), *taps(f), ones(n), sevens(a), sevens(d))
    for f, n, a, d, answer in ((3, LIMIT + 1, 0, 0, (12,)), (4, LIMIT + 1, 0, 0, (11,)), (64, LIMIT, 0, 1, (2, 0)), (64, LIMIT, 524319, 1, (2, 1)), (64, LIMIT, 524319, 524319, (0,)), (2, HUGE, 1, 1, (11,))):
        every((DIRECT_ANSWER,), (answer,), f, n, a, d)
    for name, answer, f, a, d, o in (
            ('5 taps, all wrong', (12,), 5, 2, 1, 3), ('bands of 1 and 0, 4 taps, output wrong', (3, 1, 0), 4, 1, 0, 3), ('bands of 0 and 3, 4 taps, output wrong', (3, 0, 3), 4, 0, 3, 3),
            ('1 pair, 4 taps, output wrong', (7,), 4, 1, 1, 3), ('1 pair, 4 taps, no output', (7,), 4, 1, 1, 0), ('no pairs, 2 taps', (7,), 2, 0, 0, 0), ('31 pairs, 64 taps', (7,), 64, 31, 31, 0),
            ('2 pairs, 4 taps, output too long', (4, 3, 2), 4, 2, 2, 3), ('2 pairs, 4 taps, output too short', (4, 1, 2), 4, 2, 2, 1), ('2 pairs, 4 taps, no output', (4, 0, 2), 4, 2, 2, 0)):
        refused(name, answer, SYNTHESISE_DIRECTLY, (), *taps(f), ones(a), ones(d), sevens(o))


# --- where two pairs of bands part

def partings():
    def parting(name, answer, *lists): refused('parting: ' + name, answer, PARTING, (), *lists)
    three, five, line = [1.0, 2.0, 3.0], [4.0, -0.0, 5.0], [float(x) for x in range(70)]
    parting('the same', (0,), three, five, three, five)
    for place, where in enumerate(('first', 'middle', 'last')):
        other = [9.0 if i == place else x for i, x in enumerate(three)]
        parting('%s approximation' % where, (27, 0, place), three, five, other, five)
        parting('%s detail' % where, (27, 1, place), five, three, five, other)
    parting('the last approximation before the first detail', (27, 0, 2), three, five, [1.0, 2.0, 9.0], [9.0, 9.0, 9.0])
    parting('two approximations', (27, 0, 1), three, five, [1.0, 9.0, 9.0], five)
    parting('+0 and -0', (27, 0, 0), [0.0], [1.0], [-0.0], [1.0])
    parting('-0 and +0 among the details', (27, 1, 1), three, five, three, [4.0, 0.0, 5.0])
    parting('a NaN is a NaN', (0,), [NAN, 1.0], [OTHER_NAN], [NEGATIVE_NAN, 1.0], [NAN])
    parting('a NaN is a NaN, and behind it one number is another', (27, 1, 1), [NAN, 1.0], [NAN, 1.0], [OTHER_NAN, 1.0], [NEGATIVE_NAN, 2.0])
    parting('a NaN and infinity', (27, 0, 1), [1.0, NAN], [], [1.0, INF], [])
    parting('a number and a NaN', (27, 1, 0), [], [1.0], [], [NAN])
    parting('infinities of both signs', (27, 1, 0), [INF], [INF], [INF], [-INF])
    parting('numbers that differ in the last bit', (27, 0, 1), [1.0, TINY], [1.0], [1.0, 2 * TINY], [1.0])
    parting('no numbers', (0,), [], [], [], [])
    parting('approximations that end early', (27, 0, 2), three[:2], five, three, five)
    parting('approximations that go on', (27, 0, 2), three, five, three[:2], five)
    parting('details that end early', (27, 1, 0), three, [], three, five)
    parting('details that go on, by a NaN', (27, 1, 3), three, five + [NAN], three, five)
    parting('lists that end early, and a place before', (27, 0, 1), three, five, [1.0, 9.0], five[:1])
    parting('the last of 70', (27, 1, 69), line, line, line, line[:-1] + [NAN])
