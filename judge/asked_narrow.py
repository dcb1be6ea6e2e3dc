"""What the list of the rules' answers asks about lines of 32-bit floats: the questions that the other width has, in short, and those that only this width can answer wrongly."""
import asked
import asked_pairs
from asked import (APART, ask, BEHIND, CLAMP, counted, EVERY, FOURS, INF, LOW8, mirrored, MIRROR, MIRROR101, NAN, NONE, ones, PARTED, REFLECT, REFLECT101, sevens, SIXED, SUMS, taps, TEN, TENS,
                   times, WRAP, ZEROS)
from asked_pairs import FIVE_THREE, restores, SIX, TURNED, UNLIKE, weight
from protocol import ANALYSE_F32, BACK_BY_PAIRS_F32, BORDERS, CONVOLVE_F32, MIRROR_F32, SYNTHESISE_F32, THERE_AND_BACK_F32
from widths import NARROW

MOST = NARROW.exact
# the largest float, and the smallest normal one
LARGEST, LEAST = (2 - 2.0**-23) * 2.0**127, 2.0**-126


def pads(name, *told): return asked.pads('f32, ' + name, *told, op=CONVOLVE_F32)
def analysed(name, *told, **more): return asked.analysed('f32, ' + name, *told, **more, op=ANALYSE_F32)
def synthesised(name, *told): return asked.synthesised('f32, ' + name, *told, op=SYNTHESISE_F32)
def convolved(name, *told): return asked.convolved('f32, ' + name, *told, op=CONVOLVE_F32)
def returned(name, *told): return asked.returned('f32, there and back, ' + name, *told, op=THERE_AND_BACK_F32)
def by_pairs(name, *told): return asked_pairs.returned('f32, ' + name, *told, op=BACK_BY_PAIRS_F32)
def refused(name, answer, op, *told): asked.refused('f32, ' + name, answer, op, *told)
def shown(numbers): return [repr(float(x)) for x in numbers]


# --- the rules' examples, borders and lengths

def lists_of_taps():
    assert ask("f32, P8's taps by the mirror rule", MIRROR_F32, (), LOW8, sevens(4))[1] == [[-1, -2, 6, -3]]
    assert shown(ask('f32, mirror rule: -0, the smallest number, infinity and NaN', MIRROR_F32, (), [-0.0, 2.0**-149, INF, NAN], sevens(4))[1][0]) == ['nan', '-inf', repr(2.0**-149), '0.0']
    for f, h in ((3, 3), (4, 2), (2, 4), (66, 66)):
        refused('mirror rule: lists of %d and %d' % (f, h), (12,), MIRROR_F32, (), ones(f), sevens(h))


def borders():
    assert pads('P7: Reflect101, one each side', REFLECT101, TEN, 1, 1, 1) == [20, *TEN, 20]
    assert pads('P5: Wrap, four each side', WRAP, TEN, 4, 4, 0) == [30, 10, 20, 30, *TEN, 10, 20, 30, 10]
    assert pads('P6: Reflect, four each side', REFLECT, TEN, 4, 4, 1) == [10, 30, 20, 10, *TEN, 30, 20, 10, 30]
    assert pads('P13: Mirror, four each side', MIRROR, TEN, 4, 4, 1) == [30, 30, 20, 10, *TEN, 30, 20, 10, 10]
    assert pads('P13: Mirror101, four each side', MIRROR101, TEN, 4, 4, 1) == [10, 20, 30, 20, *TEN, 20, 10, 20, 30]
    assert shown(pads('-0, NaN and infinity, Clamp', CLAMP, [-0.0, NAN, INF], 2, 3, 0)) == ['-0.0'] * 3 + ['nan'] + ['inf'] * 4
    assert shown(pads('one sample -0, Zeros', ZEROS, [-0.0], 2, 3, 1)) == ['0.0'] * 2 + ['-0.0'] + ['0.0'] * 3


def lines():
    assert analysed('P4: two taps, two samples', WRAP, SUMS, [3.0, 5.0], 2) == [[8], [-2], [3, 5, 7, 7]]
    assert shown(analysed('P12: two samples -0', WRAP, SUMS, [-0.0, -0.0])[0]) == ['0.0']
    approx, detail, _ = analysed("P8: the program's case", CLAMP, mirrored(LOW8), [10.0, 20.0, 30.0, 40.0], 1)
    assert approx == [90, 170, 370] and detail == [-30, 10, 10]
    assert synthesised('one pair, two taps, onto 100 200', SUMS, [3.0], [5.0], [100.0, 200.0]) == [108, 198]
    assert synthesised('P8, into a cleared output', mirrored(LOW8), approx, detail, [0.0] * 4) == [500, 1000, 1500, 2000]
    for border in EVERY:
        analysed('five samples, ' + BORDERS[border], border, (TENS, APART), counted(5), 1)
    analysed('fractions, six taps by the mirror rule', REFLECT, mirrored(SIXED), [0.1, 0.7, -0.3, 1.9, 0.6, -2.3, 0.9])
    synthesised('four pairs, four taps, onto sevens', FOURS, counted(4), times(0.1, counted(4)), sevens(6))
    wide = mirrored(ones(64))
    assert analysed('64 taps and 65 samples, all 1', REFLECT101, wide, ones(65), 1)[:2] == [[64] * 64, [0] * 64]
    assert synthesised('32 pairs, 64 taps, all 1', wide, ones(32), [0.0] * 32, [0.0] * 2) == [32] * 2


def kernels():
    for centre, out in ((0, [210, 321, 432, 43]), (1, [321, 432, 43, 4]), (-1, [100, 210, 321, 432])):
        assert convolved('P9: centre %d' % centre, ZEROS, counted(4), [1.0, 10.0, 100.0], centre, 8)[1][0] == out
    assert shown(convolved('P12: one -0 with kernel 1', ZEROS, [-0.0], [1.0], 0, 3)[1][0]) == ['-0.0']
    assert convolved('empty kernel', WRAP, [1.0, -0.0, 3.0], [], 0, 2)[1] == [[1, -0.0, 3], sevens(2)]
    # as many places as are worked out together, and some over
    convolved('37 samples', REFLECT, [x / 10 for x in counted(37)], [0.1, 10.0, -0.7], 0, 41)
    assert convolved('64 taps and 64 samples, all 1, Wrap', WRAP, ones(64), ones(64), 0, 129)[1] == [[64] * 64, ones(128) + [7]]


# --- every product is rounded to 32 bits, and every sum

def roundings():
    """By hand: 2^24 + 1 + 1 is 2^24 where each sum is rounded, 2^24 + 2 by way of 64 bits; 4097*4097 - 16785408 is 0, or 1 where the product is not rounded."""
    big, square = float(MOST), 16785408.0
    assert analysed('2^24 + 1 + 1', ZEROS, (ones(4), [1.0, 1.0, 1.0, -1.0]), [big, 1.0, 1.0, 0.0])[:2] == [[big, big, 1], [big - 1, big, 1]]
    assert synthesised('2^24 + 1 + 1, onto 2^24', (ones(2), ones(2)), [1.0], [1.0], [big, -big]) == [big, 2 - big]
    assert synthesised('2^24 + 1 + 1, by three pairs', (ones(4), [0.0] * 4), [big, 1.0, 1.0], [0.0] * 3, [0.0] * 4) == [big, big, 2, 2]
    assert convolved('2^24 + 1 + 1', ZEROS, [big, 1.0, 1.0, 0.0], ones(3), 1, 7)[1][0] == [big, 2, 1, 0]
    assert analysed('4097 times 4097 less its float', ZEROS, ([1.0, 4097.0], [4097.0, 1.0]), [-square, 4097.0])[0] == [0]
    assert analysed('the same, of the details', ZEROS, ([0.0, 0.0], [1.0, 4097.0]), [-square, 4097.0])[1] == [0]
    assert synthesised('4097 times 4097 onto less its float', ([0.0, 4097.0], [4097.0, 0.0]), [4097.0], [4097.0], [-square] * 2) == [0, 0]
    assert convolved('4097 times 4097 less its float', CLAMP, [-square, 4097.0], [1.0, 4097.0], 0, 4)[1][0][0] == 0
    # the order of the terms shows
    assert analysed('taps rising', ZEROS, (ones(4), [1.0, -1.0, 1.0, -1.0]), [big, 1.0, -big, 0.0])[0][1] == 0
    assert synthesised("the detail's product first", ([-1.0, 1.0], [1.0, -1.0]), [big], [big], [1.0, 1.0]) == [0, 1]
    assert synthesised('pairs rising', (ones(4), [0.0] * 4), [big, -big, big], [0.0] * 3, ones(4))[0] == 0
    assert convolved('taps rising', ZEROS, [big, 1.0, -big, 0.0], ones(3), 1, 7)[1][0][0] == 0


def halfway():
    """From halfway to the even one: products, sums, and what lies below the smallest number."""
    assert convolved('products halfway', ZEROS, [4097.0, 4099.0, -4099.0], [4097.0], 0, 5)[1][0] == [16785408, 16793604, -16793604]
    assert convolved('sums halfway', ZEROS, [1.0, 2.0**24, 1.0, 2.0**24 + 2, -1.0], ones(2), 0, 8)[1][0] == [2**24, 2**24, 2**24 + 4, 2**24, -1]
    tiny = [2.0**-75, 3 * 2.0**-75, -2.0**-75, 2.0**-74, LEAST]
    assert shown(convolved('below the smallest number', ZEROS, tiny, [2.0**-75], 0, 7)[1][0]) == ['0.0', repr(2.0**-148), '-0.0', repr(2.0**-149), '0.0']
    assert convolved('below the smallest normal number', ZEROS, [LEAST, 3 * LEAST, -LEAST], [0.5], 0, 5)[1][0] == [LEAST / 2, 1.5 * LEAST, -LEAST / 2]
    assert analysed('sums below the smallest normal number', ZEROS, ([0.5, 0.25], [1.0, -1.0]), [1.5 * LEAST, LEAST])[:2] == [[LEAST], [LEAST / 2]]
    assert shown(convolved('past the largest number', ZEROS, [LARGEST, 2.0**103, LARGEST, 2.0**102, -LARGEST, -LARGEST], ones(2), 0, 9)[1][0]) == [
        'inf', 'inf', repr(LARGEST), repr(-LARGEST), '-inf', repr(-LARGEST)]
    # products past the largest number, which would end each other in 64 bits
    assert shown(analysed('infinity less infinity', ZEROS, ([2.0, -2.0], [2.0, 2.0]), [2.0**127, 2.0**127])[0]) == ['nan']


def specials():
    analysed('samples with infinity, NaN and -0', ZEROS, PARTED, [INF, 1.0, NAN, 2.0, -0.0, 3.0])
    analysed('taps with infinity and NaN', ZEROS, ([INF, 1.0], [NAN, 1.0]), [0.0, 1.0, 2.0, -2.0])
    assert shown(synthesised('zeros onto -0', ([1.0, 1.0], [-1.0, 1.0]), [-0.0], [0.0], [-0.0, -0.0])) == ['-0.0', '0.0']
    assert shown(synthesised('infinity times 0, and in the output', ([0.0, 1.0], [0.0, 0.0]), [INF], [1.0], [1.0, -INF])) == ['nan', 'nan']
    convolved('infinity and NaN with kernel 0 1', ZEROS, [INF, 1.0, 2.0, NAN, 4.0], [0.0, 1.0], 0, 7)
    for held in (NAN, INF, -0.0):
        analysed('buffers with %r' % held, WRAP, (TENS, APART), counted(4), 1, there=lambda n: [held] * n)


# --- refusals: where several tests fail, the first answers

def refusals():
    for name, answer, border, f, n, a, d, s in (
            ('3 taps, all wrong', (12,), WRAP, 3, 2, 1, 3, 1), ('no border of that number, all wrong', (26, NONE), NONE, 3, 2, 1, 3, 1), ('4 taps, 3 samples, all wrong', (1, 3, 4), WRAP, 4, 3, 1, 2, 1),
            ('both bands and scratch wrong', (2, 2), WRAP, 4, 4, 2, 4, 1), ('details and scratch wrong', (2, 4), WRAP, 4, 4, 3, 4, 1), ('scratch too short', (5, 8, 7), WRAP, 4, 4, 3, 3, 7)):
        refused(name, answer, ANALYSE_F32, (border,), *taps(f), ones(n), sevens(a), sevens(d), sevens(s))
    for name, answer, f, a, d, o in (
            ('5 taps, all wrong', (12,), 5, 2, 1, 3), ('bands of 1 and 0, 4 taps', (3, 1, 0), 4, 1, 0, 3), ('1 pair, 4 taps, output wrong', (7,), 4, 1, 1, 3),
            ('2 pairs, 4 taps, output too long', (4, 3, 2), 4, 2, 2, 3)):
        refused(name, answer, SYNTHESISE_F32, (), *taps(f), ones(a), ones(d), sevens(o))
    for name, answer, border, n, o, s, f, c in (
            ('no border of that number, all wrong', (26, NONE), NONE, 0, 1, 0, 65, 2**31), ('centre 2147483648, all wrong', (11,), REFLECT101, 0, 1, 0, 3, 2**31),
            ('65 taps, all wrong', (11,), REFLECT101, 0, 1, 0, 65, 0), ('no line, output of 1, all wrong', (6, 0, 1), REFLECT101, 0, 1, 0, 3, 5),
            ('no line, centre and scratch wrong', (7,), REFLECT101, 0, 0, 0, 3, 5), ('scratch of 6 for 7, centre 3 of 3', (5, 7, 6), REFLECT101, 4, 4, 6, 3, 3),
            ('centre -3 of 3, Reflect101 too far', (8, 3, 3), REFLECT101, 4, 4, 8, 3, -3), ('Reflect101 of 2 samples, 1 tap', (13,), REFLECT101, 2, 2, 3, 1, 0)):
        refused(name, answer, CONVOLVE_F32, (border, c), ones(n), sevens(o), sevens(s), ones(f))


# --- there and back: exact as far as 2*A*T*T is at most 2^24

def largest(T):
    """The largest A, T being the largest sum of the taps' sizes."""
    return float(MOST // (2 * T * T))


def there_and_back():
    assert returned('taps 1 1, the largest A', CLAMP, SUMS, [2.0**21, -2.0**21, 1.0]) == (True, True, [2**22, -2**22, 2, 2]) and largest(2) == 2**21
    for border, (alike, last) in BEHIND.items():
        assert returned('five samples, %s%s' % (BORDERS[border], alike), border, mirrored(LOW8), [5.0, -0.0, 3.0, -4.0, 9.0]) == (True, True, [250, 0, 150, -200, 450, last])
    assert largest(12) == 58254 and largest(34) == 7256
    for border in (REFLECT101, WRAP):
        assert returned('the largest A, ' + BORDERS[border], border, mirrored(LOW8), times(58254.0, [1, -1, 1, 1, -1]), 1)[:2] == (True, True)
    assert returned('six taps, the largest A', CLAMP, mirrored([6.0, 12.0, 3.0, -4.0, 6.0, -3.0]), times(7256.0, [1, -1, 1, 1, -1, -1, 0]))[:2] == (True, True)
    # 50 times each sample is a float here, but not each sum on the way
    past = [-246724.0, 246724.0, 246724.0, -246723.0]
    assert returned("P8's bank past the bound", WRAP, mirrored(LOW8), past) == (False, False, [-12336199, 12336200, 12336200, -12336150]) and 50 * max(past) < MOST
    assert returned("P8's taps, the mirror's sign dropped", WRAP, (LOW8, LOW8[::-1]), [10.0, 20.0, 30.0, 40.0])[:2] == (False, False)
    for name, answer, f, n, a, d, s, o in (
            ('3 taps, all wrong', (12,), 3, 2, 1, 3, 1, 1), ('output too short', (4, 3, 4), 4, 4, 3, 3, 8, 3), ('3 samples, all wrong', (1, 3, 4), 4, 3, 1, 2, 1, 1),
            ('bands, scratch and output wrong', (2, 2), 4, 4, 2, 4, 1, 1), ('details, scratch and output wrong', (2, 4), 4, 4, 3, 4, 1, 1), ('scratch and output wrong', (5, 8, 7), 4, 4, 3, 3, 7, 1)):
        refused('there and back, ' + name, answer, THERE_AND_BACK_F32, (WRAP,), *taps(f), ones(n), sevens(a), sevens(d), sevens(s), sevens(o))


def pairs():
    assert by_pairs('the same pair twice', WRAP, SUMS * 2, [3.0, -1.0, 4.0]) == (True, True, [6, -2, 8, 6])
    raised = ([1.0, 1.0], [1.0, 2.0], [14.0, -7.0], [-7.0, 7.0])
    assert restores(raised) and weight(raised, 0, 0) == 7 and largest(3) >= 930001
    assert by_pairs('past the bound by the way back alone', WRAP, raised, [930001.0, 930000.0]) == (False, False, [6510006, 6510001])
    for border in EVERY:
        assert by_pairs('5/3, the largest A, ' + BORDERS[border], border, FIVE_THREE, times(58254.0, [1, -1, 1, 1, -1, -1, 1]))[:2] == (True, True)
    assert by_pairs('S is -16', REFLECT, TURNED, [5.0, -0.0, 3.0, -4.0, 9.0, 2.0, -6.0]) == (True, True, [-80, 0, -48, 64, -144, -32, 96, 96])
    assert by_pairs('NaN in every buffer', CLAMP, FIVE_THREE, SIX, 2, NAN) == (True, True, times(16, SIX))
    assert by_pairs('pairs apart', WRAP, UNLIKE, counted(5))[2] != asked_pairs.returned_by(WRAP, UNLIKE, (0, 1))
    # 16 times each sample is a float here, but not each sum on the way
    past = [645277.0, -645278.0, -645278.0, 645278.0, -645278.0, 645278.0]
    assert by_pairs('5/3 past the bound', CLAMP, FIVE_THREE, past) == (False, False, [*times(16, past[:3]), 10324449, *times(16, past[4:])]) and 16 * max(past) < MOST
    refused('two pairs, output too long', (4, 3, 2), BACK_BY_PAIRS_F32, (WRAP, *[2] * 4), ones(8), ones(2), sevens(1), sevens(1), sevens(2), sevens(3))
    for lists in ([5] * 4, [6, 4, 6, 6], [6, 6, 6, 8], [66] * 4):
        refused('there and back by lists of %d, %d, %d and %d' % tuple(lists), (12,), BACK_BY_PAIRS_F32, (WRAP, *lists), ones(sum(lists)), SIX, sevens(5), sevens(5), sevens(14), sevens(6))
