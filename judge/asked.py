"""What the list of the rules' answers asks: P1 to P13, the ends of the domain, every refusal and pairs of them, special floats, dirty buffers.

`ASKED` fills with (name, case, answer, what every lent list then holds), answered by judge/rules.py and judge/sums.py; the rules' own numbers, and
some worked by hand, are asserted here. A list that is lent begins as sevens, or eights, unless it says otherwise. Levels and planes ask in files of their own."""
import rules
import sums
from protocol import (ANALYSE, ANALYSE_LEVELS, ANALYSE_PLANE, ANALYSIS_ANSWER, ANALYSIS_SCRATCH, BACK_ANSWER, BAND_LENGTH, bits_of, BORDERS, Case, CONVOLUTION_ANSWER,
                      CONVOLUTION_SCRATCH, CONVOLVE, LINE_LENGTH, MIRROR as MIRROR_RULE, MIRRORS, OPEN, RESTORE_LEVELS, SHAPES, SYNTHESIS_ANSWER, SYNTHESISE,
                      SYNTHESISE_PLANE, THERE_AND_BACK)
from rules import LIMIT

INF, NAN, HUGE = float('inf'), float('nan'), 2**64 - 1
CLAMP, WRAP, REFLECT, ZEROS, REFLECT101, MIRROR, MIRROR101 = EVERY = range(len(BORDERS))
ANY_REACH = (WRAP, REFLECT, CLAMP, ZEROS, *MIRRORS)
# the first number that is no border
NONE = len(BORDERS)
ASKED = []


def ask(name, op, scalars=(), *lists):
    width = SHAPES[op].width
    case = Case(op, tuple(scalars), [width.bits_of(numbers) for numbers in lists])
    answer = rules.answer(case)
    left = sums.after(op, scalars, lists) if answer[0] == 0 else [lists[i] for i in case.shape().lent]
    held = [[OPEN if x is OPEN else width.one_nan(width.bits_of([x])[0]) for x in numbers] for numbers in left]
    given = [[width.one_nan(word) for word in case.lists[i]] for i in case.shape().lent]
    # what is as it was is told with the bits that it had
    held = [list(case.lists[i]) if now == was else now for i, now, was in zip(case.shape().lent, held, given)]
    ASKED.append((name, case, answer, held))
    return answer, left


def sevens(n): return [7.0] * n
def eights(n): return [8.0] * n
def ones(n): return [1.0] * n
def counted(n): return [float(i + 1) for i in range(n)]
def times(k, numbers): return [k * x for x in numbers]
def bits(x): return bits_of([x])[0]


def every(ops, expected, *scalars):
    """The same question of several operations, each with its expected answer."""
    for op, answer in zip(ops, expected, strict=True):
        assert ask('', op, scalars)[0] == answer, (op, scalars)


# --- banks that the cases share

LOW8, TENS, APART = [3.0, 6.0, 2.0, -1.0], [1.0, 10.0, 100.0, 1000.0], [1.0, 0.0, 0.0, -1.0]
SUMS = ([1.0, 1.0], [1.0, -1.0])
SIXED = [0.3, 0.8, 0.4, -0.1, -0.2, 0.1]
FOURS = (TENS, [0.5, 0.0, 0.0, 0.25])
PARTED = ([1.0, 0.0], [0.0, 1.0])
HALVES = [0.5, 0.5, 0.5, -0.5]
TEN = [10.0, 20.0, 30.0]


def mirrored(low): return low, sums.mirror(low)
def taps(f): return ones(f), ones(f)


# --- the lengths of one line

def lengths():
    ops = BAND_LENGTH, ANALYSIS_SCRATCH
    every(ops, ((0, 3), (0, 2 + 4 + 2)), 4, 4)
    every(ops, ((0, 4), (0, 2 + 5 + 3)), 5, 4)
    every(ops, ((1, 3, 4),) * 2, 3, 4)
    every(ops, ((0, 1), (0, 2)), 2, 2)
    ops += LINE_LENGTH,
    for f in (0, 3, 65, 66):
        every(ops, ((12,),) * 3, 10, f)
    every(ops, ((11,),) * 3, LIMIT + 1, 4)
    every((BAND_LENGTH, LINE_LENGTH), ((12,),) * 2, LIMIT + 1, 3)
    every((ANALYSIS_SCRATCH,), ((12,),), 1, 3)
    for m, f, answer in ((4, 4, (0, 6)), (1, 2, (0, 2)), (1, 4, (7,)), (0, 2, (7,)), (31, 64, (7,)), (LIMIT + 1, 66, (12,)), (0, 3, (12,)),
                         (32, 64, (0, 2)), (2, 4, (0, 2)), (LIMIT, 2, (0, 2 * LIMIT))):
        every((LINE_LENGTH,), (answer,), m, f)
    for n in (64, LIMIT):
        for op in (BAND_LENGTH, ANALYSIS_SCRATCH):
            ask('', op, (n, 64))
    for n, f, c in ((4, 3, 0), (4, 3, -1), (64, 64, 0), (4, 0, 0), (0, 0, 0), (0, 65, 0), (LIMIT + 1, 3, 0), (LIMIT, 1, 0), (4, 3, 2**31 - 1), (4, 3, 2**31),
                    (4, 3, -2**31), (4, 3, -2**31 - 1)):
        ask('', CONVOLUTION_SCRATCH, (n, f, c))


# --- tap lists: the mirror rule, and lists that make no bank

def lists_of_taps():
    assert ask("P8's taps by the mirror rule", MIRROR_RULE, (), LOW8, sevens(4))[1] == [[-1.0, -2.0, 6.0, -3.0]]
    ask('mirror rule: zeros, infinity and NaN', MIRROR_RULE, (), [0.0, -0.0, INF, NAN], sevens(4))
    ask('mirror rule: 64 taps', MIRROR_RULE, (), [2.0] + ones(62) + [3.0], sevens(64))
    for f, h in ((3, 3), (0, 0), (66, 66), (4, 2), (2, 4)):
        assert ask('mirror rule: lists of %d and %d' % (f, h), MIRROR_RULE, (), ones(f), sevens(h))[0] == (12,)
    for f, h in ((4, 2), (2, 4), (3, 3), (0, 0), (66, 66)):
        for name, op, scalars, lists in (
                ('analysis', ANALYSE, (WRAP,), (ones(70), sevens(1), sevens(1), sevens(1))), ('synthesis', SYNTHESISE, (), (ones(3), ones(3), sevens(4))),
                ('levels', ANALYSE_LEVELS, (WRAP, 2), (ones(70), sevens(1), sevens(1))), ('restoring', RESTORE_LEVELS, (5, 2), (ones(7), sevens(6), sevens(6))),
                ('a plane', ANALYSE_PLANE, (WRAP, 4, 4), (ones(16), sevens(4), sevens(4), sevens(4), sevens(4), sevens(36))),
                ('a plane back', SYNTHESISE_PLANE, (4, 4), (ones(4), ones(4), ones(4), ones(4), sevens(16), sevens(36))),
                ('there and back', THERE_AND_BACK, (WRAP,), (ones(70), sevens(1), sevens(1), sevens(1), sevens(1)))):
            assert ask('%s by lists of %d and %d' % (name, f, h), op, scalars, ones(f), ones(h), *lists)[0] == (12,)


# --- borders, as convolution leaves them in its scratch

def pads(name, border, line, left, right, beyond, op=CONVOLVE):
    """A kernel that takes the padded line as it is: of as many taps as there are pads, about a centre that gives the left one."""
    f = left + right
    centre = f // 2 - left - (1 if f % 2 == 0 else 0)
    n = len(line)
    answer, (_, scratch) = ask(name, op, (border, centre), line, sevens(n), sevens(n + f + beyond), ones(f))
    assert answer == (0,) and rules.pads(f, centre) == (left, right)
    return scratch[:n + f]


def borders():
    assert pads('P5: Wrap, four each side', WRAP, TEN, 4, 4, 7) == [30, 10, 20, 30, *TEN, 10, 20, 30, 10]
    assert pads('P6: Reflect, four each side', REFLECT, TEN, 4, 4, 7) == [10, 30, 20, 10, *TEN, 30, 20, 10, 30]
    assert pads('P7: Reflect101, one each side', REFLECT101, TEN, 1, 1, 13) == [20, *TEN, 20]
    for border in ANY_REACH:
        pads('seven and eight, ' + BORDERS[border], border, TEN, 7, 8, 0)
    pads('none and five, Wrap', WRAP, TEN, 0, 5, 10)
    pads('five and none, Reflect', REFLECT, TEN, 5, 0, 10)
    for border in EVERY:
        pads('one sample -0, ' + BORDERS[border], border, [-0.0], 3, 2, 1)
    assert pads('P13: Mirror, four each side', MIRROR, TEN, 4, 4, 7) == [30, 30, 20, 10, *TEN, 30, 20, 10, 10]
    assert pads('P13: Mirror101, four each side', MIRROR101, TEN, 4, 4, 7) == [10, 20, 30, 20, *TEN, 20, 10, 20, 30]
    ask('no pads, Reflect101', ANALYSE, (REFLECT101,), *SUMS, counted(4), sevens(2), sevens(2), sevens(7))


def mirrors():
    for border, first, last in ((REFLECT, 10, 30), (MIRROR, 30, 10)):
        assert pads('one place past one length on the left, ' + BORDERS[border], border, TEN, 4, 0, 0) == [first, 30, 20, 10, *TEN]
        assert pads('one place past one length on the right, ' + BORDERS[border], border, TEN, 0, 4, 0) == [*TEN, 30, 20, 10, last]
        assert convolved('kernel 1 0 0 0 0 about -2, ' + BORDERS[border], border, TEN, [1.0] + [0.0] * 4, -2, 8)[1][0] == [first, 30, 20]
    # ten lengths each side, from the place in its period at which the padded line begins
    for border, n, period in ((MIRROR, 3, [10, 20, 30, 30, 20, 10]), (MIRROR, 2, [10, 20, 20, 10]), (MIRROR, 1, [10]),
                              (MIRROR101, 3, [30, 20, 10, 20]), (MIRROR101, 2, [10, 20]), (MIRROR101, 1, [10])):
        assert pads('%d samples, ten lengths each side, %s' % (n, BORDERS[border]), border, TEN[:n], 10 * n, 10 * n, 1) == (period * 21 * n)[:21 * n]
    assert pads('Mirror101 as far as Reflect101 reaches', MIRROR101, counted(4), 2, 2, 1) == [3, 2, 1, 2, 3, 4, 3, 2]
    assert pads("Mirror101 a place past Reflect101's reach", MIRROR101, counted(4), 3, 3, 1) == [4, 3, 2, 1, 2, 3, 4, 3, 2, 1]
    for border, shown in ((MIRROR, 'inf inf nan -0.0 -0.0 nan inf inf nan -0.0 -0.0'), (MIRROR101, '-0.0 nan inf nan -0.0 nan inf nan -0.0 nan inf')):
        assert [repr(x) for x in pads('-0, NaN and infinity, ' + BORDERS[border], border, [-0.0, NAN, INF], 4, 4, 1)] == shown.split()


# --- one line

def analysed(name, border, bank, line, beyond=0, there=sevens, op=ANALYSE):
    f, n = len(bank[0]), len(line)
    m = rules.band(n, f)
    answer, left = ask(name, op, (border,), *bank, line, there(m), there(m), there(rules.padded_length(n, f) + beyond))
    assert answer == (0,), name
    return left


def synthesised(name, bank, approx, detail, out, op=SYNTHESISE):
    answer, (out,) = ask(name, op, (), *bank, approx, detail, out)
    assert answer == (0,), name
    return out


def there_again(name, border, bank, line, beyond):
    approx, detail, _ = analysed(name, border, bank, line, beyond)
    once = synthesised(name + ', into a cleared output', bank, approx, detail, [0.0] * rules.joined_length(len(approx), len(bank[0])))
    return approx, detail, once, synthesised(name + ', onto the same output', bank, approx, detail, once)


def lines():
    approx, _, scratch = analysed('P4: two taps, two samples', WRAP, SUMS, [3.0, 5.0], 2)
    assert len(approx) == 1 and scratch == [3, 5, 7, 7]
    assert bits(analysed('P12: two samples -0', WRAP, SUMS, [-0.0, -0.0], 2)[0][0]) == 0
    for border in EVERY:
        analysed('four samples, ' + BORDERS[border], border, (TENS, APART), counted(4))
        analysed('five samples, ' + BORDERS[border], border, (TENS, APART), counted(5), 1)
    approx, detail, once, twice = there_again("P8: the program's case", CLAMP, mirrored(LOW8), [10.0, 20.0, 30.0, 40.0], 1)
    assert approx == [90, 170, 370] and detail == [-30, 10, 10] and once == [500, 1000, 1500, 2000] and twice == [1000, 2000, 3000, 4000]
    assert ['%016X' % bits(x) for x in approx + detail] == ['4056800000000000', '4065400000000000', '4077200000000000', 'C03E000000000000', '4024000000000000', '4024000000000000']
    there_again('fractions, six taps by the mirror rule, Reflect', REFLECT, mirrored(SIXED), [0.1, 0.7, -0.3, 1.9, 0.6, -2.3, 0.9], 0)
    wide = mirrored(ones(64))
    approx, detail, scratch = analysed('64 taps and 64 samples, all 1, Reflect101', REFLECT101, wide, ones(64), 1)
    assert approx == [64.0] * 63 and detail == [0.0] * 63 and scratch == ones(188) + [7.0]
    assert synthesised('and back', wide, approx, detail, [0.0] * 64) == [2048.0] * 64
    synthesised('one pair, two taps, onto 100 200', SUMS, [3.0], [5.0], [100.0, 200.0])
    synthesised('two pairs, four taps', FOURS, [1.0, 2.0], [4.0, 8.0], [0.0] * 2)
    synthesised('four pairs, four taps, onto sevens', FOURS, counted(4), times(4.0, counted(4)), sevens(6))
    synthesised('32 pairs, 64 taps, all 1', wide, ones(32), [0.0] * 32, [0.0] * 2)


def convolved(name, border, line, kernel, centre, scratch, op=CONVOLVE):
    return ask(name, op, (border, centre), line, sevens(len(line)), sevens(scratch), kernel)


def kernels():
    def three(name, border, centre): return convolved(name, border, counted(4), [1.0, 10.0, 100.0], centre, 8)
    for centre, out in ((0, [210, 321, 432, 43]), (1, [321, 432, 43, 4]), (-1, [100, 210, 321, 432])):
        assert three('P9: centre %d' % centre, ZEROS, centre)[1][0] == out
    assert three('P9: centre 3', ZEROS, 3)[0] == (8, 3, 3)
    assert bits(convolved('P12: one -0 with kernel 1', ZEROS, [-0.0], [1.0], 0, 5)[1][0][0]) == 2**63
    three('Reflect101 as far as it reaches', REFLECT101, 0)
    three('the last centre, Wrap', WRAP, 2)
    three('the first centre, Wrap', WRAP, -2)
    for border in EVERY:
        convolved('one sample, ' + BORDERS[border], border, [5.0], [1.0, 10.0, 100.0], 0, 5)
    for border in ANY_REACH:
        convolved('four each side, ' + BORDERS[border], border, TEN, [1.0] + [0.0] * 6 + [0.5], -1, 12)
    for n, scratch in ((2, 4), (5, 7), (7, 9), (8, 11)):
        convolved('%d samples' % n, CLAMP, counted(n), [1.0, 10.0], 0, scratch)
    convolved('empty kernel', WRAP, [1.0, -0.0, 3.0], [], 0, 2)
    assert convolved('64 taps and 64 samples, all 1, Wrap', WRAP, ones(64), ones(64), 0, 129)[1] == [[64.0] * 64, ones(128) + [7.0]]


def roundings():
    big, near = 2.0**53, 1 + 2.0**-30
    analysed('analysis, taps rising', ZEROS, (ones(4), [1.0, -1.0, 1.0, -1.0]), [big, 1.0, -big, 0.0])
    assert analysed('analysis, products rounded', ZEROS, ([1.0, near], [1.0, near]), [-1.0, near])[0] == [2.0**-29]
    synthesised("synthesis, the detail's product first", ([-1.0, 1.0], [1.0, -1.0]), [big], [big], [1.0, 1.0])
    assert synthesised('synthesis, products rounded', ([0.0, near], [near, 0.0]), [near], [near], [-1.0, -1.0]) == [2.0**-29] * 2
    synthesised('synthesis, pairs rising', (ones(4), [0.0] * 4), [big, -big, big], [0.0] * 3, ones(4))
    convolved('convolution, taps rising', ZEROS, [big, 1.0, -big, 0.0], ones(3), 1, 7)
    assert bits(convolved('convolution, products rounded', CLAMP, [-1.0, near], [1.0, near], 0, 4)[1][0][0]) == 0x3E20000000000000


def specials():
    for name, line, bank in (
            ('samples with infinity, NaN and -0', [INF, 1.0, NAN, 2.0, -0.0, 3.0], PARTED), ('taps with infinity and NaN', [0.0, 1.0, 2.0, -2.0, -3.0, 4.0], ([INF, 1.0], [NAN, 1.0])),
            ('infinities of both signs', [INF, -INF, INF, INF, -INF, -0.0], SUMS)):
        analysed(name, ZEROS, bank, line)
    signs = ones(4), [1.0, -1.0, 1.0, -1.0]
    analysed('one NaN under four taps', CLAMP, signs, [1.0, 2.0, NAN, 4.0, 5.0, 6.0])
    synthesised('one NaN among the approximations', signs, [NAN, 1.0, 2.0], [0.0] * 3, [0.0] * 4)
    synthesised('zeros onto -0', ([1.0, 1.0], [-1.0, 1.0]), [-0.0], [0.0], [-0.0, -0.0])
    synthesised('infinity in the output', SUMS, [1.0], [INF], [INF, INF])
    synthesised('infinity times 0', ([0.0, 1.0], [0.0, 0.0]), [INF], [1.0], [1.0, 1.0])
    for name, line, kernel in (('infinity and NaN with kernel 0 1', [INF, 1.0, 2.0, NAN, 4.0], [0.0, 1.0]), ('kernel infinity', [0.0, -0.0, 1.0, -1.0, NAN], [INF]),
                               ('zeros with kernel -1 1', [0.0, -0.0, 0.0, -0.0, -0.0], [-1.0, 1.0]), ('kernel 0 NaN', counted(5), [0.0, NAN])):
        convolved(name, ZEROS, line, kernel, 0, 7)
    for held in (NAN, INF, -0.0):
        analysed('buffers with %r' % held, WRAP, (TENS, APART), counted(5), 2, lambda n: [held] * n)


# --- refusals of one line: where several tests fail, the first answers

def refused(name, answer, op, scalars, *lists):
    assert ask(name, op, scalars, *lists)[0] == answer, name


# the last borders and the first number that is none, where all else is wrong too
NUMBERS = (*((BORDERS[border] + ', all wrong', border, (12,)) for border in MIRRORS), ('no border of that number, all wrong', NONE, (26, NONE)))


def refused_lines():
    for name, answer, f, n, a, d, s in (
            ('no taps, no line', (12,), 0, 0, 0, 0, 0), ('3 taps, 2 samples, all wrong', (12,), 3, 2, 1, 3, 1), ('66 taps, all wrong', (12,), 66, 2, 1, 3, 1),
            ('4 taps, 3 samples, all wrong', (1, 3, 4), 4, 3, 1, 2, 1), ('2 taps, no samples', (1, 0, 2), 2, 0, 0, 0, 0), ('both bands and scratch wrong', (2, 2), 4, 4, 2, 4, 1),
            ('approximations too long', (2, 4), 4, 4, 4, 3, 8), ('details and scratch wrong', (2, 4), 4, 4, 3, 4, 1), ('details too short', (2, 2), 4, 4, 3, 2, 8),
            ('scratch too short', (5, 8, 7), 4, 4, 3, 3, 7), ('no scratch', (5, 2, 0), 2, 2, 1, 1, 0)):
        refused(name, answer, ANALYSE, (WRAP,), *taps(f), ones(n), sevens(a), sevens(d), sevens(s))
    refused('lists that differ, no bands', (12,), ANALYSE, (WRAP,), ones(4), ones(2), ones(2), [], [], [])
    for name, border, answer in NUMBERS:
        refused(name, answer, ANALYSE, (border,), *taps(3), ones(2), sevens(1), sevens(3), sevens(1))
    for f, n, a, d, s, answer in ((3, LIMIT + 1, 0, 0, 0, (12,)), (4, LIMIT + 1, 0, 0, 0, (11,)), (2, LIMIT, LIMIT // 2, LIMIT // 2, LIMIT - 1, (5, LIMIT, LIMIT - 1)),
                                  (2, LIMIT, LIMIT // 2, LIMIT // 2, LIMIT, (0,))):
        every((ANALYSIS_ANSWER,), (answer,), f, n, a, d, s)
    for name, answer, f, a, d, o in (
            ('no taps, no pairs', (12,), 0, 0, 0, 0), ('5 taps, all wrong', (12,), 5, 2, 1, 3), ('66 taps, all wrong', (12,), 66, 2, 1, 3), ('bands of 1 and 0, 4 taps', (3, 1, 0), 4, 1, 0, 3),
            ('bands of 0 and 3, 4 taps', (3, 0, 3), 4, 0, 3, 3), ('1 pair, 4 taps, output wrong', (7,), 4, 1, 1, 3), ('1 pair, 4 taps, no output', (7,), 4, 1, 1, 0),
            ('no pairs, 2 taps', (7,), 2, 0, 0, 0), ('2 pairs, 4 taps, output too long', (4, 3, 2), 4, 2, 2, 3), ('2 pairs, 4 taps, output too short', (4, 1, 2), 4, 2, 2, 1)):
        refused(name, answer, SYNTHESISE, (), *taps(f), ones(a), ones(d), sevens(o))
    for f, a, d, o, answer in ((3, LIMIT + 1, 0, 0, (12,)), (4, LIMIT + 1, 0, 0, (11,)), (4, 0, LIMIT + 1, 0, (11,)), (4, LIMIT, LIMIT - 1, 0, (3, LIMIT, LIMIT - 1)), (2, LIMIT, LIMIT, 2 * LIMIT, (0,))):
        every((SYNTHESIS_ANSWER,), (answer,), f, a, d, o)


def refused_kernels():
    for name, answer, n, o, s, f, c, border in (
            ('65 taps, all wrong', (11,), 2, 3, 0, 65, 99, REFLECT101), ('65 taps, no line', (11,), 0, 0, 0, 65, 0, REFLECT101), ('centre 2147483648, empty kernel', (11,), 2, 2, 0, 0, 2**31, REFLECT101),
            ('centre -2147483649, all wrong', (11,), 0, 1, 0, 3, -2**31 - 1, REFLECT101), ('line of 2, output of 3, empty kernel', (6, 2, 3), 2, 3, 0, 0, 0, REFLECT101),
            ('no line, output of 1, all wrong', (6, 0, 1), 0, 1, 0, 3, 5, REFLECT101), ('no line, empty kernel', (7,), 0, 0, 1, 0, 0, REFLECT101),
            ('no line, centre and scratch wrong', (7,), 0, 0, 0, 3, 5, REFLECT101), ('empty kernel, centre 2147483647, no scratch', (0,), 2, 2, 0, 0, 2**31 - 1, REFLECT101),
            ('empty kernel, centre -2147483648', (0,), 2, 2, 3, 0, -2**31, REFLECT101), ('scratch of 6 for 7, centre 3 of 3', (5, 7, 6), 4, 4, 6, 3, 3, REFLECT101),
            ('centre -2147483648 of 3', (5, 2**31 + 5, 8), 4, 4, 8, 3, -2**31, REFLECT101), ('centre 2147483647 of 3', (8, 2**31 - 1, 3), 4, 4, 7, 3, 2**31 - 1, REFLECT101),
            ('centre -3 of 3, Reflect101 too far', (8, 3, 3), 4, 4, 8, 3, -3, REFLECT101), ('centre 1 of 1', (8, 1, 1), 4, 4, 5, 1, 1, ZEROS), ('Reflect101 of 2 samples, 1 tap', (13,), 2, 2, 3, 1, 0, REFLECT101),
            ('Reflect101 of 2 samples, 1 tap, no scratch', (5, 3, 0), 2, 2, 0, 1, 0, REFLECT101), ('Reflect101 of 4 samples, 3 behind', (13,), 4, 4, 7, 3, 1, REFLECT101),
            ('Reflect101 of 4 samples, 3 in front', (13,), 4, 4, 7, 3, -2, REFLECT101), ('Reflect101 of 3 samples, 1 behind', (0,), 3, 3, 4, 1, 0, REFLECT101),
            *((BORDERS[border] + ' of 2 samples, 1 tap', (0,), 2, 2, 3, 1, 0, border) for border in MIRRORS),
            *((BORDERS[border] + ' of 4 samples, 3 behind', (0,), 4, 4, 7, 3, 1, border) for border in MIRRORS),
            *((BORDERS[border] + ' of 4 samples, 3 in front', (0,), 4, 4, 7, 3, -2, border) for border in MIRRORS),
            *((BORDERS[border] + ', all wrong', (11,), 0, 1, 0, 65, 2**31, border) for border in MIRRORS),
            ('no border of that number, all wrong', (26, NONE), 0, 1, 0, 65, 2**31, NONE), ('no border of that number, all wrong', (26, HUGE), 0, 1, 0, 65, 2**31, HUGE)):
        refused(name, answer, CONVOLVE, (border, c), ones(n), sevens(o), sevens(s), ones(f))
    for n, o, f, s, answer in ((LIMIT + 1, 0, 3, 0, (11,)), (LIMIT, LIMIT, 0, 0, (0,)), (LIMIT, LIMIT, 1, LIMIT, (5, LIMIT + 1, LIMIT))):
        every((CONVOLUTION_ANSWER,), (answer,), WRAP, n, o, f, 0, s)
    for border, answer in ((REFLECT101, (13,)), (MIRROR, (0,)), (MIRROR101, (0,))):
        every((CONVOLUTION_ANSWER,), (answer,), border, 2, 2, 1, 0, 3)


# --- there and back: whether the premises of exact restoring hold, whether S times the line comes back, and what does

def whole(x):
    assert x == int(x)
    return int(x)


def premises(low, high, line, exact):
    """With every whole number up to `exact` a float."""
    f, T, A = len(low), sum(abs(whole(t)) for t in low), max(1, max(abs(whole(x)) for x in line))
    return (high == sums.mirror(low) and f <= len(line) <= LIMIT and 2 * A * T**2 <= exact
            and all(sum(low[j] * low[j + k] for j in range(f - k)) == 0 for k in range(2, f, 2)))


def returned(name, border, bank, line, beyond=0, op=THERE_AND_BACK):
    f, n = len(bank[0]), len(line)
    m = rules.band(n, f)
    answer, left = ask(name, op, (border,), *bank, line, sevens(m), sevens(m), sevens(rules.padded_length(n, f) + beyond), sevens(rules.joined_length(m, f)))
    S, out = sum(whole(t)**2 for t in bank[0]), [whole(x) for x in left[-1]]
    assert answer == (0,)
    return premises(*bank, line, SHAPES[op].width.exact), out == [S * whole(sums.sample(border, line, i)) for i in range(n + n % 2)], out


def there_and_back():
    most, low6 = 3895847428521, [6.0, 12.0, 3.0, -4.0, 6.0, -3.0]
    assert 2 * most * 34**2 <= 2**53 < 2 * (most + 1) * 34**2 and sum(abs(t) for t in low6) == 34
    for border in EVERY:
        for name, low, line, beyond in (('P8', LOW8, [10.0, 20.0, 30.0, 40.0], 1), ('six taps, the largest A', low6, [float(most * x) for x in (1, -1, 1, 1, -1, -1, 0)], 0)):
            assert returned('there and back, %s, %s' % (name, BORDERS[border]), border, mirrored(low), line, beyond)[:2] == (True, True)
    assert returned('there and back, taps 1 1, the largest A', CLAMP, SUMS, [2.0**50, -2.0**50, 1.0])[:2] == (True, True)
    for name, bank, line in (("P8's bank past the bound", mirrored(LOW8), [-134482488872868.0, 134482488872868.0, 134482488872868.0, -134482488872867.0]),
                             ("P8's taps, the mirror's sign dropped", (LOW8, LOW8[::-1]), [10.0, 20.0, 30.0, 40.0]),
                             ('taps 3 6 2 1, not zero at distance two', mirrored([3.0, 6.0, 2.0, 1.0]), [10.0, 20.0, 30.0, 40.0])):
        assert returned('there and back, ' + name, WRAP, bank, line)[:2] == (False, False)
    for name, answer, f, n, a, d, s, o in (
            ('3 taps, all wrong', (12,), 3, 2, 1, 3, 1, 1), ('4 taps, 3 samples, all wrong', (1, 3, 4), 4, 3, 1, 2, 1, 1), ('approximations, details, scratch and output wrong', (2, 2), 4, 4, 2, 4, 1, 1),
            ('details, scratch and output wrong', (2, 4), 4, 4, 3, 4, 1, 1), ('scratch and output wrong', (5, 8, 7), 4, 4, 3, 3, 7, 1), ('output too short', (4, 3, 4), 4, 4, 3, 3, 8, 3),
            ('output too long', (4, 5, 4), 4, 4, 3, 3, 8, 5), ('no output', (4, 0, 4), 4, 4, 3, 3, 8, 0)):
        refused('there and back, ' + name, answer, THERE_AND_BACK, (WRAP,), *taps(f), ones(n), sevens(a), sevens(d), sevens(s), sevens(o))
    for f, n, m, s, o, answer in ((66, LIMIT + 1, 0, 0, 0, (12,)), (4, LIMIT + 1, 0, 0, 0, (11,)), (64, LIMIT, 524319, 1048700, LIMIT - 1, (4, LIMIT - 1, LIMIT)), (64, LIMIT, 524319, 1048700, LIMIT, (0,))):
        every((BACK_ANSWER,), (answer,), f, n, m, m, s, o)


# By hand, S being 50: behind 5 0 3 -4 9 stands 9 under Clamp and Reflect, 5 under Wrap, zero under Zeros, -4 under Reflect101. No pad is as long as the line, so the mirrors give what those two give.
BEHIND = {CLAMP: ('', 450), WRAP: ('', 250), REFLECT: ('', 450), ZEROS: ('', 0), REFLECT101: ('', -200), MIRROR: (', as under Reflect', 450), MIRROR101: (', as under Reflect101', -200)}


def odd_lines():
    assert BEHIND.keys() == set(EVERY)
    for border, (alike, last) in BEHIND.items():
        name = 'there and back, five samples, %s%s' % (BORDERS[border], alike)
        assert returned(name, border, mirrored(LOW8), [5.0, -0.0, 3.0, -4.0, 9.0]) == (True, True, [250, 0, 150, -200, 450, last])
