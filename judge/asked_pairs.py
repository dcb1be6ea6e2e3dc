"""What the list of the rules' answers asks about banks of two pairs: there and back, over levels and onto a plane, where the way back has a pair of its own."""
import rules
import sums
from asked import APART, ask, CLAMP, counted, eights, EVERY, every, HUGE, INF, NAN, ones, REFLECT, refused, sevens, SUMS, TENS, times, whole, WRAP
from protocol import BACK_BY_PAIRS, BORDERS, PLANE_BY_PAIRS, RESTORED_BY_PAIRS, SHAPES, TWO_PAIRS
from widths import WIDE

# The 5/3 bank filled to six taps and the spline bank 3/3 to eight: low, high, then both of the way back.
FIVE_THREE = ([-1.0, 2.0, 6.0, 2.0, -1.0, 0.0], [0.0, 0.0, -1.0, 2.0, -1.0, 0.0], [0.0, 1.0, 2.0, 1.0, 0.0, 0.0], [0.0, -1.0, -2.0, 6.0, -2.0, -1.0])
SPLINE = ([3.0, -9.0, -7.0, 45.0, 45.0, -7.0, -9.0, 3.0], [0.0, 0.0, 1.0, -3.0, 3.0, -1.0, 0.0, 0.0],
          [0.0, 0.0, 1.0, 3.0, 3.0, 1.0, 0.0, 0.0], [3.0, 9.0, -7.0, -45.0, 45.0, 7.0, -9.0, -3.0])
WORKED = (('5/3', FIVE_THREE, 16, 31274997412295), ('3/3', SPLINE, 256, 274877906944))
TURNED = (*FIVE_THREE[:2], times(-1, FIVE_THREE[2]), times(-1, FIVE_THREE[3]))
# pairs that have nothing in common
UNLIKE = (TENS, APART, [2.0, 3.0, 5.0, 7.0], [11.0, -13.0, 17.0, -19.0])
SIX = [5.0, -4.0, 3.0, 0.0, 9.0, -2.0]


def told(bank): return [len(taps) for taps in bank]


# --- the lengths of four lists

def wrong_lists(f):
    """Four lengths, of which one is short, long, odd, none or past the limit."""
    for i in range(4):
        for length in (f - 2, f + 2, f - 1, 0, 66):
            yield [length if k == i else f for k in range(4)]


def lengths():
    for f in (2, 4, 6, 62, 64):
        every((TWO_PAIRS,), ((0,),), *[f] * 4)
    for f in (0, 1, 3, 63, 65, 66, HUGE):
        every((TWO_PAIRS,), ((12,),), *[f] * 4)
    for lists in (*wrong_lists(6), [4, 4, 6, 6], [6, 4, 6, 4], [64, 64, 64, 66], [66, 64, 64, 64], *([HUGE if k == i else 2 for k in range(4)] for i in range(4))):
        every((TWO_PAIRS,), ((12,),), *lists)


# --- there and back: whether the premises of exact restoring hold, whether S times the line comes back, and what does

def weight(bank, e, d):
    """How much the sample d places further on weighs in what comes back to a place whose taps have the parity e."""
    low, high, lowback, highback = bank
    return sum(whole(back[j]) * whole(there[j + d]) for back, there in ((lowback, low), (highback, high)) for j in range(e, len(low), 2) if 0 <= j + d < len(low))


def restores(bank):
    S, f = weight(bank, 0, 0), len(bank[0])
    return all(weight(bank, e, d) == (0 if d else S) for e in (0, 1) for d in range(1 - f, f))


def bounded(lists, line, exact=WIDE.exact):
    """With every whole number up to `exact` a float."""
    T, A = max(sum(abs(whole(t)) for t in taps) for taps in lists), max(1, max(abs(whole(x)) for x in line))
    return 2 * A * T**2 <= exact


def returned(name, border, bank, line, beyond=0, held=7.0, op=BACK_BY_PAIRS):
    f, n = len(bank[0]), len(line)
    m = rules.band(n, f)
    answer, left = ask('there and back by two pairs, ' + name, op, (border, *told(bank)), sum(bank, []), line,
                       *([held] * length for length in (m, m, rules.padded_length(n, f) + beyond, rules.joined_length(m, f))))
    S, out = weight(bank, 0, 0), [whole(x) for x in left[-1]]
    assert answer == (0,)
    return restores(bank) and bounded(bank, line, SHAPES[op].width.exact), out == [S * whole(sums.sample(border, line, i)) for i in range(n + n % 2)], out


# By hand, S being -16: behind 5 0 3 -4 9 2 -6 stands -6 under Clamp, Reflect and Mirror, 5 under Wrap, zero under Zeros, 2 under Reflect101 and Mirror101.
BEHIND = (96, -80, 96, 0, -32, 96, -32)


def there_and_back():
    for name, bank, S, most in WORKED:
        f, T = len(bank[0]), max(sum(map(abs, taps)) for taps in bank)
        assert weight(bank, 0, 0) == S and 2 * most * T**2 <= 2**53 < 2 * (most + 1) * T**2
        signs = (0, 1, -1, 1, 1, -1, -1, 1, -1)
        for border in EVERY:
            for n in (f, f + 1):
                assert returned('%s, %d samples, the largest A, %s' % (name, n, BORDERS[border]), border, bank, [float(most * x) for x in signs[-n:]], n % 2)[:2] == (True, True)
    for border, last in zip(EVERY, BEHIND, strict=True):
        assert returned('S is -16, ' + BORDERS[border], border, TURNED, [5.0, -0.0, 3.0, -4.0, 9.0, 2.0, -6.0]) == (True, True, [-80, 0, -48, 64, -144, -32, 96, last])
    for held in (NAN, INF, -0.0):
        assert returned('%r in every buffer' % held, CLAMP, FIVE_THREE, SIX, 2, held) == (True, True, times(16, SIX))
    assert returned('the same pair twice', WRAP, SUMS * 2, [3.0, -1.0, 4.0]) == (True, True, [6, -2, 8, 6])
    for border in EVERY:
        assert returned('pairs apart, ' + BORDERS[border], border, UNLIKE, counted(5))[2] not in [returned_by(border, UNLIKE, back) for back in ((0, 1), (0, 3), (2, 1), (3, 2))]


def returned_by(border, bank, back):
    """What comes back by other lists than the last two."""
    approx, detail, _ = sums.split(border, *bank[:2], counted(5))
    return sums.joined_anew(*[bank[i] for i in back], approx, detail)


# --- one premise fails, and the line does not come back

def premises_fail():
    past = [350000000000000.0, -350000000000000.0, -350000000000001.0, 350000000000000.0, -350000000000000.0, 350000000000000.0]
    assert max(times(16, past)) < 2**53 and restores(FIVE_THREE)
    assert returned('5/3 past the bound', CLAMP, FIVE_THREE, past) == (False, False, [*times(16, past[:3]), 5599999999999999, *times(16, past[4:])])
    # right at every even distance
    still = ([1.0, 1.0], [0.0, 0.0], [1.0, 1.0], [0.0, 0.0])
    assert [weight(still, e, 0) for e in (0, 1)] == [1, 1] and weight(still, 0, 1) == weight(still, 1, -1) == 1 and bounded(still, counted(4))
    assert returned('an odd distance that is not zero', WRAP, still, counted(4)) == (False, False, [3, 3, 7, 7])
    # within the bound by T of the way there, and past it by T of all four lists
    raised, pair = ([1.0, 1.0], [1.0, 2.0], [14.0, -7.0], [-7.0, 7.0]), [500000000000001.0, 500000000000000.0]
    assert restores(raised) and bounded(raised[:2], pair) and max(times(7, pair)) < 2**53
    assert returned('past the bound by the way back alone', WRAP, raised, pair) == (False, False, [3500000000000006, 3500000000000001])


# --- levels: the details of level k made S^(L-k) times as large, so that each join gives S times its line

def restored(name, bank, packed, n, levels, held=7.0):
    length = rules.first_joined(n, len(bank[0]))
    answer, left = ask('restored by two pairs, ' + name, RESTORED_BY_PAIRS, (n, levels, *told(bank)), sum(bank, []), packed, [held] * (length + 2), eights(length + 1), sevens(length))
    assert answer == (0,) and left[2] == left[1 if max(1, levels) % 2 == 0 else 0][:length]
    return left[2]


def over_levels(name, border, bank, line, levels, held=7.0):
    n, f, S = len(line), len(bank[0]), weight(bank, 0, 0)
    packed, _ = sums.analyse_levels(border, levels, *bank[:2], line, [], [])
    scale = [S**(levels - k) for k in range(1, levels + 1) for _ in range(rules.part(n, f, levels, k)[1])] + [1] * rules.part(n, f, levels, 0)[1]
    back = restored('%s, %d samples, %d levels, %s' % (name, n, levels, BORDERS[border]), bank, [x * y for x, y in zip(packed, scale, strict=True)], n, levels, held)
    assert back == [S**levels * sums.sample(border, line, i) for i in range(n + n % 2)]


def levels():
    nine = [3.0, -1.0, 4.0, -1.0, 5.0, -9.0, 2.0, -6.0, 5.0]
    for border in EVERY:
        over_levels('5/3', border, FIVE_THREE, nine, 3)
    for count in (1, 2):
        over_levels('5/3', CLAMP, FIVE_THREE, nine[:8], count, NAN)
        over_levels('3/3', REFLECT, SPLINE, nine + [8.0], count)
    over_levels('S is -16', WRAP, TURNED, nine[:7], 2)
    for count, p in ((0, 10), (2, 13), (3, 15)):
        packed = counted(p)
        back = restored('pairs apart, %d levels' % count, UNLIKE, packed, 7, count)
        assert back != list(sums.joins(7, count, *UNLIKE[:2], packed))[-1]


# --- planes: columns, then rows, so S times S

def joined(name, bank, bands, width, height, held=7.0):
    need = rules.plane_need(width, height, len(bank[0]))
    answer, left = ask('a plane by two pairs, ' + name, PLANE_BY_PAIRS, (width, height, *told(bank)), sum(bank, []), *bands, [held] * (width * height), [held] * (need + 1))
    assert answer == (0,)
    return left[0]


def onto_a_plane(name, border, bank, width, height, held=7.0):
    plane, S = [float(i * 37 % 101 - 50) for i in range(width * height)], weight(bank, 0, 0)
    bands = sums.analyse_plane(border, width, height, *bank[:2], plane, [], [], [], [], [])[:4]
    assert joined('%s, %d by %d, %s' % (name, width, height, BORDERS[border]), bank, bands, width, height, held) == times(S * S, plane)


def planes():
    # By hand: LL and LH give 5 10 + 2 and -7 10 + 3, HL and HH 5200 and -6700; so the rows are 26000 + 104 and -36400 + 156, -33500 - 134 and 46900 - 201.
    for held in (7.0, NAN):
        assert joined('2 by 2, %r in target and scratch' % held, (*SUMS, [2.0, 3.0], [5.0, -7.0]), [[1.0], [10.0], [100.0], [1000.0]], 2, 2, held) == [26104, -36244, -33634, 46699]
    for border in EVERY:
        onto_a_plane('5/3', border, FIVE_THREE, 6, 8)
    onto_a_plane('3/3', WRAP, SPLINE, 10, 8)
    onto_a_plane('S is -16', CLAMP, TURNED, 8, 6, NAN)
    bands = [times(k, counted(6)) for k in (1, 10, 100, 1000)]
    assert joined('pairs apart, 4 by 2', UNLIKE, bands, 4, 2) != sums.synthesise_plane(4, 2, *UNLIKE[:2], *bands, [], [])[0]


# --- refusals: where several tests fail, the first answers

def refusals():
    for lists in (*wrong_lists(6), [0] * 4, [3] * 4, [66] * 4):
        name = 'by lists of %d, %d, %d and %d' % tuple(lists)
        refused('there and back ' + name, (12,), BACK_BY_PAIRS, (WRAP, *lists), ones(sum(lists)), SIX, sevens(5), sevens(5), sevens(14), sevens(6))
    for lists in ([4, 6, 6, 6], [6, 4, 6, 6], [6, 6, 4, 6], [6, 6, 6, 4], [6, 6, 8, 8], [5] * 4):
        name = 'by lists of %d, %d, %d and %d' % tuple(lists)
        refused('no line ' + name, (12,), RESTORED_BY_PAIRS, (6, 1, *lists), ones(sum(lists)), ones(10), sevens(6), eights(6), [])
        refused('no plane ' + name, (12,), PLANE_BY_PAIRS, (6, 6, *lists), ones(sum(lists)), *[ones(25)] * 4, sevens(36), sevens(134))
    for name, answer, f, n, a, d, s, o in (
            ('three lists of 4 and one of 2, all wrong', (12,), 4, 2, 1, 3, 1, 1), ('3 samples, all wrong', (1, 3, 4), 4, 3, 1, 2, 1, 1), ('bands, scratch and output wrong', (2, 2), 4, 4, 2, 4, 1, 1),
            ('details, scratch and output wrong', (2, 4), 4, 4, 3, 4, 1, 1), ('scratch and output wrong', (5, 8, 7), 4, 4, 3, 3, 7, 1), ('output too short', (4, 3, 4), 4, 4, 3, 3, 8, 3),
            ('output too long', (4, 5, 4), 4, 4, 3, 3, 8, 5)):
        lists = [4, 4, 4, 2 if answer == (12,) else 4]
        refused('two pairs, ' + name, answer, BACK_BY_PAIRS, (WRAP, *lists), ones(sum(lists)), ones(n), sevens(a), sevens(d), sevens(s), sevens(o))
    for name, answer, n, levels, p, a, b in (
            ('3 samples', (1, 3, 4), 3, 1, 1, 1, 1), ('two levels of 4 samples', (9,), 4, 2, 6, 4, 4), ('packed a place short', (10, 6, 5), 4, 1, 5, 3, 3), ('the first short', (5, 4, 3), 4, 1, 6, 3, 3),
            ('the second short', (5, 4, 3), 4, 1, 6, 4, 3)):
        refused('two pairs, no line: ' + name, answer, RESTORED_BY_PAIRS, (n, levels, *[4] * 4), ones(16), ones(p), sevens(a), eights(b), [])
    for name, answer, w, h, p, s, *bands in (
            ('no width', (7,), 0, 4, 0, 0, 0, 0, 0, 0), ('1048577 high', (11,), 1, rules.LIMIT + 1, 1, 1, 1, 1, 1, 1), ('target a place short', (10, 16, 15), 4, 4, 15, 36, 4, 4, 4, 4),
            ('scratch a place short', (10, 36, 35), 4, 4, 16, 35, 4, 4, 4, 4), ('HL too long, no HH', (2, 5), 4, 4, 16, 36, 4, 4, 5, 0), ('both sides odd', (4, 3, 4), 5, 3, 15, 42, 6, 6, 6, 6)):
        refused('two pairs, no plane: ' + name, answer, PLANE_BY_PAIRS, (w, h, *[2] * 4), ones(8), *[ones(length) for length in bands], sevens(p), sevens(s))
