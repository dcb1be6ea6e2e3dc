"""What the list of the rules' answers asks about planes and about comparing two bands."""
import rules
from asked import (APART, ask, CLAMP, counted, EVERY, every, FOURS, HALVES, HUGE, INF, mirrored, NAN, NUMBERS, ones, PARTED, REFLECT, REFLECT101, refused, sevens, SIXED, SUMS, taps, TENS, times,
                   WRAP, ZEROS)
from protocol import ANALYSE_PLANE, BORDERS, COMPARE_BANDS, COMPARING_ANSWER, PLANE_ANALYSIS_ANSWER, PLANE_SIZES, PLANE_SYNTHESIS_ANSWER, SYNTHESISE_PLANE
from rules import DIFFER, LIMIT, MOST_OF_PLANE


def lengths():
    for told, lengths in (((4, 4, 2), (2, 2, 4, 36)), ((5, 3, 2), (3, 2, 6, 42))):
        every(PLANE_SIZES, [(0, length) for length in lengths], *told)
    for told in ((3, 5, 2), (5, 4, 4), (4, 5, 4), (2, 3, 4), (1, 1, 2), (1, 1, 64), (4096, 4096, 64), (LIMIT, 16, 2), (16, LIMIT, 64)):
        for op in PLANE_SIZES:
            ask('', op, told)
    for number, *told in ((12, 4, 4, 0), (12, 4, 4, 3), (12, 0, LIMIT + 1, 65), (12, LIMIT + 1, 0, 66), (12, 4, 4, HUGE), (7, 0, 4, 2), (7, 4, 0, 2), (7, 0, LIMIT + 1, 2), (7, HUGE, 0, 2),
                          (11, LIMIT + 1, 1, 2), (11, 1, LIMIT + 1, 2), (11, LIMIT, 17, 2), (11, 4097, 4096, 2), (11, HUGE, HUGE, 2)):
        every(PLANE_SIZES, [(number,)] * 4, *told)


# --- planes into bands

def split(name, border, bank, plane, width, height, beyond=0, held=7.0):
    f = len(bank[0])
    bands = [[held] * rules.plane_band(width, height, f) for _ in range(4)]
    answer, left = ask(name, ANALYSE_PLANE, (border, width, height), *bank, plane, *bands, [held] * (rules.plane_need(width, height, f) + beyond))
    assert answer == (0,), name
    return left[:4]


SIXTEEN, P11 = counted(16), [[14, 46, 22, 54], [-8] * 4, [-2] * 4, [0] * 4]


def analyses():
    for border in EVERY:
        assert split('P11: 4 by 4, ' + BORDERS[border], border, SUMS, SIXTEEN, 4, 4, 2) == P11
    fifteen = [1.0, 2.0, 4.0, 8.0, 16.0, 3.0, 9.0, 27.0, 81.0, 243.0, 5.0, 25.0, 125.0, 625.0, 3125.0]

    def five_by_three(name, border, held=7.0): return split('5 by 3, ' + name, border, ([1.0, 2.0], [3.0, -5.0]), fifteen, 5, 3, 2, held)
    by_border = {border: five_by_three(BORDERS[border], border) for border in EVERY}
    # By hand, Zeros: the rows are 1 2 4 8 16 +0, 3 9 27 81 243 +0 and 5 25 125 625 3125 +0, and below them a row of zeros.
    assert by_border[ZEROS] == [[47, 55, 398, 1375, 502, 3125], [-90, 165, -885, 4125, -1167, 9375], [-79, -110, -676, -2750, 1506, 9375], [159, -330, 1536, -8250, -3501, 28125]]
    for held in (NAN, INF):
        assert by_border[WRAP] == five_by_three('%r in every buffer' % held, WRAP, held)
    twenty = [1.0, 2.0, 3.0, 4.0, 5.0, 10.0, 20.0, 30.0, 40.0, 50.0, -1.0, 7.0, -3.0, 9.0, -5.0, 6.0, 0.0, 8.0, 0.0, 2.0]
    for border in EVERY:
        split('5 by 4, ' + BORDERS[border], border, (TENS, APART), twenty, 5, 4, 1)
    for border in (WRAP, REFLECT):
        split('4 by 5, ' + BORDERS[border], border, (TENS, APART), twenty, 4, 5, 1)
    split('4 by 5, just the scratch that is needed', REFLECT101, (TENS, APART), twenty, 4, 5)
    split('infinity and NaN', ZEROS, PARTED, [1.0, INF, 2.0, 3.0, NAN, 4.0, -INF, 5.0], 4, 2)
    split('nothing but -0', ZEROS, PARTED, [-0.0] * 8, 4, 2)


# --- bands into planes

def joined(name, bank, bands, width, height, beyond=0, held=7.0):
    answer, left = ask(name, SYNTHESISE_PLANE, (width, height), *bank, *bands, [held] * (width * height), [held] * (rules.plane_need(width, height, len(bank[0])) + beyond))
    assert answer == (0,), name
    return left[0]


def back(name, border, bank, plane, width, height, beyond, held=7.0):
    bands = split(name, border, bank, plane, width, height, beyond, held)
    return bands, joined(name + ', and back', bank, bands, width, height, beyond, held)


def there_and_back():
    for held in (7.0, NAN, INF):
        assert back('P11, %r in every buffer' % held, CLAMP, SUMS, SIXTEEN, 4, 4, 3, held) == (P11, times(4, SIXTEEN))
    assert back('4 by 6, taps 1 2', ZEROS, ([1.0, 2.0], [2.0, -1.0]), counted(24), 4, 6, 1) == (
        [[39, 111, 183, 57, 129, 201], [-7, 17, 41, -1, 23, 47], [8, 32, 56, 14, 38, 62], [-4, 4, 12, -2, 6, 14]], times(25, counted(24)))
    pi24 = [3.0, -1.0, 4.0, -1.0, 5.0, -9.0, 2.0, -6.0, 5.0, -3.0, 5.0, -8.0, 9.0, -7.0, 9.0, -3.0, 2.0, -3.0, 8.0, -4.0, 6.0, -2.0, 6.0, -4.0]
    for border in EVERY:
        assert back('four halves, ' + BORDERS[border], border, mirrored(HALVES), pi24, 4, 6, 1)[1] == pi24

    def stepped(n, over): return [float(i * 37 % 101) / over for i in range(n)]
    back('fractions, six taps, 8 by 6', REFLECT, mirrored(SIXED), stepped(48, 10.0), 8, 6, 1)
    assert back('18 by 10', WRAP, SUMS, stepped(180, 1.0), 18, 10, 2)[1] == times(4, stepped(180, 1.0))


def syntheses():
    came = joined('4 by 6 of four bands', ([1.0, 2.0], [3.0, -5.0]), [times(k, counted(6)) for k in (1, 10, 100, 1000)], 4, 6, 2)
    # By hand, first column, first pair of each band: LL and LH give 3 10 + 1 and -5 10 + 2, HL and HH 3100 and -4800; so the first rows begin 31 + 9300 and 62 - 15500, -48 - 14400 and -96 + 24000.
    assert [came[0], came[1], came[4], came[5]] == [9331, -15438, -14448, 23904]
    halved = [counted(6), times(4, counted(6)), [1.0, -2.0, 3.0, -4.0, 5.0, -6.0], [8.0, 7.0, 6.0, 5.0, 4.0, 3.0]]
    joined('4 by 2, four taps', FOURS, halved, 4, 2, 1)
    assert joined('2 by 4, four taps', FOURS, halved, 2, 4, 1) == joined('2 by 4, NaN in target and scratch', FOURS, halved, 2, 4, 1, NAN)
    assert [repr(x) for x in joined('bands of -0 onto -0', taps(2), [[-0.0] * 2] * 4, 2, 4, 0, -0.0)] == ['0.0'] * 8
    # 32 pairs reach each place, the high taps with the sign of its parity.
    assert joined('2 by 2, 64 taps', mirrored(ones(64)), [[float(x)] * 1024 for x in (1, 2, 3, 5)], 2, 2, 2) == times(1024, [11, -5, -3, 1])


# --- refusals: where several tests fail, the first answers

FIRST_TESTS = (
    ('no taps, nothing lent', (12,), 0, 0, 0, 0, 0, 0), ('3 taps, no width, all wrong', (12,), 3, 0, 4, 3, 1, 1), ('66 taps, past the limit, all wrong', (12,), 66, LIMIT + 1, 4, 3, 1, 1),
    ('no width, all wrong', (7,), 4, 0, LIMIT + 1, 3, 1, 1), ('no height, all wrong', (7,), 4, LIMIT + 1, 0, 3, 1, 1), ('1048577 wide, all wrong', (11,), 4, LIMIT + 1, 1, 3, 1, 1),
    ('1048577 high, all wrong', (11,), 4, 1, LIMIT + 1, 3, 1, 1), ('4097 by 4096, all wrong', (11,), 4, 4097, 4096, 3, 1, 1))


def limits(op):
    for w, h, f, p, s, length, answer in (
            (LIMIT, 16, 2, MOST_OF_PLANE - 1, 34603007, 4194304, (10, MOST_OF_PLANE, MOST_OF_PLANE - 1)), (LIMIT, 16, 2, MOST_OF_PLANE, 34603007, 4194304, (10, 34603008, 34603007)),
            (LIMIT, 16, 2, MOST_OF_PLANE, 34603008, 4194303, (2, 4194303)), (LIMIT, 16, 2, MOST_OF_PLANE, 34603008, 4194304, (0,)), (16, LIMIT, 2, MOST_OF_PLANE, 34603008, 4194304, (0,)),
            (4096, 4096, 64, MOST_OF_PLANE, 34066556, 4322241, (0,)), (HUGE, HUGE, 2, 1, 1, 1, (11,))):
        every((op,), (answer,), w, h, f, p, s, *[length] * 4)


def refused_analyses():
    for name, answer, f, w, h, p, s, *lengths in (
            *[(*case, *case[-1:] * 3) for case in FIRST_TESTS], ('plane a place short, all wrong', (10, 6, 5), 4, 3, 2, 5, 1, 1, 1, 1, 1), ('plane a place too long, all wrong', (10, 6, 7), 4, 3, 2, 7, 1, 1, 1, 1, 1),
            ('scratch a place short, all wrong', (10, 32, 31), 4, 3, 2, 6, 31, 1, 1, 1, 1), ('narrow and low, no band right', (1, 3, 4), 4, 3, 2, 6, 32, 1, 1, 1, 1), ('low, no band right', (1, 2, 4), 4, 4, 2, 8, 32, 1, 1, 1, 1),
            ('no band right', (2, 3), 2, 4, 4, 16, 36, 3, 5, 6, 0), ('LH a place too long, HL and HH wrong', (2, 5), 2, 4, 4, 16, 36, 4, 5, 6, 0), ('HL two places too long, HH wrong', (2, 6), 2, 4, 4, 16, 36, 4, 4, 6, 0),
            ('no HH', (2, 0), 2, 4, 4, 16, 36, 4, 4, 4, 0)):
        refused(name, answer, ANALYSE_PLANE, (WRAP, w, h), *taps(f), ones(p), *[sevens(length) for length in lengths], sevens(s))
    for name, border, answer in NUMBERS:
        refused(name, answer, ANALYSE_PLANE, (border, 0, 0), *taps(3), ones(3), *[sevens(1)] * 4, sevens(1))
    limits(PLANE_ANALYSIS_ANSWER)


def refused_syntheses():
    for name, answer, f, w, h, p, s, *lengths in (
            *[(*case, *case[-1:] * 3) for case in FIRST_TESTS], ('target a place short, all wrong', (10, 15, 14), 2, 5, 3, 14, 1, 1, 1, 1, 1), ('target a place too long, all wrong', (10, 15, 16), 2, 5, 3, 16, 1, 1, 1, 1, 1),
            ('scratch a place short, all wrong', (10, 42, 41), 2, 5, 3, 15, 41, 1, 1, 1, 1), ('no band right, sides odd', (2, 5), 2, 5, 3, 15, 42, 5, 7, 8, 0),
            ('LH a place too long, HL and HH wrong, sides odd', (2, 7), 2, 5, 3, 15, 42, 6, 7, 8, 0), ('HL two places too long, HH wrong, sides odd', (2, 8), 2, 5, 3, 15, 42, 6, 6, 8, 0),
            ('no HH, sides odd', (2, 0), 2, 5, 3, 15, 42, 6, 6, 6, 0), ('both sides odd', (4, 3, 4), 2, 5, 3, 15, 42, 6, 6, 6, 6), ('the height odd', (4, 3, 4), 2, 4, 3, 12, 29, 4, 4, 4, 4), ('the width odd', (4, 5, 6), 2, 5, 4, 20, 54, 6, 6, 6, 6),
            ('sides odd and below the taps', (4, 1, 2), 4, 3, 1, 3, 20, 6, 6, 6, 6)):
        refused(name, answer, SYNTHESISE_PLANE, (w, h), *taps(f), *[ones(length) for length in lengths], sevens(p), sevens(s))
    limits(PLANE_SYNTHESIS_ANSWER)


# --- comparing two bands

def comparings():
    six, last = counted(6), counted(5) + [0.0]
    third = [1.0, 2.0, 0.0, 4.0, 0.0, 6.0]
    for name, answer, first, second, w, h in (
            ('equal', (0,), six, six, 2, 3), ('the first place and the last', (DIFFER, 0, 0), six, [0.0] + last[1:], 2, 3), ('the third and the fifth, two columns', (DIFFER, 0, 2), six, third, 2, 3),
            ('the third and the fifth, three columns', (DIFFER, 1, 0), six, third, 3, 2), ('the second column first', (DIFFER, 1, 0), six, [1.0, 2.0, 3.0, 0.0, 5.0, 6.0], 2, 3),
            ('the last place', (DIFFER, 1, 2), six, last, 2, 3), ('one column, the last row', (DIFFER, 0, 5), six, last, 1, 6), ('one row, the last column', (DIFFER, 5, 0), six, last, 6, 1),
            ('NaN and another NaN', (DIFFER, 0, 1), [NAN, 1.0], [INF - INF, 2.0], 1, 2), ('NaN and -NaN, and no more', (0,), [NAN], [-NAN], 1, 1), ('NaN and 1', (DIFFER, 0, 0), [NAN], [1.0], 1, 1),
            ('1 and NaN', (DIFFER, 0, 0), [1.0], [NAN], 1, 1), ('NaN and infinity', (DIFFER, 0, 0), [NAN], [INF], 1, 1), ('+0 and -0', (DIFFER, 1, 0), [1.0, 0.0], [1.0, -0.0], 2, 1),
            ('-0 and +0', (DIFFER, 1, 0), [1.0, -0.0], [1.0, 0.0], 2, 1), ('-0 and -0', (0,), [-0.0], [-0.0], 1, 1), ('infinities', (DIFFER, 0, 1), [INF, -INF], [INF, INF], 1, 2),
            ('1 and what is next', (DIFFER, 0, 0), [1.0], [1 + 2.0**-52], 1, 1), ('nothing at all', (7,), [], [], 0, 0), ('no columns, all wrong', (7,), six, [], 0, LIMIT + 1), ('no rows, all wrong', (7,), six, [], HUGE, 0),
            ('1048577 columns, all wrong', (11,), six, [], LIMIT + 1, 1), ('1048577 rows, all wrong', (11,), six, [], 1, LIMIT + 1), ('4097 columns of 4096, all wrong', (11,), six, [], 4097, 4096),
            ('both bands wrong', (10, 4, 6), six, [], 2, 2), ('the first band short', (10, 6, 5), ones(5), six, 2, 3), ('the second band long, where they differ', (10, 2, 6), [0.0, 2.0], six, 2, 1),
            ('no second band', (10, 6, 0), six, [], 2, 3)):
        refused(name, answer, COMPARE_BANDS, (w, h), first, second)
    for w, h, first, second, answer in ((LIMIT, 16, MOST_OF_PLANE, MOST_OF_PLANE, (0,)), (LIMIT, 16, MOST_OF_PLANE - 1, MOST_OF_PLANE - 1, (10, MOST_OF_PLANE, MOST_OF_PLANE - 1)),
                                        (LIMIT, 16, MOST_OF_PLANE, MOST_OF_PLANE + 1, (10, MOST_OF_PLANE, MOST_OF_PLANE + 1)), (LIMIT, 17, 1, 1, (11,)), (HUGE, HUGE, 1, 1, (11,))):
        every((COMPARING_ANSWER,), (answer,), w, h, first, second)
