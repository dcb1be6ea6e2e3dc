"""What the list of the rules' answers asks about several levels."""
import rules
import sums
from asked import (APART, ask, CLAMP, counted, eights, EVERY, every, FOURS, HALVES, HUGE, INF, LOW8, mirrored, NAN, NUMBERS, ones, PARTED, REFLECT, REFLECT101, refused, sevens, SIXED, SUMS,
                   taps, TENS, times, WRAP, ZEROS)
from protocol import (ANALYSE_LEVELS, BORDERS, HANDING_ANSWER, LEVEL_DETAILS, LEVEL_PART, LEVELS_ANSWER, LEVELS_SCRATCH, MOST_LEVELS, PACKED_LENGTH, READ_PLACE, RESTORE_LEVELS,
                      RESTORED_LINE, RESTORING_ANSWER, RESTORING_LENGTH)
from rules import LIMIT

SIZES = PACKED_LENGTH, LEVELS_SCRATCH, RESTORING_LENGTH


def lengths():
    for n, f, levels, *answers in (
            (5, 2, 2, (0, 7), (0, 6 + 6), (0, 6)), (3, 4, 1, *[(1, 3, 4)] * 3), (3, 4, 2, *[(9,)] * 3), (4, 4, 2, *[(9,)] * 3), (5, 4, 0, (0, 8), (0, 10 + 8), (0, 6)),
            (5, 4, 1, (0, 8), (0, 10 + 8), (0, 6)), (3, 4, 0, *[(1, 3, 4)] * 3), *[(10, f, 2, *[(12,)] * 3) for f in (0, 3, 65, 66, HUGE)], (LIMIT + 1, 4, 2, *[(11,)] * 3),
            (HUGE, 4, 0, *[(11,)] * 3), (0, 2, 1, *[(1, 0, 2)] * 3), (0, 2, 2, *[(9,)] * 3), (4, 4, HUGE, *[(9,)] * 3), (LIMIT, 2, HUGE, *[(9,)] * 3), (LIMIT + 1, 3, HUGE, *[(12,)] * 3),
            (HUGE, 4, HUGE, *[(11,)] * 3), (3, 5, 2, *[(12,)] * 3), (LIMIT, 2, 20, (0, LIMIT), (0, 2 * LIMIT), (0, LIMIT)), (LIMIT, 2, 21, *[(9,)] * 3)):
        every(SIZES, answers, n, f, levels)
    for told in ((LIMIT - 1, 2, 20), (64, 64, 1), (64, 64, 2), (65, 64, 2), (LIMIT, 64, 3), (LIMIT - 1, 64, 3)):
        for op in SIZES:
            ask('', op, told)
    for n, f, levels, level, answer in (
            (5, 2, 2, 1, (0, 0, 3)), (5, 2, 2, 2, (0, 3, 2)), (5, 2, 2, 0, (0, 5, 2)), (5, 4, 0, 0, (0, 4, 4)), (5, 4, 1, 0, (0, 4, 4)), (5, 4, 0, 1, (0, 0, 4)), (5, 4, 1, 1, (0, 0, 4)), (5, 4, 0, 2, (22, 2)),
            (3, 4, 0, 2, (1, 3, 4)), *[(10, f, 2, 9, (12,)) for f in (0, 3, 65, 66, HUGE)], (LIMIT + 1, 4, 2, 9, (11,)), (HUGE, 66, 2, 9, (12,)), (3, 4, 2, 9, (9,)), (3, 4, 1, 9, (1, 3, 4)),
            (4, 4, 2, 9, (9,)), (4, 4, 1, HUGE, (22, HUGE)), (7, 4, 3, 1, (0, 0, 5)), (7, 4, 3, 2, (0, 5, 4)), (7, 4, 3, 3, (0, 9, 3)), (7, 4, 3, 0, (0, 12, 3)), (7, 4, 3, 4, (22, 4)),
            (LIMIT, 2, 20, 1, (0, 0, 524288)), (LIMIT, 2, 20, 20, (0, 1048574, 1)), (LIMIT, 2, 20, 0, (0, 1048575, 1)), (LIMIT, 2, 20, 21, (22, 21))):
        every((LEVEL_PART,), (answer,), n, f, levels, level)
    for n, f, answer in ((1, 2, (1, 1, 2)), (2, 2, (0, 1)), (3, 2, (0, 2)), (4, 2, (0, 2)), (5, 2, (0, 3)), (LIMIT - 1, 2, (0, 20)), (LIMIT, 2, (0, 20)), (3, 4, (1, 3, 4)), (4, 4, (0, 1)), (5, 4, (0, 2)),
                         (7, 4, (0, 3)), (10, 4, (0, 3)), (63, 64, (1, 63, 64)), (64, 64, (0, 1)), (65, 64, (0, 2)), *[(10, f, (12,)) for f in (0, 3, 65, 66, HUGE)], (LIMIT + 1, 4, (11,))):
        every((MOST_LEVELS,), (answer,), n, f)
    for f in (4, 64):
        ask('', MOST_LEVELS, (LIMIT, f))


# --- analysis over levels

def levelled(name, border, bank, line, levels, scratch=None):
    n, f = len(line), len(bank[0])
    answer, left = ask(name, ANALYSE_LEVELS, (border, levels), *bank, line, sevens(rules.packed(n, f, levels)), sevens(scratch or rules.first_scratch(n, f)))
    assert answer == (0,), name
    return left


def analyses():
    five = [10.0, 20.0, 30.0, 40.0, 60.0]
    packed, scratch = levelled('P10: two levels, Wrap', WRAP, SUMS, five, 2, 14)
    assert packed == [-10, -10, 50, -40, 40, 100, 100] and scratch == [30, 70, 70, 30, 60, 10] + sevens(8)
    assert levelled('levels 0, Wrap', WRAP, SUMS, five, 0, 14) == levelled('one level, Wrap', WRAP, SUMS, five, 1, 14)
    for border in (WRAP, ZEROS, CLAMP):
        levelled('three levels, ' + BORDERS[border], border, SUMS, five, 3, 14)
    levelled('eight samples, three levels', REFLECT, SUMS, [2.0**i for i in range(8)], 3)
    levelled('four samples by four taps, one level', REFLECT101, mirrored(LOW8), counted(4), 1)
    for border in EVERY:
        levelled('ten samples, ' + BORDERS[border], border, (TENS, APART), counted(9) + [1.5], 3, 28)
        levelled('seven samples, ' + BORDERS[border], border, (TENS, APART), counted(7), 2, 28)
    levelled('two levels of infinity and NaN', ZEROS, PARTED, [1.0, INF, 2.0, 3.0, NAN, 4.0], 2)
    levelled('two levels of -0', ZEROS, PARTED, [-0.0] * 6, 2)


# --- parts handed out, and one place

def handed(packed, n, f, levels, level):
    """The number by itself, then the part, which is lent as many places as it has."""
    told = ask('', HANDING_ANSWER, (n, f, levels, len(packed), level))[0]
    part = sums.part(packed, n, f, levels, level) if told == (0,) else []
    answer, left = ask('', LEVEL_DETAILS, (n, f, levels, level), packed, sevens(len(part)))
    assert answer == told
    return answer, left[0]


def parts():
    up = counted(15)
    assert [handed(up[:7], 5, 2, 2, k)[1] for k in (1, 2, 0)] == [[1, 2, 3], [4, 5], [6, 7]]
    assert [handed(up[:7], 5, 2, 3, k)[1] for k in (1, 2, 3, 0)] == [[1, 2, 3], [4, 5], [6], [7]]
    for levels in (0, 1):
        assert [handed(up[:6], 5, 2, levels, k)[1] for k in (1, 0)] == [[1, 2, 3], [4, 5, 6]]
    assert [len(handed(up, 7, 4, 3, k)[1]) for k in (1, 2, 3, 0)] == [5, 4, 3, 3]
    for answer, p, n, f, levels, level in (
            ((12,), 6, 5, 3, 2, 9), ((12,), 6, LIMIT + 1, 3, 2, 9), ((11,), 6, LIMIT + 1, 4, 2, 9), ((1, 3, 4), 6, 3, 4, 1, 9), ((1, 3, 4), 6, 3, 4, 0, 9), ((9,), 6, 4, 4, 2, 9), ((9,), 6, 5, 2, HUGE, 9),
            ((10, 7, 6), 6, 5, 2, 2, 9), ((10, 7, 8), 8, 5, 2, 2, 1), ((10, 7, 0), 0, 5, 2, 2, 0), ((22, 3), 7, 5, 2, 2, 3), ((22, 2), 6, 5, 2, 0, 2), ((22, HUGE), 7, 5, 2, 3, HUGE)):
        assert handed(sevens(p), n, f, levels, level) == (answer, [])
    odd = [1.0, -0.0, NAN, 4.0, INF, 6.0, 7.0]
    for level, place in ((1, 0), (1, 1), (1, 2), (2, 0), (2, 1), (0, 0), (0, 1)):
        assert ask('', READ_PLACE, (5, 2, 2, level, place), odd, [8.0])[0] == (0,)
    for level in (1, 0):
        assert ask('', READ_PLACE, (5, 2, 0, level, 2), odd[:6], [8.0])[0] == (0,)
    for answer, p, n, f, levels, level, place in (
            ((12,), 6, LIMIT + 1, 3, 2, 9, 9), ((11,), 6, LIMIT + 1, 4, 2, 9, 9), ((1, 3, 4), 6, 3, 4, 1, 9, 9), ((9,), 6, 4, 4, 2, 9, 9), ((10, 7, 6), 6, 5, 2, 2, 9, 9), ((22, 3), 7, 5, 2, 2, 3, 9),
            ((23, 3), 7, 5, 2, 2, 1, 3), ((23, 2), 7, 5, 2, 2, 2, 2), ((23, 2), 7, 5, 2, 2, 0, 2), ((23, HUGE), 7, 5, 2, 2, 1, HUGE), ((22, HUGE), 7, 5, 2, 2, HUGE, 0)):
        refused('', answer, READ_PLACE, (n, f, levels, level, place), sevens(p), [8.0])


# --- restoring

def restored(name, bank, packed, n, levels, firsts, seconds):
    """Both buffers, and the line, which is asked for again as a part of one of them."""
    length = rules.first_joined(n, len(bank[0]))
    answer, (first, second) = ask(name, RESTORE_LEVELS, (n, levels), *bank, packed, sevens(firsts), eights(seconds))
    holds = second if max(1, levels) % 2 == 0 else first
    assert answer == (0, 2 if holds is second else 1, length), name
    again, (_, _, line) = ask(name + ', the line', RESTORED_LINE, (n, levels), *bank, packed, sevens(firsts), eights(seconds), sevens(length))
    assert again == (0,) and line == holds[:length]
    return first, second, line


def restorings():
    one, more = [1.0, 2.0, 3.0, 10.0, 20.0, 30.0], [1.0, 2.0, 3.0, 10.0, 20.0, 100.0, 1000.0]
    for name, packed, n, levels, first, second in (
            ('levels 0 of five samples', one, 5, 0, [11, 9, 22, 18, 33, 27] + sevens(3), eights(8)), ('one level of five samples', one, 5, 1, [11, 9, 22, 18, 33, 27] + sevens(3), eights(8)),
            ('two levels of five samples', more, 5, 2, [110, 90, 1020, 980] + sevens(5), [111, 109, 92, 88, 1023, 1017, 8, 8]),
            ('three levels of five samples', more, 5, 3, [1111, 1109, 1092, 1088, 923, 917] + sevens(3), [1110, 1090, 920, 880] + eights(4))):
        assert restored(name, SUMS, packed, n, levels, 9, 8)[:2] == (first, second)
    for levels, packed in ((1, one), (2, more), (3, more)):
        restored('%d levels of six samples' % levels, SUMS, packed, 6, levels, 9, 8)
    assert [repr(x) for x in restored('two levels of -0', SUMS, [-0.0] * 7, 5, 2, 9, 8)[2]] == ['0.0'] * 6
    up = counted(16)
    for levels, p in ((1, 10), (2, 13), (3, 15)):
        restored('%d levels of seven samples' % levels, FOURS, up[:p], 7, levels, 8, 11)
    restored('three levels of ten samples', FOURS, up, 10, 3, 12, 10)
    for bank, p, n, levels in ((SUMS, 6, 5, 0), (SUMS, 6, 5, 1), (SUMS, 7, 5, 2), (SUMS, 7, 6, 3), (FOURS, 13, 8, 2), (FOURS, 15, 7, 3)):
        restored('counted up, %d levels of %d samples by %d taps' % (levels, n, len(bank[0])), bank, up[:p], n, levels, 9, 9)


def next_too(border, line):
    return [sums.sample(border, line, i) for i in range(len(line) + len(line) % 2)]


def there_and_back():
    five, eight = [3.0, -1.0, 4.0, -1.0, 5.0], [3.0, -1.0, 4.0, -1.0, 5.0, -9.0, 2.0, -6.0]

    def back(name, border, bank, again, line, levels):
        packed, _ = levelled(name, border, bank, line, levels, 32)
        return restored(name + ', and back', again, packed, len(line), levels, 10, 10)[2]
    for line, levels in ((five, 2), (five, 3), (eight, 3)):
        assert back('halves and ones, %d samples, %d levels' % (len(line), levels), CLAMP, (times(0.5, SUMS[0]), times(0.5, SUMS[1])), SUMS, line, levels) == next_too(CLAMP, line)
    for border in EVERY:
        bank = mirrored(HALVES)
        assert back('four halves, ' + BORDERS[border], border, bank, bank, eight[:7], 3) == next_too(border, eight[:7])
    back('fractions, six taps, three levels', REFLECT, mirrored(SIXED), mirrored(SIXED), [0.1, 0.7, -0.3, 1.9, 0.6, -2.3, 0.9, 0.2, -1.1], 3)
    # A join by taps 1 1 gives twice its line where the details are as large as the approximations: level k's are to be 2^(L-k) times what they were.
    for line, levels, raised in ((five, 2, [8.0, 10.0, 0.0, -1.0, 0.0, 5.0, 20.0]), (eight, 3, [16.0, 20.0, 56.0, 32.0, -2.0, 0.0, 13.0, -3.0])):
        name, n = 'taps 1 1, %d samples, %d levels' % (len(line), levels), len(line)
        packed, _ = levelled(name, CLAMP, SUMS, line, levels, 2 * n + 2 * (n % 2) + 1)
        scale = [2**(levels - k) for k in range(1, levels + 1) for _ in range(rules.part(n, 2, levels, k)[1])] + [1] * rules.part(n, 2, levels, 0)[1]
        assert [x * y for x, y in zip(packed, scale)] == raised
        assert restored(name + ', joined as they are', SUMS, packed, n, levels, 9, 9)[2] != times(2**levels, next_too(CLAMP, line))
        assert restored(name + ', details raised', SUMS, raised, n, levels, 9, 9)[2] == times(2**levels, next_too(CLAMP, line))
    wide = mirrored(ones(64))
    packed, scratch = levelled('64 taps and 65 samples, all 1, two levels', REFLECT, wide, ones(65), 2, 319)
    assert packed == [0.0] * 127 + [4096.0] * 63
    assert restored('64 taps and 65 samples, all 1, and back', wide, packed, 65, 2, 67, 66)[2] == [4194304.0] * 66


# --- refusals: where several tests fail, the first answers

def refusals():
    for name, answer, f, n, levels, p, s in (
            ('no taps, no line', (12,), 0, 0, 0, 0, 0), ('3 taps, 2 samples, all wrong', (12,), 3, 2, 2, 1, 1), ('66 taps, all wrong', (12,), 66, 2, 1, 1, 1), ('P2: one level, all wrong', (1, 3, 4), 4, 3, 1, 1, 1),
            ('P2: levels 0, all wrong', (1, 3, 4), 4, 3, 0, 1, 1), ('P2: two levels, all wrong', (9,), 4, 3, 2, 1, 1), ('P3: two levels, all wrong', (9,), 4, 4, 2, 1, 1), ('no samples, one level', (1, 0, 2), 2, 0, 1, 0, 0),
            ('no samples, two levels', (9,), 2, 0, 2, 0, 0), ('one level too many', (9,), 2, 5, 4, 7, 12), ('18446744073709551615 levels', (9,), 2, 5, HUGE, 7, 12), ('packed and scratch short', (10, 7, 6), 2, 5, 2, 6, 11),
            ('packed a place too long', (10, 7, 8), 2, 5, 2, 8, 12), ('packed with all approximations', (10, 7, 10), 2, 5, 2, 10, 12), ('no packed', (10, 7, 0), 2, 5, 2, 0, 12),
            ('packed of one level for two', (10, 7, 6), 2, 5, 2, 6, 12), ('packed of two levels for one', (10, 6, 7), 2, 5, 1, 7, 12), ('scratch a place short', (5, 12, 11), 2, 5, 2, 7, 11),
            ("scratch of one line's analysis", (5, 12, 6), 2, 5, 1, 6, 6), ('no scratch, levels 0', (5, 4, 0), 2, 2, 0, 2, 0)):
        refused(name, answer, ANALYSE_LEVELS, (WRAP, levels), *taps(f), ones(n), sevens(p), sevens(s))
    refused('lists that differ, nothing lent', (12,), ANALYSE_LEVELS, (WRAP, 2), ones(4), ones(2), ones(2), [], [])
    for name, border, answer in NUMBERS:
        refused(name, answer, ANALYSE_LEVELS, (border, 2), *taps(3), ones(2), sevens(1), sevens(1))
    for n, f, levels, p, s, answer in ((LIMIT + 1, 3, 2, 0, 0, (12,)), (LIMIT + 1, 4, 2, 0, 0, (11,)), (LIMIT, 2, 21, LIMIT, 2 * LIMIT, (9,)), (LIMIT, 2, 20, LIMIT - 1, 2 * LIMIT - 1, (10, LIMIT, LIMIT - 1)),
                                       (LIMIT, 2, 20, LIMIT, 2 * LIMIT - 1, (5, 2 * LIMIT, 2 * LIMIT - 1)), (LIMIT, 2, 20, LIMIT, 2 * LIMIT, (0,))):
        every((LEVELS_ANSWER,), (answer,), n, f, levels, p, s)
    for name, answer, f, n, levels, p, a, b in (
            ('no taps, nothing lent', (12,), 0, 0, 0, 0, 0, 0), ('3 taps, all wrong', (12,), 3, 2, 2, 1, 1, 1), ('3 taps, 1048577 samples', (12,), 3, LIMIT + 1, 2, 1, 1, 1), ('4 taps, 1048577 samples', (11,), 4, LIMIT + 1, 2, 1, 1, 1),
            ('P2: one level, all wrong', (1, 3, 4), 4, 3, 1, 1, 1, 1), ('P2: levels 0, all wrong', (1, 3, 4), 4, 3, 0, 1, 1, 1), ('P2: two levels, all wrong', (9,), 4, 3, 2, 1, 1, 1), ('P3: two levels, all wrong', (9,), 4, 4, 2, 1, 1, 1),
            ('no samples, one level', (1, 0, 2), 2, 0, 1, 0, 0, 0), ('18446744073709551615 levels', (9,), 2, 5, HUGE, 7, 6, 6), ('packed and both buffers short', (10, 7, 6), 2, 5, 2, 6, 5, 4),
            ('packed a place too long', (10, 7, 8), 2, 5, 2, 8, 6, 6), ('no packed', (10, 7, 0), 2, 5, 2, 0, 6, 6), ('packed of two levels for one', (10, 6, 7), 2, 5, 1, 7, 6, 6), ('both buffers short', (5, 6, 5), 2, 5, 2, 7, 5, 4),
            ('the first short', (5, 6, 5), 2, 5, 2, 7, 5, 6), ('the second short', (5, 6, 4), 2, 5, 2, 7, 6, 4), ('the second short, one level', (5, 6, 5), 2, 5, 1, 6, 6, 5), ('no buffers, levels 0', (5, 2, 0), 2, 2, 0, 2, 0, 0),
            ('3 taps, the rest as ruled', (12,), 3, 5, 2, 7, 8, 8), ('packed a place too long, more room', (10, 7, 8), 2, 5, 2, 8, 8, 8), ('the first empty', (5, 6, 0), 2, 5, 2, 7, 0, 8), ('the second a place short', (5, 6, 5), 2, 5, 2, 7, 8, 5)):
        refused(name, answer, RESTORE_LEVELS, (n, levels), *taps(f), ones(p), sevens(a), eights(b))
        refused('no line: ' + name, answer, RESTORED_LINE, (n, levels), *taps(f), ones(p), sevens(a), eights(b), [])
    for levels, p, a, b, answer in ((21, LIMIT, LIMIT, LIMIT, (9,)), (20, LIMIT - 1, LIMIT - 1, LIMIT - 1, (10, LIMIT, LIMIT - 1)), (20, LIMIT, LIMIT - 1, LIMIT - 2, (5, LIMIT, LIMIT - 1)),
                                    (20, LIMIT, LIMIT, LIMIT - 2, (5, LIMIT, LIMIT - 2)), (20, LIMIT, LIMIT, LIMIT, (0,))):
        every((RESTORING_ANSWER,), (answer,), LIMIT, 2, levels, p, a, b)
