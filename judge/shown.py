"""What crates/example has to print, from the rules and sums of docs/RULES.md: a label and a number, and a line for each float."""
import sums
from asked import bits, CLAMP, LOW8, MIRROR, MIRROR101, mirrored, REFLECT101, sevens, SUMS, times, WRAP
from asked_pairs import FIVE_THREE


def floats(label, numbers):
    return ['%s %d' % (label, len(numbers))] + ['%016X' % bits(x) for x in numbers]


def banks():
    return ['a bank', 'taps 4', *floats('high by the mirror rule', sums.mirror(LOW8)), 'a bank', 'taps 6', *['refused 12', 'taps 0'] * 3]


def bands():
    bank = mirrored(LOW8)
    approx, detail, _ = sums.split(CLAMP, *bank, [10.0, 20.0, 30.0, 40.0])
    return ['numbers in a band 3', *floats('approximations', approx), *floats('details', detail), *floats('joined', sums.joined_anew(*bank, approx, detail))]


def parts():
    packed, _ = sums.analyse_levels(WRAP, 2, *SUMS, [10.0, 20.0, 30.0, 40.0, 60.0], [], [0.0] * 12)
    named = [('details 1', 1), ('details 2', 2), ('approximations 2', 0)]
    return [line for label, level in named for line in floats(label, sums.part(packed, 5, 2, 2, level))] + [
        'no level 3 0', *floats('place', [sums.part(packed, 5, 2, 2, 2)[1]]), 'no such place 2', 'no such level 3']


def restored(levels):
    line, halves = [3.0, -1.0, 4.0, -1.0, 5.0], [times(0.5, taps) for taps in SUMS]
    packed, _ = sums.analyse_levels(WRAP, levels, *halves, line, [], [0.0] * 12)
    first, second, back = sums.restored_line(5, levels, *SUMS, packed, sevens(6), [8.0] * 8, [])
    assert back == line + line[:1]
    return [*floats('restored', back), *floats('first', first), *floats('second', second)]


def back(border):
    line = [5.0, -2.0, 3.0, -4.0, 9.0]
    out = sums.there_and_back(border, *mirrored(LOW8), line, [], [], [0.0] * 10, [])[-1]
    assert out == times(50, line + [sums.sample(border, line, 5)])
    return ['there and back', *floats('out', out)]


def by_two_pairs(border):
    line = [5.0, -2.0, 3.0, -4.0, 9.0, 2.0, -6.0]
    approx, detail, _ = sums.split(border, *FIVE_THREE[:2], line)
    out = sums.joined_anew(*FIVE_THREE[2:], approx, detail)
    assert out == times(16, line + [sums.sample(border, line, 7)])
    return ['there and back', *floats('out', out)]


def lines():
    returned = [line for border in (CLAMP, WRAP, REFLECT101, MIRROR, MIRROR101) for line in back(border)]
    return [*banks(), *bands(), *parts(), *restored(2), *restored(3), *returned, 'refused 4, have 5', 'need 6', *floats('out', sevens(5)), *by_two_pairs(MIRROR101)]
