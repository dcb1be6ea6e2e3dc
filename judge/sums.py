"""The numbers of docs/RULES.md, from its text: what every lent buffer holds after a call that is done. Each product is rounded, then each sum.

Beside judge/rules.py, which has the tests. Buffers go in and out as lists of floats, which round to their own width (judge/widths.py); OPEN is a place that the
rules leave open."""
import rules
from protocol import (ANALYSE, ANALYSE_DIRECTLY, ANALYSE_LEVELS, ANALYSE_PLANE, BACK_BY_PAIRS, BORDERS, CONVOLVE, DIVIDED_BY_PAIRS, DIVIDED_LINE, LEVEL_DETAILS, MIRROR, OPEN, PLANE_BY_PAIRS,
                      READ_PLACE, RESTORE_DIVIDED, RESTORE_LEVELS, RESTORED_BY_PAIRS, RESTORED_LINE, SHAPES, SYNTHESISE, SYNTHESISE_DIRECTLY, SYNTHESISE_PLANE, THERE_AND_BACK,
                      THERE_AND_BACK_LEVELS, WIDER)
from widths import WIDE


def folded(n, top, q):
    """There and back over n places."""
    return q if q < n else top - q


def sample(border, line, i):
    """What stands at place i of a line, negative on the left."""
    n, name = len(line), BORDERS[border]
    if 0 <= i < n:
        return line[i]
    if name == 'Clamp':
        return line[0 if i < 0 else n - 1]
    if name == 'Wrap':
        return line[i % n]
    if name == 'Reflect':
        return line[n - 1 - i % n]
    if name == 'Zeros':
        return 0.0
    if name == 'Mirror':
        return line[folded(n, 2 * n - 1, i % (2 * n))]
    if n == 1:
        return line[0]
    if name == 'Reflect101':
        return line[-i] if i < 0 else line[2 * (n - 1) - i]
    assert name == 'Mirror101'
    return line[folded(n, 2 * (n - 1), i % (2 * (n - 1)))]


def padded(border, line, left, right):
    return [sample(border, line, i) for i in range(-left, len(line) + right)]


def onto(buffer, front):
    """The front, and what the buffer held beyond it."""
    return front + buffer[len(front):]


def mirror(low):
    return [-x if j % 2 else x for j, x in enumerate(reversed(low))]


# --- one line

def dot(taps, line, start):
    total = 0.0
    for j, tap in enumerate(taps):
        total = total + tap * line[start + j]
    return total


def split(border, low, high, line):
    """Both bands, and the padded line."""
    f, m = len(low), rules.band(len(line), len(low))
    whole = 2 * m + f - 2 - len(line)
    line = padded(border, line, whole // 2, whole - whole // 2)
    return [dot(low, line, 2 * i) for i in range(m)], [dot(high, line, 2 * i) for i in range(m)], line


def joined(low, high, approx, detail, out):
    """The pairs that reach each place, rising, the detail's product first, onto what the place held."""
    f, places = len(low), []
    for p, total in enumerate(out):
        for i in range(len(approx)):
            j = p + f - 2 - 2 * i
            if 0 <= j <= f - 1:
                total = total + high[j] * detail[i]
                total = total + low[j] * approx[i]
        places.append(total)
    return places


def joined_anew(low, high, approx, detail):
    return joined(low, high, approx, detail, [0.0] * rules.joined_length(len(approx), len(low)))


def analyse(border, low, high, line, approx, detail, scratch):
    approx, detail, line = split(border, low, high, line)
    return approx, detail, onto(scratch, line)


def analyse_directly(border, low, high, line, approx, detail):
    return split(border, low, high, line)[:2]


def synthesise(low, high, approx, detail, out):
    return joined(low, high, approx, detail, out),


def convolve(border, centre, line, out, scratch, kernel):
    if not kernel:
        return line, scratch
    front = padded(border, line, *rules.pads(len(kernel), centre))
    out = []
    for x in range(len(line)):
        total = front[x] * kernel[0]
        for i in range(1, len(kernel)):
            total = total + front[x + i] * kernel[i]
        out.append(total)
    return out, onto(scratch, front)


def there_and_back(border, low, high, line, approx, detail, scratch, out):
    approx, detail, scratch = analyse(border, low, high, line, approx, detail, scratch)
    return approx, detail, scratch, joined_anew(low, high, approx, detail)


# --- levels

def part(packed, n, f, levels, level):
    start, count = rules.part(n, f, levels, level)
    return packed[start:start + count]


def analyse_levels(border, levels, low, high, line, packed, scratch):
    packed = []
    for _ in range(max(1, levels)):
        line, detail, front = split(border, low, high, line)
        packed, scratch = packed + detail, onto(scratch, front)
    return packed + line, scratch


def joins(n, levels, low, high, packed, done=lambda line: line):
    """The line of each join and what is done to it, the deepest level's first; one that is longer than the next details is trimmed."""
    line = part(packed, n, len(low), levels, 0)
    for level in range(max(1, levels), 0, -1):
        detail = part(packed, n, len(low), levels, level)
        line = done(joined_anew(low, high, line[:len(detail)], detail))
        yield line


def by_turns(lines, *buffers):
    """Each line at the front of the first buffer or of the second."""
    buffers = list(buffers)
    for k, line in enumerate(lines):
        buffers[k % 2] = onto(buffers[k % 2], line)
    return tuple(buffers)


def restore_levels(n, levels, low, high, packed, *buffers):
    return by_turns(joins(n, levels, low, high, packed), *buffers)


def restored_line(n, levels, low, high, packed, first, second, restored):
    *_, line = joins(n, levels, low, high, packed)
    return *restore_levels(n, levels, low, high, packed, first, second), line


def divided_joins(n, levels, s, low, high, packed):
    """Each joined line divided by the float that has the bits s, place by place, before it is trimmed."""
    s = WIDE.float_of(s)
    return joins(n, levels, low, high, packed, lambda line: [x / s for x in line])


def restore_divided(n, levels, s, low, high, packed, *buffers):
    return by_turns(divided_joins(n, levels, s, low, high, packed), *buffers)


def divided_line(n, levels, s, low, high, packed, first, second, restored):
    *_, line = divided_joins(n, levels, s, low, high, packed)
    return *restore_divided(n, levels, s, low, high, packed, first, second), line


def there_and_back_levels(border, levels, s, low, high, line, packed, scratch, first, second):
    n = len(line)
    packed, scratch = analyse_levels(border, levels, low, high, line, packed, scratch)
    return packed, scratch, *restore_divided(n, levels, s, low, high, packed, first, second)


# --- planes: rows, then columns; a band is stored column by column

def columns_of(lines):
    return [list(column) for column in zip(*lines)]


def together(lines):
    return [x for line in lines for x in line]


def cut(numbers, length):
    return [numbers[i:i + length] for i in range(0, len(numbers), length)]


def opened(width, height, f, scratch):
    """The scratch within its need is not said."""
    return onto(scratch, [OPEN] * rules.plane_need(width, height, f))


def analyse_plane(border, width, height, low, high, plane, ll, lh, hl, hh, scratch):
    rows = [split(border, low, high, row) for row in cut(plane, width)]
    bands = []
    for side in (0, 1):
        columns = [split(border, low, high, column) for column in columns_of([row[side] for row in rows])]
        bands += [together(column[0] for column in columns), together(column[1] for column in columns)]
    return *bands, opened(width, height, len(low), scratch)


def synthesise_plane(width, height, low, high, ll, lh, hl, hh, plane, scratch):
    def lines(approx, detail):
        pairs = zip(cut(approx, rules.band(height, len(low))), cut(detail, rules.band(height, len(low))))
        return columns_of([joined_anew(low, high, a, d) for a, d in pairs])
    rows = zip(lines(ll, lh), lines(hl, hh))
    return together(joined_anew(low, high, a, d) for a, d in rows), opened(width, height, len(low), scratch)


# --- by a bank of two pairs: one for the way there, one for the way back

def pairs_of(taps, low, high, lowback, highback):
    """Both pairs, out of the list that has their lists one after another."""
    assert low == high == lowback == highback and len(taps) == 4 * low
    lists = cut(taps, low)
    return lists[:2], lists[2:]


def back_by_pairs(border, low, high, lowback, highback, taps, line, approx, detail, scratch, out):
    there, back = pairs_of(taps, low, high, lowback, highback)
    approx, detail, scratch = analyse(border, *there, line, approx, detail, scratch)
    return approx, detail, scratch, joined_anew(*back, approx, detail)


def restored_by_pairs(n, levels, low, high, lowback, highback, taps, *buffers):
    return restored_line(n, levels, *pairs_of(taps, low, high, lowback, highback)[1], *buffers)


def divided_by_pairs(n, levels, s, low, high, lowback, highback, taps, *buffers):
    return divided_line(n, levels, s, *pairs_of(taps, low, high, lowback, highback)[1], *buffers)


def plane_by_pairs(width, height, low, high, lowback, highback, taps, *buffers):
    return synthesise_plane(width, height, *pairs_of(taps, low, high, lowback, highback)[1], *buffers)


DONE = {
    ANALYSE: analyse,
    SYNTHESISE: synthesise,
    ANALYSE_DIRECTLY: analyse_directly,
    SYNTHESISE_DIRECTLY: synthesise,
    CONVOLVE: convolve,
    MIRROR: lambda low, high: (mirror(low),),
    ANALYSE_LEVELS: analyse_levels,
    RESTORE_LEVELS: restore_levels,
    RESTORE_DIVIDED: restore_divided,
    READ_PLACE: lambda n, f, levels, level, place, packed, value: ([part(packed, n, f, levels, level)[place]],),
    ANALYSE_PLANE: analyse_plane,
    SYNTHESISE_PLANE: synthesise_plane,
    THERE_AND_BACK: there_and_back,
    LEVEL_DETAILS: lambda n, f, levels, level, packed, handed: (part(packed, n, f, levels, level),),
    RESTORED_LINE: restored_line,
    DIVIDED_LINE: divided_line,
    THERE_AND_BACK_LEVELS: there_and_back_levels,
    BACK_BY_PAIRS: back_by_pairs,
    RESTORED_BY_PAIRS: restored_by_pairs,
    DIVIDED_BY_PAIRS: divided_by_pairs,
    PLANE_BY_PAIRS: plane_by_pairs,
}


def after(op, scalars, lists):
    """What each lent list holds after a done call, every number of the operation's width."""
    wide, number = WIDER.get(op, op), SHAPES[op].width.number
    lists = [[number(x) for x in numbers] for numbers in lists]
    return [list(words) for words in DONE[wide](*scalars, *lists)] if wide in DONE else []
