"""Draws the ratios of counts.   plot.py COUNTS SVG

A line for each operation, border and number of taps; on it a dot for each size, left of 1 where this library executes fewer instructions than the Rust, and a
diamond for the largest of 32-bit floats."""
import sys

import cases
import figures

WIDTH, LEFT, TOP, HIGH, GAP = 932, 272, 136, 18, 12
FROM, TO, ACROSS = 0.1, 1.2, 484
RATIOS = LEFT + ACROSS + 60
GROWTHS = RATIOS + 90
INK, PALE, OURS, NARROW, WORSE = '#1b1b1b', '#666666', '#1f5fa8', '#d98a1f', '#c23b22'


def text(x, y, words, colour=INK, size=13, anchor='start', weight='normal'):
    return '<text x="%g" y="%g" fill="%s" font-size="%d" text-anchor="%s" font-weight="%s">%s</text>' % (x, y, colour, size, anchor, weight, words)


def stroke(x, y, to_x, to_y, colour, width=1):
    return '<line x1="%g" y1="%g" x2="%g" y2="%g" stroke="%s" stroke-width="%g"/>' % (x, y, to_x, to_y, colour, width)


def across(ratio):
    """Where a ratio stands; one past the scale stands at its end."""
    return LEFT + ACROSS * (min(max(ratio, FROM), TO) - FROM) / (TO - FROM)


def dot(x, y, filled, colour):
    return '<circle cx="%.1f" cy="%g" r="%g" fill="%s" stroke="%s" stroke-width="1.5"/>' % (x, y, 5 if filled else 4, colour if filled else '#ffffff', colour)


def diamond(x, y, colour):
    return '<path d="M%.1f %gl5 5l-5 5l-5 -5z" fill="#ffffff" stroke="%s" stroke-width="1.5"/>' % (x, y - 5, colour)


def colour(ratio, usual=OURS):
    return WORSE if ratio > 1 else usual


def narrow(costs, case, y):
    """The same of 32-bit floats, where there is such a case."""
    ratios = [figures.ratio(costs[of]) for of in [cases.narrowed(case)] if of in costs]
    return [diamond(across(ratio), y, colour(ratio, NARROW)) for ratio in ratios]


def name(group, row):
    """What stands for a row in its group."""
    _, border, f = row
    return border if cases.bordered(group) else f


def title(group):
    op, _, f = group[0]
    return '%s by %d taps' % (cases.title(op), f) if cases.bordered(group) else cases.title(op)


def line_of(costs, group, row, y):
    """The dots of one row, by size; the largest is filled, drawn last and told in words."""
    sizes = cases.sizes(group)
    ratios = [figures.ratio(costs[(*row, n)]) for n in sizes]
    growth = figures.growths(costs, (*row, sizes[-2]))[1]
    return [
        text(LEFT - 16, y + 4, name(group, row), PALE, anchor='end'),
        stroke(across(min(ratios)), y, across(max(ratios)), y, '#b9c9dd', 2),
        *[dot(across(ratio), y, n == sizes[-1], colour(ratio)) for n, ratio in zip(sizes, ratios)],
        *narrow(costs, (*row, sizes[-1]), y),
        text(RATIOS, y + 4, '%.2f' % ratios[-1], colour(ratios[-1]), anchor='end'),
        text(GROWTHS, y + 4, '%.2f' % growth, PALE, anchor='end'),
    ]


def lines(costs):
    """All rows, a gap before each group, and where they end."""
    drawn, y = [], TOP
    for group in cases.GROUPS:
        drawn += [text(LEFT - 96, y + 4, title(group), anchor='end')]
        for row in group:
            drawn += line_of(costs, group, row, y)
            y += HIGH
        y += GAP
    return drawn, y - GAP


def scale(top, bottom):
    drawn = ['<rect x="%.1f" y="%d" width="%.1f" height="%d" fill="#fbeeeb"/>' % (across(1), top, across(TO) - across(1), bottom - top)]
    for tenth in range(1, 13):
        x, one = across(tenth / 10), tenth == 10
        drawn += [stroke(x, top, x, bottom, INK if one else '#e4e4e4', 1.5 if one else 1), text(x, bottom + 18, '%.1f' % (tenth / 10), PALE, 12, 'middle')]
    return drawn


def heads():
    return [
        text(24, 30, 'Executed x86-64 instructions: ours for each one of the Rust', size=17, weight='bold'),
        text(24, 54, 'Left of the line at 1.0 we take fewer than the Rust, right of it (red) more.', PALE),
        text(24, 74, 'The border is Wrap where none is named; rows by border begin at 8 samples.', PALE),
        dot(576, 50, True, OURS),
        text(586, 54, '16,384 samples, or 4,096 x 4,096', PALE),
        dot(576, 70, False, OURS),
        text(586, 74, 'fewer, from 64, or from 512 x 512', PALE),
        diamond(576, 90, NARROW),
        text(586, 94, '16,384 samples of 32-bit floats', PALE),
        text(LEFT - 16, TOP - 22, 'taps, or border', PALE, 12, 'end'),
        text(RATIOS, TOP - 22, 'filled dot', PALE, 12, 'end'),
        text(GROWTHS, TOP - 22, 'n to 4n', PALE, 12, 'end'),
    ]


def drawing(costs):
    rows, bottom = lines(costs)
    high = bottom + 32
    return '\n'.join([
        '<svg xmlns="http://www.w3.org/2000/svg" width="%d" height="%d" viewBox="0 0 %d %d" font-family="sans-serif">' % (WIDTH, high, WIDTH, high),
        '<rect width="%d" height="%d" fill="#ffffff"/>' % (WIDTH, high),
        *scale(TOP - 14, bottom - 6), *heads(), *rows, '</svg>', ''])


if __name__ == '__main__':
    with open(sys.argv[2], 'w') as file:
        file.write(drawing(figures.read(sys.argv[1])))
