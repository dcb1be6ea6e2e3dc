"""Prints the table of the longest pads: the instructions of whole calls.   longest.py FIGURES"""
import sys

import cases
import figures

ROW = '%-12s %-10s %-5s' + ' %5s' * len(cases.SHORTEST) + ' %s'
HEAD = '%-29s %47s'


def rows(costs):
    """Operation and border of each row, in their order."""
    return list(dict.fromkeys((op, border) for op, border, _, _ in costs))


def line(costs, row, name, side):
    """The figures of a side by samples; a place where it was not counted stays empty."""
    op, border = row
    pairs = [costs.get((op, border, cases.KERNEL, n), (None, None)) for n in cases.SHORTEST]
    told = ['' if pair[side] is None else '%d' % pair[side] for pair in pairs]
    above = sum(map(figures.above, pairs)) if side else 0
    return ROW % (cases.title(op), border, name, *told, '%d above' % above if above else '') if any(told) else None


def table(costs):
    heads = [HEAD % ('', 'instructions of a call, by samples'), ROW % ('pad', 'border', 'side', *cases.SHORTEST, '')]
    lines = [line(costs, row, name, side) for row in rows(costs) for side, name in enumerate(('Rust', 'ours'))]
    return [line.rstrip() for line in heads + lines if line]


if __name__ == '__main__':
    print('\n'.join(table(figures.read(sys.argv[1]))))
