"""Prints the table of figures, those of 32-bit floats beside those of 64-bit ones.   table.py FIGURES UNIT"""
import sys

import cases
import figures

ROW = '%-17s %-10s %4s %11s %9s %9s %6s %6s %6s %9s %8s %6s %s'
HEAD = '%-45s %26s %13s %25s'


def size(op, n):
    return '%d x %d' % (n, n) if cases.plane(op) else '%d' % n


def each(costs, case):
    """What a sample costs the Rust and here, and the ratio; nothing where it was not measured."""
    op, _, _, n = case
    if case not in costs:
        return [''] * 3
    return ['%.2f' % (cost / cases.samples(op, n)) for cost in costs[case]] + ['%.3f' % figures.ratio(costs[case])]


def row(costs, case):
    op, border, f, n = case
    narrow = cases.narrowed(case)
    growth = ['%.2f' % times for times in figures.growths(costs, case)] or ['', '']
    above = any(figures.above(costs[which]) for which in (case, narrow) if which in costs)
    return ROW % (cases.title(op), border if cases.border_read(op) else '', f, size(op, n), *each(costs, case), *growth, *each(costs, narrow), 'above' if above else '')


def table(costs, unit):
    heads = [HEAD % ('', unit + ' a sample', 'from n to 4n', 'a sample of f32'), ROW % ('operation', 'border', 'taps', 'n', 'Rust', 'ours', 'ratio', 'Rust', 'ours', 'Rust', 'ours', 'ratio', '')]
    return [line.rstrip() for line in heads + [row(costs, case) for case in costs if not cases.narrow(case[0])]]


if __name__ == '__main__':
    print('\n'.join(table(figures.read(sys.argv[1]), sys.argv[2])))
