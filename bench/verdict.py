"""Says how many cases take more than they may: one by bank more than a copy above the export, one by the engine that pads no line more than twice the first engine, or more than
it to refuse, a mirror more than Reflect, one of 32-bit floats a larger part of the Rust than the same of 64-bit ones, any case more than the Rust, that engine's apart from the
others; and what restoring with division takes above restoring.   verdict.py FIGURES.."""
import sys

import cases
import figures

# instructions that copying two lists of 64 taps may take, and handing them on; four lists take more
COPY = 256
# how many times what the first engine takes the one that pads no line may take, and from how many samples on
TWICE, LONG = 2, 4096


def by_lists(case):
    op, border, f, n = case
    return op.replace(cases.BY_BANK, ''), border, f, n


def by_padding(case):
    op, *rest = case
    return op.removesuffix(cases.DIRECT), *rest


def by_keeping(case):
    op, *rest = case
    return op.removesuffix(cases.DIVIDED), *rest


def by_reflect(case):
    op, _, f, n = case
    return op, cases.REFLECT, f, n


def of_wide(case):
    op, *rest = case
    return cases.wide(op), *rest


def ours(pair):
    return pair[1]


def against(costs, chosen, other, more, name, figure=ours, told='%d', times=1):
    """Each chosen case against its other one; those with a figure that is more than so much above the other's, or so many times it, are named. How many there are of both."""
    pairs = [(figure(costs[case]), figure(costs[other(case)]), case) for case in costs if chosen(case)]
    above = [pair for pair in pairs if pair[0] > times * pair[1] + more]
    for of_it, of_other, (op, border, f, n) in above:
        print(('above %s: %s, %s, %d taps, n = %d: ' + told + ' against ' + told) % (name, cases.title(op), border, f, n, of_it, of_other))
    return len(pairs), len(above)


def banks(costs):
    print('by bank: %d cases, %d above a copy' % against(costs, lambda case: cases.by_bank(case[0]), by_lists, COPY, 'a copy'))


def direct(costs):
    def long(case): return cases.direct(case[0]) and case[3] >= LONG
    counts = against(costs, long, by_padding, 0, 'twice the first engine', times=TWICE)
    largest = max(ours(costs[case]) / ours(costs[by_padding(case)]) for case in costs if long(case))
    print('direct: %d cases, %d above twice the first engine, the largest %.3f' % (*counts, largest))


def refusals(costs):
    counts = against(costs, lambda case: cases.direct(case[0]) and cases.refused(case[0]), by_padding, 0, 'the first engine')
    print('direct, refused: %d cases, %d above the first engine' % counts)


def divisions(costs):
    """What a division adds to restoring: twice as many places are joined as there are samples, or nearly."""
    added = [(ours(costs[case]) - ours(costs[by_keeping(case)])) / case[3] for case in costs if cases.divided(case[0])]
    print('divided: %d cases, %.2f to %.2f instructions a sample above restoring' % (len(added), min(added), max(added)))


def mirrors(costs):
    print('mirrors: %d cases, %d above Reflect' % against(costs, lambda case: case[1] in cases.MIRRORS, by_reflect, 0, 'Reflect'))


def narrow(costs):
    counts = against(costs, lambda case: cases.narrow(case[0]) and cases.rust_has(case), of_wide, 0, 'the ratio of f64', figures.ratio, '%.4f')
    print('f32: %d cases, %d above the ratio of f64' % counts)


def rust(costs, name, chosen):
    pairs = [pair for case, pair in costs.items() if chosen(case) and pair[0] is not None]
    print('%s%d cases, %d above the Rust' % (name, len(pairs), sum(map(figures.above, pairs))))


if __name__ == '__main__':
    read = {case: pair for path in sys.argv[1:] for case, pair in figures.read(path).items()}
    banks(read)
    direct(read)
    refusals(read)
    divisions(read)
    mirrors(read)
    narrow(read)
    rust(read, 'direct: ', lambda case: cases.direct(case[0]))
    rust(read, '', lambda case: not cases.direct(case[0]))
