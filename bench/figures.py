"""The figures that measure.py wrote: a case to what a call costs the Rust and this library. A figure of the Rust that is not there is None."""
import cases

NONE = '-'


def read(path):
    costs = {}
    with open(path) as file:
        for line in file:
            op, border, f, n, rust, ours = line.split()
            costs[op, border, int(f), int(n)] = None if rust == NONE else float(rust), float(ours)
    return costs


def above(pair):
    """Whether this library takes more than the Rust, if both were measured."""
    rust, ours = pair
    return rust is not None and ours > rust


def ratio(pair):
    rust, ours = pair
    return ours / rust


def growths(costs, case):
    """How many times what n samples cost 4n cost, the Rust and here; nothing where 4n was not measured."""
    op, border, f, n = case
    more = costs.get((op, border, f, cases.fourfold(op, n)))
    return [after / before for after, before in zip(more, costs[case])] if more else []
