"""Runs every case on both sides and compares. judge/run calls it; see there for what is built first.

    compare.py --seed N --cases N --work FOLDER --differences FILE --driver COMMAND --host COMMAND

Two results agree if the number, what it carries and every lent buffer agree, bit for bit, every NaN being one; of a plane's scratch, after
a done call, what lies beyond its need. Where they do not, ours has to be what the rules say (rules.py) and a row of docs/DIFFERENCES.md has to
admit what the Rust does (rows.py). The last line is `N cases, K differ`, and before it stands the smallest input at which the two part, if
they do."""
import argparse
import collections
import os
import shlex
import subprocess
import sys
import time

import kinds
import level_cases
import plane_cases
import protocol
import rows
import rules
from floats import Chance

BATCH_CASES = 10000
BATCH_NUMBERS = 12000000


def padded(answer):
    """An answer as number and two carried words."""
    return (answer + (protocol.PATTERN, protocol.PATTERN))[:3]


def fault_of_ours(case, ours):
    """What is wrong with our result whatever the Rust says, or None."""
    if ours.flags != 0:
        return 'ours changed what it may only read, or a word outside the lists'
    ruled = rules.answer(case)
    if (ours.number,) + ours.carried != padded(ruled):
        return 'the rules answer %s' % (ruled,)
    if ours.number != 0 and any(ours.reaches):
        return 'ours refused and changed a lent buffer'
    if ours.number == 0 and any(reach > may for reach, may in zip(ours.reaches, rules.may_reach(case))):
        return 'ours changed the scratch or a work buffer beyond its need'
    return None


def said(case, result):
    """The lent buffers, as far as the rules say what they then hold."""
    if result.number != 0:
        return result.buffers
    return [data[8 * front:] for data, front in zip(result.buffers, rules.unsaid(case))]


def judged(case, rust, ours):
    """The row that admits the two results (None if they agree), and the fault that they show (None if there is none)."""
    fault = fault_of_ours(case, ours)
    if fault:
        return None, fault
    same_buffers = said(case, rust) == said(case, ours)
    if (rust.number, rust.carried) == (ours.number, ours.carried) and same_buffers:
        return rows.beside(case, rust), None
    if rust.number == ours.number == 0 and not same_buffers:
        return None, 'both are done and their numbers differ'
    row = rows.admitting(case, rust)
    return row, None if row else 'no row of docs/DIFFERENCES.md admits it'


def batches(cases):
    """Lists of cases, none too long to hold."""
    batch, numbers = [], 0
    for case in cases:
        batch.append(case)
        numbers += case.size()
        if len(batch) == BATCH_CASES or numbers >= BATCH_NUMBERS:
            yield batch
            batch, numbers = [], 0
    if batch:
        yield batch


class Sides:
    """The programs, each by its name, over files in one folder."""

    def __init__(self, work, **commands):
        self.work, self.commands = work, {name: shlex.split(command) for name, command in commands.items()}

    def path(self, name):
        return os.path.join(self.work, 'batch.' + name)

    def run(self, batch):
        """What each side wrote."""
        with open(self.path('cases'), 'wb') as file:
            for case in batch:
                file.write(case.encoded())
        try:
            running = [(name, self.start(name, command)) for name, command in self.commands.items()]
            ended = [(name, process.wait()) for name, process in running]
            for name, status in ended:
                if status != 0:
                    sys.exit('judge: the side `%s` ended with status %d' % (name, status))
            return [self.written(name) for name in self.commands]
        finally:
            for name in ('cases', *self.commands):
                if os.path.exists(self.path(name)):
                    os.remove(self.path(name))

    def start(self, name, command):
        with open(self.path('cases'), 'rb') as cases, open(self.path(name), 'wb') as out:
            return subprocess.Popen(command, stdin=cases, stdout=out)

    def written(self, name):
        with open(self.path(name), 'rb') as file:
            return file.read()


class Tally:
    """What was met, and the smallest case at which the sides part."""

    def __init__(self):
        self.kinds, self.rows, self.numbers = collections.Counter(), collections.Counter(), collections.Counter()
        self.differ, self.smallest = 0, None

    def take(self, kind, case, rust, ours):
        row, fault = judged(case, rust, ours)
        self.kinds[kind] += 1
        self.numbers[ours.number] += 1
        if row:
            self.rows[row] += 1
        if fault:
            self.differ += 1
            if self.smallest is None or case.size() < self.smallest[0].size():
                self.smallest = (case, rust, ours, fault)

    def cases(self):
        return sum(self.kinds.values())

    def show(self):
        for kind, count in self.kinds.items():
            print('kind %s: %d cases' % (kind, count))
        for number in sorted(self.numbers):
            print('answer %d: %d cases' % (number, self.numbers[number]))
        for row, test in rows.ROWS.items():
            print('row %s of docs/DIFFERENCES.md: %d cases. %s' % (row, self.rows[row], test.__doc__))
        for row, why in rows.OUTSIDE.items():
            print('row %s of docs/DIFFERENCES.md: by %s' % (row, why))

    def show_smallest(self):
        case, rust, ours, fault = self.smallest
        print('the smallest input at which the two part, %d numbers:' % case.size())
        print('\n'.join(protocol.readable_case(case)))
        print('\n'.join(protocol.readable_result('the Rust', case, rust)))
        print('\n'.join(protocol.readable_result('ours', case, ours)))
        print(fault)

    def never_met(self):
        return [row for row in rows.ROWS if self.rows[row] == 0]


def run_batch(sides, tally, name, batch):
    """Judges each case of the batch; gives the Rust's results."""
    rust, ours = sides.run(batch)
    rust = list(protocol.results(batch, rust))
    for case, r, o in zip(batch, rust, protocol.results(batch, ours), strict=True):
        tally.take(name, case, r, o)
    return rust


def back_again(rng, batch, rust):
    """The way back from what the Rust gave, which is what ours gave where nothing differs."""
    back = {protocol.ANALYSE_LEVELS: level_cases.back, protocol.ANALYSE_PLANE: plane_cases.back}
    return [back[case.op](rng, case, result) for case, result in zip(batch, rust, strict=True)]


def run_kind(sides, tally, name, count, cases):
    done, started, rng = 0, time.monotonic(), Chance(name)
    for batch in batches(cases):
        rust = run_batch(sides, tally, name, batch)
        if name == kinds.ROUNDS:
            run_batch(sides, tally, name + '-back', back_again(rng, batch, rust))
        done += len(batch)
        print('%s: %d of %d, %.1f s' % (name, done, count, time.monotonic() - started), flush=True)


def arguments():
    parser = argparse.ArgumentParser(description=__doc__.splitlines()[0])
    parser.add_argument('--seed', type=int, default=1)
    parser.add_argument('--cases', type=int, default=300000)
    for name in ('work', 'differences', 'driver', 'host'):
        parser.add_argument('--' + name, required=True)
    return parser.parse_args()


def main():
    told = arguments()
    with open(told.differences, encoding='utf-8') as file:
        parted = rows.parted_from(file.read())
    if parted:
        sys.exit('\n'.join(parted))
    sides, tally = Sides(told.work, rust=told.driver, ours=told.host), Tally()
    for name, count, cases in kinds.kinds(told.seed, told.cases):
        run_kind(sides, tally, name, count, cases)
    tally.show()
    if tally.differ:
        tally.show_smallest()
    print('%d cases, %d differ' % (tally.cases(), tally.differ))
    for row in tally.never_met():
        print('row %s was never met' % row)
    return 1 if tally.differ or tally.never_met() else 0


if __name__ == '__main__':
    sys.exit(main())
