"""Runs the bench's program on every case. bench/run calls it; see there for what is built first.

    measure.py selftest|check|count|time WORK [RUNNER]

WORK is the folder with the program and the plugin; RUNNER is what runs an x86-64 program where the processor cannot."""
import os
import shutil
import subprocess
import sys

import cases
import figures

LOOP = 2000004


def before(op):
    """How many calls stand before the one that is counted. Of lines it is not the second, in which the Rust's allocator still settles; by bank there are two."""
    return 1 if cases.plane(op) or cases.by_bank(op) else 2


def stop(why):
    sys.exit('bench/run: ' + why)


class Bench:
    def __init__(self, work, runner=None):
        self.work = os.path.abspath(work)
        self.program = os.path.join(self.work, 'bench')
        self.runner = [runner] if runner else []

    def said(self, *words):
        return subprocess.run(self.runner + [self.program, *map(str, words)], check=True, capture_output=True, text=True).stdout.split()

    def executed(self, program, *words):
        """How many instructions the program executes. Its environment is empty and its name is short, so that its stack is the same everywhere."""
        out = os.path.join(self.work, 'count.txt')
        plugin = '%s,out=%s' % (os.path.join(self.work, 'count.so'), out)
        # plain x86-64 and the one instruction set beyond it that the archive's code uses (it is for v2), so that the C library's copies use nothing else
        command = [shutil.which('qemu-x86_64'), '-cpu', 'qemu64,+sse4.1', '-plugin', plugin, './' + program, *map(str, words)]
        subprocess.run(command, check=True, env={}, cwd=self.work)
        with open(out) as file:
            return int(file.read())

    def call(self, side, case):
        """The instructions of one call: what one more costs."""
        few = before(case[0])
        return self.executed('bench', 'count', side, *case, few + 1) - self.executed('bench', 'count', side, *case, few)


def selftest(bench):
    for _ in range(2):
        counted = bench.executed('loop')
        print('a loop of %d instructions: %d counted' % (LOOP, counted))
        if counted != LOOP:
            stop('the plugin does not count right')
    for side in 'rust', 'ours':
        first, second = (bench.executed('bench', 'count', side, 'levels', cases.WRAP, 8, 4096, 3) for _ in range(2))
        print('one run counted twice, %s: %d and %d' % (side, first, second))
        if first != second:
            stop('a run counted twice has two counts')


def check(bench):
    compared, of = 0, [case for case in cases.CASES + cases.LONGEST if cases.rust_has(case)]
    for case in of:
        numbers, differ = map(int, bench.said('check', *case))
        if differ or not numbers:
            stop('%s: %d of %d numbers differ' % (' '.join(map(str, case)), differ, numbers))
        compared += numbers
    print('%d cases, %d numbers, all equal bit for bit' % (len(of), compared))


def write(bench, name, of, figure):
    with open(os.path.join(bench.work, name), 'w') as file:
        for case in of:
            print(*case, figure('rust', case) if cases.rust_has(case) else figures.NONE, figure('ours', case), file=file)


def count(bench):
    write(bench, 'counts.txt', cases.CASES, bench.call)
    write(bench, 'longest.txt', cases.LONGEST, bench.call)
    write(bench, 'refused.txt', cases.REFUSED, bench.call)
    write(bench, 'divided.txt', cases.DIVISIONS, bench.call)


def time(bench):
    """Not by bank: a second call's time, two calls' less one's, is lost in what the clock sways."""
    write(bench, 'times.txt', [case for case in cases.CASES if not cases.by_bank(case[0])], lambda side, case: bench.said('time', side, *case)[0])


if __name__ == '__main__':
    {'selftest': selftest, 'check': check, 'count': count, 'time': time}[sys.argv[1]](Bench(*sys.argv[2:]))
