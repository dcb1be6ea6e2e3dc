#!/usr/bin/env python3
"""judge/lists.py: fails where the lists that crates/replay, crates/replay_divided and crates/replay_small read, or what crates/example has to print, are not what docs/RULES.md
and the proved examples say, or where crates/questions names an operation otherwise than judge/protocol.py. judge/lists.py --write writes them anew.
(The Rust's list is judge/list's.)"""
import pathlib
import re
import sys

sys.dont_write_bytecode = True
import asked
import asked_direct
import asked_divided
import asked_levels
import asked_narrow
import asked_pairs
import asked_planes
import examples
import protocol
import shown

ROOT = pathlib.Path(__file__).resolve().parent.parent
DATA = ROOT / 'crates/replay/data'
DIVIDED_DATA = ROOT / 'crates/replay_divided/data'
SMALL = ROOT / 'crates/replay_small/stdin'
CALLS = ROOT / 'crates/questions/src'
SMALL_WORDS, SMALL_EACH = 70, 2


def answered(questions):
    """Each question's name, where it has one, above its line."""
    for name, case, answer, after in questions:
        yield from ['# ' + name] if name else []
        yield protocol.line(case, answer, after).rstrip('\n')


# The themes of each list of the rules' answers, in turn.
RULES = (
    asked.lengths, asked.lists_of_taps, asked.borders, asked.mirrors, asked.lines, asked.kernels, asked.roundings, asked.specials, asked.refused_lines, asked.refused_kernels, asked.there_and_back, asked.odd_lines,
    asked_levels.lengths, asked_levels.analyses, asked_levels.parts, asked_levels.restorings, asked_levels.there_and_back, asked_levels.refusals,
    asked_planes.lengths, asked_planes.analyses, asked_planes.there_and_back, asked_planes.syntheses, asked_planes.refused_analyses, asked_planes.refused_syntheses,
    asked_planes.comparings,
    asked_pairs.lengths, asked_pairs.there_and_back, asked_pairs.premises_fail, asked_pairs.levels, asked_pairs.planes, asked_pairs.refusals,
    asked_narrow.lists_of_taps, asked_narrow.borders, asked_narrow.lines, asked_narrow.kernels, asked_narrow.roundings, asked_narrow.halfway, asked_narrow.specials,
    asked_narrow.refusals, asked_narrow.there_and_back, asked_narrow.pairs,
    asked_direct.lines, asked_direct.ends, asked_direct.roundings, asked_direct.specials, asked_direct.refusals, asked_direct.partings)
DIVIDED = (asked_divided.divisors, asked_divided.divisions, asked_divided.there_and_back, asked_divided.deeper_bound, asked_divided.pairs, asked_divided.refusals)


def questions_of(themes):
    """Every question of the themes."""
    before = len(asked.ASKED)
    for theme in themes:
        theme()
    return asked.ASKED[before:]


def few(questions):
    """Of each operation the first short questions that are done, and as many that are refused."""
    taken = {}
    for question in questions:
        _, case, answer, _ = question
        kept = taken.setdefault((case.op, answer[0] == 0), [])
        if case.size() <= SMALL_WORDS and len(kept) < SMALL_EACH:
            kept.append(question)
            yield question


def lists():
    rules, divided = questions_of(RULES), questions_of(DIVIDED)
    return {
        DATA / 'rules': ["# Calls and the answers of docs/RULES.md to them, computed by judge/rules.py and judge/sums.py; judge/asked.py and the five beside it ask.", *protocol.FORM, *answered(rules)],
        DIVIDED_DATA / 'divided': ["# Calls that restore with division and the answers of docs/RULES.md to them, computed by judge/rules.py and judge/sums.py; judge/asked_divided.py asks.", *protocol.FORM, *answered(divided)],
        DATA / 'examples': ["# P1 to P13 of docs/RULES.md, made by judge/examples.py of the list that is proved in crates/worked/specs/Examples.antt.", *protocol.FORM, *answered(examples.questions())],
        ROOT / 'crates/example/stdout': shown.lines(),
        SMALL: ["# P1 to P13 of docs/RULES.md, and a few of the questions that crates/replay/data/rules has of each operation.", *protocol.FORM, *answered(examples.questions()), *answered(few(rules))]}


def misnamed():
    """Every operation of crates/questions calls what protocol.py names by its number, and none is left out."""
    found = {}
    for path in sorted(CALLS.glob('on_*.rt')):
        for number, call in re.findall(r'(?s)\n {8}(\d+) => (.*?)(?=\n {8}[\d_]|\n {4}\})', path.read_text(encoding='utf-8')):
            found[int(number)] = call, path.stem.endswith('_f32')
    for op, shape in protocol.SHAPES.items():
        # a call of 32-bit floats goes to the function of either width, from the file whose lists are of these
        call, narrow = found.get(op, ('', False))
        called = narrow == shape.name.endswith('_f32') and re.search(r'\b(isferghul_)?%s(_f32)?\(' % shape.name.removesuffix('_f32'), call)
        if op != protocol.LARGE_PLANE and not called:
            yield 'crates/questions: operation %d is not %s' % (op, shape.name)
    yield from ('crates/questions: operation %d has no name' % op for op in found if op not in protocol.SHAPES)


def main():
    wrong = list(misnamed())
    for path, lines in lists().items():
        text = '\n'.join(lines) + '\n'
        name = path.relative_to(ROOT)
        if sys.argv[1:] == ['--write']:
            path.parent.mkdir(parents=True, exist_ok=True)
            path.write_text(text, encoding='ascii')
        elif not path.exists() or path.read_text(encoding='ascii') != text:
            wrong.append('%s is not what judge/lists.py --write writes' % name)
        print('%s: %d lines' % (name, sum(1 for line in lines if not line.startswith('#'))))
    sys.exit('\n'.join(wrong) if wrong else 0)


main()
