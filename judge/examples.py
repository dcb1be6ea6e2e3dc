"""P1 to P13 (RULES, Examples) as questions, out of crates/worked/specs/Examples.antt, where they are proved.

It knows none of the rules: questions and answers are that list's. What an example does not tell, such as a scratch, is lent long enough and left open."""
import pathlib
import re

from protocol import ANALYSE, ANALYSE_PLANE, ANALYSIS_SCRATCH, BAND_LENGTH, bits_of, BORDERS, Case, CONVOLVE, LEVEL_PART, LINE_LENGTH, OPEN, PACKED_LENGTH, SYNTHESISE

LIST = pathlib.Path(__file__).resolve().parent.parent / 'crates/worked/specs/Examples.antt'
ROOM = 64


# --- the list: applications as tuples, `a ∷ .. ∷ []` as lists, a signed number as a float

def items(tokens):
    found = [application(tokens)]
    while tokens and tokens[0] == '∷':
        tokens.pop(0)
        found.append(application(tokens))
    if len(found) == 1:
        return found[0]
    last = found.pop()
    assert last == [], 'a list ends in []'
    return found


def application(tokens):
    found = [atom(tokens)]
    while tokens and tokens[0] not in ('∷', ')'):
        found.append(atom(tokens))
    return found[0] if len(found) == 1 else tuple(found)


def atom(tokens):
    token = tokens.pop(0)
    if token == '(':
        found, closing = items(tokens), tokens.pop(0)
        assert closing == ')'
        return found
    if token in '+-':
        return float(token + tokens.pop(0))
    return [] if token == '[]' else int(token) if token.isdigit() else token


def examples():
    tokens = re.findall(r'[()]|[^\s()]+', LIST.read_text(encoding='utf-8').split('\nexamples b =\n')[1])
    found = items(tokens)
    assert not tokens and all(example[0] == 'P' and len(example) == 4 for example in found)
    assert sorted({example[1] for example in found}) == list(range(1, 14)), 'P1 to P13'
    return [(number, asked, given) for _, number, asked, given in found]


# --- each as calls of the exports: the operation, its scalars, its lists, and what a done call leaves in the lent ones

SEVENS, ANYTHING = [7.0] * ROOM, [OPEN] * ROOM


def sevens(numbers):
    return [7.0] * len(numbers)


def calls(kind, *told):
    """(operation, scalars, lists, the done answer's values, lent lists after it) for what is told: the question, then the numbers that answer it."""
    return globals()[kind.lower() + '_calls'](*told)


def split_calls(f, n, numbers):
    m, left, right = numbers
    yield BAND_LENGTH, (n, f), (), (m,), ()
    yield ANALYSIS_SCRATCH, (n, f), (), (left + n + right,), ()
    # taps of zeros leave zeros, and the scratch shows the pads
    zeros = [0.0] * f
    yield (ANALYSE, (BORDERS.index('Zeros'),), (zeros, zeros, [7.0] * n, [8.0] * m, [8.0] * m, [8.0] * (left + n + right)), (),
           ([0.0] * m, [0.0] * m, [0.0] * left + [7.0] * n + [0.0] * right))


def join_calls(f, m, numbers):
    yield LINE_LENGTH, (m, f), (), numbers, ()


def over_calls(f, n, levels, numbers):
    *parts, whole = numbers
    yield PACKED_LENGTH, (n, f, levels), (), (whole,), ()
    for k, count in enumerate(parts):
        yield LEVEL_PART, (n, f, levels, (k + 1) % len(parts)), (), (sum(parts[:k]), count), ()


def left_calls(f, n, numbers):
    # behind as many details
    yield LEVEL_PART, (n, f, 1, 0), (), (numbers[0], numbers[0]), ()


def edges_calls(border, p, line, before, behind):
    # as many taps as there are pads, about -1; the kernel 1 0 0 .. copies the padded line's front
    padded = before + line + behind
    yield (CONVOLVE, (border, -1), (line, sevens(line), sevens(padded), [1.0] + [0.0] * (2 * p - 1)), (), (padded[:len(line)], padded))


def bands_calls(border, low, high, line, approx, detail):
    yield ANALYSE, (border,), (low, high, line, sevens(approx), sevens(detail), SEVENS), (), (approx, detail, ANYTHING)


def approx_calls(border, low, line, approx):
    yield ANALYSE, (border,), (low, low, line, sevens(approx), sevens(approx), SEVENS), (), (approx, approx, ANYTHING)


def restore_calls(low, high, approx, detail, line):
    yield SYNTHESISE, (), (low, high, approx, detail, [0.0] * len(line)), (), (line,)


def factor_calls(low, numbers):
    # the taps as a line and as a kernel that begins where the line does: its first sum is that of the squares
    yield CONVOLVE, (BORDERS.index('Zeros'), len(low) // 2 - 1), (low, sevens(low), SEVENS, low), (), (numbers + [OPEN] * (len(low) - 1), ANYTHING)


def convolve_calls(border, line, kernel, centre, out):
    yield CONVOLVE, (border, int(centre)), (line, sevens(out), SEVENS, kernel), (), (out, ANYTHING)


def plane_calls(border, width, height, low, high, plane, ll):
    others = [OPEN] * len(ll)
    yield ANALYSE_PLANE, (border, width, height), (low, high, plane, *[sevens(ll)] * 4, SEVENS), (), (ll, others, others, others, ANYTHING)


def refused(kind, *told):
    """The calls that a refused question stands for: every length is long enough for the test that fails."""
    if kind == 'Split':
        f, n = told
        return [(BAND_LENGTH, (n, f), ()), (ANALYSIS_SCRATCH, (n, f), ())]
    if kind == 'Over':
        f, n, levels = told
        return [(PACKED_LENGTH, (n, f, levels), ())]
    assert kind == 'Convolve'
    border, line, kernel, centre = told
    return [(CONVOLVE, (border, int(centre)), (line, sevens(line), SEVENS, kernel))]


# --- as questions; one that names no border is asked under every border

def held(numbers):
    return [OPEN if x is OPEN else bits_of([x])[0] for x in numbers]


def under_borders(asked):
    for border in BORDERS if 'b' in asked else [None]:
        told = [border if x == 'b' else x for x in asked]
        yield [BORDERS.index(x) if x in BORDERS else x for x in told] if any(isinstance(x, str) and x in BORDERS for x in told[1:]) else told


def questions():
    for number, asked, given in examples():
        for told in under_borders(asked):
            name = 'P%d %s' % (number, told[0])
            if given[0] == 'Refused':
                for op, scalars, lists in refused(*told):
                    case = Case(op, scalars, [bits_of(numbers) for numbers in lists])
                    yield name, case, (given[1], *given[2]), [list(case.lists[i]) for i in case.shape().lent]
            else:
                for op, scalars, lists, values, after in calls(*told, *given[1:]):
                    case = Case(op, scalars, [bits_of(numbers) for numbers in lists])
                    yield name, case, (0, *values), [held(numbers) for numbers in after]
