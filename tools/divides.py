"""divides: fails where code takes a quotient or a remainder by anything but a constant (RULES, Borders).

    python3 tools/divides.py

One quotient is passed over, the one of floats, by which a restored line is divided: QUOTIENT names its file, its
function's head, where the types stand, and its own text. Unless it is there, once, this fails too.
judge/run looks for the instruction in the library's machine code; this needs no compiler, and reads every crate."""
import pathlib
import re
import sys

ROOT = pathlib.Path(__file__).resolve().parent.parent
# what stands in braces, with braces in it that are three deep at most
BRACES = r'\{[^{}]*\}'
for _ in range(3):
    BRACES = r'\{(?:[^{}]|%s)*\}' % BRACES
# what is no code: comments, texts, clauses of contracts and what only they name
SILENT = re.compile(r'//[^\n]*|"[^"\n]*"|\b(?:ghost|requires|ensures)\b[^{};\n]*%s' % BRACES)
BY = re.compile(r'[/%]=?\s*(\w*)')
CONSTANT = re.compile(r'\d|[A-Z][A-Z_]+\b')
FLOATS = ROOT / 'crates/dividing/src/lib.rt'
QUOTIENT = re.compile(r'(\bfn divide\(line: &mut \[f64\], s: f64\)\n(?:(?!\bfn\b).)*\*x) /= s;', re.S)


def blank(found):
    """As many lines, and nothing on them."""
    return '\n' * found[0].count('\n')


def code(path):
    """The text without what is no code, and without the quotient of floats."""
    text = SILENT.sub(blank, path.read_text())
    if path != FLOATS:
        return text
    text, found = QUOTIENT.subn(r'\1;', text)
    if found != 1:
        sys.exit('%s: the quotient of floats is there %d times and not once' % (FLOATS.relative_to(ROOT), found))
    return text


def divisions(path):
    """For each quotient and remainder, where it stands and what it is by."""
    text = code(path)
    for found in BY.finditer(text):
        yield '%s:%d' % (path.relative_to(ROOT), text.count('\n', 0, found.start()) + 1), found[1]


met = [case for path in sorted({FLOATS, *ROOT.glob('crates/*/src/**/*.rt')}) for case in divisions(path)]
faults = ['%s: by %s, which is no constant' % (place, by or 'what is not a name') for place, by in met if not CONSTANT.match(by)]
if faults:
    sys.exit('\n'.join(faults + ['divides: %d to mend' % len(faults)]))
print('divides: %d quotients and remainders, each by a constant, and one quotient of floats' % len(met))
