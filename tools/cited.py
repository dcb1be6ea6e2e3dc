"""cited: fails where a page cites a definition that is not there, where RULES is cited by a heading that it lacks, or where a line is too long.

    python3 tools/cited.py

A definition is cited in backquotes, as `crate/File: name` or `crate/File: a, b`: it stands in crates/CRATE/specs/FILE.antt,
or, a theorem of which a must-fail edit changes a definition, in crates/CRATE/proofs/FILE.antt."""
import pathlib
import re
import sys

ROOT = pathlib.Path(__file__).resolve().parent.parent
RULED = ROOT / 'docs/RULES.md'
PAGES = [*sorted((ROOT / 'docs').glob('*.md')), ROOT / 'README.md']
SHORT = [page for page in (RULED, ROOT / 'docs/READING.md', ROOT / 'README.md') if page.exists()]
LONGEST = 120

CITED = re.compile(r'`([a-z][a-z0-9_]*)/([A-Z]\w*):\s+([^`]+)`')
HEADING = re.compile(r'\bRULES[,](?=(.*))')
# a name that is public, at the top of the file, in a module or in a record; one that is not, at the top; a record or a data type
DEFINED = re.compile(r'^(?:(?:abbrev|unfoldable) )?(\S+) :|^ *(?:(?:abbrev|unfoldable) )?pub (\S+) :|^ *pub (?:record|data) (\S+)', re.M)


def place(path, text, at):
    return '%s:%d' % (path.relative_to(ROOT), text.count('\n', 0, at) + 1)


def stands(crate, file):
    """Where its names stand: in specs/, or in proofs/."""
    places = [ROOT / 'crates' / crate / folder / (file + '.antt') for folder in ('specs', 'proofs')]
    return next((path for path in places if path.exists()), places[0])


def citations(page):
    """For each name that a page cites, what is wrong about it, or None."""
    text = page.read_text()
    for cited in CITED.finditer(text):
        crate, file, names = cited.groups()
        path = stands(crate, file)
        known = {name for names in DEFINED.findall(path.read_text()) for name in names} if path.exists() else set()
        for name in re.split(r',\s*', names):
            wrong = 'does not define %s' % name if path.exists() else 'is cited for %s and does not exist' % name
            yield None if name in known else '%s: %s %s' % (place(page, text, cited.start()), path.relative_to(ROOT), wrong)


def headings(path, known):
    """For each citation of the rules by a heading, what is wrong about it, or None."""
    text = path.read_text(errors='replace')
    for cited in HEADING.finditer(text):
        named = any(re.match(r' %s\b' % re.escape(heading), cited[1]) for heading in known)
        yield None if named else '%s: docs/RULES.md has no such heading:%s' % (place(path, text, cited.start()), cited[1][:60])


cites = [wrong for page in PAGES for wrong in citations(page)]
known = re.findall(r'^## (.*)$', RULED.read_text(), re.M)
files = [path for folder in ('crates', 'docs', 'judge', 'tools') for path in sorted((ROOT / folder).rglob('*')) if path.is_file()]
# crates/CRATE/out is what rt makes, with copies of what it checked
sources = [path for path in files if path.relative_to(ROOT).parts[2:3] != ('out',)]
named = [wrong for path in (*sources, ROOT / 'README.md') for wrong in headings(path, known)]
lines = [(page, k, line) for page in SHORT for k, line in enumerate(page.read_text().split('\n'), 1)]
faults = [wrong for wrong in (*cites, *named) if wrong]
faults += ['%s:%d: a line of %d characters' % (page.relative_to(ROOT), k, len(line)) for page, k, line in lines if len(line) > LONGEST]
if faults:
    sys.exit('\n'.join(faults + ['cited: %d to mend' % len(faults)]))
print('cited: %d definitions and %d headings are there, %d lines are short enough' % (len(cites), len(named), len(lines)))
