"""expected_bands: fails where crates/bands, crates/agree or a case of crates/bands_cases has another stdout than `bands` and `agree` have to print (RULES, The program), or where the cases' args, data and stdout don't name the same ones.

    python3 tools/expected_bands.py

It shares nothing with the library: the grammar is one regular expression, the sums are whole numbers, and only what is printed is a float."""
import os, re, struct, sys

NUMBER = rb'(?:0|-?[1-9][0-9]{0,6})'
LINE = rb'((?:' + NUMBER + rb'(?: ' + NUMBER + rb')*)?)\n'
TEXT = re.compile(rb'(Clamp|Wrap|Reflect|Zeros|Reflect101|Mirror|Mirror101)\n' + LINE * 3 + rb'\Z')

def numbers(line): return [int(word) for word in line.split()]

# there and back over n places
def folded(n, top, q): return q if q < n else top - q

# which sample stands at place i of n
def source(border, n, i):
    if 0 <= i < n: return i
    if border == b'Clamp': return 0 if i < 0 else n - 1
    if border == b'Wrap': return i % n
    if border == b'Reflect': return n - 1 - i % n
    if border == b'Zeros': return None
    if border == b'Mirror': return folded(n, 2 * n - 1, i % (2 * n))
    if n == 1: return 0
    if border == b'Mirror101': return folded(n, 2 * (n - 1), i % (2 * (n - 1)))
    return -i if i < 0 else 2 * (n - 1) - i

def band(border, taps, line):
    f, n = len(taps), len(line)
    def sample(i):
        k = source(border, n, i)
        return 0 if k is None else line[k]
    return [sum(taps[j] * sample(2 * i + j - (f - 2)) for j in range(f)) for i in range((n + f - 1) // 2)]

def shown(name, values): return ['%s %d' % (name, len(values))] + [struct.pack('>d', float(v)).hex().upper() for v in values]

def answer(text):
    found = TEXT.match(text) if len(text) <= 4096 else None
    if not found: return ['refused 14']
    border, (low, high, line) = found.group(1), map(numbers, found.groups()[1:])
    if any(abs(v) > 1000000 for v in low + high + line): return ['refused 14']
    if len(low) % 2 or not low or len(low) > 64 or len(high) != len(low): return ['refused 12']
    if len(line) < len(low): return ['refused 1']
    return shown('approx', band(border, low, line)) + shown('detail', band(border, high, line))

# what `agree` prints: two engines that keep their promises give the same bands, so only a refusal is another line
def agreement(text):
    lines = answer(text)
    return lines if lines[0].startswith('refused') else ['same']

CRATES = os.path.join(os.path.dirname(os.path.abspath(__file__)), '..', 'crates')

def read(*path):
    with open(os.path.join(CRATES, *path), 'rb') as file: return file.read()

def due(said, *path): return ''.join(line + '\n' for line in said(read(*path)))

# below its name a case has what both print of it
def both(text): return answer(text) + agreement(text)

# what `agree` would print of two pairs of bands: the first place where the approximations part, else that of the details
def parted(first, second):
    for name, x, y in zip(('approx', 'detail'), first, second):
        for place, (a, b) in enumerate(zip(x, y)):
            if a != b: return ['%s %d' % (name, place)]
    return ['same']

# below the cases, two outputs that take nothing, and bands of three numbers that part from 1 2 3 and 4 5 6, which no text has
untaken, bands = ['closed', '/dev/full'], ([1, 2, 3], [4, 5, 6])
others = ([1, 2, -3], [-4, 5, 6]), ([1, 2, 3], [4, -5, -6]), bands
names = read('bands_cases', 'args').decode().splitlines() + untaken + ['parted']
stdout = read('bands_cases', 'stdout').decode('latin-1')
wanted = {name: due(both, 'bands_cases', 'data', name) for name in os.listdir(os.path.join(CRATES, 'bands_cases', 'data'))} | dict.fromkeys(untaken, 'not taken\n')
wanted['parted'] = ''.join(line + '\n' for other in others for line in parted(bands, other))
# what stands before the first name, and then each name and what stands below it
parts = re.split('^(%s)\n' % '|'.join(map(re.escape, names)), stdout, flags=re.M)
written = dict(zip(parts[1::2], parts[2::2]))

cases = sorted({*names, *wanted})
wrong = [name for name in cases if name not in names or name not in wanted or written.get(name) != wanted[name]]
programs = {'bands': answer, 'agree': agreement}
wrong += [name for name, said in programs.items() if read(name, 'stdout').decode('latin-1') != due(said, name, 'stdin')]
order = parts[:1] + parts[1::2] == [''] + names
if not order: print('stdout of bands_cases has other names than args, or in another order')
print('%d cases of bands and agree, %d differ%s' % (len(cases) + len(programs), len(wrong), ''.join(' ' + name for name in wrong)))
sys.exit(1 if wrong or not order else 0)
