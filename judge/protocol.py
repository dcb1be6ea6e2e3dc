"""The words of a case and of a result: 64-bit, little-endian.

A case is its operation, its scalars, then each list as its count and its words (a float as its bits, one of 32 bits
in the lower half of its word, a signed number in two's complement).
A result is the number, two carried words, a word of flags, then for each lent buffer its reach (the places from the front up to the last one
whose bits changed) and its words, every NaN as one. What carries nothing is PATTERN. The flags of ours: bit 0 a word outside the lists
changed, bit 1 a list that is only read changed. In the Rust's results that word is how many inner approximations it kept, or how many places
of a plane become another number where target and scratch are not cleared. A large plane is told by a block of numbers that fills it over and
over, and its result is a digest of each band and of the plane that they are joined to."""
import array
import collections
import itertools
import struct
import sys

from widths import NARROW, WIDE

PATTERN = 0xCCCCCCCCCCCCCCCC
# the driver's own numbers; not run is what would end the driver
PANICKED, NO_COUNTERPART, NO_NUMBER, NOT_RUN = 1000, 1001, 1002, 1003
BORDERS = ('Clamp', 'Wrap', 'Reflect', 'Zeros', 'Reflect101', 'Mirror', 'Mirror101')
# the numbers of those that the Rust has, and of the others
RUST_BORDERS, MIRRORS = range(5), range(5, len(BORDERS))

Shape = collections.namedtuple('Shape', 'name scalars lists lent width', defaults=[WIDE])
# how many taps each list of two pairs has
PAIRS = ('low', 'high', 'lowback', 'highback')
# Every operation's number and name, once: ANALYSE and so on are made of them below, and `protocol.py c` and `protocol.py rust` print them for the judge's two sides.
SHAPES = {
    1: Shape('analyse', ('border',), ('low', 'high', 'line', 'approx', 'detail', 'scratch'), (3, 4, 5)),
    2: Shape('synthesise', (), ('low', 'high', 'approx', 'detail', 'out'), (4,)),
    3: Shape('convolve', ('border', 'centre'), ('line', 'out', 'scratch', 'kernel'), (1, 2)),
    4: Shape('band_length', ('n', 'f'), (), ()),
    5: Shape('line_length', ('m', 'f'), (), ()),
    6: Shape('analysis_scratch', ('n', 'f'), (), ()),
    7: Shape('convolution_scratch', ('n', 'f', 'centre'), (), ()),
    8: Shape('mirror', (), ('low', 'high'), (1,)),
    9: Shape('packed_length', ('n', 'f', 'levels'), (), ()),
    10: Shape('levels_scratch', ('n', 'f', 'levels'), (), ()),
    11: Shape('restoring_length', ('n', 'f', 'levels'), (), ()),
    12: Shape('most_levels', ('n', 'f'), (), ()),
    13: Shape('level_part', ('n', 'f', 'levels', 'level'), (), ()),
    14: Shape('analyse_levels', ('border', 'levels'), ('low', 'high', 'line', 'packed', 'scratch'), (3, 4)),
    15: Shape('restore_levels', ('n', 'levels'), ('low', 'high', 'packed', 'first', 'second'), (3, 4)),
    16: Shape('read_place', ('n', 'f', 'levels', 'level', 'place'), ('packed', 'value'), (1,)),
    17: Shape('plane_band_width', ('width', 'height', 'f'), (), ()),
    18: Shape('plane_band_height', ('width', 'height', 'f'), (), ()),
    19: Shape('plane_band_length', ('width', 'height', 'f'), (), ()),
    20: Shape('plane_scratch', ('width', 'height', 'f'), (), ()),
    21: Shape('analyse_plane', ('border', 'width', 'height'), ('low', 'high', 'plane', 'll', 'lh', 'hl', 'hh', 'scratch'), (3, 4, 5, 6, 7)),
    22: Shape('synthesise_plane', ('width', 'height'), ('low', 'high', 'll', 'lh', 'hl', 'hh', 'plane', 'scratch'), (6, 7)),
    23: Shape('compare_bands', ('width', 'height'), ('first', 'second'), ()),
    24: Shape('two_pairs', PAIRS, (), ()),
    # of the judge alone
    25: Shape('large_plane', ('border', 'width', 'height'), ('low', 'high', 'block', 'digests'), (3,)),
    # of the lists alone: the tests on lengths, which take what no program could lend, and entries that are not for C
    26: Shape('analysis_answer', ('f', 'n', 'approx', 'detail', 'scratch'), (), ()),
    27: Shape('synthesis_answer', ('f', 'approx', 'detail', 'out'), (), ()),
    28: Shape('convolution_answer', ('border', 'n', 'out', 'f', 'centre', 'scratch'), (), ()),
    29: Shape('levels_answer', ('n', 'f', 'levels', 'packed', 'scratch'), (), ()),
    30: Shape('restoring_answer', ('n', 'f', 'levels', 'packed', 'first', 'second'), (), ()),
    31: Shape('handing_answer', ('n', 'f', 'levels', 'packed', 'level'), (), ()),
    32: Shape('plane_analysis_answer', ('width', 'height', 'f', 'plane', 'scratch', 'll', 'lh', 'hl', 'hh'), (), ()),
    33: Shape('plane_synthesis_answer', ('width', 'height', 'f', 'plane', 'scratch', 'll', 'lh', 'hl', 'hh'), (), ()),
    34: Shape('comparing_answer', ('width', 'height', 'first', 'second'), (), ()),
    35: Shape('back_answer', ('f', 'n', 'approx', 'detail', 'scratch', 'out'), (), ()),
    36: Shape('there_and_back', ('border',), ('low', 'high', 'line', 'approx', 'detail', 'scratch', 'out'), (3, 4, 5, 6)),
    37: Shape('level_details', ('n', 'f', 'levels', 'level'), ('packed', 'part'), (1,)),
    38: Shape('restored_line', ('n', 'levels'), ('low', 'high', 'packed', 'first', 'second', 'restored'), (3, 4, 5)),
    # by a bank of two pairs: the four tap lists one after another in one, told by their lengths
    39: Shape('back_by_pairs', ('border', *PAIRS), ('taps', 'line', 'approx', 'detail', 'scratch', 'out'), (2, 3, 4, 5)),
    40: Shape('restored_by_pairs', ('n', 'levels', *PAIRS), ('taps', 'packed', 'first', 'second', 'restored'), (2, 3, 4)),
    41: Shape('plane_by_pairs', ('width', 'height', *PAIRS), ('taps', 'll', 'lh', 'hl', 'hh', 'plane', 'scratch'), (5, 6)),
}
# Lines of 32-bit floats: the same shapes and rules as those of 64. The first four are judged, the others of the lists alone.
WIDER = {42: 1, 43: 2, 44: 3, 45: 8, 46: 36, 47: 39}
SHAPES.update({op: SHAPES[wide]._replace(name=SHAPES[wide].name + '_f32', width=NARROW) for op, wide in WIDER.items()})
NARROWER = {wide: op for op, wide in WIDER.items()}
# The second engine, which pads no line and takes no scratch; and, of the lists alone, where two pairs of bands part and that engine's tests on lengths.
SHAPES.update({
    48: Shape('analyse_directly', ('border',), ('low', 'high', 'line', 'approx', 'detail'), (3, 4)),
    49: SHAPES[2]._replace(name='synthesise_directly'),
    50: Shape('parting', (), ('approx', 'detail', 'approx2', 'detail2'), ()),
    51: Shape('direct_answer', ('f', 'n', 'approx', 'detail'), (), ()),
})
# Restoring with each joined line divided by s, a float that is told by its bits. The first is judged, the others of the lists alone.
SHAPES.update({
    52: Shape('restore_divided', ('n', 'levels', 's'), ('low', 'high', 'packed', 'first', 'second'), (3, 4)),
    53: Shape('divided_answer', ('n', 'f', 's', 'levels', 'packed', 'first', 'second'), (), ()),
    54: Shape('divided_line', ('n', 'levels', 's'), ('low', 'high', 'packed', 'first', 'second', 'restored'), (3, 4, 5)),
    55: Shape('divided_by_pairs', ('n', 'levels', 's', *PAIRS), ('taps', 'packed', 'first', 'second', 'restored'), (2, 3, 4)),
    56: Shape('levels_back_answer', ('n', 'f', 's', 'levels', 'packed', 'scratch', 'first', 'second'), (), ()),
    57: Shape('there_and_back_levels', ('border', 'levels', 's'), ('low', 'high', 'line', 'packed', 'scratch', 'first', 'second'), (3, 4, 5, 6)),
})
globals().update({shape.name.upper(): op for op, shape in SHAPES.items()})
PLANE_SIZES = tuple(op for op, shape in SHAPES.items() if shape.name.startswith('plane_') and shape.scalars == ('width', 'height', 'f'))
# what the judge's two sides know
JUDGED = (*range(ANALYSE, LARGE_PLANE + 1), *range(ANALYSE_F32, MIRROR_F32 + 1), ANALYSE_DIRECTLY, SYNTHESISE_DIRECTLY, RESTORE_DIVIDED)

if sys.byteorder != 'little' or array.array('Q').itemsize != 8:
    sys.exit('protocol.py: this machine is not little-endian with words of 64 bits')


class Case:
    """An operation, its scalars as whole numbers, its lists as arrays of words; and the operation of 64-bit floats, whose rules it has."""
    __slots__ = ('op', 'wide', 'scalars', 'lists', 'counts')

    def __init__(self, op, scalars, lists):
        self.op, self.wide, self.scalars, self.lists = op, WIDER.get(op, op), scalars, lists
        self.counts = [len(words) for words in lists]

    def shape(self):
        return SHAPES[self.op]

    def lent(self):
        return [self.lists[i] for i in SHAPES[self.op].lent]

    def size(self):
        """How many numbers the input has."""
        return len(self.scalars) + sum(self.counts)

    def encoded(self):
        head = [self.op] + [scalar % 2**64 for scalar in self.scalars]
        parts = [struct.pack('<%dQ' % len(head), *head)]
        for words in self.lists:
            parts += [struct.pack('<Q', len(words)), words.tobytes()]
        return b''.join(parts)

    def result_size(self):
        """How many bytes its result has."""
        return 8 * (4 + sum(1 + self.counts[i] for i in SHAPES[self.op].lent))


class Result:
    """One result, out of the bytes that a program wrote."""
    __slots__ = ('number', 'carried', 'flags', 'reaches', 'buffers')

    def __init__(self, case, data, at):
        self.number, first, second, self.flags = struct.unpack_from('<4Q', data, at)
        self.carried = (first, second)
        self.reaches, self.buffers = [], []
        at += 32
        for i in SHAPES[case.op].lent:
            self.reaches.append(int.from_bytes(data[at:at + 8], 'little'))
            end = at + 8 + 8 * case.counts[i]
            self.buffers.append(data[at + 8:end])
            at = end

    def answer(self):
        """The number and what it carries."""
        return (self.number,) + tuple(word for word in self.carried if word != PATTERN)


def results(cases, data):
    """A result for each case; the data must be used up exactly."""
    at = 0
    for case in cases:
        if at + case.result_size() > len(data):
            raise ValueError('the results end early')
        yield Result(case, data, at)
        at += case.result_size()
    if at != len(data):
        raise ValueError('there are more results than cases')


def words_of(data):
    return array.array('Q', data)


def of_width(op, width):
    """The operation on floats of the width."""
    return NARROWER[op] if width is NARROW else op


# of 64-bit floats
bits_of, one_nan = WIDE.bits_of, WIDE.one_nan


def in_hex(words):
    return ' '.join('%016X' % word for word in words)


# --- a line of a list: the call, its answer, then each list before it and, where it is another then, after it

OPEN = None
FORM = (
    '# A line: the operation and what it is told besides lists | the number and what it carries | each list before the call | and after it, where it is another then | ..',
    '# Words are hex, a float by its bits, every NaN after a call as one; W*N is N times W, ? a place left open. judge/protocol.py has the operations.')


def spelled(words):
    """The words of a list: a run of equal ones once with its length, ? for a place left open."""
    return ' '.join(('?' if word is OPEN else '%X' % word) + ('*%X' % count if count > 1 else '')
                    for word, count in ((word, len(list(run))) for word, run in itertools.groupby(words)))


def line(case, answer, after):
    """`after` has for each lent list its words after the call."""
    parts = [' '.join('%X' % (word % 2**64) for word in words) for words in ((case.op, *case.scalars), answer)]
    left = dict(zip(case.shape().lent, after, strict=True))
    for i, words in enumerate(case.lists):
        words = list(words)
        parts += [spelled(words), '' if left.get(i, words) == words else spelled(left[i])]
    return '|'.join(parts).rstrip('|') + '\n'


def readable_case(case):
    shape = case.shape()
    lines = [shape.name]
    for name, scalar in zip(shape.scalars, case.scalars):
        known = name == 'border' and scalar < len(BORDERS)
        told = ' (%s)' % BORDERS[scalar] if known else ' (%r)' % WIDE.float_of(scalar) if name == 's' else ''
        lines.append('  %s %d%s' % (name, scalar, told))
    for name, words in zip(shape.lists, case.lists):
        lines.append(readable_list(name, words))
    return lines


def readable_list(name, words, most=200):
    more = ' ..' if len(words) > most else ''
    return ('  %s, %d: %s' % (name, len(words), in_hex(words[:most]))).rstrip(' :') + more


def readable_result(who, case, result):
    lines = ['%s: number %d, carries %s' % (who, result.number, list(result.answer()[1:]))]
    for i, reach, data in zip(case.shape().lent, result.reaches, result.buffers):
        lines.append(readable_list(case.shape().lists[i], words_of(data)) + ' (changed up to %d)' % reach)
    if who == 'the Rust':
        beside = '  %d places become another number without clearing' if case.op == SYNTHESISE_PLANE else '  it kept %d inner approximations'
        return lines + ([beside % result.flags] if result.flags else [])
    if result.flags & 1:
        lines.append('  a word outside the lists changed')
    if result.flags & 2:
        lines.append('  a list that is only read changed')
    return lines


# --- the operations for the judge's two sides

def in_c():
    for op in JUDGED:
        yield '#define %s %d' % (SHAPES[op].name.upper(), op)
    yield '#define OPERATIONS %d' % max(JUDGED)
    yield '/* By operation: how many scalars, how many lists, which of them are lent (a bit each), and how many bytes a float has: none where there is no operation. */'
    yield 'static const struct { int scalars, lists, lent, bytes; } shapes[OPERATIONS + 1] = {'
    for op in JUDGED:
        shape = SHAPES[op]
        yield '    [%s] = {%d, %d, 0x%02X, %d},' % (shape.name.upper(), len(shape.scalars), len(shape.lists), sum(1 << i for i in shape.lent), shape.width.bits // 8)
    yield '};'


def in_rust():
    for op in JUDGED:
        yield 'pub const %s: u64 = %d;' % (SHAPES[op].name.upper(), op)


if __name__ == '__main__':
    print('\n'.join({'c': in_c, 'rust': in_rust}[sys.argv[1]]()))
