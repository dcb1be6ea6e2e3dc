"""The widths of floats: their bits, and numbers whose products and sums are rounded to a width. A float is its bits in a word of 64, whatever its width."""
import array


class Narrow(float):
    """A 32-bit float. A product or a sum of two is worked out in 64 bits and then rounded: that rounds as if it were done at once, since 53 is no less than 2*24 + 2."""

    def __new__(cls, x):
        return super().__new__(cls, array.array('f', [x])[0])

    def __add__(self, other):
        return Narrow(float.__add__(self, other))

    def __mul__(self, other):
        return Narrow(float.__mul__(self, other))

    def __neg__(self):
        return Narrow(float.__neg__(self))

    # the other way round where a plain float stands in front, such as the zero that a sum begins with
    __radd__, __rmul__ = __add__, __mul__


class Width:
    """So many bits, of which so many are the fraction; an array's letters for such words and for such floats; and the numbers that round so."""

    def __init__(self, bits, fraction, words, floats, number):
        self.bits, self.fraction, self.words, self.floats, self.number = bits, fraction, words, floats, number
        self.sign = 1 << bits - 1
        self.infinity = self.sign - (1 << fraction)
        self.nan = self.infinity | 1 << fraction - 1
        self.one = self.bits_of([1.0])[0]
        # every whole number up to this one is a float
        self.exact = 2 << fraction

    def one_nan(self, word):
        return self.nan if word & self.sign - 1 > self.infinity else word

    def bits_of(self, numbers):
        """Floats by their bits."""
        return array.array('Q', array.array(self.words, array.array(self.floats, numbers).tobytes()))

    def float_of(self, word):
        """The float that has these bits."""
        return array.array(self.floats, array.array(self.words, [word]).tobytes())[0]


WIDE, NARROW = Width(64, 52, 'Q', 'd', float), Width(32, 23, 'I', 'f', Narrow)
