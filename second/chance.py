"""Numbers drawn by a rule of our own: a seed gives the same numbers in every version of Python."""

from math import sqrt

WORD = (1 << 64) - 1


class Chance:
    def __init__(self, seed):
        self.state = seed

    def word(self):
        """The next 64 bits (splitmix64)."""
        self.state = self.state + 0x9e3779b97f4a7c15 & WORD
        z = self.state
        z = (z ^ z >> 30) * 0xbf58476d1ce4e5b9 & WORD
        z = (z ^ z >> 27) * 0x94d049bb133111eb & WORD
        return z ^ z >> 31

    def below(self, n):
        """A whole number of 0..n-1."""
        return self.word() % n

    def between(self, low, high):
        """A whole number of low..high, both ends among them."""
        return low + self.below(high - low + 1)

    def one_in(self, n):
        return self.below(n) == 0

    def one(self, *options):
        return options[self.below(len(options))]

    def some(self, count, options):
        """So many of the options, none twice, in the order that they have."""
        left = list(range(len(options)))
        return [options[i] for i in sorted(left.pop(self.below(len(left))) for _ in range(count))]

    def bytes(self, count):
        return bytes(self.below(256) for _ in range(count))

    def real(self, low, high):
        """A float from low to below high."""
        return low + (high - low) * ((self.word() >> 11) * 2.0**-53)

    def direction(self):
        """Three floats, of length one but for roundings."""
        while True:
            x, y, z = (self.real(-1.0, 1.0) for _ in range(3))
            length = sqrt(x * x + y * y + z * z)
            if 0.1 < length <= 1.0:
                return x / length, y / length, z / length
