"""Sampled images of the model of a page (PostScript Language Reference, third edition, 4.10).

Data are bytes; matrices are by raw values. Own rules: a code has 8 bits; a dot has the sample that its
centre lies in, exactly; only rows that came whole are painted; a row of the page is painted only where
its centre lies between the heights of the image's corners, each rounded, and a dot more on either side.
"""
from fractions import Fraction
from math import floor

from geometry import ONE, Matrix, Refusal, div_round

MAX_SAMPLES = 67108864
MAX_MARKS = 1000000
FAR = 2 ** 31


def fractions(matrix):
    return [Fraction(element, ONE) for element in matrix]


class Format:
    """How the data of an image are read: columns, rows, bits, and a pair of Decode for each channel."""

    def __init__(self, width, height, bits, decode):
        self.width, self.height, self.bits = width, height, bits
        self.decode = list(zip(decode[::2], decode[1::2]))
        self.channels = len(self.decode)

    def row_bytes(self):
        return -(-self.width * self.channels * self.bits // 8)

    def size(self):
        """How many bytes the whole image takes."""
        return self.row_bytes() * self.height

    def row(self, data):
        """The codes of a row: samples follow one another from the high bits down."""
        bits = ''.join(f'{byte:08b}' for byte in data)
        samples = [int(bits[at:at + self.bits], 2)
                   for at in range(0, self.width * self.channels * self.bits, self.bits)]
        return [self.code(sample, self.decode[at % self.channels])
                for at, sample in enumerate(samples)]

    def code(self, sample, decode):
        """The nearest code of the number that a sample stands for."""
        top = 2 ** self.bits - 1
        low, high = decode
        code = div_round(255 * (low * (top - sample) + high * sample), top * ONE)
        return min(max(code, 0), 255)

    def rows(self, data):
        """The codes of the rows that came whole."""
        size = self.row_bytes()
        return [self.row(data[at:at + size])
                for at in range(0, min(len(data), self.size()) - size + 1, size)] if size else []


class Picture:
    """An image or a mask on the page: its rows of codes by two matrices, and the clip of its mark."""

    def __init__(self, current, matrix, form, rows, clip, colours):
        self.form, self.rows, self.clip, self.colours = form, rows, clip, colours
        self.inverse = fractions(current)
        self.matrix = fractions(matrix)
        self.low, self.high = extent(current, matrix, form.width, len(rows))

    def sample_at(self, x, y):
        """The codes at a point of the page in sub-dots, if the image has any there."""
        if not self.low <= y <= self.high:
            return None
        a, b, c, d, tx, ty = self.inverse
        across, down = Fraction(x, 256) - tx, Fraction(y, 256) - ty
        bottom = a * d - b * c
        ux, uy = (d * across - c * down) / bottom, (a * down - b * across) / bottom
        a, b, c, d, tx, ty = self.matrix
        column, row = floor(a * ux + c * uy + tx), floor(b * ux + d * uy + ty)
        if 0 <= column < self.form.width and 0 <= row < len(self.rows):
            at = column * self.form.channels
            return tuple(self.rows[row][at:at + self.form.channels])
        return None

    def rgb_at(self, x, y):
        return self.colours(self.sample_at(x, y))

    def covers(self, x, y):
        sample = self.sample_at(x, y)
        return (sample is not None and self.colours(sample) is not None
                and all(region.holds(x, y, rule) for region, rule in self.clip))


def extent(current, matrix, columns, rows):
    """The least and the greatest height of the corners; far away where one is out of range."""
    try:
        heights = [current.dots(*matrix.back(column * ONE, row * ONE)).y
                   for column in (0, columns) for row in (0, rows)]
    except Refusal:
        return -FAR, FAR
    return min(heights) - 256, max(heights) + 256


def is_small(matrix):
    return all(abs(element) < 2 ** 20 * ONE for element in matrix)


def matrix_of(numbers):
    return Matrix(*numbers)
