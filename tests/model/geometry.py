"""Points, matrices, sines, curves and arcs of the model of a page.

All numbers are whole: a raw value is a real number's count of 1/65536, and a sub-dot is 1/256 of a
dot. Sections are those of the PostScript Language Reference, third edition.
"""
from typing import NamedTuple

ONE = 65536
FULL_TURN = 360 * ONE
ARC_STEP = FULL_TURN // 256
UNIT = 2 ** 32


class Refusal(Exception):
    """An operator refuses; the argument is the error's name (3.11 Errors)."""


def div_round(number, divisor):
    """The nearest whole number to a quotient, a tie going up (own rule)."""
    if divisor < 0:
        number, divisor = -number, -divisor
    return (2 * number + divisor) // (2 * divisor)


def real(raw):
    """A raw value that a real number can have: its magnitude is below 2^31 (own rule)."""
    if not -2 ** 47 <= raw < 2 ** 47:
        raise Refusal('undefinedresult')
    return raw


def product(first, second):
    """The product of two reals, rounded once (own rule)."""
    return real(div_round(first * second, ONE))


class Point(NamedTuple):
    """A point of the page in sub-dots, y down, or the difference of two."""
    x: int
    y: int

    def __add__(self, other):
        return Point(self.x + other.x, self.y + other.y)

    def __sub__(self, other):
        return Point(self.x - other.x, self.y - other.y)

    def times(self, factor):
        return Point(self.x * factor, self.y * factor)


def near(point):
    """A point whose coordinates have magnitude below 2^31 sub-dots (own rule)."""
    if max(abs(point.x), abs(point.y)) >= 2 ** 31:
        raise Refusal('limitcheck')
    return point


class Matrix(NamedTuple):
    """The matrix [a b c d tx ty] by raw values (4.3.3 Matrix Representation and Manipulation)."""
    a: int
    b: int
    c: int
    d: int
    tx: int
    ty: int

    def determinant(self):
        return self.a * self.d - self.b * self.c

    def after(self, first):
        """The matrix that does `first` and then this one; each element is rounded once (4.3.3)."""
        def row(p, q, r=0, s=0):
            return (real(div_round(p * self.a + q * self.c + r, ONE)),
                    real(div_round(p * self.b + q * self.d + s, ONE)))
        return Matrix(*row(first.a, first.b), *row(first.c, first.d),
                      *row(first.tx, first.ty, self.tx * ONE, self.ty * ONE))

    def sums(self, x, y, moves=ONE):
        """Where a user point goes before any rounding (4.3.3); with moves 0 without the move."""
        return (self.a * x + self.c * y + self.tx * moves,
                self.b * x + self.d * y + self.ty * moves)

    def dots(self, x, y):
        """Where a user point goes on the page (4.3.3), rounded to sub-dots (own rule)."""
        return near(Point(*(div_round(part, 2 ** 24) for part in self.sums(x, y))))

    def step(self, x, y):
        """The difference that a relative operator adds: as a point goes, without tx and ty."""
        return near(Point(*(div_round(part, 2 ** 24) for part in self.sums(x, y, 0))))

    def transformed(self, x, y):
        """Where a user point goes, by raw values (8.2 transform)."""
        return [real(div_round(part, ONE)) for part in self.sums(x, y)]

    def back(self, x, y):
        """The user point that goes to a place, each coordinate rounded once (8.2 itransform)."""
        bottom = self.determinant()
        if bottom == 0:
            raise Refusal('undefinedresult')
        x, y = x - self.tx, y - self.ty
        return [real(div_round((self.d * x - self.c * y) * ONE, bottom)),
                real(div_round((self.a * y - self.b * x) * ONE, bottom))]


IDENTITY = Matrix(ONE, 0, 0, ONE, 0, 0)


def series_step(square, inner, divisor):
    """One step of a series: 1 less a part of the square, in 1/2^32 (own rule)."""
    return UNIT - div_round(square * inner, divisor * UNIT)


def series(angle, divisors):
    """The steps of a series for an angle of at most 45 degrees, and the angle in radians."""
    radians = div_round(angle * 74961321, ONE)
    square = div_round(radians * radians, UNIT)
    value = UNIT
    for divisor in divisors:
        value = series_step(square, value, divisor)
    return value, radians


def sine(angle):
    """The sine of an angle in degrees, by series in fixed point (own rule)."""
    angle %= FULL_TURN
    if angle >= FULL_TURN // 2:
        return -sine(angle - FULL_TURN // 2)
    if angle > FULL_TURN // 4:
        angle = FULL_TURN // 2 - angle
    if angle <= FULL_TURN // 8:
        value, radians = series(angle, (72, 42, 20, 6))
        return div_round(div_round(radians * value, UNIT), ONE)
    value, _ = series(FULL_TURN // 4 - angle, (56, 30, 12, 2))
    return div_round(value, ONE)


def cosine(angle):
    """The cosine of an angle: the sine of 90 degrees more (own rule)."""
    return sine(angle + FULL_TURN // 4)


def turn(angle):
    """The matrix of a turn (4.3.3)."""
    return Matrix(cosine(angle), sine(angle), -sine(angle), cosine(angle), 0, 0)


def curve_points(p0, p1, p2, p3):
    """The ends of the lines that stand for a curve (8.2 curveto; their number is an own rule)."""
    sides = (p1 - p0, p2 - p1, p3 - p2)
    length = sum(abs(side.x) + abs(side.y) for side in sides)
    bounds = ((4096, 8), (65536, 16), (1048576, 32))
    pieces = next((count for bound, count in bounds if length <= bound), 64)
    points = []
    for i in range(1, pieces + 1):
        j = pieces - i
        weights = (j ** 3, 3 * j * j * i, 3 * j * i * i, i ** 3)
        points.append(Point(*(
            div_round(sum(w * p[axis] for w, p in zip(weights, (p0, p1, p2, p3))), pieces ** 3)
            for axis in (0, 1))))
    return points


def arc_angles(start, end, clockwise):
    """The angles of an arc's points: the start, each 256th of a turn between, and the end.

    An end short of the start goes on by whole turns (8.2 arc, arcn); the steps are an own rule.
    """
    if clockwise:
        return [-angle for angle in arc_angles_up(-start, -end, lambda raw: real(-raw))]
    return arc_angles_up(start, end, real)


def arc_angles_up(start, end, check):
    """The same against the clock; the end that was raised has to be a real."""
    if end < start:
        end += -(-(start - end) // FULL_TURN) * FULL_TURN
    check(end)
    steps = range(start // ARC_STEP + 1, -(-end // ARC_STEP))
    return [start, *(step * ARC_STEP for step in steps), end]


def arc_points(matrix, x, y, radius, angles):
    """The points of an arc, in order; the first refusal met is the operator's (own rule)."""
    return [matrix.dots(real(x + product(radius, cosine(angle))),
                        real(y + product(radius, sine(angle)))) for angle in angles]
