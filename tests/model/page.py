"""A model of a page: paths, clips, colours, fills and strokes, and which dots they paint.

`Page` has a method for each operator, under its name; operands are raw values (counts of 1/65536).
An operator that refuses raises `Refusal` and leaves the page as it was. Sections are those of the
PostScript Language Reference, third edition. Limits of counts (points, clips, marks) are left out.
"""
from dataclasses import dataclass, replace

from geometry import (IDENTITY, ONE, Matrix, Refusal, arc_angles, arc_points, curve_points,
                      div_round, near, real, turn)
from strokes import Polygon, outline

WHITE = (255, 255, 255)


@dataclass(frozen=True)
class Lines:
    """The line parameters (4.2 Graphics State), numbers by raw values."""
    width: int = ONE
    cap: int = 0
    join: int = 0
    miter_limit: int = 10 * ONE
    dashes: tuple = ()
    offset: int = 0


@dataclass(frozen=True)
class Colour:
    """A colour of a device space by its codes of 8 bits (4.8.2 Device Color Spaces)."""
    codes: tuple = (0,)

    def rgb(self):
        """What a dot gets: ink and black are taken from white, at most all of it."""
        if len(self.codes) == 1:
            return self.codes * 3
        if len(self.codes) == 3:
            return self.codes
        return tuple(255 - min(255, ink + self.codes[3]) for ink in self.codes[:3])

    def gray(self):
        """The gray of the codes by raw value (7.2 Conversions among Device Color Spaces)."""
        if len(self.codes) == 1:
            return div_round(self.codes[0] * ONE, 255)
        weighed = sum(weight * code for weight, code in zip((30, 59, 11, 100), self.codes))
        if len(self.codes) == 4:
            weighed = 25500 - min(25500, weighed)
        return div_round(weighed * ONE, 25500)


@dataclass(frozen=True)
class State:
    """What gsave saves (4.2 Graphics State). A subpath is its points, and whether it is closed."""
    matrix: Matrix
    path: tuple = ()
    clip: tuple = ()
    lines: Lines = Lines()
    colour: Colour = Colour()

    def current_point(self):
        """The end of the path; of a closed subpath it is the start (8.2 closepath)."""
        if not self.path:
            raise Refusal('nocurrentpoint')
        points, closed = self.path[-1]
        return points[0] if closed else points[-1]

    def rings(self):
        return [points for points, _ in self.path]


@dataclass(frozen=True)
class Mark:
    """Shapes in a colour; it covers the dots that a shape and each region of the clip hold."""
    shapes: list
    rule: str
    clip: tuple
    rgb: tuple

    def covers(self, x, y):
        return (any(shape.holds(x, y, self.rule) for shape in self.shapes)
                and all(region.holds(x, y, rule) for region, rule in self.clip))

    def rgb_at(self, _x, _y):
        return self.rgb


def line_on(path, points):
    """A path with lines to more points; after closepath they are a new subpath (8.2 closepath)."""
    points_before, closed = path[-1]
    if closed:
        return (*path, ([points_before[0], *points], False))
    return (*path[:-1], ([*points_before, *points], False))


class Page:
    """A page of so many points, its marks, and the graphics state."""

    def __init__(self, width, height, resolution):
        self.resolution = resolution
        self.columns = max(1, div_round(width * resolution, 72))
        self.rows = max(1, div_round(height * resolution, 72))
        self.shown = []
        self.marks = []
        self.saved = []
        self.samples = 0
        self.initgraphics()

    def default_matrix(self):
        """User space in points, y up, the origin at the lower left (4.3.1 User Space)."""
        scale = div_round(self.resolution * ONE, 72)
        return Matrix(scale, 0, 0, -scale, 0, self.rows * ONE)

    def dots(self):
        """The rows of the page, each dot the colour of the last mark that covers its centre."""
        return [[self.colour_at(256 * column + 128, 256 * row + 128)
                 for column in range(self.columns)] for row in range(self.rows)]

    def colour_at(self, x, y):
        return next((mark.rgb_at(x, y) for mark in reversed(self.marks) if mark.covers(x, y)), WHITE)

    def change(self, **fields):
        self.state = replace(self.state, **fields)

    # Graphics states (8.2).

    def initgraphics(self):
        self.state = State(self.default_matrix())

    def gsave(self):
        if len(self.saved) >= 32:
            raise Refusal('limitcheck')
        self.saved.append(self.state)

    def grestore(self):
        if self.saved:
            self.state = self.saved.pop()

    def grestoreall(self):
        """The first saved state comes back, and stays saved."""
        if self.saved:
            self.state = self.saved[0]
            del self.saved[1:]

    def showpage(self):
        self.shown.append(self.dots())
        self.erasepage()
        self.initgraphics()

    def erasepage(self):
        self.marks = []
        self.samples = 0

    # Line parameters (8.2); a width is taken without its sign.

    def setlinewidth(self, width):
        self.change(lines=replace(self.state.lines, width=real(abs(width))))

    def setlinecap(self, cap):
        self.change(lines=replace(self.state.lines, cap=self.choice(cap)))

    def setlinejoin(self, join):
        self.change(lines=replace(self.state.lines, join=self.choice(join)))

    def choice(self, number):
        if number not in (0, ONE, 2 * ONE):
            raise Refusal('rangecheck')
        return number // ONE

    def setmiterlimit(self, limit):
        if limit < ONE:
            raise Refusal('rangecheck')
        self.change(lines=replace(self.state.lines, miter_limit=limit))

    def setdash(self, dashes, offset):
        if dashes and (min(dashes) < 0 or not any(dashes)):
            raise Refusal('rangecheck')
        self.change(lines=replace(self.state.lines, dashes=tuple(dashes), offset=offset))

    def currentlinewidth(self):
        return [self.state.lines.width]

    # Colours (8.2): an operand is taken into 0 to 1.

    def setgray(self, *levels):
        codes = tuple(div_round(min(max(level, 0), ONE) * 255, ONE) for level in levels)
        self.change(colour=Colour(codes))

    setrgbcolor = setcmykcolor = setgray

    def currentgray(self):
        return [self.state.colour.gray()]

    # Matrices (8.2): a change comes before what the matrix did.

    def concat(self, elements):
        self.change(matrix=self.state.matrix.after(Matrix(*elements)))

    def setmatrix(self, elements):
        self.change(matrix=Matrix(*elements))

    def initmatrix(self):
        self.change(matrix=self.default_matrix())

    def translate(self, x, y):
        self.concat(IDENTITY._replace(tx=x, ty=y))

    def scale(self, x, y):
        self.concat(IDENTITY._replace(a=x, d=y))

    def rotate(self, angle):
        self.concat(turn(angle))

    def currentmatrix(self):
        return list(self.state.matrix)

    def transform(self, x, y):
        return self.state.matrix.transformed(x, y)

    def itransform(self, x, y):
        return self.state.matrix.back(x, y)

    # Paths (4.4 Path Construction); a move starts a subpath.

    def newpath(self):
        self.change(path=())

    def moveto(self, x, y):
        self.move(self.state.matrix.dots(x, y))

    def rmoveto(self, x, y):
        self.move(near(self.state.current_point() + self.state.matrix.step(x, y)))

    def move(self, point):
        self.change(path=(*self.state.path, ([point], False)))

    def lineto(self, x, y):
        self.state.current_point()
        self.line([self.state.matrix.dots(x, y)])

    def rlineto(self, x, y):
        self.line([near(self.state.current_point() + self.state.matrix.step(x, y))])

    def line(self, points):
        self.change(path=line_on(self.state.path, points))

    def curveto(self, *numbers):
        self.state.current_point()
        self.curve([self.state.matrix.dots(x, y) for x, y in zip(numbers[::2], numbers[1::2])])

    def rcurveto(self, *numbers):
        here = self.state.current_point()
        self.curve([near(here + self.state.matrix.step(x, y))
                    for x, y in zip(numbers[::2], numbers[1::2])])

    def curve(self, controls):
        self.line(curve_points(self.state.current_point(), *controls))

    def arc(self, x, y, radius, start, end, clockwise=False):
        """A line to the start where there is a current point, else a move."""
        points = arc_points(self.state.matrix, x, y, radius, arc_angles(start, end, clockwise))
        if self.state.path:
            self.line(points)
        else:
            self.change(path=((points, False),))

    def arcn(self, *operands):
        self.arc(*operands, clockwise=True)

    def closepath(self):
        if self.state.path:
            points, _ = self.state.path[-1]
            self.change(path=(*self.state.path[:-1], (points, True)))

    def currentpoint(self):
        point = self.state.current_point()
        return self.state.matrix.back(256 * point.x, 256 * point.y)

    def rectangle(self, x, y, width, height):
        """The corners of a rectangle, in the order of 8.2 rectfill; both sums come first."""
        right, top = real(x + width), real(y + height)
        corners = ((x, y), (right, y), (right, top), (x, top))
        return [self.state.matrix.dots(*corner) for corner in corners]

    # Clips (8.2): a region more; a dot is painted where each region holds it.

    def clip(self, rule='nonzero'):
        self.add_region(self.state.rings(), rule)

    def eoclip(self):
        self.clip('even-odd')

    def rectclip(self, *numbers):
        """It clears the path, as 8.2 says."""
        self.add_region([self.rectangle(*numbers)], 'nonzero')
        self.newpath()

    def initclip(self):
        self.change(clip=())

    def add_region(self, rings, rule):
        self.change(clip=(*self.state.clip, (Polygon(rings), rule)))

    # Marks (4.5 Painting); fill, eofill and stroke clear the path.

    def fill(self, rule='nonzero'):
        self.mark([Polygon(self.state.rings())], rule)
        self.newpath()

    def eofill(self):
        self.fill('even-odd')

    def stroke(self):
        self.mark(outline(self.state.path, self.state.matrix, self.state.lines))
        self.newpath()

    def rectfill(self, *numbers):
        self.mark([Polygon([self.rectangle(*numbers)])])

    def rectstroke(self, *numbers):
        closed = [(self.rectangle(*numbers), True)]
        self.mark(outline(closed, self.state.matrix, self.state.lines))

    def place(self, picture, samples):
        """A mark of an image of so many samples."""
        self.marks.append(picture)
        self.samples += samples

    def rgb_of(self, codes):
        return Colour(codes).rgb()

    def mark(self, shapes, rule='nonzero'):
        self.marks.append(Mark(shapes, rule, self.state.clip, self.state.colour.rgb()))
