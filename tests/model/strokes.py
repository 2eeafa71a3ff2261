"""The shapes of strokes in the model of a page: bodies, caps, joins, miters and dashes.

Sections are those of the PostScript Language Reference, third edition (4.5.1 Stroking throughout);
that a stroke is a union of these shapes, with a round pen, is an own rule.
"""
from bisect import bisect_left, bisect_right
from math import isqrt
from typing import NamedTuple

from geometry import ONE, Point, Refusal, div_round

BUTT, ROUND, SQUARE = 0, 1, 2
MITER = 0
MAX_DASHES = 65536


class Polygon:
    """Closed rings of points. No point outside of their bounds is inside of them."""

    def __init__(self, rings):
        self.rings = rings
        points = [point for ring in rings for point in ring] or [Point(0, 0)]
        self.left, self.right = min(p.x for p in points), max(p.x for p in points)
        self.top, self.bottom = min(p.y for p in points), max(p.y for p in points)

    def holds(self, x, y, rule):
        """Whether the winding number at a point says inside (4.5 Painting)."""
        if not (self.left <= x <= self.right and self.top <= y <= self.bottom):
            return False
        number = sum(winding(ring, x, y) for ring in self.rings)
        return number != 0 if rule == 'nonzero' else number % 2 == 1


class Disc(NamedTuple):
    """A disc of a round cap or join."""
    centre: Point
    radius: int

    def holds(self, x, y, _rule):
        """The rim belongs to the disc (own rule)."""
        return (x - self.centre.x) ** 2 + (y - self.centre.y) ** 2 <= self.radius ** 2


def winding(ring, x, y):
    """How often a closed ring goes round a point: +1 for an edge down, -1 for an edge up.

    An edge holds its upper end and not its lower one; it counts where it crosses the height of the
    point at or left of it (4.5 Painting; the ends and the boundary are own rules).
    """
    number = 0
    for start, end in zip(ring, ring[1:] + ring[:1]):
        if start.y <= y < end.y:
            upper, lower, counts = start, end, 1
        elif end.y <= y < start.y:
            upper, lower, counts = end, start, -1
        else:
            continue
        height = lower.y - upper.y
        if upper.x * height + (y - upper.y) * (lower.x - upper.x) <= x * height:
            number += counts
    return number


class Pen(NamedTuple):
    """What a stroke is drawn with, in sub-dots; dashes and their offset in 1/65536 of a dot."""
    half: int
    cap: int
    join: int
    miter_limit: int
    dashes: list
    offset: int


def pen_of(matrix, lines):
    """The pen of a matrix and line parameters; at least a dot wide (own rule)."""
    scale = isqrt(abs(matrix.determinant()))
    width = max(256, div_round(lines.width * scale, 2 ** 24))
    if width >= 2 ** 31:
        raise Refusal('limitcheck')
    dashes = [div_round(dash * scale, ONE) for dash in lines.dashes]
    offset = div_round(lines.offset * scale, ONE)
    if any(abs(length) >= 2 ** 62 for length in [*dashes, offset]):
        raise Refusal('limitcheck')
    return Pen(div_round(width, 2), lines.cap, lines.join, lines.miter_limit, dashes, offset)


class Segment:
    """A line from one point to another, its length in 1/65536 of a dot."""

    def __init__(self, start, end, half):
        self.start, self.end = start, end
        self.way = end - start
        self.length = isqrt((self.way.x ** 2 + self.way.y ** 2) * ONE)
        # Half the width across the line, to its one side, and along it.
        self.across = Point(div_round(-self.way.y * half * 256, self.length),
                            div_round(self.way.x * half * 256, self.length))
        self.along = Point(div_round(self.way.x * half * 256, self.length),
                           div_round(self.way.y * half * 256, self.length))

    def at(self, distance):
        """The point at a distance from the start."""
        return self.start + Point(div_round(self.way.x * distance, self.length),
                                  div_round(self.way.y * distance, self.length))

    def body(self):
        return Polygon([[self.start + self.across, self.end + self.across,
                         self.end - self.across, self.start - self.across]])

    def cap_at_end(self, point):
        """A projecting square cap past a point (8.2 setlinecap)."""
        left, right = point + self.across, point - self.across
        return Polygon([[left, left + self.along, right + self.along, right]])

    def cap_at_start(self, point):
        left, right = point + self.across, point - self.across
        return Polygon([[left, left - self.along, right - self.along, right]])


def without_repeats(points, closed):
    """The points of a line, equal neighbours once; a closed line lacks its start at the end."""
    kept = points[:1]
    for point in points[1:]:
        if point != kept[-1]:
            kept.append(point)
    while closed and len(kept) > 1 and kept[-1] == kept[0]:
        kept.pop()
    return kept


def segments_of(points, half):
    return [Segment(start, end, half) for start, end in zip(points, points[1:])]


def miter_offset(first, second, pen):
    """From the corner to a miter's tip, if the limit allows one (8.2 setmiterlimit)."""
    limit = min(pen.miter_limit, 1024 * ONE)
    lengths = isqrt(first.way.x ** 2 + first.way.y ** 2) * isqrt(second.way.x ** 2
                                                                 + second.way.y ** 2)
    turned = first.way.x * second.way.x + first.way.y * second.way.y
    if limit ** 2 * (lengths + turned) < 2 * 2 ** 32 * lengths:
        return None
    bottom = (pen.half ** 2 + first.across.x * second.across.x
              + first.across.y * second.across.y)
    if bottom <= 0:
        return None
    both = first.across + second.across
    offset = Point(div_round(both.x * pen.half ** 2, bottom),
                   div_round(both.y * pen.half ** 2, bottom))
    return offset if max(abs(offset.x), abs(offset.y)) <= 2048 * pen.half else None


def join_of(first, second, pen):
    """The join of two segments: on the outer side of the turn, nothing where they go straight on.

    A round join stands at each corner (8.2 setlinejoin).
    """
    corner = first.end
    if pen.join == ROUND:
        return [Disc(corner, pen.half)]
    cross = first.way.x * second.way.y - first.way.y * second.way.x
    if cross == 0:
        return []
    outer = -1 if cross > 0 else 1
    one, other = corner + first.across.times(outer), corner + second.across.times(outer)
    tip = miter_offset(first, second, pen) if pen.join == MITER else None
    if tip is None:
        return [Polygon([[corner, one, other]])]
    return [Polygon([[corner, one, corner + tip.times(outer), other]])]


def dot_shapes(point, pen):
    """What a line of one point paints: a disc with round caps, else nothing."""
    return [Disc(point, pen.half)] if pen.cap == ROUND else []


def line_shapes(points, closed, pen):
    """The shapes of a solid line."""
    kept = without_repeats(points, closed)
    if len(kept) == 1:
        return dot_shapes(kept[0], pen) if closed or len(points) > 1 else []
    segments = segments_of(kept + kept[:1] if closed else kept, pen.half)
    shapes = [segment.body() for segment in segments]
    corners = list(zip(segments, segments[1:] + segments[:1] if closed else segments[1:]))
    for first, second in corners:
        shapes += join_of(first, second, pen)
    if not closed and pen.cap == ROUND:
        shapes += [Disc(kept[0], pen.half), Disc(kept[-1], pen.half)]
    if not closed and pen.cap == SQUARE:
        shapes += [segments[0].cap_at_start(kept[0]), segments[-1].cap_at_end(kept[-1])]
    return shapes


class Course:
    """A line seen by the distance from its start; closed ones go through their closing segment."""

    def __init__(self, points, closed, half):
        self.corners = points + points[:1] if closed else points
        self.segments = segments_of(self.corners, half)
        self.distances = [0]
        for segment in self.segments:
            self.distances.append(self.distances[-1] + segment.length)
        self.length = self.distances[-1]

    def place(self, distance):
        """The segment that has a distance, and the point there; the one that ends at a corner."""
        number = max(bisect_left(self.distances, distance) - 1, 0)
        segment = self.segments[number]
        return segment, segment.at(distance - self.distances[number])

    def part(self, start, end):
        """The points of a part: its ends, and the corners strictly between."""
        inner = slice(bisect_right(self.distances, start), bisect_left(self.distances, end))
        return [self.place(start)[1], *self.corners[inner], self.place(end)[1]]


def dashes_on(length, pen):
    """Start and end of each dash that is on, from the offset's cycle on (8.2 setdash).

    An odd number of elements goes round twice before on and off repeat.
    """
    cycle = pen.dashes * (2 if len(pen.dashes) % 2 else 1)
    start = -(pen.offset % sum(cycle))
    while start <= length:
        for number, dash in enumerate(cycle):
            if number % 2 == 0:
                yield start, start + dash
            start += dash


def point_dash(course, distance, pen):
    """The shapes of a dash of length 0, which has its segment's direction."""
    segment, point = course.place(distance)
    if pen.cap == SQUARE:
        return [segment.cap_at_end(point), segment.cap_at_start(point)]
    return dot_shapes(point, pen)


def dash_parts(course, pen):
    """The shapes of each dash that lies on a line."""
    for start, end in dashes_on(course.length, pen):
        if start == end and 0 <= start <= course.length:
            yield point_dash(course, start, pen)
        elif max(start, 0) < min(end, course.length):
            part = course.part(max(start, 0), min(end, course.length))
            yield line_shapes(part, False, pen)


def outline(subpaths, matrix, lines):
    """The shapes of a stroke of all subpaths; each begins its dashes anew."""
    pen = pen_of(matrix, lines)
    shapes, dashes = [], 0
    for points, closed in subpaths:
        kept = without_repeats(points, closed)
        if not any(pen.dashes) or len(kept) == 1:
            shapes += line_shapes(points, closed, pen)
            continue
        for part in dash_parts(Course(kept, closed, pen.half), pen):
            dashes += 1
            if dashes > MAX_DASHES:
                raise Refusal('limitcheck')
            shapes += part
    return shapes
