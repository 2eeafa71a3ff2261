"""Colour through profiles, in plain integers and written from the definitions alone.

Numbers are whole: of the connection space in 1/65536, of a curve or a lut 16 or 8 bits.
"""

import dataclasses
from fractions import Fraction
from typing import Optional


def nearest(number):
    """The nearest whole number of a fraction; a tie goes up."""
    return (2 * number.numerator + number.denominator) // (2 * number.denominator)


def div_round(dividend, divisor):
    return nearest(Fraction(dividend, divisor))


def clamp(number, low, high):
    return max(low, min(high, number))


# curves


def curve_at(entries, value):
    """The value of a curve; `entries` is None for the identity."""
    if entries is None:
        return value
    place = Fraction(value * (len(entries) - 1), 65535)
    first = int(place)
    part = place - first
    low = entries[first]
    if part == 0:
        return low
    return nearest(low * (1 - part) + entries[first + 1] * part)


def curve_back(entries, value):
    """The least code that reaches a value, else 65535."""
    for code in range(65536):
        if curve_at(entries, code) >= value:
            return code
    return 65535


# lattices


def lattice_at(top, grid, nodes, point):
    """Three values of a lattice; the first channel varies least rapidly. `grid` is one number for all channels, or a
    list of one for each."""
    sums = [Fraction(0)] * 3
    grids = grid if isinstance(grid, list) else [grid] * len(point)
    places = [Fraction(value * (points - 1), top) for value, points in zip(point, grids)]
    for corner in range(2 ** len(point)):
        weight = Fraction(1)
        index = 0
        for channel, place in enumerate(places):
            upper = corner >> channel & 1
            part = place - int(place)
            weight *= part if upper else 1 - part
            index = index * grids[channel] + int(place) + upper
        if weight:
            for output in range(3):
                sums[output] += weight * nodes[index * 3 + output]
    return [nearest(total) for total in sums]


# the connection space

WHITE = (63190, 65536, 54061)


def cube_root(number):
    """The cube root, rounded down."""
    low, high = 0, 1
    while high**3 <= number:
        high *= 2
    while high - low > 1:
        middle = (low + high) // 2
        if middle**3 <= number:
            low = middle
        else:
            high = middle
    return low


def xyz_to_lab(xyz):
    f = []
    for number, white in zip(xyz, WHITE):
        t = div_round(number << 60, white)
        if 24389 * t > 216 << 60:
            f.append(cube_root(t))
        else:
            f.append(div_round(24389 * t + (432 << 60), 3132 << 40))
    lightness = div_round(116 * f[1] - (16 << 20), 16)
    a = div_round(500 * (f[0] - f[1]), 16)
    b = div_round(200 * (f[1] - f[2]), 16)
    return [
        clamp(lightness, 0, 6553600),
        clamp(a, -8388608, 8388352),
        clamp(b, -8388608, 8388352),
    ]


def lab_to_xyz(lab):
    fy = div_round((lab[0] + 1048576) * 16, 116)
    fx = fy + div_round(16 * lab[1], 500)
    fz = fy - div_round(16 * lab[2], 200)
    xyz = []
    for f, white in zip((fx, fy, fz), WHITE):
        if 29 * f > 6 << 20:
            number = div_round(white * f**3, 1 << 60)
        else:
            number = div_round(white * 108 * (29 * f - (4 << 20)), 24389 << 20)
        xyz.append(clamp(number, 0, 131070))
    return xyz

# profiles


@dataclasses.dataclass
class Lut:
    """A lut: bits of its values, points along a channel, matrix by rows, a table for each channel, nodes."""
    bits: int
    grid: int
    matrix: list
    before: list
    nodes: list
    after: list


@dataclasses.dataclass
class Stages:
    """Stages of version 4. The B curves stand at the connection space; the matrix (twelve numbers by rows, the last
    three added) and the lattice (points along each channel, nodes) have curves of their own, and may be missing."""
    curves: list
    matrix: Optional[list] = None
    matrix_curves: Optional[list] = None
    grid: Optional[list] = None
    nodes: Optional[list] = None
    lattice_curves: Optional[list] = None


@dataclasses.dataclass
class Matrix:
    """Columns of X, Y and Z for red, green and blue, and their curves."""
    columns: list
    curves: list


@dataclasses.dataclass
class Gray:
    curve: Optional[list]


@dataclasses.dataclass
class Profile:
    """A matrix or a gray curve, and luts by the numbers of their intents."""
    is_lab: bool
    base: object = None
    forward: dict = dataclasses.field(default_factory=dict)
    backward: dict = dataclasses.field(default_factory=dict)


PERCEPTUAL, RELATIVE, SATURATION = range(3)


def chosen(luts, intent):
    """The lut of an intent, else the perceptual one, if there is one."""
    return luts.get(intent, luts.get(PERCEPTUAL))


def table_at(bits, table, value):
    """A table of 16 bits is read between its entries, one of 8 bits has an entry for each value."""
    return curve_at(table, value) if bits == 16 else table[value]


def lut_at(lut, values):
    before = [table_at(lut.bits, *pair) for pair in zip(lut.before, values)]
    middle = lattice_at(2**lut.bits - 1, lut.grid, lut.nodes, before)
    return [table_at(lut.bits, *pair) for pair in zip(lut.after, middle)]


def through(curves, values):
    return [curve_at(curve, value) for curve, value in zip(curves, values)]


def by_rows(matrix, values):
    """Three rows of three numbers, and one to be added to each, in 1/65536."""
    return [clamp(nearest(Fraction(sum(matrix[3 * row + k] * values[k] for k in range(3)) + matrix[9 + row] * 65535,
                                   65536)), 0, 65535) for row in range(3)]


def stages_at(stages, forward, values):
    """Stages in the order of the standard's figures: to the connection space A, lattice, M, matrix, B."""
    steps = []
    if stages.grid:
        steps += [lambda v: through(stages.lattice_curves, v),
                  lambda v: lattice_at(65535, stages.grid, stages.nodes, v)]
    if stages.matrix:
        steps += [lambda v: through(stages.matrix_curves, v), lambda v: by_rows(stages.matrix, v)]
    steps.append(lambda v: through(stages.curves, v))
    for step in steps if forward else steps[::-1]:
        values = step(values)
    return values


# What a step of each encoding of the connection space is, and the value that stands for 0.
XYZ_16 = (Fraction(1, 32768), 0)
LIGHTNESS = {16: (Fraction(100, 0xFF00), 0), 8: (Fraction(100, 255), 0)}
CHROMA = {16: (Fraction(1, 256), 0x8000), 8: (Fraction(1), 0x80)}


# The encoding of version 4: L* of 100 is FFFF hex, and 0 of a* and b* 8080 hex.
LAB_4 = [(Fraction(100, 65535), 0), (Fraction(1, 257), 0x8080), (Fraction(1, 257), 0x8080)]


def encodings(is_lab, bits):
    """`bits` is 16 or 8 for those of luts, and 4 for that of stages."""
    if is_lab and bits == 4:
        return LAB_4
    if is_lab:
        return [LIGHTNESS[bits], CHROMA[bits], CHROMA[bits]]
    return [XYZ_16] * 3


def ranges(is_lab):
    return [(0, 6553600), (-8388608, 8388352), (-8388608, 8388352)] if is_lab else [(0, 131070)] * 3


def in_space(is_lab, numbers):
    """Numbers as counts of 1/65536, each in its range."""
    return [clamp(nearest(65536 * number), *ends) for number, ends in zip(numbers, ranges(is_lab))]


def from_matrix(base, code):
    linear = [Fraction(curve_at(curve, 257 * value), 65535) for curve, value in zip(base.curves, code)]
    sums = [sum(column[row] * part for column, part in zip(base.columns, linear)) for row in range(3)]
    return in_space(False, [total / 65536 for total in sums])


def from_gray(base, is_lab, code):
    part = Fraction(curve_at(base.curve, 257 * code[0]), 65535)
    white = [100 * 65536, 0, 0] if is_lab else WHITE
    return in_space(is_lab, [number * part / 65536 for number in white])


def from_lut(lut, is_lab, code):
    values = lut_at(lut, [257 * value if lut.bits == 16 else value for value in code])
    return in_space(is_lab, [(value - none) * step
                             for value, (step, none) in zip(values, encodings(is_lab, lut.bits))])


def from_stages(stages, is_lab, code):
    values = stages_at(stages, True, [257 * value for value in code])
    return in_space(is_lab, [(value - none) * step for value, (step, none) in zip(values, encodings(is_lab, 4))])


def to_stages(stages, is_lab, numbers):
    values = [clamp(nearest(Fraction(number, 65536) / step) + none, 0, 65535)
              for number, (step, none) in zip(numbers, encodings(is_lab, 4))]
    return stages_at(stages, False, values)


def source(profile, intent, code):
    """A code as numbers of the profile's connection space."""
    lut = chosen(profile.forward, intent)
    if isinstance(lut, Stages):
        return from_stages(lut, profile.is_lab, code)
    if lut:
        return from_lut(lut, profile.is_lab, code)
    if isinstance(profile.base, Matrix):
        return from_matrix(profile.base, code)
    return from_gray(profile.base, profile.is_lab, code)


def solved(columns, numbers):
    """The parts of three columns that make up three numbers, by elimination; nothing where there are none or many."""
    rows = [[Fraction(column[row]) for column in columns] + [Fraction(numbers[row])] for row in range(3)]
    for place in range(3):
        pivot = next((row for row in rows[place:] if row[place]), None)
        if pivot is None:
            return None
        rows.remove(pivot)
        rows.insert(place, pivot)
        for row in rows:
            if row is not pivot:
                factor = row[place] / pivot[place]
                row[:] = [a - factor * b for a, b in zip(row, pivot)]
    return [row[3] / row[place] for place, row in enumerate(rows)]


def to_matrix(base, xyz):
    linear = [clamp(nearest(65535 * part), 0, 65535) for part in solved(base.columns, xyz)]
    return [curve_back(curve, value) for curve, value in zip(base.curves, linear)]


def to_lut(lut, is_lab, numbers):
    top = 2**lut.bits - 1
    values = [clamp(nearest(Fraction(number, 65536) / step) + none, 0, top)
              for number, (step, none) in zip(numbers, encodings(is_lab, lut.bits))]
    if not is_lab:
        values = [clamp(nearest(sum(Fraction(a * b, 65536) for a, b in zip(row, values))), 0, top)
                  for row in lut.matrix]
    return [65535 // top * value for value in lut_at(lut, values)]


def can_receive(profile, intent):
    if chosen(profile.backward, intent):
        return True
    return isinstance(profile.base, Matrix) and solved(profile.base.columns, (0, 0, 0)) is not None


def direct_wide(source_profile, target, intent, code):
    """The three values of 16 bits of a code through two profiles."""
    numbers = source(source_profile, intent, code)
    if source_profile.is_lab and not target.is_lab:
        numbers = lab_to_xyz(numbers)
    if target.is_lab and not source_profile.is_lab:
        numbers = xyz_to_lab(numbers)
    lut = chosen(target.backward, intent)
    if isinstance(lut, Stages):
        return to_stages(lut, target.is_lab, numbers)
    return to_lut(lut, target.is_lab, numbers) if lut else to_matrix(target.base, numbers)


def direct(source_profile, target, intent, code):
    """The same in 8 bits."""
    return [nearest(Fraction(255 * value, 65535)) for value in direct_wide(source_profile, target, intent, code)]


if __name__ == "__main__":
    assert lab_to_xyz([6553600, 0, 0]) == list(WHITE)
    assert xyz_to_lab(WHITE) == [6553600, 0, 0]
