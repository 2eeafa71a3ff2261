"""Prints the tables of `icc_v4lut_tests`: colours through profiles with stages of version 4, by the model of
`colour.py`, from bytes that `profiles.py` reads."""
import colour
import profiles
from profiles import curv, read_stages

RISING = curv(0, 20000, 65535)
FALLING = curv(65535, 30000)
PLAIN = curv()
TURNED = [0, 65536, 0, 65536, 0, 0, -32768, 32768, 65536, 6553, -6553, 13107]


def entries(curve):
    """A curve as its values."""
    return None if curve is None else [profiles.value_at(curve, v) for v in range(65536)]


def curves(these):
    return None if these is None else [entries(curve) for curve in these]


def read(tag, inputs):
    """The stages of a tag, for the colours of the model."""
    found = read_stages(tag, inputs)
    return colour.Stages(curves(found.curves), found.matrix, curves(found.matrix_curves), found.grid, found.nodes,
                         curves(found.lattice_curves))


def placed(kind, inputs, places, *body):
    """A tag whose parts begin at these places."""
    return (kind + bytes(4) + bytes([inputs, 3, 0, 0]) + b"".join(n.to_bytes(4, "big") for n in places)
            + b"".join(body))


def matrix(numbers):
    return b"".join(n.to_bytes(4, "big", signed=True) for n in numbers)


def lattice(grid, size, factor):
    """A lattice whose values are the products of their places and a factor."""
    count = 3
    for points in grid:
        count *= points
    return (bytes(grid) + bytes(16 - len(grid)) + bytes([size, 0, 0, 0])
            + b"".join((k * factor % 256**size).to_bytes(size, "big") for k in range(count)))


def three(*these):
    """Curves, each with padding behind it."""
    return b"".join(curve + bytes(-len(curve) % 4) for curve in these)


def by_columns(size):
    """A profile whose columns have one number each."""
    columns = [[size * (row == column) for row in range(3)] for column in range(3)]
    return colour.Profile(False, base=colour.Matrix(columns, [None] * 3))


# Values are X, Y and Z, the whole range of which is 1 or 2.
ONE, TWO = by_columns(65536), by_columns(131070)


def forward(name, lab, inputs, code, tag):
    source = colour.Profile(lab, forward={0: read(tag, inputs)})
    one, two = (colour.direct_wide(source, target, 0, code) for target in (ONE, TWO))
    print(f"{name}: {len(tag)} bytes, {code} gives {two}; {one}, {colour.direct(source, ONE, 0, code)}")


def backward(name, lab, code, tag):
    target = colour.Profile(lab, backward={0: read(tag, 3)})
    print(f"{name}: {len(tag)} bytes, {code} gives {colour.direct_wide(ONE, target, 0, code)}")


# name, Lab, input channels, code, places of the parts, what stands behind them
B = three(PLAIN, PLAIN, PLAIN)
FORWARD = [
    ("B curves alone", False, 3, [100, 0, 0], [32, 0, 0, 0, 0], [B]),
    ("B curves alone, to Lab", True, 3, [255, 128, 128], [32, 0, 0, 0, 0], [B]),
    ("M curves before the matrix", False, 3, [200, 100, 50], [32, 68, 116, 0, 0],
     [B, matrix(TURNED), three(RISING, FALLING, PLAIN)]),
    ("a lattice of three grids, one byte a value", True, 3, [200, 100, 50], [32, 0, 0, 68, 124],
     [B, lattice([2, 3, 2], 1, 37), three(PLAIN, PLAIN, PLAIN)]),
    ("the same, two bytes", False, 3, [200, 100, 50], [32, 0, 0, 68, 160],
     [B, lattice([2, 3, 2], 2, 9973), three(RISING, FALLING, PLAIN)]),
    ("one channel", False, 1, [77], [32, 0, 0, 68, 100], [B, lattice([4], 1, 23), three(FALLING)]),
    ("four channels, and all parts", True, 4, [17, 93, 211, 140], [32, 80, 128, 164, 256],
     [three(RISING, FALLING, PLAIN), matrix(TURNED), B, lattice([2, 2, 3, 2], 1, 37),
      three(PLAIN, FALLING, PLAIN, RISING)]),
    ("curves that begin at no multiple of four", False, 3, [100, 150, 200], [33, 0, 0, 0, 0],
     [b"\0", curv(0, 20000, 65535), bytes(1), curv(65535, 30000), curv()]),
    ("B and M curves are the same, the matrix stands in the head", False, 3, [100, 0, 200], [32, 4, 32, 0, 0],
     [three(PLAIN, PLAIN, RISING)]),
]
BACKWARD = [
    ("all parts", False, [100, 150, 200], [32, 68, 116, 164, 256],
     [B, matrix(TURNED), three(RISING, FALLING, PLAIN), lattice([2, 3, 2], 2, 9973), three(PLAIN, FALLING, RISING)]),
    ("all parts, from Lab", True, [100, 150, 200], [32, 80, 128, 164, 220],
     [three(RISING, FALLING, PLAIN), matrix(TURNED), B, lattice([2, 3, 2], 1, 37), three(PLAIN, FALLING, RISING)]),
]

if __name__ == "__main__":
    for name, lab, inputs, code, places, body in FORWARD:
        forward(name, lab, inputs, code, placed(b"mAB ", inputs, places, *body))
    for name, lab, code, places, body in BACKWARD:
        backward(name, lab, code, placed(b"mBA ", 3, places, *body))
