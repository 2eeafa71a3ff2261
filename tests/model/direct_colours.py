"""Prints the tables of `icc_direct_tests`: colours through whole profiles, by the model of `colour.py`."""
from colour import Gray, Lut, Matrix, Profile, can_receive, direct, direct_wide, lattice_at
from colour import PERCEPTUAL, RELATIVE, SATURATION

SRGB = [[28579, 14582, 913], [25236, 46981, 6364], [9377, 3973, 46804]]
ADOBE = [[39960, 20389, 1276], [13453, 41004, 3989], [9777, 4143, 48796]]
# Codes of such a profile are X, Y and Z themselves, each of the whole range of 16 bits.
XYZ = [[131070, 0, 0], [0, 131070, 0], [0, 0, 131070]]
# A lut's matrix, by rows.
TURNED = [[0, 65536, 0], [32768, 16384, 16384], [-65536, 65536, 131072]]

BENT = [0, 9000, 65535]
FALLING = [65535, 20000]
UP_AND_DOWN = [0, 50000, 20000, 65535]


def products(count, factor, top):
    """The products of each place and a factor, modulo one more than the greatest value."""
    return [place * factor % (top + 1) for place in range(count)]


def lut(bits, channels, grid, entries, factor):
    top = 2**bits - 1

    def tables(count):
        values = products(count * entries, factor, top)
        return [values[place:place + entries] for place in range(0, len(values), entries)]

    return Lut(bits, grid, TURNED, tables(channels), products(3 * grid**channels, factor, top), tables(3))


def matrix(columns, *curves):
    return Profile(False, base=Matrix(columns, curves or [None] * 3))


def reader(is_lab, *args):
    """A profile with a way to the connection space alone."""
    return Profile(is_lab, forward={PERCEPTUAL: lut(*args)})


def writer(is_lab, *args):
    """A profile of three channels with the same lut both ways."""
    return Profile(is_lab, forward={PERCEPTUAL: lut(*args)}, backward={PERCEPTUAL: lut(*args)})


def points(top):
    """Points of a lattice of three grid points along each of four channels: at them, between them, at both ends."""
    half = (top + 1) // 2
    return [(0, 0, 0, 0), (top, top, top, top), (top, 0, 0, 0), (0, top, 0, 0), (0, 0, top, 0), (0, 0, 0, top),
            (top, 0, top, 0), (half, half, half, half), (half - 1, half, half - 1, half),
            (1, 0, 0, 0), (0, 1, 0, 0), (0, 0, 1, 0), (0, 0, 0, 1), (1, 1, 1, 1), (top - 1,) * 4, (top, half, 0, 1),
            (top // 3, top // 5, top // 7, top // 11), (top // 2, top // 4, top // 8, top // 16),
            (top - 3, 3, half + 5, half - 7), (half, 0, top, 1), (7, top - 7, 70, top - 70)]


def show(title, source, target, codes, colours=direct_wide, intent=PERCEPTUAL):
    print(title)
    for code in codes:
        print(f'        ({list(code) + [0] * (4 - len(code))}, {colours(source, target, intent, code)}),')


RGB = [(0, 0, 0), (255, 255, 255), (255, 0, 0), (0, 255, 0), (0, 0, 255), (1, 128, 254), (200, 100, 50), (17, 93, 211)]
GRAY = [(0,), (1,), (64,), (127,), (128,), (200,), (254,), (255,)]
CMYK = [(0, 0, 0, 0), (255, 255, 255, 255), (255, 0, 0, 0), (0, 255, 0, 0), (0, 0, 255, 0), (0, 0, 0, 255),
        (1, 128, 254, 30), (200, 100, 50, 25), (17, 93, 211, 140), (127, 128, 1, 77)]

curved = matrix(SRGB, None, BENT, FALLING)
plain = matrix(SRGB)
xyz = matrix(XYZ)
back = matrix(ADOBE, BENT, None, UP_AND_DOWN)
mirrored = matrix([ADOBE[1], ADOBE[0], ADOBE[2]])
two = Profile(True, forward={PERCEPTUAL: lut(16, 3, 3, 5, 40503), RELATIVE: lut(16, 3, 2, 4, 30011)})

if __name__ == '__main__':
    show('matrix to XYZ', curved, xyz, RGB)
    show('matrix to matrix', plain, back, RGB)
    show('matrix to matrix, 8 bits', plain, back, RGB, direct)
    show('negative determinant', plain, mirrored, RGB)
    show('gray, XYZ', Profile(False, base=Gray(BENT)), xyz, GRAY)
    show('gray, Lab', Profile(True, base=Gray(BENT)), xyz, GRAY)
    print('singular:', can_receive(matrix([SRGB[0], SRGB[0], SRGB[2]]), PERCEPTUAL),
          'gray:', can_receive(Profile(False, base=Gray(BENT)), PERCEPTUAL))
    show('lut of 16 bits, XYZ', reader(False, 16, 3, 3, 5, 40503), xyz, RGB)
    show('lut of 16 bits, Lab', reader(True, 16, 3, 3, 5, 40503), xyz, RGB)
    show('lut of 8 bits, Lab', reader(True, 8, 3, 3, 256, 157), xyz, RGB)
    show('lut of 16 bits, one channel', reader(True, 16, 1, 6, 5, 40503), xyz, GRAY)
    show('lut of 16 bits, four channels', reader(True, 16, 4, 3, 5, 40503), xyz, CMYK)
    show('lut of 8 bits, four channels', reader(True, 8, 4, 3, 256, 157), xyz, CMYK)
    show('to a lut of 16 bits, XYZ', plain, writer(False, 16, 3, 3, 5, 40503), RGB)
    show('to a lut of 16 bits, Lab', plain, writer(True, 16, 3, 3, 5, 40503), RGB)
    show('to a lut of 8 bits, Lab', plain, writer(True, 8, 3, 3, 256, 157), RGB)
    show('lut of 8 bits to 8 bits', reader(True, 8, 4, 3, 256, 157), writer(True, 8, 3, 3, 256, 91), CMYK, direct)
    for intent in (PERCEPTUAL, RELATIVE, SATURATION):
        show(f'intent {intent}', two, xyz, RGB[5:], intent=intent)
    for bits, factor in ((16, 40503), (8, 157)):
        top = 2**bits - 1
        print(f'lattice of four channels, {bits} bits')
        for point in points(top):
            print(f'        ({list(point)}, {lattice_at(top, 3, products(243, factor, top), point)}),')
