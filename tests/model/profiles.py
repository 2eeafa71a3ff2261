"""Profiles, read from their bytes by ICC.1:2010 (7.2 Profile header, 7.3 Tag table, and the types of
clause 10) and the project's own order of faults. Written from the rules alone.

`read` gives a fault's number, from 1 to 9, or what the profile is.
"""

from hashlib import md5
from typing import NamedTuple

from colour import curve_at
from power import curve_value

CHANNELS = {b"GRAY": 1, b"RGB ": 3, b"CMYK": 4}
CLASSES = (b"scnr", b"mntr", b"prtr", b"spac")
FORWARD = (b"A2B0", b"A2B1", b"A2B2")
BACKWARD = (b"B2A0", b"B2A1", b"B2A2")
COLUMNS = (b"rXYZ", b"gXYZ", b"bXYZ")
CURVES = (b"rTRC", b"gTRC", b"bTRC")
PARAMETERS = (1, 3, 4, 5, 7)


class Fault(Exception):
    """A tag's own fault: 8 or 9."""


class Lut(NamedTuple):
    wide: bool
    inputs: int
    grid: int
    matrix: list
    before_count: int
    after_count: int
    before: list
    nodes: list
    after: list


class Stages(NamedTuple):
    """Stages of version 4: B curves, matrix and M curves, grid, nodes and A curves; None for what isn't there."""
    inputs: int
    curves: list
    matrix: list
    matrix_curves: list
    grid: list
    nodes: list
    lattice_curves: list


class Profile(NamedTuple):
    bytes: bytes
    lab: bool
    channels: int
    columns: list
    curves: list
    forward: list
    backward: list


def number(tag, at, size, signed=False):
    return int.from_bytes(tag[at:at + size], "big", signed=signed)


def numbers(tag, at, size, count, signed=False):
    return [number(tag, at + size * k, size, signed) for k in range(count)]


def needs(tag, size):
    if len(tag) < size:
        raise Fault(9)


def of_type(tag, types):
    needs(tag, 8)
    if tag[:4] not in types:
        raise Fault(8)


def read_curve(tag):
    """A curve: none for the identity, else a function type with its parameters, or entries."""
    of_type(tag, (b"curv", b"para"))
    if tag[:4] == b"para":
        needs(tag, 10)
        kind = number(tag, 8, 2)
        if kind > 4:
            raise Fault(9)
        needs(tag, 12 + 4 * PARAMETERS[kind])
        raw = numbers(tag, 12, 4, PARAMETERS[kind], signed=True)
        if raw[0] <= 0:
            raise Fault(9)
        return kind, raw
    needs(tag, 12)
    count = number(tag, 8, 4)
    if count > 65536:
        raise Fault(9)
    needs(tag, 12 + 2 * count)
    entries = numbers(tag, 12, 2, count)
    if count == 0 or entries == [256]:
        return None
    if count > 1:
        return "entries", entries
    if entries == [0]:
        raise Fault(9)
    return 0, [256 * entries[0]]


def value_at(curve, v):
    """The value of a curve at v."""
    if curve is None:
        return v
    kind, content = curve
    return curve_at(content, v) if kind == "entries" else curve_value(kind, content, v)


def read_xyz(tag):
    of_type(tag, (b"XYZ ",))
    needs(tag, 20)
    return numbers(tag, 8, 4, 3, signed=True)


def read_lut(tag, lab, inputs):
    """A lut of three outputs."""
    of_type(tag, (b"mft1", b"mft2"))
    wide = tag[:4] == b"mft2"
    if not wide and not lab:
        raise Fault(8)
    needs(tag, 52 if wide else 48)
    if (tag[8], tag[9]) != (inputs, 3) or tag[10] < 2:
        raise Fault(9)
    grid = tag[10]
    counts = numbers(tag, 48, 2, 2) if wide else [256, 256]
    if wide and not all(2 <= count <= 4096 for count in counts):
        raise Fault(9)
    size, at = (2, 52) if wide else (1, 48)
    tables = []
    lengths = (inputs * counts[0], 3 * grid**inputs, 3 * counts[1])
    needs(tag, at + size * sum(lengths))
    for length in lengths:
        tables.append(numbers(tag, at, size, length))
        at += size * length
    return Lut(wide, inputs, grid, numbers(tag, 12, 4, 9, signed=True), *counts, *tables)


def curve_size(tag):
    """The bytes of a curve's content."""
    return 12 + 2 * number(tag, 8, 4) if tag[:4] == b"curv" else 12 + 4 * PARAMETERS[number(tag, 8, 2)]


def read_curves(tag, at, count):
    """Curves one after another, each but the first at a multiple of 4 from the tag's start."""
    curves = []
    for _ in range(count):
        curves.append(read_curve(tag[at:]))
        at += curve_size(tag[at:])
        at += -at % 4
    return curves


def read_stages(tag, inputs):
    """The parts of an `mAB ` or `mBA `, walked over in the order B, matrix, M, lattice, A."""
    needs(tag, 32)
    b, matrix, m, lattice, a = numbers(tag, 12, 4, 5)
    if (tag[8], tag[9]) != (inputs, 3) or not b:
        raise Fault(9)
    curves = read_curves(tag, b, 3)
    if matrix:
        needs(tag, matrix + 48)
    if bool(m) != bool(matrix):
        raise Fault(9)
    m_curves = read_curves(tag, m, 3) if m else None
    if bool(a) != bool(lattice) or not lattice and inputs != 3:
        raise Fault(9)
    grid = nodes = a_curves = None
    if lattice:
        needs(tag, lattice + 20)
        grid, size = list(tag[lattice:lattice + inputs]), tag[lattice + 16]
        count = 3
        for points in grid:
            count *= points
        if min(grid) < 2 or size not in (1, 2):
            raise Fault(9)
        needs(tag, lattice + 20 + size * count)
        nodes = [n * (257 if size == 1 else 1) for n in numbers(tag, lattice + 20, size, count)]
        a_curves = read_curves(tag, a, inputs)
    return Stages(inputs, curves, numbers(tag, matrix, 4, 12, signed=True) if matrix else None, m_curves, grid, nodes,
                  a_curves)


def read_transform(tag, lab, inputs, stages_type):
    """A lut, or stages of this type."""
    if len(tag) >= 8 and tag[:4] == stages_type:
        return read_stages(tag, inputs)
    return read_lut(tag, lab, inputs)


def header_fault(data):
    """The fault of a header or of the tag table, up to 6."""
    if len(data) < 132:
        return 1
    if data[36:40] != b"acsp":
        return 2
    size, count = number(data, 0, 4), number(data, 128, 4)
    if not 132 <= size <= len(data):
        return 3
    if count > 256 or 132 + 12 * count > size:
        return 4
    for k in range(count):
        offset, length = numbers(data, 136 + 12 * k, 4, 2)
        if offset < 132 or offset + length > size:
            return 5
    if data[12:16] not in CLASSES or data[16:20] not in CHANNELS or data[20:24] not in (b"XYZ ", b"Lab "):
        return 6
    return None


def read(data):
    """A fault's number, or the profile."""
    fault = header_fault(data)
    if fault:
        return fault
    data = data[:number(data, 0, 4)]
    tags = {}
    for k in range(number(data, 128, 4)):
        signature = data[132 + 12 * k:136 + 12 * k]
        offset, length = numbers(data, 136 + 12 * k, 4, 2)
        tags.setdefault(signature, data[offset:offset + length])
    lab, channels = data[20:24] == b"Lab ", CHANNELS[data[16:20]]
    is_matrix = channels == 3 and not lab
    has_matrix = is_matrix and all(name in tags for name in COLUMNS + CURVES)
    if b"A2B0" not in tags and not has_matrix and not (channels == 1 and b"kTRC" in tags):
        return 7
    faults, found = [], {}

    def use(names, reader, *rest):
        for name in names:
            if name in tags:
                try:
                    found[name] = reader(tags[name], *rest)
                except Fault as refusal:
                    faults.append(refusal.args[0])

    use(FORWARD, read_transform, lab, channels, b"mAB ")
    if channels == 3:
        use(BACKWARD, read_transform, lab, 3, b"mBA ")
    if is_matrix:
        use(COLUMNS, read_xyz)
        use(CURVES, read_curve)
    if channels == 1:
        use((b"kTRC",), read_curve)
    if faults:
        return min(faults)
    columns = [n for name in COLUMNS for n in found[name]] if has_matrix else None
    names = CURVES if has_matrix else (b"kTRC",) if b"kTRC" in found else ()
    return Profile(data, lab, channels, columns, [found[name] for name in names],
                   [found.get(name) for name in FORWARD], [found.get(name) for name in BACKWARD])


def id_state(data):
    """Whether the profile's own identity is absent, right, or differs (7.2.18 Profile ID field)."""
    own = data[84:100]
    if own == bytes(16):
        return "Absent"
    blank = bytearray(data)
    blank[44:48] = bytes(4)
    blank[64:68] = bytes(4)
    blank[84:100] = bytes(16)
    return "Right" if md5(bytes(blank)).digest() == own else "Differs"


# small profiles


def profile(space, pcs, tags):
    """The bytes of a profile of these tags, each at a multiple of four."""
    table, body = bytearray(), bytearray()
    start = 132 + 12 * len(tags)
    for name, tag in tags.items():
        table += name + (start + len(body)).to_bytes(4, "big") + len(tag).to_bytes(4, "big")
        body += tag + bytes(-len(tag) % 4)
    header = bytearray(128)
    header[8:12] = bytes([4, 0x20, 0, 0])
    header[12:16], header[16:20], header[20:24] = b"mntr", space, pcs
    header[36:40] = b"acsp"
    data = bytes(header) + len(tags).to_bytes(4, "big") + bytes(table) + bytes(body)
    return (len(data)).to_bytes(4, "big") + data[4:]


def xyz(x, y, z):
    return b"XYZ \0\0\0\0" + b"".join(n.to_bytes(4, "big", signed=True) for n in (x, y, z))


def curv(*entries):
    return b"curv\0\0\0\0" + len(entries).to_bytes(4, "big") + b"".join(n.to_bytes(2, "big") for n in entries)


def para(kind, *raw):
    return (b"para\0\0\0\0" + kind.to_bytes(2, "big") + bytes(2)
            + b"".join(n.to_bytes(4, "big", signed=True) for n in raw))


def mft2(inputs, grid, before, nodes, after):
    """A lut of 16 bits, whose tables are the same for each channel."""
    identity = (65536, 0, 0, 0, 65536, 0, 0, 0, 65536)
    words = [len(before), len(after), *before * inputs, *nodes, *after * 3]
    return (b"mft2\0\0\0\0" + bytes([inputs, 3, grid, 0])
            + b"".join(n.to_bytes(4, "big", signed=True) for n in identity)
            + b"".join(n.to_bytes(2, "big") for n in words))


def mft1(inputs, grid, before, nodes, after):
    """A lut of 8 bits, likewise."""
    identity = (65536, 0, 0, 0, 65536, 0, 0, 0, 65536)
    return (b"mft1\0\0\0\0" + bytes([inputs, 3, grid, 0])
            + b"".join(n.to_bytes(4, "big", signed=True) for n in identity)
            + bytes([*list(before) * inputs, *nodes, *list(after) * 3]))


def stages(kind, inputs, b, matrix=None, m=(), grid=(), size=2, nodes=(), a=()):
    """An `mAB ` or an `mBA ` of these parts, one after another; each list of curves begins at a multiple of four."""
    body, places = bytearray(), []

    def put(part):
        body.extend(bytes(-len(body) % 4))
        places.append(32 + len(body) if part else 0)
        for piece in part:
            body.extend(bytes(-len(body) % 4))
            body.extend(piece)

    put(b)
    put([b"".join(n.to_bytes(4, "big", signed=True) for n in matrix)] if matrix else [])
    put(m)
    put([bytes(grid) + bytes(16 - len(grid)) + bytes([size, 0, 0, 0])
         + b"".join(n.to_bytes(size, "big") for n in nodes)] if grid else [])
    put(a)
    head = kind + bytes(4) + bytes([inputs, 3, 0, 0]) + b"".join(n.to_bytes(4, "big") for n in places)
    return head + bytes(body)


MATRIX = profile(b"RGB ", b"XYZ ", {
    b"rXYZ": xyz(28578, 14583, 912),
    b"gXYZ": xyz(25241, 46981, 6363),
    b"bXYZ": xyz(9376, 3972, 46799),
    b"rTRC": para(3, 157286, 62119, 3417, 5072, 2651),
    b"gTRC": curv(512),
    b"bTRC": curv(0, 20000, 65535),
})
GRAY = profile(b"GRAY", b"Lab ", {b"kTRC": curv(256)})
LUT = profile(b"CMYK", b"Lab ", {
    b"A2B0": mft2(4, 2, [0, 65535], [4096 * (k % 16) for k in range(48)], [0, 30000, 65280]),
    b"A2B1": mft2(4, 2, [65535, 0], [1000 * k for k in range(48)], [0, 65280]),
})
SHORT_LUT = profile(b"RGB ", b"Lab ", {
    b"A2B0": mft1(3, 2, range(256), [10 * k for k in range(24)], range(255, -1, -1)),
    b"B2A0": mft2(3, 3, [0, 65535], [800 * k for k in range(81)], [0, 65535]),
})

CURVES_THREE = [curv(0, 20000, 65535), para(0, 65536), curv()]
STAGES_MATRIX = [65536, 0, 0, 1000, 60000, -2000, 0, 0, 65536, 10, -10, 0]
FORWARD_STAGES = profile(b"CMYK", b"Lab ", {
    b"A2B0": stages(b"mAB ", 4, CURVES_THREE, STAGES_MATRIX, [curv(), curv(0, 65535), curv(65535, 0)], [2, 2, 3, 2], 1,
                    [(k * 37) % 256 for k in range(72)], [curv(), curv(1, 2, 3), curv(0, 65535), para(0, 70000)]),
})
BACKWARD_STAGES = profile(b"RGB ", b"XYZ ", {
    b"A2B0": stages(b"mAB ", 3, [curv(), curv(), curv()]),
    b"B2A0": stages(b"mBA ", 3, CURVES_THREE, STAGES_MATRIX, [curv(), curv(0, 65535), curv(65535, 0)], [2, 3, 2], 2,
                    [(k * 4001) % 65536 for k in range(36)], [curv(), curv(1, 2, 3), curv(0, 65535)]),
})

if __name__ == "__main__":
    for data in (MATRIX, GRAY, LUT):
        assert isinstance(read(data), Profile)
        for end in range(len(data)):
            assert read(data[:end]) == (1 if end < 132 else 3)
    assert read(MATRIX[:36] + b"b" + MATRIX[37:]) == 2
    assert read((131).to_bytes(4, "big") + MATRIX[4:]) == 3
    assert read(MATRIX[:128] + (257).to_bytes(4, "big") + MATRIX[132:]) == 4
    assert read(MATRIX[:136] + b"\xff\xff\xff\xf0" + MATRIX[140:]) == 5
    assert read(MATRIX[:12] + b"link" + MATRIX[16:]) == 6
    assert read(MATRIX.replace(b"bTRC", b"xTRC")) == 7
    assert read(MATRIX.replace(b"curv", b"XYZ ", 1)) == 8
    assert read(MATRIX.replace(curv(512)[:12], b"curv\0\0\0\0\xff\xff\xff\xff")) == 9
    assert id_state(MATRIX) == "Absent"
    for data in (FORWARD_STAGES, BACKWARD_STAGES):
        assert isinstance(read(data), Profile)
