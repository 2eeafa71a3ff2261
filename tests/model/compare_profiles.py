#!/usr/bin/env python3
"""Compares what the program `profile` makes of profiles with the model.

`compare_profiles.py PROFILE`: small profiles of each kind with each byte changed to 0, 1, 7F, 80 and FF,
cut to each shorter length, the head of a fourth changed likewise, and a few more, 1,000 in one run of the program PROFILE. A difference is
printed; the last line is 'N passed, M failed'.
"""

import subprocess
import sys
import tempfile
from hashlib import md5
from pathlib import Path

import profiles
from profiles import BACKWARD_STAGES, FORWARD_STAGES, GRAY, LUT, MATRIX, SHORT_LUT, Profile, Stages

SPACES = {1: "GRAY", 3: "RGB", 4: "CMYK"}
NAMES = ("A2B0", "A2B1", "A2B2", "B2A0", "B2A1", "B2A2")
# How many files one run is given: their names fit beside a stack of 512 KiB, which bounds the words of a program too.
FILES = 1000
MATRIX_TAGS = ("rXYZ", "gXYZ", "bXYZ", "rTRC", "gTRC", "bTRC")


def with_id(data):
    """A profile with its own identity."""
    blank = bytearray(data)
    blank[44:48], blank[64:68], blank[84:100] = bytes(4), bytes(4), bytes(16)
    return data[:84] + md5(bytes(blank)).digest() + data[100:]


def changed(data, at, change):
    return data[:at] + change + data[at + len(change):]


def sharing(data):
    """The matrix profile with the bytes of its last curve for all three."""
    table = data[132 + 12 * 5 + 4:132 + 12 * 5 + 12]
    data = changed(data, 132 + 12 * 3 + 4, table)
    return changed(data, 132 + 12 * 4 + 4, table)


def twice(data):
    """A profile with its first tag once more at the end of the table, with the bytes of the second."""
    count = profiles.number(data, 128, 4)
    end = 132 + 12 * count
    entry = data[132:136] + data[148:156]
    body = bytearray(data[132:end] + entry)
    for k in range(count + 1):
        offset = profiles.number(body, 12 * k + 4, 4) + 12
        body[12 * k + 4:12 * k + 8] = offset.to_bytes(4, "big")
    return ((len(data) + 12).to_bytes(4, "big") + data[4:128] + (count + 1).to_bytes(4, "big")
            + bytes(body) + data[end:])


def cases():
    """Names and bytes."""
    for name, data in (("matrix", MATRIX), ("gray", GRAY), ("lut", LUT), ("mab", FORWARD_STAGES),
                       ("mba", BACKWARD_STAGES)):
        yield name, data
        for at in range(len(data)):
            for value in (0, 1, 0x7F, 0x80, 0xFF):
                yield f"{name}-{at}-{value:02x}", changed(data, at, bytes([value]))
            yield f"{name}-cut-{at}", data[:at]
        right = with_id(data)
        yield f"{name}-right", right
        yield f"{name}-flags", changed(right, 44, b"\1\2\3\4")
        yield f"{name}-intent", changed(right, 64, b"\0\0\0\2")
        yield f"{name}-other", changed(right, 84, bytes([right[84] ^ 1]))
        yield f"{name}-longer", right + b"more"
    for at in range(204):
        for value in (0, 1, 0x7F, 0x80, 0xFF):
            yield f"short-lut-{at}-{value:02x}", changed(SHORT_LUT, at, bytes([value]))
    yield "sharing", sharing(MATRIX)
    yield "matrix-twice", twice(MATRIX)
    yield "lut-twice", twice(LUT)


def told(stages):
    """What the program tells of stages: their grid, the MD5 of curves at 16 values each and of nodes, the matrix."""
    values = []
    for curves in (stages.curves, stages.matrix_curves or [], stages.lattice_curves or []):
        values += [profiles.value_at(curve, 4369 * k) for curve in curves for k in range(16)]
    values += stages.nodes or []
    digest = md5(b"".join(n.to_bytes(2, "big") for n in values)).hexdigest()
    grid = "".join(f" {points}" for points in stages.grid or [])
    matrix = "".join(f" {n}" for n in stages.matrix or [])
    return f"stages of {stages.inputs} channels, grid{grid}, MD5 {digest} matrix{matrix}"


def said(name, data):
    """The lines that the program owes."""
    profile = profiles.read(data)
    if not isinstance(profile, Profile):
        return [f"{name}: fault {profile},"]
    tags = [n for n, lut in zip(NAMES, profile.forward + profile.backward) if lut]
    by = "lut" if profile.forward[0] else "matrix" if profile.columns else "curve"
    tags += MATRIX_TAGS if profile.columns else ["kTRC"] if profile.curves else []
    pcs = "Lab" if profile.lab else "XYZ"
    lines = [f"{name}: {SPACES[profile.channels]}, connection space {pcs}, tags {' '.join(tags)},"
             f" by {by}, profile ID {profiles.id_state(profile.bytes).lower()}"]
    if profile.columns:
        lines.append(f"  columns {' '.join(map(str, profile.columns))}")
    for tag, curve in zip(MATRIX_TAGS[3:] if profile.columns else ["kTRC"], profile.curves):
        lines.append(f"  {tag} {' '.join(str(profiles.value_at(curve, 4369 * k)) for k in range(16))}")
    for tag, lut in zip(NAMES, profile.forward + profile.backward):
        if isinstance(lut, Stages):
            lines.append(f"  {tag}: {told(lut)}")
        elif lut:
            values = b"".join(n.to_bytes(2, "big") for n in lut.before + lut.nodes + lut.after)
            lines.append(f"  {tag}: {16 if lut.wide else 8} bits, {lut.grid} grid points, tables of "
                         f"{lut.before_count} and {lut.after_count}, MD5 {md5(values).hexdigest()}"
                         f" matrix {' '.join(map(str, lut.matrix))}")
    return lines


def answers(program, names, folder):
    """What the program says of each file: lines by its name, a fault without its words."""
    lines = []
    for at in range(0, len(names), FILES):
        done = subprocess.run([program, "--values", *names[at:at + FILES]], cwd=folder, capture_output=True,
                              text=True, timeout=600)
        lines += done.stdout.splitlines()
    found, last = {}, None
    for line in lines:
        if not line.startswith("  "):
            last = found.setdefault(line.split(":")[0], [])
            head, comma, _ = line.partition(",")
            line = head + comma if " fault " in head else line
        last.append(line)
    return found


def main(program):
    program = str(Path(program).resolve())
    passed = failed = 0
    with tempfile.TemporaryDirectory() as folder:
        wanted = {}
        for name, data in cases():
            (Path(folder) / name).write_bytes(data)
            wanted[name] = said(name, data)
        found = answers(program, list(wanted), folder)
    for name, lines in wanted.items():
        if found.get(name) == lines:
            passed += 1
        else:
            failed += 1
            print(f"{name}: wanted {lines}, found {found.get(name)}")
    print(f"{passed} passed, {failed} failed")


if __name__ == "__main__":
    main(sys.argv[1])
