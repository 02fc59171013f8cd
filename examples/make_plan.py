#!/usr/bin/env python3
"""Makes two small drawings, plan.dgn and valve.dgn, from the rules of the format.

    python3 examples/make_plan.py [FOLDER]

plan.dgn is a plot of land: its border (element 1), which is locked; the walls, the door and the name of a house
(2 to 4); a pipe (5), and on it two valves, cells (6 and 9) of two lines that cross. valve.dgn is a pipe (1) with one
such valve on it (2, of the lines 3 and 4). docs/FORMAT.md has the rules."""

from __future__ import annotations

import os
import shutil
import struct
import sys
from collections.abc import Sequence

# dgnkit stands beside this folder in the sources; the file that is installed of it is the package too
sys.path.append(os.path.join(os.path.dirname(os.path.dirname(os.path.abspath(__file__))), 'dgnkit', 'src'))
sys.path.append(shutil.which('dgnkit') or '.')

from dgnkit.format.numbers import long_bytes, range_bytes  # noqa: E402
from dgnkit.format.radix50 import words_of  # noqa: E402

long, range_number = long_bytes, range_bytes
Point = Sequence[int]

BORDER = [(0, 0), (4000, 0), (4000, 3000), (0, 3000), (0, 0)]
WALLS = [(800, 900), (2600, 900), (2600, 1500), (2000, 1500), (2000, 2200), (800, 2200), (800, 900)]
DOOR = [(1200, 900), (1500, 1200)]
PIPE = [(0, 600), (1000, 500), (3000, 650), (4000, 400)]
LOCKED = 0x0100


def display(
    kind: int, level: int, low: Point, high: Point, behind: bytes, member: bool = False, properties: int = 0
) -> bytes:
    """An element with a display header, and what stands behind it."""
    size = 36 + len(behind)
    head = bytes([level + 128 * member, kind]) + struct.pack('<H', (size - 4) // 2)
    ranges = b''.join(range_number(v) for v in [*low, 0, *high, 0])
    # no group; attribute data would begin at the end; style, weight and colour 0
    return head + ranges + struct.pack('<HHH', 0, (size - 32) // 2, properties) + bytes([0, 0]) + behind


def bounds(points: Sequence[Point]) -> tuple[list[int], list[int]]:
    """The low and the high corner of points."""
    return [min(axis) for axis in zip(*points)], [max(axis) for axis in zip(*points)]


def line(level: int, start: Point, end: Point, member: bool = False) -> bytes:
    """An element of type 3, from start to end."""
    return display(3, level, *bounds([start, end]), b''.join(long(v) for v in [*start, *end]), member)


def path(kind: int, level: int, points: Sequence[Point], properties: int = 0) -> bytes:
    """A line string, type 4, or a shape, type 6, through points."""
    behind = struct.pack('<H', len(points)) + b''.join(long(v) for point in points for v in point)
    return display(kind, level, *bounds(points), behind, properties=properties)


def text(level: int, origin: Point, characters: bytes) -> bytes:
    """A text of font 1, whose range is its origin, and a byte behind it where that makes its size even."""
    behind = bytes([1, 0]) + long(20000) + long(20000) + bytes(4) + long(origin[0]) + long(origin[1])
    behind += bytes([len(characters), 0]) + characters + bytes(len(characters) % 2)
    return display(17, level, origin, origin, behind)


def cell(level: int, name: str, origin: Point, low: Point, high: Point, members: bytes) -> bytes:
    """A cell header of type 2 and its members, whose words from the total's end on it counts."""
    total = (92 + len(members) - 38) // 2
    behind = struct.pack('<3H', total, *words_of(name)) + bytes(42)
    return display(2, level, low, high, behind + long(origin[0]) + long(origin[1])) + members


def valve(level: int, x: int, y: int, reach: int) -> bytes:
    """A cell VLV at x,y, of two lines on the next level that cross there."""
    low, high = (x - reach, y - reach), (x + reach, y + reach)
    cross = line(level + 1, low, high, True) + line(level + 1, (low[0], high[1]), (high[0], low[1]), True)
    return cell(level, 'VLV', (x, y), low, high, cross)


def house(level: int) -> bytes:
    return path(6, level, WALLS) + line(level, DOOR[0], DOOR[1]) + text(level + 1, (1000, 1700), b'HOUSE 7')


def write(file: str, elements: bytes) -> None:
    tcb = bytes([8, 9, 0xFE, 2]) + bytes(1532)
    with open(file, 'wb') as out:
        out.write(tcb + elements + b'\xff\xff')


def main() -> None:
    folder = sys.argv[1] if len(sys.argv) > 1 else os.path.dirname(os.path.abspath(__file__))
    water = path(4, 10, PIPE) + valve(10, 1000, 500, 80) + valve(10, 3000, 650, 80)
    write(os.path.join(folder, 'plan.dgn'), path(6, 1, BORDER, LOCKED) + house(2) + water)
    write(os.path.join(folder, 'valve.dgn'), line(10, (0, 0), (1000, 0)) + valve(10, 500, 0, 20))


if __name__ == '__main__':
    main()
