#!/usr/bin/env python3
"""Makes a small drawing, street.dgn, on which simple recipes would miss something, from the rules of the format.

    python3 examples/make_street.py [FOLDER]

A master unit is a metre of 100 centimetres, and a unit of resolution a millimetre. The elements are

    1       a kerb, a line string on level 12
    2       another kerb, a complex chain on level 12 of the line strings 3 and 4, which are on level 0
    5       a manhole, a cell MHOLE of the cover 6 and the text 7, on levels 13 and 14; its stored range is too small
    8       an arc on level 12
    9, 10   lines on level 12: one is locked, one is marked deleted
    11      a cell that is marked deleted, and its line 12, which isn't, on level 12
    13      a text on level 12
    14      a pipe, a line string on level 30
    15, 16  a building on level 5, and a text on level 40
    17      a kerb as GDAL writes it, a complex chain with bit C of the line strings 18 and 19: an orphan
    20      a parcel as GDAL writes it, a cell whose total leaves out its own attribute data: loose, and its rings 21
            and 22 are orphans

docs/FORMAT.md has the rules."""

from __future__ import annotations

import os
import struct
import sys

import make_plan as plan

Point = tuple[int, int]

DELETED = 0x80
LINKED = 0x0800
LINKAGE = bytes([0, 0x80, 1, 0, 0, 0, 0, 0])


def tcb() -> bytes:
    """The first element, with its units: 100 cm in 1 m, 10 units of resolution in 1 cm, and the origin 0,0."""
    made = bytearray([8, 9, 0xFE, 2]) + bytearray(1532)
    made[1112:1124] = plan.long(100) + plan.long(10) + b'm\0cm'
    return bytes(made)


def marked(element: bytes) -> bytes:
    """The element with its deleted bit set."""
    return element[:1] + bytes([element[1] | DELETED]) + element[2:]


def member(element: bytes) -> bytes:
    """The element with bit C."""
    return bytes([element[0] | 0x80]) + element[1:]


def string(level: int, *points: Point) -> bytes:
    return plan.path(4, level, list(points))


def ring(level: int, low: Point, high: Point) -> bytes:
    corners = [low, (high[0], low[1]), high, (low[0], high[1]), low]
    return plan.path(6, level, corners)


def chain(level: int, low: Point, high: Point, *parts: bytes) -> bytes:
    """The header of a complex chain with this range, and its members."""
    members = b''.join(member(it) for it in parts)
    total = (40 + len(members) - 38) // 2
    return plan.display(12, level, low, high, struct.pack('<HH', total, len(parts))) + members


def arc(level: int, low: Point, high: Point) -> bytes:
    """An element of type 16, of which no coordinates are read."""
    return plan.display(16, level, low, high, bytes(36))


def parcel(level: int, low: Point, high: Point, *rings: bytes) -> bytes:
    """A cell with attribute data that its total leaves out."""
    members = b''.join(member(it) for it in rings)
    made = bytearray(plan.cell(level, 'PARCEL', low, low, high, members))
    made[32:34] = struct.pack('<H', LINKED)
    made[2:4] = struct.pack('<H', (92 + len(LINKAGE) - 4) // 2)
    made[30:32] = struct.pack('<H', (92 - 32) // 2)
    return bytes(made[:92]) + LINKAGE + bytes(made[92:])


def manhole(level: int, x: int, y: int) -> bytes:
    """A cell with a cover and a text beside it, which its range doesn't hold."""
    low, high = (x - 300, y - 300), (x + 300, y + 300)
    parts = ring(level + 1, low, high), plan.text(level + 2, (x + 500, y), b'M 12')
    return plan.cell(level, 'MHOLE', (x, y), low, high, b''.join(member(it) for it in parts))


def road() -> bytes:
    """Elements 1 to 13, but for the arc all that has to do with level 12."""
    tree = plan.cell(
        15, 'TREE', (33000, 3000), (32800, 2800), (33200, 3200), member(plan.line(12, (32800, 2800), (33200, 3200)))
    )
    return b''.join(
        [
            string(12, (0, 0), (20000, 0), (28000, 2000)),
            chain(
                12,
                (32000, 0),
                (60000, 1000),
                string(0, (32000, 0), (40000, 1000), (45000, 1000)),
                string(0, (45000, 1000), (60000, 0)),
            ),
            manhole(12, 10000, -2000),
            arc(12, (50000, 2000), (52000, 4000)),
            plan.path(4, 12, [(35000, -3000), (36000, -3000)], plan.LOCKED),
            marked(plan.line(12, (36000, -3000), (37000, -3000))),
            marked(tree[:92]) + tree[92:],
            plan.text(12, (15000, 1000), b'OLD ROAD'),
        ]
    )


def street() -> bytes:
    """Elements 14 to 22."""
    broken = chain(
        12,
        (38000, 3000),
        (45000, 3500),
        string(0, (38000, 3000), (42000, 3500)),
        string(0, (42000, 3500), (44000, 3500)),
    )
    return b''.join(
        [
            string(30, (2000, -1500), (58000, -1500)),
            ring(5, (25000, 3000), (33000, 4500)),
            plan.text(40, (40000, -1200), b'DN 150'),
            member(broken[:40]) + broken[40:],
            parcel(
                20,
                (47000, -4500),
                (57000, -2000),
                ring(0, (47000, -4500), (57000, -2000)),
                ring(0, (50000, -4000), (52000, -3000)),
            ),
        ]
    )


def main() -> None:
    folder = sys.argv[1] if len(sys.argv) > 1 else os.path.dirname(os.path.abspath(__file__))
    with open(os.path.join(folder, 'street.dgn'), 'wb') as out:
        out.write(tcb() + road() + street() + b'\xff\xff')


if __name__ == '__main__':
    main()
