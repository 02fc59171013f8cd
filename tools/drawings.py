"""Drawings that the examples of docs/EDITING.md describe and that have no file, each under the words that say what it
is."""

import os
import struct
import sys
from typing import Dict

sys.path.insert(0, os.path.join(os.path.dirname(os.path.dirname(os.path.abspath(__file__))), 'examples'))

import make_plan as plan  # noqa: E402

LINKED = 0x0800
HIGH = (100, 50)


def drawing(*elements: bytes, axes: int = 2) -> bytes:
    """A design file of these elements, with bit 0x40 of byte 1214 set where it has three axes."""
    tcb = bytearray([8, 9, 0xFE, 2]) + bytearray(1532)
    tcb[1214] = 0x40 if axes == 3 else 0
    return bytes(tcb) + b''.join(elements) + b'\xff\xff'


def element(kind: int, level: int, size: int, member: bool = False, properties: int = 0) -> bytes:
    """An element of so many bytes with the range 0,0 to 100,50, and zeros behind its display header."""
    return plan.display(kind, level, (0, 0), HIGH, bytes(size - 36), member, properties)


def line(member: bool = False, properties: int = 0, data: bytes = b'') -> bytes:
    """A line from 0,0 to 100,50 on level 1, with attribute data behind it."""
    behind = plan.long(0) + plan.long(0) + plan.long(100) + plan.long(50) + data
    made = bytearray(plan.display(3, 1, (0, 0), HIGH, behind, member, properties))
    struct.pack_into('<H', made, 30, 10)
    return bytes(made)


def line_of_small_range() -> bytes:
    """The same line as a member, where the range that it stores is 0,0 to 10,10."""
    made = bytearray(line(True))
    made[4:28] = plan.display(3, 1, (0, 0), (10, 10), b'', True)[4:28]
    return bytes(made)


def line_of_three_axes() -> bytes:
    numbers = [0, 0, 0, 100, 50, 25]
    ranges = b''.join(plan.range_number(v) for v in numbers)
    head = bytes([1, 3]) + struct.pack('<H', 28)
    return head + ranges + struct.pack('<HHH', 0, 14, 0) + bytes(2) + b''.join(plan.long(v) for v in numbers)


def cell(*members: bytes) -> bytes:
    return plan.cell(1, 'ABC', (0, 0), (0, 0), HIGH, b''.join(members))


def deleted(made: bytes) -> bytes:
    return made[:1] + bytes([made[1] | 0x80]) + made[2:]


def locked(made: bytes) -> bytes:
    return made[:32] + struct.pack('<H', struct.unpack_from('<H', made, 32)[0] | plan.LOCKED) + made[34:]


def with_total(made: bytes, total: int) -> bytes:
    return made[:36] + struct.pack('<H', total) + made[38:]


def with_bit_c(made: bytes) -> bytes:
    return bytes([made[0] | 0x80]) + made[1:]


def chain() -> bytes:
    """The header of a complex chain over one line: 40 bytes, 52 behind them, and the total that counts both."""
    return with_total(element(12, 1, 40), (40 + 52 - 38) // 2)


def odd_items() -> bytes:
    """A cell whose second word of name is 64000, a text without characters, a path without points, and a B-spline."""
    named = bytearray(cell(line(True)))
    struct.pack_into('<H', named, 40, 64000)
    spline = element(27, 1, 36) + element(21, 1, 40, member=True)
    return bytes(named) + plan.text(1, (7, 8), b'') + element(4, 1, 38) + spline


ARC = element(16, 1, 72, member=True)
LINKAGES = bytes([0, 0x80, 1, 0, 0, 0, 0, 0, 2, 0x10, 0, 0, 0, 0, 1, 0, 0, 0])

DRAWINGS: Dict[str, bytes] = {
    'a cell with one line': drawing(cell(line(True))),
    'a cell of a line whose range is too small': drawing(cell(line_of_small_range())),
    'a line of three axes': drawing(line_of_three_axes(), axes=3),
    'a line with three linkages': drawing(line(properties=LINKED, data=LINKAGES)),
    'a cell whose name is no text, a text of no characters, a path of no points and a B-spline': drawing(odd_items()),
    'an element that may attach a reference': drawing(bytes([9, 5, 3, 0]) + bytes(6)),
    'a cell header whose total counts more than what is behind it': drawing(with_total(cell(line(True)), 54)),
    'a complex chain of the line 2, with bit C': drawing(with_bit_c(chain()), line(True)),
    'a cell of the line 2, which is locked': drawing(cell(locked(line(True)))),
    'a locked cell of the line 2': drawing(locked(cell(line(True)))),
    'a cell of the line 2, which is locked and marked deleted': drawing(cell(locked(deleted(line(True))))),
    'a cell of the line 2 and the arc 3': drawing(cell(line(True), ARC)),
    'a cell of the line 2 and the arc 3, which is marked deleted': drawing(cell(line(True), deleted(ARC))),
    'a cell of the element 2, of type 35, and the arc 3': drawing(cell(element(35, 1, 36, member=True), ARC)),
    'a shared cell definition, of type 34, over the line 2': drawing(element(34, 1, 36), line(True)),
    'the header of a B-spline curve, of type 27, over its part 2':
        drawing(element(27, 1, 36), element(21, 1, 40, member=True)),
    'a cell of an element 2 of type 127': drawing(cell(element(127, 1, 40, member=True))),
}
