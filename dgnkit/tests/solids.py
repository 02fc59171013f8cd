"""A drawing of three axes for the tests of the views, and where all of it is to be seen, worked out by the numbers of
the format: in Front at x and z, in Right at y and z."""

from __future__ import annotations

import math
import struct
from typing import Dict, List, Sequence, Tuple

import curved
from app import WithBrowser
from pictures import Line, Picture
from samples import drawings, plan

Place = Tuple[int, int, int]

LINE: Sequence[Place] = [(0, 0, 0), (1000, 400, 600)]
STRING: Sequence[Place] = [(0, 900, 100), (300, 700, 500), (600, 900, -200), (900, 600, 300)]
MIDDLE, RADIUS = (2000, 100, 300), 200
MEMBER: Sequence[Place] = [(3000, 200, 900), (3400, 500, 900)]
LOW, HIGH = (4000, -120, 40), (4400, 300, 200)
POLES: Sequence[Place] = [(5000, 0, 0), (5200, 300, 400), (5400, 100, 50)]
CURVED: Sequence[Place] = [
    (5000, 500, 600),
    (5050, 520, 630),
    (5100, 540, 660),
    (5200, 500, 800),
    (5300, 700, 650),
    (5350, 550, 850),
    (5400, 520, 700),
    (5450, 500, 650),
]
AXES = {'Top': (0, 1), 'Front': (0, 2), 'Right': (1, 2)}


def solid(kind: int, low: Sequence[int], high: Sequence[int], behind: bytes, member: bool = False) -> bytes:
    """An element of three axes on level 1, whose range goes from a low to a high corner."""
    made = plan.display(kind, 1, (low[0], low[1]), (high[0], high[1]), behind, member)
    return made[:4] + b''.join(plan.range_number(it) for it in [*low, *high]) + made[28:]


def around(points: Sequence[Place]) -> Tuple[List[int], List[int]]:
    return [min(axis) for axis in zip(*points)], [max(axis) for axis in zip(*points)]


def path(kind: int, points: Sequence[Place], member: bool = False) -> bytes:
    """A line, or what has a count of points before them."""
    count = b'' if kind == 3 else struct.pack('<H', len(points))
    return solid(kind, *around(points), count + curved.longs(*(it for point in points for it in point)), member)


def upright_arc() -> bytes:
    """A quarter of a circle that is tilted around x by 90 degrees, so that it stands upright along x."""
    fields = curved.span(0, 90) + curved.real(RADIUS) * 2
    fields += curved.longs(*(it * curved.Whole for it in curved.tilted(90)))
    low, high = MIDDLE, (MIDDLE[0] + RADIUS, MIDDLE[1], MIDDLE[2] + RADIUS)
    return solid(16, low, high, fields + b''.join(curved.real(it) for it in MIDDLE))


def text(place: Place, characters: bytes, wide: float, high: float, quaternion: Sequence[float]) -> bytes:
    behind = bytes([1, 0]) + curved.longs(wide * 1000 / 6, high * 1000 / 6)
    behind += curved.longs(*(it * curved.Whole for it in quaternion), *place)
    behind += bytes([len(characters), 0]) + characters + bytes(len(characters) % 2)
    return solid(17, place, place, behind)


def cell() -> bytes:
    """A cell of one line, whose origin is where this begins."""
    member = path(3, MEMBER, member=True)
    fields = struct.pack('<H', (124 + len(member) - 38) // 2) + struct.pack('<HHH', 1683, 0, 0) + bytes(68)
    return solid(2, *around(MEMBER), fields + curved.longs(*MEMBER[0])) + member


def spline() -> bytes:
    """A B-spline of order 2, which goes along its poles."""
    low, high = around(POLES)
    header = solid(27, low, high, curved.longs(0) + struct.pack('<HHH', 0x10, len(POLES), 0))
    poles = struct.pack('<H', len(POLES)) + curved.longs(*(it for pole in POLES for it in pole))
    return header + solid(21, low, high, poles, member=True)


def house() -> bytes:
    """The line 1, the line string 2, the arc 3, the cell 4 with its member 5, the dimension 6, of which only the range
    is known, the B-spline 7 with its part 8, the curve 9."""
    elements = [path(3, LINE), path(4, STRING), upright_arc(), cell(), solid(33, LOW, HIGH, b''), spline()]
    return drawings.drawing(*elements, path(11, CURVED), axes=3)


def flat(points: Sequence[Place], view: str) -> Line:
    across, up = AXES[view]
    return [(point[across], point[up]) for point in points]


def lines_in(view: str) -> List[Line]:
    """Where all of the house is seen."""
    across, up = AXES[view]
    x, y = MIDDLE[across], MIDDLE[up]
    turns = [math.radians(it) for it in range(91)]
    arc: Dict[str, Line] = {
        'Top': [(x, y), (x + RADIUS, y)],
        'Front': [(x + RADIUS * math.cos(it), y + RADIUS * math.sin(it)) for it in turns],
        'Right': [(x, y), (x, y + RADIUS)],
    }
    (left, low), (right, high) = (LOW[across], LOW[up]), (HIGH[across], HIGH[up])
    box: Line = [(left, low), (right, low), (right, high), (left, high), (left, low)]
    curve = curved.akima([(point[across], point[up], point[3 - across - up]) for point in CURVED])
    return [*(flat(it, view) for it in (LINE, STRING, MEMBER, POLES)), curve, arc[view], box]


class WithHouse(WithBrowser):
    def show(self, view: str) -> Picture:
        """Presses the button of a view."""
        self.do('#views [data-view="%s"]' % view)
        return Picture(self.seen)

    def house(self) -> str:
        path_to = self.put('house.dgn', house())
        self.open(path_to)
        return path_to

    def chosen(self) -> str:
        """The view that is chosen."""
        return str(self.seen.run("return document.querySelector('#views [aria-checked=true]').textContent"))

    def place_said(self) -> Tuple[str, List[int]]:
        """Which axes the status line names, and its numbers."""
        names, numbers = self.seen.text('#place').split()[:2]
        return names, [int(it) for it in numbers.split(',')]
