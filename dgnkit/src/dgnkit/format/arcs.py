"""Arcs and ellipses: their axes, their turn and their middle, which are floating numbers that no edit reads
(docs/FORMAT.md)."""

from __future__ import annotations

import math
from dataclasses import dataclass
from typing import Optional, Tuple

from .element import Element
from .numbers import long_at, longs_at, vax_double_at

ELLIPSE, ARC = 15, 16
WHOLE = 2 * math.pi
ANGLE_UNIT = math.pi / 180 / 360000  # an angle of the file in radians
AXES = {ELLIPSE: 36, ARC: 44}  # where the two axes begin; behind them come the turn and the origin
RANGE_NEAR, RANGE_SHARE = 2, 0.001  # by how much the range may differ: in units, and as a share of the longer axis
PIECES = 64

Place = Tuple[float, float]
Turn = Tuple[float, float, float, float]


@dataclass(frozen=True)
class Arc:
    """An arc as it is seen along z: at the angle t it is at middle + along · cos t + up · sin t, on x and y. It begins
    at the angle `start` and goes round by `sweep`, against the clock where that is positive. `first` and `second` are
    its axes in space."""

    middle: Place
    along: Place
    up: Place
    start: float
    sweep: float
    first: float
    second: float

    def at(self, angle: float) -> Place:
        """Where it is at an angle."""
        cosine, sine = math.cos(angle), math.sin(angle)
        (x, y), (ax, ay), (ux, uy) = self.middle, self.along, self.up
        return x + ax * cosine + ux * sine, y + ay * cosine + uy * sine

    @property
    def ends(self) -> Tuple[Place, Place]:
        """Where it begins and where it ends."""
        return self.at(self.start), self.at(self.start + self.sweep)

    @property
    def length(self) -> float:
        """How long it is in space, by Simpson's rule where it is no part of a circle."""
        if self.first == self.second:
            return abs(self.first * self.sweep)
        step = self.sweep / PIECES
        speeds = [
            math.hypot(self.first * math.sin(angle), self.second * math.cos(angle))
            for angle in (self.start + step * it for it in range(PIECES + 1))
        ]
        inner = 4 * sum(speeds[1:-1:2]) + 2 * sum(speeds[2:-1:2])
        return abs(step) / 3 * (speeds[0] + inner + speeds[-1])

    @property
    def swept(self) -> float:
        """Twice the area that the line from the drawing's origin to it sweeps, on x and y, positive against the
        clock."""
        (x, y), (ax, ay), (ux, uy) = self.middle, self.along, self.up
        (start_x, start_y), (end_x, end_y) = self.ends
        return x * (end_y - start_y) - y * (end_x - start_x) + (ax * uy - ay * ux) * self.sweep

    def turned(self) -> Arc:
        """The same, from its end to its start."""
        return Arc(self.middle, self.along, self.up, self.start + self.sweep, -self.sweep, self.first, self.second)

    def high(self, axis: int, sign: int) -> float:
        """The greatest value of x or y, or with the sign -1 of its negative: where it turns back, or else at an end."""
        along, up = sign * self.along[axis], sign * self.up[axis]
        low = min(self.start, self.start + self.sweep)
        if (math.atan2(up, along) - low) % WHOLE <= abs(self.sweep):
            return sign * self.middle[axis] + math.hypot(along, up)
        return max(sign * it[axis] for it in self.ends)


def arc_of(element: Element) -> Optional[Arc]:
    """The arc or the ellipse that an element is, none where its fields don't lie in its range, and so may stand for
    something else."""
    axes, place = element.axes, AXES[element.type]
    turn_place = place + 16
    origin = turn_place + (4 if axes == 2 else 16)
    if element.size < origin + 8 * axes:
        return None
    data, at = element.data, element.offset
    turn = turn_of(long_at(data, at + turn_place)) if axes == 2 else seen(longs_at(data, at + turn_place, 4))
    if turn is None:
        return None
    first, second, x, y = (float(vax_double_at(data, at + it)) for it in (place, place + 8, origin, origin + 8))
    start, sweep = 0.0, WHOLE
    if element.type == ARC:
        start, sweep = long_at(data, at + 36) * ANGLE_UNIT, sweep_of(long_at(data, at + 40))
    along, up = (first * turn[0], first * turn[1]), (second * turn[2], second * turn[3])
    arc = Arc((x, y), along, up, start, sweep, abs(first), abs(second))
    return arc if _is_its_range(arc, element) else None


def turn_of(angle: int) -> Turn:
    """What a turn against the clock makes of the two axes: x and y of the first, x and y of the second."""
    cosine, sine = math.cos(angle * ANGLE_UNIT), math.sin(angle * ANGLE_UNIT)
    return cosine, sine, -sine, cosine


def seen(quaternion: list[int]) -> Optional[Turn]:
    """What a quaternion, the real part first, makes of the two axes, as seen along z; none where it is zero. It turns
    the drawing's axes to the element's, so the element is turned by its inverse."""
    w, x, y, z = quaternion
    size = w * w + x * x + y * y + z * z
    if size == 0:
        return None
    return (
        (w * w + x * x - y * y - z * z) / size,
        2 * (x * y - w * z) / size,
        2 * (x * y + w * z) / size,
        (w * w - x * x + y * y - z * z) / size,
    )


def sweep_of(sweep: int) -> float:
    """How far an arc goes round: the highest bit is the sign of what is left, and 0 is all the way round."""
    size = min((sweep & 0x7FFFFFFF) * ANGLE_UNIT, WHOLE)
    return WHOLE if size == 0 else -size if sweep < 0 else size


def _is_its_range(arc: Arc, element: Element) -> bool:
    """Whether the stored range is the least box of an arc on x and y, or nearly so."""
    near = RANGE_NEAR + RANGE_SHARE * max(arc.first, arc.second)
    low_x, low_y, high_x, high_y = element.bounds
    found = -arc.high(0, -1), -arc.high(1, -1), arc.high(0, 1), arc.high(1, 1)
    return all(abs(a - b) <= near for a, b in zip(found, (low_x, low_y, high_x, high_y)))
