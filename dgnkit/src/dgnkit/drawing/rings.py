"""Outlines of straight sides and arcs, and the area that they enclose, on x and y."""

from __future__ import annotations

from typing import List, Optional, Sequence, Tuple, Union

from ..format.arcs import Arc, Place
from ..format.numbers import Point

ARC_PIECES = 32  # by so many straight pieces an arc is tried for crossings
CHECKS_EACH = 200  # so many pairs of sides are tried for each side

Side = Tuple[float, float, float, float]


Part = Union[List[Place], Arc]  # some straight sides through points, or an arc


class Ring:
    """An outline of parts, one behind the other, each turned so that it begins where the one before it ends."""

    def __init__(self, parts: Sequence[Part]) -> None:
        self.corners: List[Place] = []
        self.swept = 0.0  # twice the area that the sides sweep, seen from the origin
        for index, part in enumerate(parts):
            more = parts[index + 1] if index + 1 < len(parts) else None
            self._add(_turned(part) if self._is_turned(part, more) else part)

    def _is_turned(self, part: Part, more: Optional[Part]) -> bool:
        """Whether a part begins further from the outline's end than it ends; the first one looks to the one behind."""
        start, end = _ends(part)
        if self.corners:
            return _distance(end, self.corners[-1]) < _distance(start, self.corners[-1])
        return more is not None and min(_distance(start, it) for it in _ends(more)) < min(
            _distance(end, it) for it in _ends(more)
        )

    def _add(self, part: Part) -> None:
        if not isinstance(part, Arc):
            for it in part:
                self._go_to(it)
            return
        start, end = part.ends
        self._go_to(start)
        self.swept += part.swept
        step = part.sweep / ARC_PIECES
        self.corners += [part.at(part.start + step * it) for it in range(1, ARC_PIECES)]
        self.corners.append(end)

    def _go_to(self, place: Place) -> None:
        if self.corners:
            last = self.corners[-1]
            self.swept += last[0] * place[1] - place[0] * last[1]
        self.corners.append(place)

    @property
    def area(self) -> Optional[float]:
        """The area, none where the outline crosses itself, or has so many sides beside each other that it isn't told
        whether it does."""
        if len(self.corners) < 3:
            return 0.0
        first, last = self.corners[0], self.corners[-1]
        closing = last[0] * first[1] - first[0] * last[1]
        return None if crosses_itself(self.corners) else abs(self.swept + closing) / 2


def way_of(points: Sequence[Point]) -> List[Place]:
    """Points on x and y."""
    return [(it[0], it[1]) for it in points]


def _ends(part: Part) -> Tuple[Place, Place]:
    return part.ends if isinstance(part, Arc) else (part[0], part[-1])


def _turned(part: Part) -> Part:
    return part.turned() if isinstance(part, Arc) else part[::-1]


def _distance(one: Place, other: Place) -> float:
    return abs(one[0] - other[0]) + abs(one[1] - other[1])


def crosses_itself(corners: Sequence[Place]) -> bool:
    """Whether two sides of a closed outline cross each other at an inner point of both, or too many pairs would have to
    be tried. Sides that touch, or lie on each other as those to a hole do, don't cross."""
    sides = [(*a, *b) for a, b in zip(corners, [*corners[1:], corners[0]]) if a != b]
    if len(sides) < 4 or _is_convex(sides):
        return False
    ordered = sorted(sides, key=lambda it: min(it[0], it[2]))
    open_sides: List[Side] = []
    left = CHECKS_EACH * len(ordered)
    for side in ordered:
        low = min(side[0], side[2])
        open_sides = [it for it in open_sides if max(it[0], it[2]) > low]
        left -= len(open_sides)
        if left < 0 or any(_cross(side, it) for it in open_sides):
            return True
        open_sides.append(side)
    return False


def _is_convex(sides: Sequence[Side]) -> bool:
    """Whether all turns between sides go one way, and the outline goes round once: then no two sides cross."""
    signs = set()
    changes, before = 0, sides[-1][2] - sides[-1][0] > 0
    for one, other in zip(sides, [*sides[1:], sides[0]]):
        turn = (one[2] - one[0]) * (other[3] - other[1]) - (one[3] - one[1]) * (other[2] - other[0])
        signs.add(turn > 0)
        rises = one[2] - one[0] > 0
        changes += rises != before
        before = rises
        if turn == 0 or len(signs) > 1:
            return False
    return changes <= 2


def _cross(one: Side, other: Side) -> bool:
    """Whether two sides cross at an inner point of both."""
    if max(one[1], one[3]) <= min(other[1], other[3]) or max(other[1], other[3]) <= min(one[1], one[3]):
        return False
    return _parts(one, other) and _parts(other, one)


def _parts(line: Side, side: Side) -> bool:
    """Whether the ends of a side lie on both sides of the line through another."""
    ax, ay, bx, by = line
    dx, dy = bx - ax, by - ay
    first = dx * (side[1] - ay) - dy * (side[0] - ax)
    second = dx * (side[3] - ay) - dy * (side[2] - ax)
    return (first > 0 > second) or (first < 0 < second)
