"""Where an element lies, by its points, or by its stored range where its points aren't read. All numbers are whole, in
units of resolution, and only x and y count."""

from __future__ import annotations

from dataclasses import dataclass
from fractions import Fraction
from typing import List, Optional, Sequence, Tuple

from ..format import classes
from ..format.element import Element
from ..format.numbers import Point

Segment = Tuple[Point, Point]


@dataclass(frozen=True)
class Box:
    """An upright rectangle; its edges belong to it."""

    low_x: int
    low_y: int
    high_x: int
    high_y: int

    def holds(self, point: Sequence[int]) -> bool:
        """Whether a point lies in the box."""
        return self.low_x <= point[0] <= self.high_x and self.low_y <= point[1] <= self.high_y

    def meets(self, other: Box) -> bool:
        """Whether they have a point in common."""
        beside = other.high_x < self.low_x or self.high_x < other.low_x
        return not beside and not (other.high_y < self.low_y or self.high_y < other.low_y)

    def joined(self, other: Optional[Box]) -> Box:
        """The least box that holds both."""
        if other is None:
            return self
        low = min(self.low_x, other.low_x), min(self.low_y, other.low_y)
        return Box(*low, max(self.high_x, other.high_x), max(self.high_y, other.high_y))

    @property
    def corners(self) -> List[Point]:
        """The four corners, in their order around the box."""
        left, low, right, high = self.low_x, self.low_y, self.high_x, self.high_y
        return [(left, low), (right, low), (right, high), (left, high)]


def box_of(points: Sequence[Point]) -> Optional[Box]:
    """The least box that holds points, none where there are none."""
    if not points:
        return None
    xs = [it[0] for it in points]
    ys = [it[1] for it in points]
    return Box(min(xs), min(ys), max(xs), max(ys))


@dataclass(frozen=True)
class Outline:
    """What is drawn of an element: a path, closed or not; or a box of which only the corners are known, and which is
    taken to be filled."""

    points: List[Point]
    is_closed: bool
    is_filled: bool

    @property
    def box(self) -> Optional[Box]:
        return box_of(self.points)

    def segments(self) -> List[Segment]:
        """Its segments; one of a point and the same point where it has no other."""
        points = self.points
        if len(points) == 1:
            return [(points[0], points[0])]
        made = list(zip(points, points[1:]))
        return made + [(points[-1], points[0])] if self.is_closed else made


def outline_of(element: Element) -> Optional[Outline]:
    """What is drawn of an element by itself: nothing of a header over members, of a silent element, and of a path
    without points."""
    if element.type in classes.VERTICES:
        points = element.points
        return Outline(points, element.type == classes.SHAPE, False) if points else None
    bounds = element.range if element.type in classes.BY_RANGE else None
    if bounds is None:
        return None
    low, high = bounds
    return Outline(Box(low[0], low[1], high[0], high[1]).corners, True, True)


def square_distance(outline: Outline, place: Point) -> Fraction:
    """The square of the distance from a place to an outline; none, 0, within a filled one."""
    own = outline.box
    if outline.is_filled and own is not None and own.holds(place):
        return Fraction(0)
    return min(_to_segment(it, place) for it in outline.segments())


def _to_segment(segment: Segment, place: Point) -> Fraction:
    (ax, ay), (bx, by) = segment[0][:2], segment[1][:2]
    dx, dy, px, py = bx - ax, by - ay, place[0] - ax, place[1] - ay
    length, along = dx * dx + dy * dy, dx * px + dy * py
    if along <= 0 or length == 0:
        return Fraction(px * px + py * py)
    if along >= length:
        return Fraction((place[0] - bx) ** 2 + (place[1] - by) ** 2)
    return Fraction((dx * py - dy * px) ** 2, length)
