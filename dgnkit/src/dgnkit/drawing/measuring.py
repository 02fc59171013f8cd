"""Lengths and areas, summed up by level."""

from __future__ import annotations

import math
from dataclasses import dataclass, field
from typing import Dict, Optional, Sequence

from ..format import classes
from ..format.arcs import ARC, ELLIPSE, Arc, arc_of
from ..format.element import Element
from ..format.numbers import Point
from .drawing import Drawing
from .rings import Part, Ring, way_of

OPEN = frozenset([classes.LINE, classes.STRING, ARC])
CLOSED = frozenset([classes.SHAPE, ELLIPSE, classes.COMPLEX_SHAPE])
UNKNOWN = frozenset([classes.CURVE, classes.SPLINE_CURVE])  # whose lengths aren't computed
ELSEWHERE = 'arcs and ellipses with other fields than their ranges tell'
CROSSING = 'areas of shapes that cross themselves'
SIDES = 'areas of complex shapes with sides of another kind'
NAMED = {classes.CURVE: 'curves', classes.SPLINE_CURVE: 'B-spline curves'}


@dataclass
class Measures:
    """Of a level how many lines, line strings and arcs there are and how long they are, and how many shapes and
    ellipses, with their outlines and areas, in units of resolution."""

    lines: int = 0
    length: float = 0.0
    shapes: int = 0
    outline: float = 0.0
    area: float = 0.0


@dataclass
class Sums:
    """The sums of each level, and what isn't in them, each with its count."""

    levels: Dict[int, Measures] = field(default_factory=dict)
    left: Dict[str, int] = field(default_factory=dict)

    def at(self, level: int) -> Measures:
        """The sums of a level."""
        found = self.levels.get(level)
        if found is None:
            found = self.levels[level] = Measures()
        return found

    def leave(self, what: str) -> None:
        """Counts something that isn't in the sums."""
        self.left[what] = self.left.get(what, 0) + 1

    def add_area(self, found: Measures, area: Optional[float], is_hole: bool, why: str) -> None:
        """Adds an area, or takes that of a hole off; or counts it as left out."""
        if area is None:
            self.leave(why)
        else:
            found.area += -area if is_hole else area


def measures_of(drawing: Drawing) -> Sums:
    """The sums of what is live and drawn."""
    made = Sums()
    hidden, elements = drawing.dead | drawing.defined, drawing.elements
    for number in elements.of_types(OPEN | CLOSED | UNKNOWN):
        if number not in hidden:
            _add(made, drawing, elements[number])
    return made


def _add(made: Sums, drawing: Drawing, element: Element) -> None:
    if element.type in UNKNOWN:
        made.leave(NAMED[element.type])
    elif element.type == classes.COMPLEX_SHAPE:
        _add_complex(made, drawing, element)
    elif element.type in (ARC, ELLIPSE):
        _add_arc(made, drawing, element)
    elif element.type == classes.SHAPE:
        found, points = made.at(level_of(drawing, element.number)), element.points
        found.shapes += 1
        found.outline += length_of([*points, *points[:1]])
        made.add_area(found, Ring([way_of(points)] if points else []).area, element.is_hole, CROSSING)
    else:
        found = made.at(level_of(drawing, element.number))
        found.lines += 1
        found.length += length_of(element.points)


def _add_arc(made: Sums, drawing: Drawing, element: Element) -> None:
    arc = arc_of(element)
    if arc is None:
        made.leave(ELSEWHERE)
        return
    found = made.at(level_of(drawing, element.number))
    if element.type == ARC:
        found.lines += 1
        found.length += arc.length
    else:
        found.shapes += 1
        found.outline += arc.length
        made.add_area(found, abs(arc.swept) / 2, element.is_hole, CROSSING)


def _add_complex(made: Sums, drawing: Drawing, header: Element) -> None:
    """Adds the area of a complex shape, whose sides count as lines."""
    found = made.at(level_of(drawing, header.number))
    found.shapes += 1
    numbers = drawing.nesting.part(header.number)[1:]
    sides = [_side(drawing.elements[it]) for it in numbers if it not in drawing.dead]
    parts = [it for it in sides if it is not None]
    if len(parts) < len(sides):
        made.leave(SIDES)
    else:
        made.add_area(found, Ring(parts).area, header.is_hole, CROSSING)


def _side(element: Element) -> Optional[Part]:
    """An element as a part of an outline, none where it can't be computed."""
    arc: Optional[Arc] = arc_of(element) if element.type == ARC else None
    points = element.points if element.type in OPEN - {ARC} else []
    return arc or way_of(points) or None


def level_of(drawing: Drawing, number: int) -> int:
    """The level that an element counts on: that of its complex chain or shape, and where that is level 0, which is no
    level of MicroStation's, that of the header above; of a complex shape on level 0 that of its first member that has
    another one."""
    parents, levels, types = drawing.nesting.parents, drawing.elements.levels, drawing.elements.types
    if parents[number] < 0 and levels[number]:
        return levels[number]
    at = number
    while parents[at] >= 0 and (levels[at] == 0 or types[parents[at]] in classes.JOINED):
        at = parents[at]
    return level_of_tree(drawing, at) if types[at] in classes.JOINED else levels[at]


def level_of_tree(drawing: Drawing, number: int) -> int:
    """The level that an element counts on with all below it: its own, or where that is 0 that of its first member that
    has another one, 0 where none has."""
    levels = drawing.elements.levels
    below = (levels[it] for it in drawing.nesting.part(number) if levels[it] and it not in drawing.dead)
    return levels[number] or next(below, 0)


def length_of(points: Sequence[Point]) -> float:
    """The length of a way through points."""
    return sum(map(math.dist, points, points[1:]))
