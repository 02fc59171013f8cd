"""Closed shapes of a drawing as polygons: a sheet's frame, the outline of a site."""

from __future__ import annotations

from typing import List

from ..errors import Mistake
from ..format import classes
from ..format.element import Element, described
from ..format.numbers import Point
from .drawing import Drawing
from .placing import chained
from .spans import number_of

STRAIGHT = frozenset([classes.LINE, classes.STRING])


def frame_of(drawing: Drawing, word: str) -> List[Point]:
    """The points of a shape, or of a complex shape of lines and line strings, in their order. It raises Mistake where
    the number isn't that of such a shape."""
    element = drawing.elements[number_of(word, 'element number', len(drawing.elements) - 1)]
    if element.number in drawing.dead:
        raise Mistake('%s is marked deleted' % described(element))
    if element.type == classes.SHAPE:
        return element.points
    if element.type != classes.COMPLEX_SHAPE:
        raise Mistake("%s isn't a closed shape: give the number of a shape or a complex shape" % described(element))
    return chained(_sides(drawing, element))


def _sides(drawing: Drawing, header: Element) -> List[List[Point]]:
    """The sides of a complex shape, each from where the one before it ends. It raises Mistake where one isn't straight
    or begins elsewhere."""
    if drawing.nesting.knot(header.number) != 'group':
        raise Mistake('%s is broken, so its sides are not known: `dgnkit mend` may mend it' % described(header))
    made: List[List[Point]] = []
    for number in drawing.nesting.part(header.number)[1:]:
        side = drawing.elements[number]
        if number in drawing.dead:
            continue
        if side.type not in STRAIGHT:
            said = "%s has a side that isn't straight, %s, and a polygon has only straight sides"
            raise Mistake(said % (described(header), described(side)))
        points = side.points
        if made and points[:1] != made[-1][-1:]:
            raise Mistake("%s has sides that don't meet, at %s" % (described(header), described(side)))
        made.append(points)
    return made
