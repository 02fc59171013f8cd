"""How far elements are from a place: by their points, texts and what is known by its range alone by that, and headers
by what stands below them."""

from __future__ import annotations

import math
from fractions import Fraction
from typing import Dict, Optional

from ..format import classes
from ..format.element import Element
from ..format.numbers import Point
from .drawing import Drawing
from .geometry import Box, Outline, outline_of, square_distance


class Nearness:
    """The squares of the distances, in units of resolution, of all elements that are at most so far from a place."""

    def __init__(self, drawing: Drawing, place: Point, within: Optional[Fraction]) -> None:
        """`within` is how far at most, none where all are taken."""
        self.drawing, self.place, self.within = drawing, place, within
        self.squares: Dict[int, Fraction] = {}
        self.wrong = {it.number for it in drawing.findings}
        box = None if within is None else box_around(place, within)
        for element in drawing.elements:
            if element.type in classes.DRAWN and element.number not in drawing.defined:
                if box is None or self._may_meet(element, box):
                    self._take(element.number, outline_of(element))
        self._take_origins()
        self._take_headers()

    def distance(self, number: int) -> float:
        """How far an element is, in units of resolution; infinite where it isn't drawn or isn't near."""
        square = self.squares.get(number)
        return math.inf if square is None else math.sqrt(square)

    def _may_meet(self, element: Element, box: Box) -> bool:
        """Whether an element's range has a point in common with a box, or isn't what the element holds."""
        if element.number in self.wrong or element.is_deleted or element.number in self.drawing.dead:
            return True
        low_x, low_y, high_x, high_y = element.bounds
        beside = high_x < box.low_x or box.high_x < low_x or high_y < box.low_y or box.high_y < low_y
        return not beside

    def _take(self, number: int, outline: Optional[Outline]) -> None:
        if outline is not None:
            square = square_distance(outline, self.place)
            if self.within is None or square <= self.within**2:
                self.squares[number] = square

    def _take_origins(self) -> None:
        """Cells and text nodes below which nothing is drawn are where their origin is."""
        nesting, elements = self.drawing.nesting, self.drawing.elements
        drawn = set(elements.of_types(classes.DRAWN))
        for number in range(len(elements) - 1, 0, -1):
            if number in drawn and self._counts_above(number):
                drawn.add(nesting.parents[number])
        for number in elements.of_types(frozenset([classes.CELL, classes.NODE])):
            if number not in drawn and nesting.knot(number) == 'group' and number not in self.drawing.defined:
                self._take(number, Outline([elements[number].points[0]], False, False))

    def _take_headers(self) -> None:
        """A header is as near as the nearest that stands below it."""
        parents, squares = self.drawing.nesting.parents, self.squares
        for number in range(len(parents) - 1, 0, -1):
            square = squares.get(number)
            if square is not None and self._counts_above(number):
                above = parents[number]
                squares[above] = min(square, squares.get(above, square))

    def _counts_above(self, number: int) -> bool:
        """Whether an element counts for the header right above it: what is deleted does where that is deleted too."""
        above, dead = self.drawing.nesting.parents[number], self.drawing.dead
        return above >= 0 and (number not in dead or above in dead)


def box_around(place: Point, within: Fraction) -> Box:
    """The box around all that is so near."""
    reach = math.ceil(within)
    return Box(place[0] - reach, place[1] - reach, place[0] + reach, place[1] + reach)
