"""A drawing as features of GeoJSON, for QGIS and others: one for each element that is drawn, with its number. They are
made as text at once, since a drawing may have a million."""

from __future__ import annotations

import json
from functools import lru_cache
from itertools import product
from typing import Callable, Dict, Iterator, Optional, Tuple

from ..format import classes
from ..format.element import Element
from ..format.numbers import Point
from ..format.units import Units
from .drawing import Drawing
from .placing import ONLY_RANGE, Placed, Placing
from .spelling import Json

Place = Callable[[Point], str]
WORDS = '"text": %s, "height": %s, "angle": %s, "cell": %s'
WORDY = frozenset([classes.TEXT, classes.CELL])
NO_WORDS = WORDS % (('null',) * 4)
STANDING = '"locked": %s, "broken": %s, "by_range": %s'
LOOK = '"type": %d, "type_name": %s, "level": %d, "colour": %d, "rgb": "%s", "weight": %d, "style": %d'


@lru_cache(maxsize=4096)
def spelled(value: Optional[str]) -> str:
    """A text as JSON has it."""
    return json.dumps(value)


class Features:
    """Makes the features of a drawing. Places are in master units, or in units of resolution."""

    def __init__(self, drawing: Drawing, is_master: bool, has_members: bool) -> None:
        """`has_members` is whether the members of complex chains and shapes are features too."""
        self.drawing = drawing
        place = in_master(drawing.units) if is_master else in_resolution(drawing.axes)
        self.placing = Placing(drawing, Json(place), has_members)
        self.standings = {key: STANDING % tuple(map(json.dumps, key)) for key in product((False, True), repeat=3)}
        self.looks: Dict[Tuple[int, int, bytes], str] = {}
        self.roots, self.depths = drawing.nesting.roots, drawing.nesting.depths
        self.broken_roots = drawing.nesting.broken_roots
        self.scale = 1 / drawing.units.in_master if is_master else 1.0
        self.colours = drawing.palette.spelled

    def all(self) -> Iterator[str]:
        """The features of all that is drawn, in file order."""
        for placed in self.placing.all():
            yield self.feature(placed)

    def feature(self, placed: Placed) -> str:
        """A feature: what it says of its element, and where that is."""
        element, _, _, geometry, coordinates = placed
        number, kind = element.number, element.type
        root = self.roots[number]
        words = self.words(element) if kind in WORDY else NO_WORDS
        standing = self.standings[element.is_locked, root in self.broken_roots, kind in ONLY_RANGE]
        return (
            f'{{"type": "Feature", "id": {number}, "properties": {{"number": {number}, "root": {root}, '
            f'"depth": {self.depths[number]}, {self.look(element)}, {words}, {standing}}}, '
            f'"geometry": {{"type": "{geometry}", "coordinates": {coordinates}}}}}'
        )

    def words(self, element: Element) -> str:
        """What a feature says of a text or of a cell."""
        if element.type == classes.CELL:
            return WORDS % ('null', 'null', 'null', spelled(element.cell_name))
        height = round(element.text_height * self.scale, 9)
        return WORDS % (json.dumps(element.text), repr(height), repr(round(element.text_angle or 0.0, 6)), 'null')

    def look(self, element: Element) -> str:
        """What a feature says of the type, the level and the look; many elements have the same."""
        key = element.type, element.level, element.data[element.offset + 34 : element.offset + 36]
        found = self.looks.get(key)
        if found is None:
            colour, rest = element.colour, (element.weight, element.style)
            name = spelled(element.type_name)
            found = LOOK % (element.type, name, element.level, colour, self.colours[colour], *rest)
            self.looks[key] = found
        return found


def in_resolution(axes: int) -> Place:
    """What spells a place of so many axes in units of resolution."""
    return ('[%d, %d]' if axes == 2 else '[%d, %d, %d]').__mod__


def in_master(units: Units) -> Place:
    """What spells a place in master units."""
    return lambda point: '[%s]' % ', '.join([repr(it) for it in units.to_master(point)])
