"""Which trees a box or a polygon takes: the program is asked, by a fence (docs/EDITING.md, Fences)."""

from __future__ import annotations

import os
import tempfile
from pathlib import Path
from typing import Dict, FrozenSet, List, Sequence

from ..errors import Mistake
from ..format.limits import CORNERS_LEAST, CORNERS_MOST, PLANE_HIGH, PLANE_LOW
from ..format.numbers import Point
from ..format.patch import Patch
from ..format.places import Scale, coordinates
from ..format.units import rounded
from ..program.listings import chosen_of
from ..program.script import Script
from .drawing import Drawing

MODES: Dict[str, Sequence[str]] = {
    'inside': ['inside'],
    'overlap': ['overlap'],
    'void': ['void'],
    'crossing': ['overlap', 'inside'],  # the first without the second
}


def corners_of(words: Sequence[str], scale: Scale) -> List[Point]:
    """The corners of the box that two places span, in their order around it, to the nearest unit of resolution, and at
    most as far as the design plane goes. It raises Mistake where one is no place."""
    first, second = ([rounded(it) for it in scale.exact(coordinates(word))] for word in words)
    low = [max(PLANE_LOW, min(pair)) for pair in zip(first, second)]
    high = [min(PLANE_HIGH, max(pair)) for pair in zip(first, second)]
    low, high = [min(pair) for pair in zip(low, high)], [max(pair) for pair in zip(low, high)]
    return [(low[0], low[1]), (high[0], low[1]), (high[0], high[1]), (low[0], high[1])]


def polygon_of(words: Sequence[str], scale: Scale) -> List[Point]:
    """The corners of a fence: of the box that two places span, or of the polygon through three and more. It raises
    Mistake where these are none."""
    if len(words) == 2:
        return corners_of(words, scale)
    return fenced([scale.nearest(coordinates(it)) for it in words])


def fenced(points: Sequence[Point]) -> List[Point]:
    """The points of a closed outline as the corners of a fence, the first one once. It raises Mistake where they are
    fewer or more than a fence has."""
    corners: List[Point] = [(it[0], it[1]) for it in points]
    while len(corners) > 1 and corners[-1] == corners[0]:
        corners.pop()
    if len(set(corners)) < CORNERS_LEAST:
        raise Mistake('a polygon needs %d different corners, and here are %d' % (CORNERS_LEAST, len(set(corners))))
    if len(corners) > CORNERS_MOST:
        raise Mistake('a polygon has at most %d corners, and here are %d' % (CORNERS_MOST, len(corners)))
    return corners


def trees_of(drawing: Drawing, corners: Sequence[Point], mode: str, takes_deleted: bool) -> FrozenSet[int]:
    """The roots of the trees that a fence takes. With `takes_deleted` what is marked deleted is asked for as if it
    weren't, in a copy in which nothing is."""
    script = Script().fence(corners)
    for word in MODES[mode]:
        script.select(word)
    if takes_deleted and drawing.elements.deleted():
        with tempfile.TemporaryDirectory(prefix='dgnkit-') as folder:
            name = undeleted(drawing, folder)
            answers = drawing.program.listed(name, script)
    else:
        answers = drawing.listed(script)
    chosen = [frozenset(chosen_of(it.lines)) for it in answers[1:]]
    return chosen[0].difference(*chosen[1:])


def undeleted(drawing: Drawing, folder: str) -> str:
    """The name of a copy of a drawing in which nothing is marked deleted, which the program makes in a folder."""
    patch, elements = Patch(), drawing.elements
    marks = {elements.offsets[it] + 1: elements.types[it] for it in elements.deleted()}
    patch.add(drawing.body_length, drawing.data, marks)
    name, out = os.path.join(folder, 'patch'), os.path.join(folder, 'undeleted.dgn')
    Path(name).write_bytes(patch.to_bytes())
    drawing.program.apply(drawing.path, name, out)
    return out
