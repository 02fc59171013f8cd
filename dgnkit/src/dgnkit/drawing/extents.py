"""Where what is drawn lies, of all elements at once: a million of them are gone through, so their ranges are taken as
columns of words."""

from __future__ import annotations

import sys
from array import array
from itertools import compress
from typing import AbstractSet, Dict, List, Optional, Tuple

from ..format import classes
from ..format.elements import Elements
from ..format.numbers import OFFSET, Point

Extent = Tuple[Point, Point]
RANGE = 6  # numbers in a range
IS_DRAWN = bytes(kind in classes.DRAWN for kind in range(256))
HAS_COUNT = bytes(kind in classes.VERTICES and kind != classes.LINE for kind in range(256))


def extent_of(elements: Elements, left: AbstractSet[int], hulls: Dict[int, Extent]) -> Optional[Extent]:
    """The least box that holds what is drawn but for the elements that are left out: by stored ranges, or by the hulls
    of those that have one. None where nothing is drawn."""
    data = elements.data
    chosen = bytearray(elements.types.translate(IS_DRAWN))
    for number in _without_points(elements):
        chosen[number] = 0
    for number in (*left, *hulls):
        chosen[number] = 0
    ranges = _numbers(b''.join([data[at + 4 : at + 28] for at in compress(elements.offsets, chosen)]))
    boxes: List[Extent] = [hull for number, hull in hulls.items() if number not in left]
    if ranges:
        axes = range(elements.axes)
        low = tuple(min(ranges[it::RANGE]) - OFFSET for it in axes)
        boxes.append((low, tuple(max(ranges[it + 3 :: RANGE]) - OFFSET for it in axes)))
    if not boxes:
        return None
    lows, highs = zip(*boxes)
    return tuple(map(min, zip(*lows))), tuple(map(max, zip(*highs)))


def _without_points(elements: Elements) -> List[int]:
    """The numbers of the line strings, shapes and curves that have no point."""
    data, numbers = elements.data, range(len(elements))
    counted = elements.types.translate(HAS_COUNT)
    places = zip(compress(numbers, counted), compress(elements.offsets, counted))
    return [number for number, at in places if data[at + 36] == data[at + 37] == 0]


def _numbers(content: bytes) -> array[int]:
    """Range numbers without their offset, one behind the other: each of two words, the high one first."""
    swapped = bytearray(len(content))
    for place in range(4):
        swapped[place::4] = content[place ^ 2 :: 4]
    made = array('I', bytes(swapped))
    if sys.byteorder == 'big':
        made.byteswap()
    return made
