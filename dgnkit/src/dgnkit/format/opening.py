"""What keeps a file from being a drawing (docs/FORMAT.md, How a file opens), for those who read without the program."""

from __future__ import annotations

from typing import Optional, Tuple

from . import classes, tables
from .element import POINTS_IN, TEXT_IN, Element
from .elements import Elements
from .numbers import word_at

Fault = Tuple[str, int]  # as the program says it, and the byte at which the element begins


def fault_in(elements: Elements) -> Optional[Fault]:
    """The first element that is too short for its body, or whose attribute data begin where they can't; none where the
    program opens the file."""
    for number in elements.of_types(classes.LOUD):
        element = elements[number]
        end = _body_end(element)
        if end > element.size:
            return 'short', element.offset
        if element.properties & tables.LINKED and not end <= element.linkage_place <= element.size:
            return 'attributes', element.offset
    return None


def _body_end(element: Element) -> int:
    """The first byte behind the body; of an element that is too short for its own count one that it doesn't reach."""
    kind, axes = element.type, element.axes
    if kind in classes.WORDS:
        place = TEXT_IN[axes]
        return place if element.size < place else place + element.data[element.offset + place - 2]
    count = tables.COUNTS[kind]
    if count == tables.BY_WORD:
        if element.size < tables.COUNT_AT + 2:
            return tables.COUNT_AT + 2
        count = word_at(element.data, element.offset + tables.COUNT_AT)
    return POINTS_IN[axes][kind] + 4 * axes * count
