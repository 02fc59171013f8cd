"""What a byte of an element is, in words (docs/FORMAT.md)."""

from __future__ import annotations

from typing import Tuple

from . import classes
from .element import Element

HEAD = [
    (0, 1, 'level and bit C'),
    (1, 2, 'type and deleted bit'),
    (2, 4, 'number of words'),
    (4, 16, 'low corner of the range'),
    (16, 28, 'high corner of the range'),
    (28, 30, 'graphic group'),
    (30, 32, 'attribute index'),
    (32, 34, 'properties'),
    (34, 35, 'weight and style'),
    (35, 36, 'colour'),
]


def field_name(element: Element, place: int) -> str:
    """The field that the byte `place` of an element belongs to."""
    if element.is_silent and place >= 4:
        return 'unread data'
    for start, end, name in HEAD:
        if start <= place < end:
            return name
    if place >= element.linkage_place:
        return 'attribute data'
    return _body_field(element, place)


def _body_field(element: Element, place: int) -> str:
    if element.type in classes.COUNTED and place < 38:
        return 'total'
    if element.type == classes.TEXT and element.text_place <= place:
        return 'characters'
    start, end = points_span(element)
    if start <= place < end:
        if element.type not in classes.VERTICES:
            return 'origin'
        return 'point %d' % ((place - start) // (4 * element.axes) + 1)
    if element.type == classes.TEXT and 38 <= place < 46:
        return 'size'
    if element.type == classes.TEXT and 46 <= place < start:
        return 'rotation'
    if element.type == classes.CELL and 38 <= place < 42:
        return 'name of the cell'
    return 'body'


def points_span(element: Element) -> Tuple[int, int]:
    """Where an element's points or its origin begin and end, 0 and 0 where none are read."""
    start = element.points_place
    return (0, 0) if start is None else (start, start + 4 * element.axes * element.points_count)
