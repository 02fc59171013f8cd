"""The cells of a drawing by their names."""

from __future__ import annotations

from typing import List

from ..errors import NothingThere
from ..format import classes
from ..format.element import Element
from .drawing import Drawing


def cells_of(drawing: Drawing, takes_deleted: bool = False) -> List[Element]:
    """The cells that aren't marked deleted, or with `takes_deleted` those that are."""
    cells = (drawing.elements[it] for it in drawing.elements.of_types(frozenset([classes.CELL])))
    return [it for it in cells if (it.number in drawing.dead) == takes_deleted]


def names_said(drawing: Drawing) -> str:
    """What cells there are, in words."""
    names = sorted({it.cell_name or '(no name)' for it in cells_of(drawing)})
    if not names:
        return 'the drawing has no cells'
    return 'the cells are ' + ', '.join(names[:20]) + (' and %d more' % (len(names) - 20) if len(names) > 20 else '')


def cells_called(drawing: Drawing, name: str, takes_deleted: bool = False) -> List[Element]:
    """The cells of a name, of which case doesn't count. It raises Mistake where there is none."""
    wanted = name.strip().upper()
    found = [it for it in cells_of(drawing, takes_deleted) if (it.cell_name or '').upper() == wanted]
    if not found:
        raise NothingThere('no cell is called %r: %s' % (name, names_said(drawing)))
    return found
