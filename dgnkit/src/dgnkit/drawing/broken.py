"""Why a tree is broken: headers whose total fits no members, and roots with bit C (docs/FORMAT.md)."""

from __future__ import annotations

from ..format import classes
from ..format.element import Element
from ..format.limits import TOTAL_MOST
from ..output import counted
from .drawing import Drawing
from .reach import Reach, bytes_of


def list_end(drawing: Drawing, number: int) -> int:
    """Where the list ends that an element stands in."""
    parent = drawing.nesting.parents[number]
    return len(drawing.elements) if parent < 0 else drawing.nesting.part(parent).stop


def why_broken(drawing: Drawing, number: int) -> str:
    """Why an element is broken, in words."""
    element, is_orphan = drawing.elements[number], number in drawing.nesting.orphans
    pieces = []
    if is_orphan:
        pieces.append(why_orphan(drawing, element))
    if drawing.nesting.knot(number) == 'loose':
        pieces.append(why_loose(Reach(drawing.rows, number, list_end(drawing, number))))
    return '; and '.join(pieces)


def why_orphan(drawing: Drawing, element: Element) -> str:
    """Why an orphan is one, in words."""
    said = 'orphan: marked as part of a group (bit C), but no group claims it'
    below = len(drawing.nesting.part(element.number)) - 1
    if element.type in classes.COUNTED and drawing.nesting.knot(element.number) == 'group':
        return '%s (its own total is right: %s)' % (said, counted(below, 'member'))
    return said


def why_loose(reach: Reach) -> str:
    """Why a header is loose, with its total and what would fit."""
    said = 'loose: its total of %d means %d bytes, but ' % (reach.total, bytes_of(reach.total))
    if reach.most == 0:
        said += 'it has %d, and no element after it is marked as a member' % reach.size(0)
    else:
        marked = counted(reach.most, 'element')
        said += 'with the %s marked as members after it, it has %d' % (marked, reach.size(reach.most))
    fitting = reach.fitting_total()
    if fitting is not None:
        return said + '; %d would match, counting its own %d bytes of attribute data' % (fitting, 2 * reach.own_words)
    if reach.wrapped() is not None:
        return said + '; its members have more than %d words, the most that a total can count' % TOTAL_MOST
    near = ['%d (%s)' % (total, counted(members, 'member')) for total, members in reach.near_totals()]
    return said + ('; %s would match' % ' or '.join(near) if near else '')
