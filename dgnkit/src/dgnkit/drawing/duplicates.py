"""Trees that stand in a drawing more than once: the same bytes, but for the graphic group; or the same geometry."""

from __future__ import annotations

from array import array
from functools import partial
from typing import Callable, Dict, Hashable, Iterable, List, Sequence, Set

from ..format import classes
from .drawing import Drawing

RANGE, GROUP, BEHIND = 4, 28, 30  # where the range and the graphic group stand, and what follows them
Content = Callable[[Drawing, int], bytes]
IS_LOUD = bytes(kind in classes.LOUD for kind in range(256))


def duplicates(drawing: Drawing) -> List[List[int]]:
    """The roots of trees that are the same, those of one kind as a list, in file order. What is marked deleted or isn't
    drawn doesn't count."""
    return sorted(_alike(drawing, front_of, content_of))


def repeated(drawing: Drawing) -> Set[int]:
    """The roots of trees that repeat an earlier one: of the same types and levels with the same points; what has no
    such points of the same bytes, but for the range and the graphic group."""
    return {it for group in _alike(drawing, geometry_of, geometry_of) for it in group[1:]}


def _alike(drawing: Drawing, front: Content, content: Content) -> List[List[int]]:
    """The roots of live trees of one content, those of each as a list in file order; trees of one content have one
    front."""
    depths, dead = drawing.nesting.depths, drawing.dead
    drawn = drawing.elements.of_types(classes.DRAWN | classes.COUNTED)
    roots = array('I', (it for it in drawn if depths[it] == 0 and it not in dead))
    likely = _repeated(_repeated(roots, partial(front, drawing)), partial(content, drawing))
    return _groups(likely, partial(content, drawing))


def _repeated(roots: Sequence[int], key: Callable[[int], Hashable]) -> Sequence[int]:
    """Those whose key has the same hash as that of another one: few, of which alone more than that is kept."""
    hashes = array('q', (hash(key(it)) for it in roots))
    seen: Set[int] = set()
    again: Set[int] = set()
    for it in hashes:
        (again if it in seen else seen).add(it)
    return array('I', (root for root, it in zip(roots, hashes) if it in again))


def _groups(roots: Iterable[int], key: Callable[[int], Hashable]) -> List[List[int]]:
    """Those that have a key in common with another one."""
    found: Dict[Hashable, List[int]] = {}
    for root in roots:
        found.setdefault(key(root), []).append(root)
    return [some for some in found.values() if len(some) > 1]


def front_of(drawing: Drawing, root: int) -> bytes:
    """The bytes of a root before its graphic group."""
    at = drawing.elements.offsets[root]
    return drawing.data[at : at + GROUP]


def content_of(drawing: Drawing, root: int) -> bytes:
    """The bytes of a tree without graphic groups."""
    data, offsets, sizes, types = drawing.data, drawing.elements.offsets, drawing.elements.sizes, drawing.elements.types
    pieces = []
    for number in drawing.nesting.part(root):
        at, end = offsets[number], offsets[number] + sizes[number]
        if IS_LOUD[types[number]]:
            pieces += [data[at : at + GROUP], data[at + BEHIND : end]]
        else:
            pieces.append(data[at:end])
    return b''.join(pieces)


def geometry_of(drawing: Drawing, root: int) -> bytes:
    """The types, levels and points of a tree; of elements without such points all bytes but ranges and graphic
    groups."""
    pieces = []
    for number in drawing.nesting.part(root):
        element, content = drawing.elements[number], drawing.elements[number].content
        if element.type in classes.VERTICES and element.points_count:
            place = element.points_place or 0
            pieces += [content[:2], content[place : place + 4 * element.axes * element.points_count]]
        elif element.is_silent:
            pieces.append(content)
        else:
            pieces += [content[:RANGE], content[BEHIND:]]
    return b''.join(pieces)
