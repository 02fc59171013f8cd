"""Which elements are members, in words: what is edited alone may tear a tree."""

from __future__ import annotations

from typing import Dict, List, Sequence

from ..drawing.drawing import Drawing
from ..format.element import described
from ..output import few, listed


def by_root(drawing: Drawing, numbers: Sequence[int]) -> Dict[int, List[int]]:
    """The members among elements whose root isn't among them, by that root."""
    roots, there = drawing.nesting.roots, bytearray(len(drawing.elements))
    for number in numbers:
        there[number] = 1
    made: Dict[int, List[int]] = {}
    for number in numbers:
        if not there[roots[number]]:
            made.setdefault(roots[number], []).append(number)
    return made


def parts_said(drawing: Drawing, numbers: Sequence[int], most: int) -> List[str]:
    """What members there are among elements, a line for each tree: `28 and 29 are members of complex chain 27`."""
    found = by_root(drawing, numbers)
    said = [part_said(drawing, root, found[root]) for root in list(found)[:most]]
    more = list(found)[most:]
    if more:
        said.append('and so are elements of %d more trees: %s' % (len(more), few(more)))
    return said


def part_said(drawing: Drawing, root: int, numbers: Sequence[int]) -> str:
    """Members of one tree."""
    names = listed(numbers) if len(numbers) <= 8 else few(numbers)
    return '%s %s of %s' % (
        names,
        'is a member' if len(numbers) == 1 else 'are members',
        described(drawing.elements[root]),
    )
