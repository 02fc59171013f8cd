"""Which elements may be shown in another way than in the drawing that a drawing was made of."""

from itertools import compress
from operator import ne
from typing import Dict, Iterable, Iterator, List, Set

from dgnkit.drawing.drawing import Drawing
from dgnkit.drawing.nesting import Nesting
from dgnkit.drawing.placing import Placing
from dgnkit.format import classes

Reasons = Dict[int, str]  # by the root of a broken tree why it is


def changed_numbers(old: Placing[bytes], new: Placing[bytes], reasons: Reasons, new_reasons: Reasons) -> List[int]:
    """The numbers of all elements of the trees, in either drawing, in which anything differs. What is said of an
    element, and where it is drawn, is told by its tree, and by what holds for the whole drawing."""
    one, other = old.drawing, new.drawing
    if one.units != other.units or one.colours != other.colours:
        return list(range(max(len(one.elements), len(other.elements))))
    found = set(differing_bytes(one, other))
    found.update(differing_nesting(one.nesting, other.nesting))
    found.update(key for key in {*reasons, *new_reasons} if reasons.get(key) != new_reasons.get(key))
    found.update(differing_origins(old, new))
    return sorted(whole_trees(one.nesting, found) | whole_trees(other.nesting, found))


def differing_bytes(one: Drawing, other: Drawing) -> Iterator[int]:
    """The elements whose bytes differ, and those that only one drawing has."""
    counts = sorted([len(one.elements), len(other.elements)])
    yield from compress(range(counts[0]), map(ne, one.elements.contents(), other.elements.contents()))
    yield from range(*counts)


def differing_nesting(one: Nesting, other: Nesting) -> Set[int]:
    """The elements that stand otherwise in their trees."""
    made = {number for number, _ in one.knots.items() ^ other.knots.items()} | (one.orphans ^ other.orphans)
    for column, there in ((one.roots, other.roots), (one.depths, other.depths)):
        made.update(compress(range(len(column)), map(ne, column, there)))
    return made


def differing_origins(old: Placing[bytes], new: Placing[bytes]) -> Iterator[int]:
    """The cells and text nodes whose origins have come to lie within what is drawn, or don't any more."""
    count = min(len(old.drawing.elements), len(new.drawing.elements))
    headers = [it for it in new.drawing.elements.of_types(classes.COUNTED) if it < count]
    if not headers or old.extent == new.extent:
        return
    for number in headers:
        points = new.drawing.elements[number].points
        if points and old.is_outside(points[0]) != new.is_outside(points[0]):
            yield number


def whole_trees(nesting: Nesting, numbers: Iterable[int]) -> Set[int]:
    """All elements of the trees of some, of which a drawing may not have each."""
    count = len(nesting.roots)
    roots = {nesting.roots[it] for it in numbers if it < count}
    return {number for root in roots for number in nesting.part(root)}
