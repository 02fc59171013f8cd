"""What comes of importing one drawing into another: displacement, what is left out, and where both lie."""

from __future__ import annotations

from dataclasses import dataclass
from fractions import Fraction
from typing import List, Optional, Tuple

from ..drawing.drawing import Drawing
from ..errors import Mistake
from ..format.limits import FARTHEST
from ..format.numbers import Point
from ..format.units import Units, rounded, shortest
from ..output import counted, few
from ..program.script import importable

Extent = Tuple[Point, Point]


@dataclass
class Merge:
    """An import of a drawing: by what its elements are moved, and its roots that are taken, broken or deleted."""

    drawing: Drawing
    shift: Point
    is_rounded: bool
    taken: List[int]
    broken: List[int]
    deleted: List[int]

    @property
    def line(self) -> str:
        """The line of the script."""
        words = ['import', importable(self.drawing.path), *(map(str, self.shift) if any(self.shift) else ())]
        return ' '.join(words)


def merge_of(first: Drawing, other: Drawing) -> Merge:
    """How another drawing comes into the first. It raises Mistake where the axes or the units are others."""
    ask_alike(first, other)
    exact = [one - two for one, two in zip(first.units.origin, other.units.origin)][: first.axes]
    shift = tuple(rounded(it) for it in exact)
    if any(abs(it) > FARTHEST for it in shift):
        raise Mistake('the global origins of %s and %s are too far apart' % (first.path, other.path))
    roots = [it for it in other.roots if it and not other.elements[it].is_silent]
    broken = [it for it in roots if it in other.nesting.broken_roots and not other.elements[it].is_deleted]
    deleted = [it for it in roots if other.elements[it].is_deleted]
    left = {*broken, *deleted}
    taken = [it for it in roots if it not in left]
    return Merge(other, shift, any(it.denominator != 1 for it in exact), taken, broken, deleted)


def ask_alike(first: Drawing, other: Drawing) -> None:
    """It raises Mistake where the axes or a unit of resolution aren't the same in both."""
    if first.axes != other.axes:
        raise Mistake('%s has %d dimensions, and %s has %d' % (other.path, other.axes, first.path, first.axes))
    if not same_units(first.units, other.units):
        said = '%s and %s have different units. %s: %s. %s: %s'
        names = other.path, first.path
        raise Mistake(said % (*names, other.path, other.units.said, first.path, first.units.said))


def same_units(one: Units, other: Units) -> bool:
    """Whether units of resolution are of one length: in metres where both are known, else by names and counts."""
    lengths = [_resolution_metres(it) for it in (one, other)]
    if lengths[0] is not None and lengths[1] is not None:
        return lengths[0] == lengths[1]
    if not one.is_known and not other.is_known:
        return True
    names = [(it.master_name.lower(), it.in_master) for it in (one, other)]
    return names[0] == names[1]


def _resolution_metres(units: Units) -> Optional[Fraction]:
    metres = units.master_metres
    return None if metres is None else metres / units.in_master


def words_of(first: Drawing, merge: Merge) -> List[str]:
    """What an import does, in words."""
    other, units = merge.drawing, first.units
    said = ['%s: %s' % (other.path, counted(len(merge.taken), 'tree') + ' would be imported')]
    if any(merge.shift):
        said.append('  moved %s, since the global origins differ' % units.shift_said(merge.shift))
    else:
        said.append('  not moved, since the global origins are the same')
    if merge.is_rounded:
        said.append('  the displacement is rounded to whole units of resolution')
    return [*said, *('  ' + it for it in _extents_said(first, merge))]


def left_of(merge: Merge) -> List[str]:
    """What of a drawing is left out by the import, in words."""
    said = []
    if merge.broken:
        trees = counted(len(merge.broken), 'broken tree')
        said.append('%s: left out: %s (%s); run `dgnkit mend` first' % (merge.drawing.path, trees, few(merge.broken)))
    if merge.deleted:
        trees = counted(len(merge.deleted), 'tree')
        said.append('%s: left out: %s marked deleted (%s)' % (merge.drawing.path, trees, few(merge.deleted)))
    return said


def _extents_said(first: Drawing, merge: Merge) -> List[str]:
    """Both extents in the first drawing's places, and where they overlap."""
    own, other = first.extent, merge.drawing.extent
    if own is None or other is None:
        return ['nothing is drawn in %s' % (first.path if own is None else merge.drawing.path)]
    low, high = moved(other[0], merge.shift), moved(other[1], merge.shift)
    common_low = tuple(max(pair) for pair in zip(own[0], low))
    common_high = tuple(min(pair) for pair in zip(own[1], high))
    said = ['extent of %s: %s' % (first.path, extent_said(first.units, own))]
    said.append('extent of %s after the import: %s' % (merge.drawing.path, extent_said(first.units, (low, high))))
    if all(a <= b for a, b in zip(common_low, common_high)):
        return [*said, 'they overlap: %s' % extent_said(first.units, (common_low, common_high))]
    return [*said, "they don't overlap"]


def moved(point: Point, shift: Point) -> Point:
    """A point, moved."""
    return tuple(a + b for a, b in zip(point, shift))


def extent_said(units: Units, extent: Extent) -> str:
    """Two corners in words, in master units where these are known."""
    if not units.is_known:
        return '%s to %s units of resolution' % tuple(','.join(map(str, it)) for it in extent)
    corners = [','.join(map(shortest, units.to_master(it))) for it in extent]
    return '%s to %s %s' % (corners[0], corners[1], units.name)
