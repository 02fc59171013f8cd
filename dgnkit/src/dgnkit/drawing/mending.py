"""What of broken trees can be mended by a few bytes: bit C of a header at the root, whose members fit; and a total that
leaves out the header's own attribute data. Only where the header then holds exactly some number of the elements behind
it: anything else is told and left."""

from __future__ import annotations

from dataclasses import dataclass, field
from typing import List, Tuple

from ..format import classes
from ..format.element import Element
from ..output import counted
from .broken import why_loose
from .changes import Change
from .drawing import Drawing
from .reach import Reach, bytes_of

LOOSE_MOST = 1000  # of more loose headers before an orphan it isn't asked which ranges hold it


@dataclass
class Left:
    """A broken element that is left, and why."""

    element: Element
    why: str


@dataclass
class Mending:
    """What is mended of a drawing, and what is left."""

    changes: List[Change] = field(default_factory=list)
    left: List[Left] = field(default_factory=list)


def mending_of(drawing: Drawing) -> Mending:
    """Goes through the drawing as nesting does, with each header mended that can be."""
    walk = _Walk(drawing)
    walk.all()
    return walk.made


class _Walk:
    """A walk through lists of elements: that of all, and those of the members of headers."""

    def __init__(self, drawing: Drawing) -> None:
        self.elements, self.rows = drawing.elements, drawing.rows
        self.made = Mending()
        self.lists: List[Tuple[int, int, bool]] = []  # that are still to be walked, the next one last
        self.loose: List[Element] = []  # the loose headers whose members the next roots with bit C may be

    def all(self) -> None:
        """Walks the list of all elements, and those of members, each from a place to before an end."""
        self.lists = [(1, len(self.elements), True)]
        while self.lists:
            at, end, is_root = self.lists.pop()
            if at < end:
                self.element(self.elements[at], end, is_root)

    def go_on(self, at: int, end: int, is_root: bool) -> None:
        """Lets the walk go on with a list at a place; lists that are given later are walked first."""
        self.lists.append((at, end, is_root))

    def element(self, element: Element, end: int, is_root: bool) -> None:
        """Walks an element of a list that ends at `end`."""
        at = element.number
        if is_root and not element.has_c:
            self.loose = []
        if element.type in classes.COUNTED:
            self.header(element, end, is_root)
        elif element.type in classes.SPLINES:
            self.orphan(element, is_root)
            self.go_on(self.behind_spline(at, end), end, is_root)
        elif element.type == classes.DEFINITION and is_root:
            self.orphan(element, is_root)
            self.definition(at, end)
        else:
            self.orphan(element, is_root)
            self.go_on(at + 1, end, is_root)

    def behind_spline(self, at: int, end: int) -> int:
        """Where the parts of a B-spline end."""
        at += 1
        while at < end and self.elements[at].has_c and self.elements[at].type in classes.SPLINE_PARTS:
            at += 1
        return at

    def definition(self, at: int, end: int) -> None:
        """Walks what a shared cell definition holds, and then what stands behind it."""
        behind = at + 1
        while behind < end and self.elements[behind].has_c:
            behind += 1
        self.go_on(behind, end, True)
        self.go_on(at + 1, behind, False)

    def orphan(self, element: Element, is_root: bool) -> None:
        """Tells of an orphan that is no header over counted members."""
        if is_root and element.has_c:
            self.made.left.append(
                Left(
                    element, 'orphan: marked as part of a group (bit C), but no group claims it, and it is not a header'
                )
            )

    def header(self, element: Element, end: int, is_root: bool) -> None:
        """Mends a counted header where it can, walks its members, and gives where they end."""
        reach = Reach(self.rows, element.number, end)
        fitting = reach.total if reach.count_of(bytes_of(reach.total)) is not None else reach.fitting_total()
        members = None if fitting is None else reach.count_of(bytes_of(fitting))
        if fitting is None or members is None:
            self.go_on(self.stay_loose(element, reach, is_root), end, is_root)
            return
        behind = element.number + members + 1
        self.mend(element, fitting, behind, is_root and element.has_c)
        self.go_on(behind, end, is_root)
        self.go_on(element.number + 1, behind, False)

    def mend(self, element: Element, total: int, behind: int, is_orphan: bool) -> None:
        """Makes the change of a header that wants one so that it holds the elements up to `behind`. What is locked
        stays, and so does bit C of what may be a member of a loose header before it."""
        change = Change(element, {}, [], behind - element.number - 1)
        if total != element.total:
            change.edits.update({element.offset + 36: total & 0xFF, element.offset + 37: total >> 8})
            said = 'total %d becomes %d, counting its own %d bytes of attribute data'
            change.words.append(said % (element.total or 0, total, element.size - element.linkage_place))
        if is_orphan and not self.may_belong(element):
            self.loose = []
            change.edits[element.offset] = element.content[0] & 0x7F
            change.words.append('member mark (bit C) cleared')
        if change.edits and element.is_locked:
            said = 'locked, so it is left as it is, with %s: unlock it first'
            self.made.left.append(Left(element, said % counted(change.members, 'member')))
        elif change.edits:
            change.words.append('now with ' + counted(change.members, 'member'))
            self.made.changes.append(change)

    def may_belong(self, element: Element) -> bool:
        """Whether an orphan may be a member of a loose header before it, and then is left. A complex chain, shape,
        surface or solid that doesn't lie in that header's range is none; GDAL sets bit C of each such at the root."""
        if not self.loose or (element.type in classes.COMPLEX and not self.may_hold(element)):
            return False
        said = 'orphan whose own members match, but it may belong to the loose header %d before it'
        self.made.left.append(Left(element, said % self.loose[-1].number))
        return True

    def may_hold(self, element: Element) -> bool:
        """Whether an element lies in the range of a loose header before it, or there are too many of these to ask."""
        return len(self.loose) > LOOSE_MOST or any(holds(it, element) for it in self.loose)

    def stay_loose(self, element: Element, reach: Reach, is_root: bool) -> int:
        """Tells of a header that stays loose, and gives where to go on."""
        self.made.left.append(Left(element, why_loose(reach)))
        members = reach.wrapped()
        if members is not None:
            return element.number + members + 1
        if is_root:
            self.loose.append(element)
        return element.number + 1


def holds(header: Element, element: Element) -> bool:
    """Whether an element's stored range lies in that of a header."""
    outer, inner = header.range, element.range
    if outer is None or inner is None:
        return True
    return all(a <= b for a, b in zip(outer[0], inner[0])) and all(a >= b for a, b in zip(outer[1], inner[1]))
