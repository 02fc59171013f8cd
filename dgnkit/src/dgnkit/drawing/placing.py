"""Where the elements of a drawing are drawn: one geometry for each that is drawn by itself."""

from __future__ import annotations

from functools import cached_property
from typing import Generic, Iterable, Iterator, List, NamedTuple, Optional, Sequence, Set, Tuple

from ..format import classes
from ..format.element import Element
from ..format.numbers import Point
from ..waiting import told
from .drawing import Drawing
from .geometry import Box
from .spelling import Spelled, Spelling

ONLY_RANGE = classes.BY_RANGE - classes.WORDS  # what is known by its stored range alone
CLOSED = frozenset([classes.SHAPE, classes.COMPLEX_SHAPE])


class Geometry(Generic[Spelled]):
    """Where something is: its kind, and its coordinates as they are spelled."""

    __slots__ = ('kind', 'coordinates')

    def __init__(self, kind: str, coordinates: Spelled) -> None:
        self.kind, self.coordinates = kind, coordinates


class Placed(NamedTuple):
    """An element that is drawn, the element whose look it has, the last one that it stands for, and where it is."""

    element: Element
    look: Element
    last: int
    kind: str
    coordinates: object

    @property
    def level(self) -> int:
        """The level that it is drawn on: that of its header where its own is 0, as GDAL's rings have it."""
        return self.look.level or self.element.level


class Placing(Generic[Spelled]):
    """Says where the elements of a drawing are."""

    def __init__(
        self,
        drawing: Drawing,
        spelling: Spelling[Spelled],
        has_members: bool = False,
        has_holes: bool = False,
        has_deleted: bool = False,
    ) -> None:
        """`has_members` is whether the members of complex chains and shapes are placed too, `has_holes` whether a cell
        of an area and its holes is one area, and `has_deleted` whether what is marked deleted is placed."""
        self.drawing, self.spelling = drawing, spelling
        self.has_members, self.has_holes, self.has_deleted = has_members, has_holes, has_deleted

    @cached_property
    def extent(self) -> Optional[Tuple[Point, Point]]:
        """What all that is drawn lies in."""
        return self.drawing.extent

    def all(self) -> Iterator[Placed]:
        """All that is drawn, in file order."""
        elements = self.drawing.elements
        return self.of(told('features', elements, len(elements)))

    def of(self, chosen: Iterable[Element]) -> Iterator[Placed]:
        """What is drawn of the elements of whole trees, which are in file order."""
        elements, hidden, covered = self.drawing.elements, self.hidden, -1
        for element in chosen:
            number = element.number
            if element.type not in classes.LOUD or number in hidden or number <= covered:
                continue
            geometry = self.geometry(element)
            if geometry is None:
                continue
            last, look = number, element
            if self.is_joined(element, geometry.kind):
                last = self.drawing.nesting.part(number).stop - 1
                covered = covered if self.has_members else last
                look = elements[number + 1] if element.type == classes.CELL else element
            yield Placed(element, look, last, geometry.kind, geometry.coordinates)

    @property
    def hidden(self) -> Set[int]:
        """What isn't placed: what stands below shared cell definitions, and what is marked deleted."""
        return self.drawing.defined if self.has_deleted else self.drawing.dead | self.drawing.defined

    def is_joined(self, element: Element, kind: str) -> bool:
        """Whether a geometry of this kind is that of an element's members together."""
        return element.type in classes.JOINED or (element.type == classes.CELL and kind == 'Polygon')

    def geometry(self, element: Element) -> Optional[Geometry[Spelled]]:
        """Where an element is drawn; none of a header whose members are drawn by themselves."""
        if element.type in classes.VERTICES:
            return self.path(element.points, element.type == classes.SHAPE)
        if element.type in classes.WORDS:
            return Geometry('Point', self.spelling.place(element.points[0]))
        if element.type in classes.JOINED:
            return self.joined(element)
        if element.type in classes.COUNTED:
            return self.with_holes(element) or self.origin(element)
        stored = element.range if element.type in classes.BY_RANGE else None
        if stored is None:
            return None
        (low_x, low_y), (high_x, high_y) = stored[0][:2], stored[1][:2]
        return self.ring([(*it, *stored[0][2:]) for it in Box(low_x, low_y, high_x, high_y).corners])

    def origin(self, header: Element) -> Optional[Geometry[Spelled]]:
        """Where a cell or a text node is: its origin, or the middle of its range where that lies outside of all that is
        drawn, as GDAL's cells have their origin."""
        points = header.points
        if self.drawing.nesting.knot(header.number) != 'group' or not points:
            return None
        point, stored = points[0], header.range
        if stored is not None and self.is_outside(point):
            point = tuple((a + b) // 2 for a, b in zip(*stored))
        return Geometry('Point', self.spelling.place(point))

    def is_outside(self, point: Point) -> bool:
        """Whether a place lies outside of all that is drawn."""
        if self.extent is None:
            return False
        return not all(a <= it <= b for a, it, b in zip(self.extent[0], point, self.extent[1]))

    def path(self, points: Sequence[Point], is_closed: bool) -> Optional[Geometry[Spelled]]:
        """A line, or an outline; a point where there is one alone."""
        if not points:
            return None
        places = len(set(points))
        if places == 1:
            return Geometry('Point', self.spelling.place(points[0]))
        if is_closed and places > 2:
            return self.ring(points)
        return Geometry('LineString', self.spelling.row(points))

    def ring(self, *outlines: Sequence[Point]) -> Geometry[Spelled]:
        """An outline through points, and the holes in it."""
        closed = [list(it) if it[0] == it[-1] and len(it) > 1 else [*it, it[0]] for it in outlines]
        return Geometry('Polygon', self.spelling.rings([self.spelling.row(it) for it in closed]))

    def joined(self, header: Element) -> Optional[Geometry[Spelled]]:
        """The members of a complex chain as lines, and those of a complex shape as one outline, where they meet; none
        where a member is no path."""
        lines = self.lines(header)
        if not lines:
            return None
        if header.type == classes.COMPLEX_SHAPE and all(one[-1] == other[0] for one, other in zip(lines, lines[1:])):
            return self.path(chained(lines), True)
        return Geometry('MultiLineString', self.spelling.lines([self.spelling.row(it) for it in lines]))

    def lines(self, header: Element) -> List[List[Point]]:
        """The points of the members of a complex chain or shape; none where a member is no path."""
        made: List[List[Point]] = []
        dead = set() if header.number in self.drawing.dead else self.drawing.dead
        for number in self.drawing.nesting.part(header.number)[1:]:
            member = self.drawing.elements[number]
            if number in dead:
                continue
            if member.type not in classes.VERTICES or not member.points_count:
                return []
            made.append(member.points)
        return made

    def with_holes(self, header: Element) -> Optional[Geometry[Spelled]]:
        """A cell of an area and holes in it as one area; none where the cell is anything else."""
        nesting, elements = self.drawing.nesting, self.drawing.elements
        if not self.has_holes or header.type != classes.CELL or nesting.knot(header.number) != 'group':
            return None
        part = nesting.part(header.number)
        members: List[Element] = []
        at = header.number + 1
        while at < part.stop:
            if elements.types[at] not in CLOSED or elements[at].is_hole != bool(members):
                return None
            members.append(elements[at])
            at = nesting.ends[at]
        outlines = [it for it in map(self.outline, members) if it]
        is_whole = len(members) > 1 and len(outlines) == len(members)
        return self.ring(*outlines) if is_whole and not self.drawing.dead.intersection(part[1:]) else None

    def outline(self, element: Element) -> List[Point]:
        """The points of a shape or a complex shape; none where these are no outline."""
        if element.type == classes.SHAPE:
            points = element.points
        else:
            lines = self.lines(element)
            points = chained(lines) if all(one[-1] == other[0] for one, other in zip(lines, lines[1:])) else []
        return points if len(set(points)) > 2 else []


def chained(lines: Sequence[List[Point]]) -> List[Point]:
    """Lines that meet, as one."""
    return [*lines[0], *(it for line in lines[1:] for it in line[1:])] if lines else []
