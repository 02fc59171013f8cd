"""A drawing: what the program lists of it, and what the bytes say that no listing does. Nothing here writes one."""

from __future__ import annotations

import os
from collections import Counter
from functools import cached_property
from typing import Dict, Iterable, List, Optional, Set, Tuple

from ..errors import BadDesign, ListingError, MissingProgram, Mistake, ending_of
from ..files import mistake_of, read_drawing
from ..format import classes
from ..format.colours import Colour, Palette
from ..format.elements import Elements
from ..format.numbers import Point
from ..format.opening import Fault, fault_in
from ..format.tcb import KIND_SAID
from ..format.tcb import SIZE as TCB_SIZE
from ..format.tcb import Tcb, kind_of
from ..format.units import Units
from ..format.walking import CutElement, elements_in
from ..program.answers import Answer
from ..program.listings import (
    Finding,
    Item,
    Link,
    Node,
    Reference,
    findings_of,
    item_of,
    links_of,
    references_of,
)
from ..program.runs import Name, Program
from ..program.script import Script
from ..waiting import doing
from .extents import extent_of
from .nesting import Nesting, read_nesting
from .reach import Rows

COLOUR_TABLE_SIZE = 806


class Drawing:
    """A design file that opens. Each listing is asked for once, when it is first wanted; a file that is changed
    meanwhile is an error. The elements, the units and what differs from another drawing are read without dgnedit, all
    else needs it."""

    def __init__(self, path: Name, program: Optional[Program] = None) -> None:
        """Reads the file. It raises Mistake where it can't be read, and BadDesign where its front is none of a design
        file; whether it opens is asked when its elements are first wanted, which raises BadDesign too."""
        self.path = str(path)
        self.data = read_drawing(path)
        self._stamp = self._stamped()
        kind = kind_of(self.data)
        if kind != 'design':
            said = ['bad design not-design at 0']
            raise BadDesign('%s is %s' % (path, KIND_SAID[kind]), 4, said, 'not-design', 0)
        self._program = program

    @classmethod
    def open(cls, path: Name) -> Drawing:
        """Reads a file whose elements are all to be read. It raises Mistake where it can't be read, and BadDesign with
        the fault and its byte where it is no design file."""
        made = cls(path)
        made.elements
        return made

    @property
    def program(self) -> Program:
        """The program. It raises MissingProgram where there is none."""
        if self._program is None:
            self._program = Program.find()
        return self._program

    def _stamped(self) -> Tuple[int, ...]:
        """What of a file tells that it was written once more."""
        try:
            facts = os.stat(self.path)
        except OSError as why:
            raise mistake_of(self.path, why)
        return facts.st_dev, facts.st_ino, facts.st_size, facts.st_mtime_ns

    def listed(self, script: Script) -> List[Answer]:
        """The answers of a script that lists. It raises Mistake where the file isn't as it was read."""
        answers = self.program.listed(self.path, script)
        self._ask_unchanged()
        return answers

    def _ask_unchanged(self) -> None:
        if self._stamped() != self._stamp:
            raise Mistake('%s changed while it was being read: try again' % self.path)

    @cached_property
    def tcb(self) -> Tcb:
        """What the first element says."""
        if len(self.data) < TCB_SIZE:
            raise bad_design(self.path, 'cut', 0)
        return Tcb.read(self.data)

    @property
    def units(self) -> Units:
        """What a unit of the drawing is."""
        return self.tcb.units

    @property
    def scale(self) -> int:
        """How many units of resolution a master unit has, 0 where the drawing doesn't say."""
        return self.units.in_master

    def to_master(self, point: Point) -> Tuple[float, ...]:
        """A point in master units, from the global origin; in units of resolution where the drawing doesn't say what
        these are."""
        return tuple(self.units.to_master(point)) if self.units.is_known else tuple(map(float, point))

    @property
    def axes(self) -> int:
        """How many axes the drawing has, 2 or 3."""
        return self.tcb.axes

    @cached_property
    def elements(self) -> Elements:
        """All elements, each at its number."""
        try:
            made = self.program.elements(self.path, self.data, self.axes)
        except MissingProgram:
            made = self._elements_alone()
        doing('reading %s, which has %d elements' % (self.path, len(made)))
        self._ask_unchanged()
        return made

    def _elements_alone(self) -> Elements:
        """The elements, as they are read without the program."""
        last: Optional[Fault] = None
        try:
            made = elements_in(self.data, self.axes)
        except CutElement as why:
            last = 'cut', why.offset
            made = elements_in(self.data[: why.offset], self.axes)
        fault = fault_in(made) or last
        if fault is not None:
            raise bad_design(self.path, *fault)
        return made

    @cached_property
    def type_counts(self) -> Dict[int, int]:
        """How many elements each type has, in the order in which they are first seen."""
        return dict(Counter(self.elements.types))

    @cached_property
    def items(self) -> List[Item]:
        """What is shown, in file order."""
        return [item_of(line) for line in self.listed(Script().show())[0].lines]

    @cached_property
    def _asked(self) -> List[Answer]:
        """What `audit` and `refs` list, asked in one run, since each run reads the whole file."""
        return self.listed(Script().audit().refs())

    @cached_property
    def findings(self) -> List[Finding]:
        """The elements whose stored range isn't what they hold."""
        made = findings_of(self._asked[0].lines)
        self._ask_numbers(it.number for it in made)
        return made

    @cached_property
    def references(self) -> List[Reference]:
        """The elements that may attach a reference file."""
        made = references_of(self._asked[1].lines)
        self._ask_numbers(it.number for it in made)
        return made

    def _ask_numbers(self, numbers: Iterable[int]) -> None:
        """It raises ListingError where a listing names an element that isn't there."""
        for number in numbers:
            if number >= len(self.elements):
                raise ListingError("dgnedit named element %d of %s, which doesn't exist" % (number, self.path))

    @cached_property
    def nesting(self) -> Nesting:
        """Where each element stands in its tree."""
        return read_nesting(self.listed, self.elements)

    @cached_property
    def rows(self) -> Rows:
        """Where all elements begin, and how far those with bit C run."""
        return Rows(self.elements)

    @property
    def roots(self) -> List[int]:
        """The roots of all trees, element 0 among them."""
        return [number for number, depth in enumerate(self.nesting.depths) if depth == 0]

    def tree(self, root: int) -> List[Node]:
        """An element and all that stands below it."""
        nesting, made = self.nesting, []
        for number in nesting.part(root):
            element, orphan = self.elements[number], number in nesting.orphans
            knot, depth = nesting.knot(number), nesting.depths[number]
            made.append(Node(number, depth, element.type, element.level, knot, element.is_deleted, orphan))
        return made

    @property
    def trees(self) -> List[List[Node]]:
        """The trees of all roots, in file order."""
        return [self.tree(root) for root in self.roots]

    def links(self, numbers: Iterable[int]) -> Dict[int, List[Link]]:
        """The linkages of elements, by their numbers. Elements without attribute data aren't asked for."""
        asked = list(numbers)
        linked = [it for it in asked if self.elements[it].linkage_place < self.elements[it].size]
        script = Script()
        for number in linked:
            script.links(number)
        made: Dict[int, List[Link]] = {number: [] for number in asked}
        for number, answer in zip(linked, self.listed(script)):
            made[number] = links_of(answer.lines)
        return made

    @property
    def body_length(self) -> int:
        """How many bytes the elements have, without what stands behind them."""
        return self.elements.end

    @property
    def tail(self) -> bytes:
        """What stands behind the elements: nothing, or an end mark and all behind it."""
        return self.data[self.body_length :]

    @cached_property
    def colours(self) -> Optional[List[Colour]]:
        """The drawing's own colours, of 0 to 255, where it has a table: an element of type 5 on level 1. The first
        three bytes of a table are the last colour, which is the ground's."""
        for number in self.elements.of_types(frozenset([classes.GROUP_DATA])):
            element = self.elements[number]
            if element.level == 1 and not element.is_deleted and element.size >= COLOUR_TABLE_SIZE:
                table = element.content[38:COLOUR_TABLE_SIZE]
                colours = [(table[at], table[at + 1], table[at + 2]) for at in range(0, len(table), 3)]
                return colours[1:] + colours[:1]
        return None

    @cached_property
    def palette(self) -> Palette:
        """What each colour is and is called."""
        return Palette(self.colours)

    @cached_property
    def dead(self) -> Set[int]:
        """The elements that are marked deleted, or stand below a header that is."""
        marked = self.elements.deleted()
        made, end = set(marked), 0
        for number in marked:
            if number >= end and self.elements.types[number] in classes.HEADERS:
                part = self.nesting.part(number)
                made.update(part)
                end = part.stop
        return made

    @cached_property
    def defined(self) -> Set[int]:
        """The elements below shared cell definitions: a display shows nothing of these."""
        definitions = self.elements.of_types(frozenset([classes.DEFINITION]))
        return {it for number in definitions for it in self.nesting.part(number)}

    @cached_property
    def extent(self) -> Optional[Tuple[Point, Point]]:
        """The least box that holds what is drawn, none where nothing is: by the stored ranges of all live elements that
        are drawn by themselves, or their hulls where an audit finds that these are others."""
        hulls = {it.number: (it.hull_low, it.hull_high) for it in self.findings if self._is_drawn(it.number)}
        return extent_of(self.elements, self.dead | self.defined, hulls)

    def _is_drawn(self, number: int) -> bool:
        return self.elements.types[number] in classes.DRAWN


def bad_design(path: str, fault: str, offset: int) -> BadDesign:
    """What is raised where a file isn't a drawing, as if the program had said it."""
    made = ending_of(4, ['bad design %s at %d' % (fault, offset)], path)
    assert isinstance(made, BadDesign)
    return made
