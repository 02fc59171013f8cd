"""Drawings of some trees of another one. The program makes them: it imports the trees, whose bytes stay as they are,
into a drawing of what isn't drawn, such as the colour table."""

from __future__ import annotations

import os
import tempfile
from dataclasses import dataclass
from functools import cached_property
from pathlib import Path
from typing import Dict, List, Sequence

from ..drawing.drawing import Drawing
from ..errors import ListingError, Mistake
from ..format import classes
from ..output import counted, few
from ..program.answers import Answer
from ..program.runs import Name
from ..program.script import Script, importable

BLOCK = 512  # bytes of the blocks in which many programs write drawings
END_MARK = b'\xff\xff'


@dataclass(frozen=True)
class Extract:
    """What a drawing that was made has: its trees, without what isn't drawn, all its elements, and its bytes."""

    trees: int
    elements: int
    bytes: int


class Extractor:
    """Has drawings made of trees of one drawing."""

    def __init__(self, drawing: Drawing) -> None:
        self.drawing = drawing
        elements = drawing.elements
        live = [it for it in drawing.roots if not elements[it].is_deleted]
        self.silent = [it for it in live if elements[it].is_silent]
        self.trees = [it for it in live if not elements[it].is_silent]
        self.definitions = [it for it in self.trees if elements[it].type == classes.DEFINITION]

    @cached_property
    def shown(self) -> Dict[int, List[str]]:
        """What `show` lists of each tree, by its root, without the numbers of elements. It raises ListingError where it
        lists an element that isn't there."""
        made: Dict[int, List[str]] = {}
        roots = self.drawing.nesting.roots
        for line in self.drawing.listed(Script().show())[0].lines:
            number, _, rest = line.partition(' ')
            if not number.isdecimal() or int(number) >= len(roots):
                raise ListingError("dgnedit listed %r, which isn't in %s" % (line, self.drawing.path))
            made.setdefault(roots[int(number)], []).append(rest)
        return made

    def make(self, roots: Sequence[int], out: Name) -> Extract:
        """Has the program make the drawing of these trees in this order, behind all that isn't drawn. It raises Mistake
        where the program refuses that, and ListingError where it made another drawing."""
        front, trees = self._bytes(self.silent), self._bytes(roots)
        with tempfile.TemporaryDirectory(prefix='dgnkit-') as folder:
            base, source = os.path.join(folder, 'base.dgn'), os.path.join(folder, 'trees.dgn')
            Path(base).write_bytes(front + self._tail(len(front)))
            Path(source).write_bytes(self._bytes([0]) + trees + END_MARK)
            answer = self.drawing.program.edit(base, import_of(source), out)[0]
        self._ask_answer(answer, len(roots))
        made = Drawing(out, self.drawing.program)
        self._ask_same(made, front + trees, roots)
        return Extract(len(roots), len(made.elements), len(made.data))

    def _bytes(self, roots: Sequence[int]) -> bytes:
        """The bytes of trees."""
        elements, nesting = self.drawing.elements, self.drawing.nesting
        lasts = ((root, nesting.part(root)[-1]) for root in roots)
        spans = ((elements.offsets[root], elements.offsets[last] + elements.sizes[last]) for root, last in lasts)
        return b''.join(self.drawing.data[start:end] for start, end in spans)

    def _tail(self, length: int) -> bytes:
        """What follows so many bytes of elements: an end mark where the drawing has one, and zeros up to the end of a
        block where it is in blocks, so that what is made of it is in blocks too."""
        mark = self.drawing.tail[: len(END_MARK)]
        is_in_blocks = mark and len(self.drawing.data) % BLOCK == 0
        return mark + bytes(-(length + len(mark)) % BLOCK if is_in_blocks else 0)

    def _ask_answer(self, answer: Answer, count: int) -> None:
        if answer.cause is not None:
            raise Mistake("dgnedit can't make a drawing of trees of %s: %s" % (self.drawing.path, answer.cause))
        if answer.count != count:
            raise ListingError('dgnedit imported %s of %s' % (answer.count, counted(count, 'tree')))

    def _ask_same(self, made: Drawing, body: bytes, roots: Sequence[int]) -> None:
        """It raises ListingError where a drawing has other bytes, or shows anything else than these trees."""
        if made.data[: made.body_length] != body:
            raise ListingError('dgnedit made a drawing with other bytes than were intended')
        lines = [it.partition(' ')[2] for it in made.listed(Script().show())[0].lines]
        if lines != [line for root in roots for line in self.shown.get(root, [])]:
            raise ListingError('the drawing that dgnedit made shows something else than %s' % self.drawing.path)


def import_of(source: str) -> Script:
    """The script that imports a temporary file. It raises Mistake where its name is none that a script can have."""
    try:
        return Script().add('import ' + importable(source))
    except Mistake:
        folder = os.path.dirname(os.path.dirname(source))
        raise Mistake("the temporary folder %r can't be in an import line: set TMPDIR to another one" % folder)


def ask_whole(drawing: Drawing) -> None:
    """It raises Mistake where trees are broken, which no import takes. What isn't drawn isn't imported, and may be."""
    roots = (drawing.elements[it] for it in sorted(drawing.nesting.broken_roots))
    broken = [it.number for it in roots if not it.is_deleted and not it.is_silent]
    if broken:
        said = '%s has %s (%s), which would be lost: run `dgnkit mend` first'
        raise Mistake(said % (drawing.path, counted(len(broken), 'broken tree'), few(broken)))


@dataclass(frozen=True)
class Gone:
    """What is marked deleted: the roots that are left out, of trees that are drawn and of what isn't, and the members
    that stay with their trees; and how many bytes that aren't zero there are after the end mark."""

    trees: List[int]
    others: List[int]
    staying: List[int]
    after_end: int

    @classmethod
    def of(cls, drawing: Drawing) -> Gone:
        """What of a drawing is left out, or stays though it is marked deleted."""
        elements, roots = drawing.elements, drawing.nesting.roots
        dead = [it for it in drawing.roots if elements[it].is_deleted]
        staying = sorted(it for it in drawing.dead if not elements[roots[it]].is_deleted)
        trees = [it for it in dead if not elements[it].is_silent]
        others = [it for it in dead if elements[it].is_silent]
        after = drawing.tail[len(END_MARK) :]
        return cls(trees, others, staying, len(after) - after.count(0))

    def in_lines(self) -> List[str]:
        """All of this in words, a line each."""
        said = []
        if self.trees:
            said.append('left out: %s marked deleted: %s' % (counted(len(self.trees), 'tree'), few(self.trees)))
        if self.others:
            words = counted(len(self.others), 'other element') + ' marked deleted'
            said.append('left out: %s: %s' % (words, few(self.others)))
        if self.staying:
            members = counted(len(self.staying), 'deleted member stays', 'deleted members stay')
            trees = 'its tree' if len(self.staying) == 1 else 'their trees'
            said.append('%s with %s: %s' % (members, trees, few(self.staying)))
        if self.after_end:
            said.append('left out: %s after the end mark' % counted(self.after_end, 'byte'))
        return said
