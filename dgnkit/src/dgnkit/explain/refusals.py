"""Why a command was refused, in a sentence, and what one can do."""

from __future__ import annotations

from dataclasses import dataclass
from functools import cached_property
from typing import Callable, Dict, Optional, Sequence, Set

from ..drawing.broken import why_broken
from ..drawing.drawing import Drawing
from ..drawing.mending import mending_of
from ..errors import BadDesign, Mistake, fault_said
from ..format.element import described
from ..format.limits import CORNERS_LEAST, CORNERS_MOST, DRAWING_LONGEST, PLANE_HIGH, PLANE_LOW
from ..format.tcb import KIND_SAID, kind_of
from ..program.answers import Answer
from ..program.script import Command

PLANE_SAID = 'the design plane, %d to %d' % (PLANE_LOW, PLANE_HIGH)


@dataclass
class Refusal:
    """A refused command, and the cause that the program said."""

    command: Command
    cause: str


class Explainer:
    """Explains refusals of a script on a drawing. Elements are looked up in the drawing as it was before the script; of
    those that the script appends only their numbers are known."""

    def __init__(self, drawing: Drawing, commands: Sequence[Command], answers: Sequence[Answer]) -> None:
        self.drawing = drawing
        self.done = [it for it, answer in zip(commands, answers) if not answer.is_refused]
        self.refused = [Refusal(it, answer.cause) for it, answer in zip(commands, answers) if answer.cause]

    def sentence(self, refusal: Refusal) -> str:
        """Why it was refused, and what one can do."""
        word, _, rest = refusal.cause.partition(' ')
        explain = EXPLAIN.get(word)
        if explain is None:
            return 'dgnedit says %r' % refusal.cause
        return explain(self, refusal, rest)

    def named(self, rest: str) -> str:
        """The element with this number, in words."""
        number = int(rest)
        if number >= len(self.drawing.elements):
            return 'element %d, which the script appends,' % number
        return described(self.drawing.elements[number])

    def whose(self, refusal: Refusal, rest: str) -> str:
        """How the element of the cause stands to the one that the command names."""
        words = refusal.command.words
        if len(words) < 2 or words[1] == rest or not words[1].isdigit():
            return ''
        return ', which is in the same tree as element %s,' % words[1]

    def unknown(self, refusal: Refusal, rest: str) -> str:
        last = len(self.drawing.elements) - 1
        said = 'there is no element %s: the drawing has 0 to %d, and what the script appends is numbered after that'
        return said % (rest, last)

    def broken(self, refusal: Refusal, rest: str) -> str:
        number = int(rest)
        if number >= len(self.drawing.elements):
            return 'its tree contains %s and is broken' % self.named(rest)
        why = why_broken(self.drawing, number)
        return 'its tree is broken at %s (%s). %s' % (self.named(rest), why, self.advice_on_broken(number))

    def advice_on_broken(self, number: int) -> str:
        if number in self.mended:
            return '`dgnkit mend` writes a patch file that mends it'
        return "`dgnkit mend` can't mend it, and says why"

    @cached_property
    def mended(self) -> Set[int]:
        """The elements of the headers that can be mended, but those that are left."""
        mending = mending_of(self.drawing)
        spans = [range(it.element.number, it.element.number + it.members + 1) for it in mending.changes]
        left = {it.element.number for it in mending.left}
        return {number for span in spans for number in span} - left

    def deleted(self, refusal: Refusal, rest: str) -> str:
        number = int(rest)
        known = number < len(self.drawing.elements)
        if known and self.drawing.elements[number].is_deleted:
            said = '%s%s is marked deleted in the drawing, which no script can undo (`dgnkit undelete` can)'
            return said % (self.named(rest), self.whose(refusal, rest))
        line = self.deleting_line(refusal, number)
        said = 'line %d' % line if line else 'an earlier line'
        return '%s%s was marked deleted by %s of the script' % (self.named(rest), self.whose(refusal, rest), said)

    def deleting_line(self, refusal: Refusal, number: int) -> Optional[int]:
        """The last accepted line before it that names an element and deletes this one with it."""
        found = None
        for command in self.done:
            if command.line < refusal.command.line and command.name == 'delete':
                top = int(command.text.split()[1])
                if top == number or (top < len(self.drawing.elements) and number in self.drawing.nesting.part(top)):
                    found = command.line
        return found

    def locked(self, refusal: Refusal, rest: str) -> str:
        advice = '`dgnkit unlock IN PATCH --number %s` writes a patch file that unlocks it' % rest
        return '%s%s is locked. %s' % (self.named(rest), self.whose(refusal, rest), advice)

    def dimension(self, refusal: Refusal, rest: str) -> str:
        return 'the drawing has %d dimensions, but the command is for %d' % (self.drawing.axes, 5 - self.drawing.axes)

    def floating(self, refusal: Refusal, rest: str) -> str:
        said = "%s%s can't be moved or copied: its coordinates are floating-point numbers, which dgnedit doesn't read"
        return said % (self.named(rest), self.whose(refusal, rest))

    def opaque(self, refusal: Refusal, rest: str) -> str:
        return "%s%s is of a type that this command can't edit" % (self.named(rest), self.whose(refusal, rest))

    def off_plane(self, refusal: Refusal, rest: str) -> str:
        return '%s%s would leave %s: move it less far' % (self.named(rest), self.whose(refusal, rest), PLANE_SAID)

    def too_long(self, refusal: Refusal, rest: str) -> str:
        return 'the drawing would have more than %d bytes, which is the limit' % DRAWING_LONGEST

    def nothing(self, refusal: Refusal, rest: str) -> str:
        return 'there is no accepted edit left to undo'

    def no_fence(self, refusal: Refusal, rest: str) -> str:
        return 'no fence is set: set one before, with a line such as `fence 0,0 100,0 100,100`'

    def few(self, refusal: Refusal, rest: str) -> str:
        corners = len(refusal.command.text.split()) - 1
        return 'a fence needs at least %d corners, and this one has %d' % (CORNERS_LEAST, corners)

    def many(self, refusal: Refusal, rest: str) -> str:
        corners = len(refusal.command.text.split()) - 1
        return 'a fence has at most %d corners, and this one has %d' % (CORNERS_MOST, corners)

    def import_(self, refusal: Refusal, rest: str) -> str:
        name = refusal.command.text.split()[1]
        word, _, number = rest.partition(' ')
        if word in ('not-design', 'cut', 'short', 'attributes'):
            return "%s doesn't open: %s" % (name, import_fault(name, word, int(number.split()[-1])))
        if word == 'dimension':
            said = '%s or the displacement has another number of dimensions than the drawing, which has %d'
            return said % (name, self.drawing.axes)
        said = "%s of %s can't be moved (%s). Without a displacement it would be imported as it is"
        return said % (imported(self.drawing, name, number), name, word)


def import_fault(name: str, fault: str, offset: int) -> str:
    """What keeps an imported file from opening, and what it is where it is no design file at all."""
    try:
        with open(name, 'rb') as file:
            kind = kind_of(file.read(4))
    except OSError:
        kind = 'design'
    return fault_said(fault, offset) if kind == 'design' else 'it is ' + KIND_SAID[kind]


def imported(drawing: Drawing, name: str, number: str) -> str:
    """An element of an imported file, in words where that can be opened."""
    try:
        return described(Drawing(name, drawing.program).elements[int(number)])
    except (Mistake, BadDesign, IndexError, ValueError):
        return 'element ' + number


EXPLAIN: Dict[str, Callable[[Explainer, Refusal, str], str]] = {
    'unknown': Explainer.unknown,
    'broken': Explainer.broken,
    'deleted': Explainer.deleted,
    'locked': Explainer.locked,
    'dimension': Explainer.dimension,
    'floating': Explainer.floating,
    'opaque': Explainer.opaque,
    'off-plane': Explainer.off_plane,
    'too-long': Explainer.too_long,
    'nothing': Explainer.nothing,
    'no-fence': Explainer.no_fence,
    'few': Explainer.few,
    'many': Explainer.many,
    'import': Explainer.import_,
}
