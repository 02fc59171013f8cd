"""Running numbers that texts get, put into a form such as `N{:03}`."""

from __future__ import annotations

import re
from dataclasses import dataclass
from typing import Optional, Sequence

from ..drawing.drawing import Drawing
from ..errors import Mistake
from .field_edits import FieldEdits, exchange, may_edit

FORM = re.compile(r'([^{}]*)\{(?::(0?\d{1,2}))?\}([^{}]*)')


@dataclass(frozen=True)
class Numbering:
    """What comes before and after each number, how it is written as Python's format says, and the first number."""

    front: str
    width: str
    back: str
    first: int

    @classmethod
    def read(cls, form: str, first: int) -> Numbering:
        """Reads a form. It raises Mistake where it hasn't one place for a number."""
        found = FORM.fullmatch(form)
        if not found:
            raise Mistake('%r needs one place for the number: {}, or {:03} for three digits at least' % form)
        return cls(found[1], found[2] or '', found[3], first)

    def text(self, index: int) -> str:
        """The text of so many after the first."""
        return self.front + format(self.first + index, self.width) + self.back


def renumber(drawing: Drawing, numbers: Sequence[int], wanted: Numbering, encoding: Optional[str] = None) -> FieldEdits:
    """Gives each text among elements the next number, in their order. One that is left out keeps its number to itself,
    so that it can be put there by hand."""
    made = FieldEdits()
    texts = [it for it in (drawing.elements[number] for number in numbers) if it.text is not None]
    for index, element in enumerate(texts):
        new = wanted.text(index)
        if new != element.text and may_edit(made, element):
            exchange(made, drawing, element, new, encoding)
    return made
