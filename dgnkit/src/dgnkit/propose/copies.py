"""Which appended trees are copies of others, so that a script can make them."""

from __future__ import annotations

from typing import Dict, List, Optional, Tuple

from ..drawing.drawing import Drawing
from ..explain.comparing import shift_between
from ..format.numbers import Point

Key = Tuple[Tuple[int, int], ...]
MOST = 64  # so many trees of one form are tried


class Copies:
    """The trees of a drawing by their form: the types and sizes of their elements."""

    def __init__(self, drawing: Drawing, count: int) -> None:
        """`count` is how many elements are no copies: those that the drawing had before."""
        self.drawing = drawing
        self.forms: Dict[Key, List[int]] = {}
        for root in drawing.roots[1:]:
            if root < count and root not in drawing.dead:
                self.forms.setdefault(self._form(root), []).append(root)

    def line(self, root: int) -> Optional[bytes]:
        """The line that makes a tree as a copy of another one, none where it is none."""
        if root in self.drawing.dead:
            return None
        for source in self.forms.get(self._form(root), [])[:MOST]:
            shift = self._shift(source, root)
            if shift is not None:
                return ('copy %d %s' % (source, ' '.join(map(str, shift)))).encode('ascii')
        return None

    def _form(self, root: int) -> Key:
        elements = self.drawing.elements
        return tuple((elements.types[it], elements.sizes[it]) for it in self.drawing.nesting.part(root))

    def _shift(self, source: int, root: int) -> Optional[Point]:
        """By what all of a tree is moved against another one, none where they differ otherwise."""
        elements = self.drawing.elements
        pairs = zip(self.drawing.nesting.part(source), self.drawing.nesting.part(root))
        shifts = {shift_between(self.drawing, elements[a], elements[b]) for a, b in pairs}
        return shifts.pop() if len(shifts) == 1 else None
