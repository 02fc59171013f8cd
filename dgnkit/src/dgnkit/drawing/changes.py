"""A change of an element that a patch file makes."""

from __future__ import annotations

from dataclasses import dataclass
from typing import Dict, List

from ..format.element import Element, described


@dataclass
class Change:
    """An element's edit: its new bytes by their places in the body, what it is in words, and how many elements behind
    it are its members then, where it is a header that is mended."""

    element: Element
    edits: Dict[int, int]
    words: List[str]
    members: int = 0

    def in_words(self) -> str:
        """The element, and what becomes of it."""
        return '%s: %s' % (described(self.element), ', '.join(self.words))
