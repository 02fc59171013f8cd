"""Numbers as a person writes them in a condition: 12, 3-5, several with commas, and comparisons as >3 or <=7."""

from __future__ import annotations

import re
from typing import List, Sequence, Tuple

from ..errors import Mistake

SPAN = re.compile(r'(\d{1,12})(?:-(\d{1,12}))?')
SIZE = re.compile(r'([<>]=?)?\s*(\d{1,12}(?:[.,]\d{1,12})?)', re.ASCII)
COMPARISON = re.compile(r'([<>]=?)\s*(\d{1,12})')


class Spans:
    """Whole numbers, as spans from a least to a greatest one."""

    def __init__(self, spans: Sequence[Tuple[int, int]]) -> None:
        self.spans = sorted(spans)
        self.few = frozenset(it for low, high in spans for it in range(low, high + 1)) if self._is_small() else None

    def _is_small(self) -> bool:
        return sum(high - low + 1 for low, high in self.spans) <= 4096

    def __contains__(self, number: object) -> bool:
        if self.few is not None:
            return number in self.few
        return isinstance(number, int) and any(low <= number <= high for low, high in self.spans)

    @classmethod
    def read(cls, what: str, words: Sequence[str], most: int) -> Spans:
        """Reads them. It raises Mistake where one isn't from 0 to the most that there are."""
        return cls([span_of(piece.strip(), what, most) for piece in ','.join(words).split(',')])


def span_of(piece: str, what: str, most: int) -> Tuple[int, int]:
    """The span of a piece, as `3`, `3-5` or `>3`. It raises Mistake where it is none."""
    compared, found = COMPARISON.fullmatch(piece), SPAN.fullmatch(piece)
    low, high = 1, 0
    if compared:
        number, is_strict = int(compared[2]), len(compared[1]) == 1
        low, high = (number + is_strict, most) if compared[1][0] == '>' else (0, number - is_strict)
    elif found:
        low, high = int(found[1]), int(found[2] or found[1])
    if (compared and int(compared[2]) <= most) or low <= high <= most:
        return low, high
    said = "%r isn't a valid %s: give a number from 0 to %d, two with a dash, or a comparison such as >3"
    raise Mistake(said % (piece, what, most))


def number_of(word: str, what: str, most: int) -> int:
    """One number. It raises Mistake where it is none."""
    if not (word.isascii() and word.isdecimal() and len(word) <= 12 and int(word) <= most):
        raise Mistake("%r isn't a valid %s: give a number from 0 to %d" % (word, what, most))
    return int(word)


def sizes_of(words: Sequence[str]) -> List[Tuple[str, str]]:
    """Sizes with points or decimal commas, each as its comparison, empty for the size itself, and its number."""
    made = []
    for word in words:
        found = SIZE.fullmatch(word.strip())
        if not found:
            raise Mistake("%r isn't a size: give a number such as 2.5, or a comparison such as >2.5" % word)
        made.append((found[1] or '', found[2]))
    return made
