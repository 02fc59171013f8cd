"""How far a header can reach: the elements with bit C behind it, of which some number are its members."""

from __future__ import annotations

from bisect import bisect_left
from typing import Dict, List, Optional, Tuple

from ..format import classes
from ..format.elements import BIT_C, Elements
from ..format.limits import TOTAL_MOST
from ..format.tables import BEFORE_TOTAL

ALIKE = 2 * (TOTAL_MOST + 1)  # by so many bytes more a total has the same lower word


def bytes_of(total: int) -> int:
    """How many bytes a header and its members have together, by its total."""
    return BEFORE_TOTAL + 2 * total


class Reach:
    """A header, and the elements with bit C in a row behind it up to the end of its list."""

    def __init__(self, rows: Rows, header: int, end: int) -> None:
        """`end` is the number behind the last element of the list that the header stands in."""
        self.rows, self.header = rows, header
        self.element = rows.elements[header]
        self.total = self.element.total or 0
        self.end = min(end, rows.run_ends[header + 1])

    @property
    def most(self) -> int:
        """How many elements with bit C stand behind the header."""
        return self.end - self.header - 1

    def size(self, count: int) -> int:
        """The bytes of the header with so many members."""
        return self.rows.starts[self.header + count + 1] - self.element.offset

    def count_of(self, size: int) -> Optional[int]:
        """With how many members the header has exactly so many bytes, none where with no number of them."""
        start = self.element.offset + size
        at = bisect_left(self.rows.starts, start, self.header + 1, self.end + 1)
        return at - self.header - 1 if at <= self.end and self.rows.starts[at] == start else None

    @property
    def own_words(self) -> int:
        """Half the bytes of the header's own attribute data."""
        return (self.element.size - self.element.linkage_place) // 2

    def fitting_total(self) -> Optional[int]:
        """The total that counts the header's own attribute data too, where it fits members exactly."""
        more = self.own_words
        total = self.total + more
        return total if more and total <= TOTAL_MOST and self.count_of(bytes_of(total)) is not None else None

    def wrapped(self) -> Optional[int]:
        """How many members there are, where a total of more than one word would fit whose lower word stands there, with
        or without the header's own attribute data."""
        found = []
        for total in (self.total, self.total + self.own_words):
            start = self.element.offset + bytes_of(total + TOTAL_MOST + 1)
            number = self.rows.next_alike(start, self.end)
            if number is not None:
                found.append((self.rows.starts[number] - 2 * total, total, number - self.header - 1))
        return min(found)[2] if found else None

    def near_totals(self) -> List[Tuple[int, int]]:
        """The nearest totals that would fit, below and above the one that stands there, each with its members."""
        start = self.element.offset + bytes_of(self.total)
        at = bisect_left(self.rows.starts, start, self.header + 1, self.end + 1)
        made = []
        for it in (at - 1, at):
            if self.header < it <= self.end:
                total = (self.rows.starts[it] - self.element.offset - BEFORE_TOTAL) // 2
                if total <= TOTAL_MOST:
                    made.append((total, it - self.header - 1))
        return made


class Rows:
    """Of all elements of a drawing where each begins, and behind the last where they end; and for each place the number
    of the first element from there on that has no bit C."""

    def __init__(self, elements: Elements) -> None:
        self.elements = elements
        self._alike: Dict[int, List[int]] = {}
        self.starts = [*elements.offsets, elements.end]
        self.run_ends = [len(elements)] * (len(elements) + 1)
        for number in range(len(elements) - 1, -1, -1):
            has_c = elements.marks[number] & BIT_C
            self.run_ends[number] = self.run_ends[number + 1] if has_c else number

    def seeming_end(self, number: int) -> int:
        """Where the tree of a header with bit C that is a root seems to end, as far as its own fields tell."""
        kind, end = self.elements.types[number], number + 1
        if kind in classes.COUNTED:
            reach = Reach(self, number, len(self.elements))
            return end + (reach.count_of(bytes_of(reach.total)) or 0)
        if kind == classes.DEFINITION:
            return self.run_ends[end]
        while end < self.run_ends[number] and self.elements.types[end] in classes.SPLINE_PARTS:
            end += 1
        return end

    def next_alike(self, start: int, end: int) -> Optional[int]:
        """The first element at or behind a byte, up to the number `end`, that begins as many bytes behind it as some
        number of totals has that are one too many for a word."""
        if not self._alike:
            for number, it in enumerate(self.starts):
                self._alike.setdefault(it % ALIKE, []).append(number)
        numbers = self._alike.get(start % ALIKE, [])
        at = bisect_left(numbers, bisect_left(self.starts, start))
        return numbers[at] if at < len(numbers) and numbers[at] <= end else None
