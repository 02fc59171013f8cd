"""What looks like damage though a drawing opens: elements of type 0, runs of zeros, no end mark, bytes behind it."""

from __future__ import annotations

import re
from bisect import bisect_right
from dataclasses import dataclass
from typing import Iterator, List

from ..format.element import Element
from .drawing import Drawing

RUN = 128  # so many zero bytes in a row are told
ZEROS, NOT_ZERO = bytes(RUN), re.compile(rb'[^\0]')


@dataclass(frozen=True)
class Stretch:
    """Elements in a row, by the numbers of the first and the last, and the bytes from `start` to before `end`."""

    first: int
    last: int
    start: int
    end: int


def elements_of_nothing(drawing: Drawing) -> List[Stretch]:
    """The elements of type 0, each stretch of them as one. No program writes such: they are what zeros read as."""
    made: List[Stretch] = []
    for element in (drawing.elements[it] for it in drawing.elements.of_types(frozenset([0]))):
        end = element.offset + element.size
        if made and made[-1].last == element.number - 1:
            made[-1] = Stretch(made[-1].first, element.number, made[-1].start, end)
        else:
            made.append(Stretch(element.number, element.number, element.offset, end))
    return made


def runs_of_zeros(drawing: Drawing) -> List[Stretch]:
    """The runs of many zero bytes, where elements are drawn or have the type 0. Other elements, as the TCB, have such
    runs by their nature."""
    offsets = drawing.elements.offsets
    made = []
    for start, end in zero_runs(drawing.data, drawing.body_length):
        found = [drawing.elements[it] for it in range(bisect_right(offsets, start) - 1, bisect_right(offsets, end - 1))]
        while found and may_have_zeros(found[0]):
            start = found[0].offset + found[0].size
            found.pop(0)
        while found and may_have_zeros(found[-1]):
            end = found.pop().offset
        if found and end - start >= RUN:
            made.append(Stretch(found[0].number, found[-1].number, start, end))
    return made


def may_have_zeros(element: Element) -> bool:
    """Whether runs of zeros are nothing odd in an element: it is not drawn."""
    return element.is_silent and element.type != 0


def zero_runs(data: bytes, length: int) -> Iterator[tuple[int, int]]:
    """The runs of at least so many zero bytes in the first `length` bytes: where each begins, and where it ends."""
    start = data.find(ZEROS, 0, length)
    while start >= 0:
        after = NOT_ZERO.search(data, start, length)
        end = length if after is None else after.start()
        yield start, end
        start = data.find(ZEROS, end, length)


def bytes_behind(drawing: Drawing) -> int:
    """How many bytes stand behind the end mark up to the last that isn't zero: zeros alone fill up the last block."""
    return len(drawing.tail[2:].rstrip(b'\0'))
