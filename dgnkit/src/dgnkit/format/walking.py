"""Where the elements of a file stand (docs/FORMAT.md, The file). A drawing may have a million of them, so they are read
as columns, with one short step for each."""

from __future__ import annotations

import sys
from array import array
from itertools import chain, islice
from operator import sub
from typing import List, Sequence, Tuple

from .elements import BIT_C, DELETED, Elements

END = 0xFFFF
LEVELS = bytes(it & 0x3F for it in range(256))
TYPES = bytes(it & 0x7F for it in range(256))
WITH_C = bytes(BIT_C if it & 0x80 else 0 for it in range(256))
WITH_DELETED = bytes(DELETED if it & 0x80 else 0 for it in range(256))


class CutElement(ValueError):
    """The file ends within an element; `offset` is the byte at which that begins."""

    def __init__(self, offset: int) -> None:
        super().__init__('the element at byte %d is cut' % offset)
        self.offset = offset


def elements_in(data: bytes, axes: int) -> Elements:
    """The elements of a file, up to its end mark or its end. It raises CutElement where one is cut; whether each is one
    that the program opens isn't asked."""
    words = words_of(data)
    places, end = _places(words)
    if 2 * end > len(data):
        raise CutElement(2 * places[-1])
    if end == len(words) and len(data) % 2:
        raise CutElement(2 * end)
    made = Elements(data, axes)
    heads = array('H', map(words.__getitem__, places))
    if sys.byteorder == 'big':
        heads.byteswap()
    firsts, seconds = heads.tobytes()[0::2], heads.tobytes()[1::2]
    ends = islice(places, 1, None)
    sizes = [2 * it for it in map(sub, chain(ends, [end]), places)]
    marks = _joined(firsts.translate(WITH_C), seconds.translate(WITH_DELETED))
    made.extend(sizes, seconds.translate(TYPES), firsts.translate(LEVELS), marks)
    return made


def words_of(data: bytes) -> array[int]:
    """The words of a file, without a last odd byte."""
    made = array('H')
    made.frombytes(memoryview(data)[: len(data) & ~1])
    if sys.byteorder == 'big':
        made.byteswap()
    return made


def _places(words: Sequence[int]) -> Tuple[List[int], int]:
    """The word at which each element begins, and where the last one ends, which may lie behind the file's end."""
    places: List[int] = []
    append, at, end = places.append, 0, len(words)
    while at + 1 < end and words[at] != END:
        append(at)
        at += 2 + words[at + 1]
    if at + 1 == end and words[at] != END:
        raise CutElement(2 * at)
    return places, at


def _joined(one: bytes, other: bytes) -> bytes:
    """Marks that are in either of two rows."""
    both = int.from_bytes(one, 'little') | int.from_bytes(other, 'little')
    return both.to_bytes(len(one), 'little')
