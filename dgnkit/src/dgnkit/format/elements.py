"""All elements of a drawing as columns of numbers, so that a million of them takes little room. An `Element` is made of
them when it is asked for."""

from __future__ import annotations

import sys
from array import array
from collections import Counter
from itertools import accumulate, compress
from typing import Dict, Iterator, List, Sequence, Union, overload

from . import classes
from .element import LOCK_BYTE, Element

BIT_C, DELETED = 1, 2
NOT_C = bytes([0, DELETED])  # the marks of elements without bit C
HAS_C = bytes(it & BIT_C for it in range(256))
YES_NO = (False, True)
IS_LOUD = bytes(kind in classes.LOUD for kind in range(256))
IS_ODD = bytes(it & 1 for it in range(256))


class Elements(Sequence[Element]):
    """The elements of a file, each at its number."""

    def __init__(self, data: bytes, axes: int) -> None:
        self.data, self.axes = data, axes
        self.offsets, self.sizes = array('I'), array('I')
        self.types, self.levels, self.marks = bytearray(), bytearray(), bytearray()

    def extend(self, sizes: Sequence[int], types: bytes, levels: bytes, marks: bytes) -> None:
        """Appends elements behind the last one; their marks are sums of BIT_C and DELETED."""
        self.offsets.extend(accumulate(sizes[:-1], initial=self.end))
        self.sizes.extend(sizes)
        self.types += types
        self.levels += levels
        self.marks += marks

    def __len__(self) -> int:
        return len(self.offsets)

    @overload
    def __getitem__(self, place: int) -> Element:
        ...

    @overload
    def __getitem__(self, place: slice) -> List[Element]:
        ...

    def __getitem__(self, place: Union[int, slice]) -> Union[Element, List[Element]]:
        if isinstance(place, slice):
            return [self[it] for it in range(*place.indices(len(self)))]
        at = place + len(self) if place < 0 else place
        mark = self.marks[at]
        return Element(
            at,
            self.offsets[at],
            self.sizes[at],
            self.types[at],
            self.levels[at],
            YES_NO[mark & BIT_C],
            mark >= DELETED,
            self.data,
            self.axes,
        )

    def __iter__(self) -> Iterator[Element]:
        data, axes = self.data, self.axes
        rows = zip(self.offsets, self.sizes, self.types, self.levels, self.marks)
        for number, (offset, size, kind, level, mark) in enumerate(rows):
            yield Element(number, offset, size, kind, level, YES_NO[mark & BIT_C], mark >= DELETED, data, axes)

    def contents(self) -> Iterator[bytes]:
        """The bytes of each element."""
        return (self.data[at : at + size] for at, size in zip(self.offsets, self.sizes))

    @property
    def end(self) -> int:
        """Where the last element ends."""
        return self.offsets[-1] + self.sizes[-1] if self.offsets else 0

    def with_c(self) -> List[int]:
        """The numbers of the elements with bit C, but for element 0."""
        if not self.marks.translate(None, NOT_C):
            return []
        return [it for it in compress(range(len(self)), self.marks.translate(HAS_C)) if it]

    def deleted(self) -> List[int]:
        """The numbers of the elements that are marked deleted themselves."""
        if max(self.marks, default=0) < DELETED:
            return []
        return [number for number, mark in enumerate(self.marks) if mark & DELETED]

    def _lock_bits(self) -> bytes:
        """Of each element that isn't silent whether it is locked."""
        places = map(LOCK_BYTE.__add__, compress(self.offsets, self.types.translate(IS_LOUD)))
        return bytes(map(self.data.__getitem__, places)).translate(IS_ODD)

    def locked_count(self) -> int:
        """How many elements are locked."""
        return self._lock_bits().count(1)

    def locked(self) -> List[int]:
        """The numbers of the elements that are locked."""
        return list(compress(self.of_types(classes.LOUD), self._lock_bits()))

    def counts(self) -> Dict[int, Dict[int, int]]:
        """How many elements each level has of each type, in the order in which they are first seen."""
        pairs = bytearray(2 * len(self))
        pairs[0::2], pairs[1::2] = self.levels, self.types
        made: Dict[int, Dict[int, int]] = {}
        for pair, count in Counter(array('H', bytes(pairs))).items():
            level, kind = pair.to_bytes(2, sys.byteorder)
            made.setdefault(level, {})[kind] = count
        return made

    def of_types(self, kinds: frozenset[int]) -> Iterator[int]:
        """The numbers of the elements of some types."""
        if kinds.isdisjoint(set(self.types)):
            return iter(())
        return compress(range(len(self)), self.types.translate(bytes(kind in kinds for kind in range(256))))
