"""The patch file (docs/FORMAT.md): entries of fields, each a place in the body with its old and its new bytes."""

from __future__ import annotations

import struct
from dataclasses import dataclass, field
from typing import Dict, Iterable, List, Mapping, Tuple

from ..errors import BadPatch
from .tables import FIELD_LONGEST, PATCH_MARK

MARK = PATCH_MARK.encode('ascii')


@dataclass(frozen=True)
class Field:
    """From the byte `place` of the body on, `old` is exchanged for `new`: one to four bytes each."""

    place: int
    old: bytes
    new: bytes


@dataclass(frozen=True)
class Entry:
    """An edit: how many bytes the body had before it, its fields in rising order, and what it puts behind the body."""

    length: int
    fields: Tuple[Field, ...]
    appended: bytes = b''


@dataclass
class Patch:
    """A list of entries, as a patch file holds it."""

    entries: List[Entry] = field(default_factory=list)

    @classmethod
    def from_bytes(cls, file: bytes) -> Patch:
        """Reads a patch file. It raises BadPatch with the offset of the first bad piece."""
        return cls(_Reader(file).entries())

    def to_bytes(self) -> bytes:
        """The bytes of the patch file."""
        pieces = [MARK, struct.pack('<I', len(self.entries))]
        for entry in self.entries:
            pieces.append(struct.pack('<III', entry.length, len(entry.fields), len(entry.appended)))
            pieces.extend(struct.pack('<IB', it.place, len(it.old)) + it.old + it.new for it in entry.fields)
            pieces.append(entry.appended)
        return b''.join(pieces)

    def add(self, length: int, body: bytes, edits: Mapping[int, int]) -> bool:
        """Appends an entry that puts these bytes at these places of a body of so many bytes, which `body` begins with.
        Places that hold the byte already are left out; where none is left, no entry is made, and it says False."""
        changed = {place: new for place, new in edits.items() if body[place] != new}
        if changed:
            self.entries.append(Entry(length, tuple(fields_of(body, changed))))
        return bool(changed)


def fields_of(body: bytes, edits: Dict[int, int]) -> Iterable[Field]:
    """Fields of at most four bytes for bytes at places, in rising order."""
    places = sorted(edits)
    start = 0
    for index in range(1, len(places) + 1):
        run = index - start
        if index < len(places) and places[index] == places[index - 1] + 1 and run < FIELD_LONGEST:
            continue
        first = places[start]
        yield Field(first, body[first : first + run], bytes(edits[it] for it in places[start:index]))
        start = index


class _Reader:
    """Reads the pieces of a patch file from its front."""

    def __init__(self, file: bytes) -> None:
        self.file, self.at = file, 0

    def entries(self) -> List[Entry]:
        """All entries of the file."""
        if self.taken(len(MARK), 0) != MARK:
            raise _bad(0)
        count = self.number(8)
        made = [self.entry() for _ in range(count)]
        if self.at != len(self.file):
            raise _bad(self.at)
        return made

    def entry(self) -> Entry:
        """The next entry."""
        start = self.at
        length, count, appended = (self.number(start) for _ in range(3))
        fields: List[Field] = []
        end = 0
        for _ in range(count):
            made = self.field(length, end)
            end = made.place + len(made.old)
            fields.append(made)
        return Entry(length, tuple(fields), self.taken(appended, self.at))

    def field(self, length: int, end: int) -> Field:
        """The next field of an entry."""
        start = self.at
        place = self.number(start)
        size = self.taken(1, start)[0]
        if not 1 <= size <= FIELD_LONGEST or place + size > length or place < end:
            raise _bad(start)
        return Field(place, self.taken(size, start), self.taken(size, start))

    def number(self, start: int) -> int:
        """The next number; where it is cut off, the piece that begins at `start` is bad."""
        return int(struct.unpack('<I', self.taken(4, start))[0])

    def taken(self, count: int, start: int) -> bytes:
        """The next bytes; where there are fewer, the piece that begins at `start` is bad."""
        if self.at + count > len(self.file):
            raise _bad(start)
        self.at += count
        return self.file[self.at - count : self.at]


def _bad(offset: int) -> BadPatch:
    said = ['bad patch at %d' % offset]
    return BadPatch("it isn't a patch file: the first bad piece begins at byte %d" % offset, 10, said, offset)
