"""The journal of a folder: a line of JSON for each drawing that is done, by which a run that was stopped goes on."""

from __future__ import annotations

import errno
import json
import os
import time
from dataclasses import asdict, dataclass, field
from typing import IO, Any, Dict, Iterable, Iterator, List, Optional, Tuple

from ..errors import Mistake
from ..files import mistake_of
from ..output import printable
from ..saving import write_pieces
from ..system import lock

NAME = '.dgnkit-journal.jsonl'
ANSWERS_MOST = 100  # so many refused commands of a drawing are kept
LASTING = (0, 1, 3, 4, 8, 10, 11)  # endings that come again from the same bytes
PATIENCE = 3.0  # so many seconds a run that has just been killed may take to let go

Refusal = Dict[str, Any]  # line, command and cause


@dataclass
class Entry:
    """What became of a drawing. `size`, `changed` (nanoseconds) and `read` (SHA-256) are of what was read; `script` is
    the SHA-256 of what was run, and `imports` of the drawings that it imports; `status` is the exit number, or -1 where
    there is none; `written` is the SHA-256 of the new drawing."""

    drawing: str
    size: int = -1
    changed: int = -1
    read: str = ''
    script: str = ''
    imports: str = ''
    status: int = -1
    ending: str = ''
    refused: int = 0
    answers: List[Refusal] = field(default_factory=list)
    written: str = ''
    seconds: float = 0.0

    @property
    def line(self) -> bytes:
        """The entry as a line of the journal."""
        return json.dumps(asdict(self)).encode('ascii') + b'\n'

    @property
    def lasts(self) -> bool:
        """Whether it would come out the same from the same bytes."""
        return self.status in LASTING and (bool(self.written) or self.status > 1)


def entry_of(line: bytes) -> Entry:
    """The entry of a line. It raises ValueError where it is none."""
    told = json.loads(line)
    if not isinstance(told, dict) or not isinstance(told.get('drawing'), str):
        raise ValueError('no entry')
    try:
        return Entry(**told)
    except TypeError:
        raise ValueError('no entry')


class Journal:
    """The journal of a folder, open for one run: no other can write to that folder meanwhile."""

    def __init__(self, folder: str, takes_any: bool = False) -> None:
        """It raises Mistake where another run writes to the folder, or the journal can't be read; `takes_any` passes
        over lines that are none of it."""
        self.folder, self.path = folder, os.path.join(folder, NAME)
        self.places: Dict[str, Tuple[int, int]] = {}  # where the last line of each drawing begins, and its length
        self.end = 0
        self.is_new = not os.path.exists(self.path)  # whether no run has been at work here
        try:
            self.file = self._opened()  # at whose end lines are put
            self.reader = open(self.path, 'rb')
        except OSError as why:
            raise mistake_of(self.path, why)
        self._read(takes_any)

    def _opened(self) -> IO[bytes]:
        """The file, for this run alone, also where another run has just put a new one in its place."""
        began = time.monotonic()
        while True:
            file: IO[bytes] = open(self.path, 'ab', buffering=0)
            if lock(file):
                if os.path.exists(self.path) and os.path.samestat(os.fstat(file.fileno()), os.stat(self.path)):
                    return file
            elif time.monotonic() - began > PATIENCE:
                file.close()
                raise Mistake('another run of dgnkit writes to %s' % printable(self.folder))
            file.close()
            time.sleep(0.05)

    def _read(self, takes_any: bool) -> None:
        """Finds the lines. A half line at the end, of a run that was stopped, is dropped."""
        for number, line in enumerate(self.reader, 1):
            if not line.endswith(b'\n'):
                break
            try:
                self.places[entry_of(line).drawing] = (self.end, len(line))
            except ValueError:
                if not takes_any:
                    said = "line %d of %s isn't an entry of a journal: --anew begins again"
                    raise Mistake(said % (number, printable(self.path)))
            self.end += len(line)
        self.file.truncate(self.end)

    def clear(self) -> None:
        """Begins again."""
        self.places.clear()
        self.end = 0
        self.file.truncate(0)

    def entry(self, place: str) -> Optional[Entry]:
        """What is known of a drawing."""
        if place not in self.places:
            return None
        return entry_of(self._line(place))

    def add(self, entries: Iterable[Entry]) -> None:
        """Appends entries, and waits until the disk has them. Where it has no room for a line, none of that line is
        left, and OSError is raised."""
        for entry in entries:
            line = entry.line
            try:
                if self.file.write(line) != len(line):
                    raise OSError(errno.ENOSPC, os.strerror(errno.ENOSPC), self.path)
            except OSError:
                self.file.truncate(self.end)
                raise
            self.places[entry.drawing] = (self.end, len(line))
            self.end += len(line)
        os.fsync(self.file.fileno())

    def entries(self) -> Iterator[Entry]:
        """The last entry of each drawing, in the order of names."""
        for line in self._lines():
            yield entry_of(line)

    def _lines(self) -> Iterator[bytes]:
        return map(self._line, sorted(self.places))

    def _line(self, place: str) -> bytes:
        at, length = self.places[place]
        self.reader.seek(at)
        return self.reader.read(length)

    def put_in_order(self) -> None:
        """Writes it anew, a line for each drawing, in the order of names: it is the same however the runs went."""
        write_pieces(self.path, self._lines(), True)

    def drop(self) -> None:
        """Lets other runs write to the folder, in which nothing was done; a journal that was begun for it goes."""
        self.close()
        if self.is_new:
            os.unlink(self.path)

    def close(self) -> None:
        """Lets other runs write to the folder."""
        self.reader.close()
        self.file.close()


def entries_in(folder: str) -> Iterator[Entry]:
    """The last entry of each drawing in the journal of a folder, which a run may be writing to. It raises Mistake where
    there is none."""
    path = os.path.join(folder, NAME)
    places: Dict[str, Tuple[int, int]] = {}
    try:
        with open(path, 'rb') as file:
            at = 0
            for line in file:
                if line.endswith(b'\n'):
                    places[entry_of(line).drawing] = (at, len(line))
                at += len(line)
            for place in sorted(places):
                file.seek(places[place][0])
                yield entry_of(file.read(places[place][1]))
    except OSError as why:
        raise mistake_of(path, why)
    except ValueError:
        raise Mistake("%s isn't a journal of dgnkit" % printable(path))
