"""Which drawings there are: in folders and the folders below, in a list, or named one by one, and where each is to be
written."""

from __future__ import annotations

import os
import sys
from dataclasses import dataclass
from typing import Dict, Iterable, Iterator, List, Tuple

from ..errors import Mistake
from ..files import STANDARD_INPUT, front_of, mistake_of, read_file
from ..format.tcb import kind_of
from ..output import printable

FRONT = 4  # bytes by which a drawing is known


@dataclass(frozen=True)
class Sheet:
    """A drawing: where it is, and where its new one comes to be below the folder that is written to."""

    source: str
    place: str


class Walk:
    """A walk through what was named. Links aren't followed out of a folder, what is no drawing is passed over, and so
    is the folder that is written to; all of it is counted."""

    def __init__(self, into: str) -> None:
        self.into = _identity(into)
        self.links, self.others = 0, 0
        self.kinds: Dict[str, int] = {}

    def sheets(self, names: Iterable[str], listed: Iterable[str] = ()) -> List[Sheet]:
        """The drawings of folders and files that were named, and of a list. It raises Mistake where two would be
        written to one place, or a folder is one that is written to."""
        found: Dict[str, str] = {}
        for source, place in self._all(names, listed):
            if place in found:
                raise Mistake('%s and %s would both be written to %s' % (found[place], printable(source), place))
            found[place] = source
        return [Sheet(source, place) for place, source in found.items()]

    def _all(self, names: Iterable[str], listed: Iterable[str]) -> Iterator[Tuple[str, str]]:
        for name in names:
            if os.path.isdir(name):
                yield from self._below(name)
            else:
                yield name, os.path.basename(name)
        for name in listed:
            yield name, _kept(name)

    def _below(self, top: str) -> Iterator[Tuple[str, str]]:
        """The drawings below a folder, with their places there."""
        if self.into is not None and _identity(top) == self.into:
            raise Mistake('%s is the folder that is written to: name another one' % printable(top))
        folders = ['']
        while folders:
            place = folders.pop()
            below: List[str] = []
            for entry in self._entries(os.path.join(top, place)):
                name = os.path.join(place, entry.name)
                if entry.is_symlink():
                    self.links += 1
                elif entry.is_dir():
                    if self.into is None or _identity(entry.path) != self.into:
                        below.append(name)
                elif self._is_drawing(entry):
                    yield entry.path, name
            folders += reversed(below)

    def _entries(self, folder: str) -> List[os.DirEntry[str]]:
        """What is in a folder, in the order of names."""
        try:
            with os.scandir(folder) as entries:
                return sorted(entries, key=lambda it: os.fsencode(it.name))
        except OSError as why:
            raise mistake_of(folder, why)

    def _is_drawing(self, entry: os.DirEntry[str]) -> bool:
        """Whether a file begins as a drawing does. One that may not be read may be one, and will be told."""
        if not entry.is_file(follow_symlinks=False):
            self.others += 1
            return False
        if not os.access(entry.path, os.R_OK):
            return True
        kind = kind_of(front_of(entry.path, FRONT))
        if kind == 'design':
            return True
        self.others += 1
        if kind in ('v8', 'library'):
            self.kinds[kind] = self.kinds.get(kind, 0) + 1
        return False


def _identity(path: str) -> Tuple[int, int] | None:
    """Which file or folder a name is of, whatever it is called; none where it isn't there."""
    try:
        facts = os.stat(path)
    except OSError:
        return None
    return facts.st_dev, facts.st_ino


def _kept(name: str) -> str:
    """The place of a drawing of a list: its name, or, where that leads out of this folder, its whole name."""
    place = os.path.normpath(name)
    if os.path.isabs(place) or place.split(os.sep)[0] == os.pardir:
        place = os.path.splitdrive(os.path.abspath(name))[1].lstrip('\\/' if os.sep == '\\' else '/')
    return place


def names_in(path: str, ends_with_zero: bool) -> List[str]:
    """The names in a list, one a line, or each before a zero byte."""
    content = read_file(path)
    names = content.split(b'\0' if ends_with_zero else b'\n')
    if not ends_with_zero:
        names = [it[:-1] if it.endswith(b'\r') else it for it in names]
    said = 'standard input' if path == STANDARD_INPUT else printable(path)
    if not ends_with_zero and any(b'\0' in it for it in names):
        raise Mistake('%s has names that end with a zero byte: read it with -0' % said)
    encoding, errors = sys.getfilesystemencoding(), sys.getfilesystemencodeerrors()
    return [it.decode(encoding, errors) for it in names if it]
