"""What is done with one drawing: its new one is written beside its place, is made safe, and then takes its name."""

from __future__ import annotations

import errno
import os
import shutil
import time
from contextlib import contextmanager, suppress
from dataclasses import dataclass
from typing import Iterator

from .. import files
from ..errors import ListingError, MissingProgram, Mistake, WriteFault
from ..files import ask_drawing, mistake_of, said_name
from ..saving import exists, put_in_place
from .changing import Change, Changer, Ended, digest_of, without_name
from .journal import ANSWERS_MOST, Entry

NO_SPACE = (errno.ENOSPC, getattr(errno, 'EDQUOT', errno.ENOSPC))
SPARE = 1 << 20  # bytes that have to be free beside those of a drawing
UNREADABLE = 5  # how the program ends where a file can't be read


@dataclass(frozen=True)
class Task:
    """A drawing that is to be changed: where it is, its place below the folder, that folder, a folder for what isn't
    whole yet, the digest that the file in its place may have, and whether any other one may be replaced."""

    source: str
    place: str
    into: str
    room: str
    known: str = ''
    may_replace: bool = False

    @property
    def target(self) -> str:
        """Where the new drawing comes to be."""
        return os.path.join(self.into, self.place)


@dataclass
class Done:
    """What became of a drawing; and whether the disk is full, so that nothing more can be done."""

    entry: Entry
    is_full: bool = False


class Doer:
    """Does one drawing after the other."""

    def __init__(self, change: Change) -> None:
        self.change, self.changer = change, Changer(change)
        self.script, self.imports = change.script, change.imports

    def do(self, task: Task) -> Done:
        """Does a drawing. Whatever is wrong with it is told in its entry."""
        files.READ.clear()
        entry = Entry(task.place, script=self.script, imports=self.imports)
        began = time.monotonic()
        made = os.path.join(task.room, os.urandom(8).hex())
        is_full = False
        try:
            self._do(task, made, entry)
        except (Mistake, OSError, ValueError, MemoryError) as why:
            is_full = _is_full(why, task)
            _fail(entry, task, 'the disk is full' if is_full else _said(why, task))
        finally:
            with suppress(OSError):
                os.unlink(made)
        entry.seconds = round(time.monotonic() - began, 3)
        return Done(entry, is_full)

    def _do(self, task: Task, made: str, entry: Entry) -> None:
        try:
            ask_drawing(task.source)
            with open(task.source, 'rb') as file:
                before = os.fstat(file.fileno())
        except (Mistake, OSError) as why:
            entry.status, entry.ending = UNREADABLE, _said(why, task)
            return
        entry.size, entry.changed, entry.read = before.st_size, before.st_mtime_ns, digest_of(task.source)
        with _in_text(task) as source:
            ended = self.changer.run(source, made)
        after = os.stat(task.source)
        if (after.st_size, after.st_mtime_ns) != (before.st_size, before.st_mtime_ns):
            _fail(entry, task, 'it was changed while it was read')
            return
        _tell(entry, ended, task)
        if ended.status == WriteFault.STATUS:
            raise OSError(errno.EIO, ended.said)
        if ended.status in (0, 1):
            entry.written = digest_of(made)
            put(made, task, entry.written)


@contextmanager
def _in_text(task: Task) -> Iterator[str]:
    """The name of a drawing as the program takes it: its own, or, where that is no text, that of a link to it."""
    try:
        task.source.encode('utf-8')
        yield task.source
    except UnicodeEncodeError:
        link = os.path.join(task.room, os.urandom(8).hex())
        os.symlink(task.source, link)
        try:
            yield link
        finally:
            os.unlink(link)


def put(made: str, task: Task, digest: str) -> None:
    """Gives a new drawing its place. One that is there and may not be replaced is an obstacle, unless it has the same
    bytes."""
    os.makedirs(os.path.dirname(task.target), exist_ok=True)
    if os.path.lexists(task.target) and not task.may_replace:
        there = digest_of(task.target) if os.path.isfile(task.target) else ''
        if there == digest:
            return
        if not task.known or there != task.known:
            raise exists(task.target)
        put_in_place(made, task.target, True, False)
        return
    put_in_place(made, task.target, task.may_replace, False)


def _tell(entry: Entry, ended: Ended, task: Task) -> None:
    """Puts what was said into an entry."""
    entry.status, entry.ending, entry.refused = ended.status, ended.said, len(ended.refused)
    entry.answers = [
        {'line': line, 'command': text, 'cause': cause} for line, text, cause in ended.refused[:ANSWERS_MOST]
    ]


def _fail(entry: Entry, task: Task, said: str) -> None:
    """Says that a drawing isn't done."""
    entry.status, entry.ending, entry.written = -1, said, ''


def _said(why: BaseException, task: Task) -> str:
    """What is wrong, without the drawing's name in front."""
    if isinstance(why, MemoryError):
        return 'there is not enough memory for it'
    if isinstance(why, OSError):
        why = mistake_of(why.filename or task.source, why)
    said = str(why)
    for name in (said_name(task.source), said_name(task.target)):
        said = without_name(said, name)
    return said


def _is_full(why: BaseException, task: Task) -> bool:
    """Whether it was for want of room on the disk."""
    if isinstance(why, (ListingError, MissingProgram)):
        return False
    causes = [why, why.__context__, why.__cause__]
    if any(isinstance(it, OSError) and it.errno in NO_SPACE for it in causes):
        return True
    if not (isinstance(why, OSError) and why.errno == errno.EIO):
        return False
    try:
        return shutil.disk_usage(task.room).free < os.path.getsize(task.source) + SPARE
    except OSError:
        return False
