"""A run over an archive: which drawings are left since they are done, what is written to the journal, and when."""

from __future__ import annotations

import os
import shutil
import time
from dataclasses import dataclass, field
from typing import Callable, Dict, Iterator, List, Protocol, Sequence, Set

from ..errors import Mistake
from ..files import mistake_of
from ..output import counted, printable
from ..saving import ask_target, folder_in, make_safe
from .changing import Change
from .doing import NO_SPACE, Done, Task
from .journal import Entry, Journal
from .walking import Sheet

ROOM = '.dgnkit-'  # how the folder for what isn't whole begins
ROOM_LENGTH = len(ROOM) + 16
OFTEN = 0.5  # seconds, after which what is done is written to the journal
MANY = 64  # or so many drawings


class Hands(Protocol):
    """What does tasks."""

    def done(self, tasks: Iterator[Task]) -> Iterator[Done]:
        """What becomes of each, as they end."""


@dataclass
class Options:
    """Whether other files may be replaced, and whether what is done counts."""

    may_replace: bool = False
    is_anew: bool = False


@dataclass
class Archive:
    """A run over drawings, into a folder that has a journal."""

    into: str
    change: Change
    options: Options
    journal: Journal
    left: int = 0  # drawings that were done before
    done: int = 0
    is_full: bool = False
    waiting: List[Entry] = field(default_factory=list)
    folders: Set[str] = field(default_factory=set)
    written: float = 0.0

    def run(self, sheets: Sequence[Sheet], hands: Hands, tell: Callable[[int], None]) -> None:
        """Does all drawings that aren't done. However this ends, the journal says what is there, and no half drawing
        is left."""
        self.clear_away()
        if self.options.is_anew:
            known = self.known()
            self.journal.clear()
        else:
            known = {}
        with folder_in(self.into, self.into) as room:
            try:
                for done in hands.done(self.tasks(sheets, room, known)):
                    self.take(done)
                    tell(self.left + self.done)
                    if self.is_full:
                        break
            finally:
                self.write()
        self.clear_away()
        if self.is_full:
            count = counted(len(self.journal.places), 'drawing')
            raise Mistake('the disk with %s is full: the journal has %s' % (printable(self.into), count))
        self.journal.put_in_order()

    def known(self) -> Dict[str, str]:
        """The digest of each new drawing that an earlier run wrote."""
        return {it.drawing: it.written for it in self.journal.entries() if it.written}

    def clear_away(self) -> None:
        """Removes what a run that was killed has left unfinished. At the start of the next run a program of the killed
        one may still write there, so what is left then is removed when that run is over."""
        for name in os.listdir(self.into):
            if name.startswith(ROOM) and len(name) == ROOM_LENGTH:
                shutil.rmtree(os.path.join(self.into, name), ignore_errors=True)

    def tasks(self, sheets: Sequence[Sheet], room: str, known: Dict[str, str]) -> Iterator[Task]:
        """The drawings that are to be done."""
        script, imports = self.change.script, self.change.imports
        into = os.path.abspath(self.into)
        for sheet in sheets:
            entry = self.journal.entry(sheet.place)
            if entry is not None and (entry.script, entry.imports) == (script, imports) and self.is_done(entry, sheet):
                self.left += 1
                continue
            digest = entry.written if entry is not None and entry.script == script else known.get(sheet.place, '')
            # (what is no file, as - for standard input, keeps its name, by which it is refused)
            source = os.path.abspath(sheet.source) if os.path.isfile(sheet.source) else sheet.source
            yield Task(source, sheet.place, into, os.path.abspath(room), digest, self.options.may_replace)

    def is_done(self, entry: Entry, sheet: Sheet) -> bool:
        """Whether a drawing is as it was when it was done, and its new one is still there."""
        if not entry.lasts:
            return False
        try:
            facts = os.stat(sheet.source)
        except OSError:
            return False
        is_there = not entry.written or os.path.exists(os.path.join(self.into, sheet.place))
        return is_there and (facts.st_size, facts.st_mtime_ns) == (entry.size, entry.changed)

    def take(self, done: Done) -> None:
        """Keeps what became of a drawing, and writes it to the journal now and then."""
        self.waiting.append(done.entry)
        self.done += 1
        self.is_full = self.is_full or done.is_full
        if done.entry.written:
            self.folders.add(os.path.dirname(os.path.join(self.into, done.entry.drawing)))
        if len(self.waiting) >= MANY or time.monotonic() - self.written >= OFTEN:
            self.write()

    def write(self) -> None:
        """Makes the names of new drawings safe on the disk, and then says in the journal that they are done."""
        for folder in self.folders:
            make_safe(folder)
        self.folders.clear()
        try:
            self.journal.add(self.waiting)
        except OSError as why:
            if why.errno not in NO_SPACE:
                raise mistake_of(self.journal.path, why)
            self.is_full = True
        self.waiting.clear()
        self.written = time.monotonic()


def ask_places(into: str, sheets: Sequence[Sheet], journal: Journal, change: Change, options: Options) -> None:
    """It raises Mistake where what stands in the place of a new drawing may not be replaced: it is read in this run, or
    no run of the same change has written it. Where an earlier run was stopped, what it wrote last isn't in the journal
    yet, and is compared later."""
    for sheet in sheets:
        target = os.path.join(into, sheet.place)
        if not os.path.lexists(target):
            continue
        entry = journal.entry(sheet.place)
        is_known = entry is not None and bool(entry.written) and (options.is_anew or entry.script == change.script)
        if entry is not None and entry.written and not is_known and not options.may_replace:
            said = '%s was made by another script: name another folder, or --anew makes it anew'
            raise Mistake(said % printable(target))
        is_unknown = entry is None and not journal.is_new
        ask_target(target, options.may_replace or is_known or is_unknown, True)
