"""What may take long: a word on progress once it does, and a stop where a match would never end."""

from __future__ import annotations

import contextlib
import signal
import sys
import threading
import time
from itertools import islice
from types import FrameType
from typing import Iterable, Iterator, Optional, Pattern, TypeVar

from .errors import Mistake
from .output import note
from .system import has_timer

Item = TypeVar('Item')

QUIET = 2.0  # so many seconds nothing is said
OFTEN = 10.0
PATIENCE = 5.0  # so many seconds a regular expression may take on one text
LOOKS = 5  # so often within these it is looked whether the match is still the same one
STEP = 4096


class Matcher:
    """Regular expressions that are matched against texts one by one. While `limited`, what takes longer than some
    seconds on one text is stopped, and raises Mistake; how long all texts take is no matter."""

    def __init__(self, *forms: Pattern[str]) -> None:
        self.forms = forms
        self.started, self.ended = 0, 0  # how many matches there were so far
        self._seen, self._looks = 0, 0

    def is_in(self, text: str) -> bool:
        """Whether a text has a match."""
        self.started += 1
        found = any(it.search(text) for it in self.forms)
        self.ended = self.started
        return found

    def replaced(self, new: str, text: str) -> str:
        """A text with all matches replaced, which counts as one match."""
        self.started += 1
        for form in self.forms:
            text = form.sub(new, text)
        self.ended = self.started
        return text

    @contextlib.contextmanager
    def limited(self) -> Iterator[None]:
        """Stops matches that take too long. In another thread than the main one there is no limit, and none where the
        system has no timer: a match keeps the interpreter for itself, and only the main thread is ever interrupted in
        one."""
        if threading.current_thread() is not threading.main_thread() or not has_timer():
            yield
            return
        kept = signal.signal(signal.SIGALRM, self._look)
        signal.setitimer(signal.ITIMER_REAL, PATIENCE / LOOKS, PATIENCE / LOOKS)
        try:
            yield
        finally:
            signal.setitimer(signal.ITIMER_REAL, 0)
            signal.signal(signal.SIGALRM, kept)

    def _look(self, number: int, frame: Optional[FrameType]) -> None:
        """Counts how often the same match was going on."""
        is_same = self.started != self.ended and self.started == self._seen
        self._looks = self._looks + 1 if is_same else 0
        self._seen = self.started
        if self._looks >= LOOKS:
            said = 'the regular expression took more than %g seconds on one text, and was stopped'
            raise Mistake(said % PATIENCE)


class Work:
    """What a command is at, which `watch` says where it takes long."""

    at = 'still working'
    is_told = False  # whether the command says itself how far it is


def tells_itself() -> None:
    """Keeps in mind that the command says itself how far it is."""
    Work.is_told = True


def doing(what: str) -> None:
    """Keeps in mind what the command is at."""
    Work.at = what


def watch() -> None:
    """Says on standard error what the command is at, from two seconds on, and then once in ten seconds."""
    began = time.monotonic()

    def look() -> None:
        time.sleep(QUIET)
        while True:
            if not Work.is_told:
                with contextlib.suppress(OSError, ValueError):
                    note('%s (%d seconds so far)' % (Work.at, time.monotonic() - began))
            time.sleep(OFTEN)

    with contextlib.suppress(RuntimeError):  # where no thread can be started, nothing is said
        threading.Thread(target=look, daemon=True).start()


def told(what: str, items: Iterable[Item], count: int) -> Iterator[Item]:
    """The same items; how far they are is kept in mind."""
    waiting = iter(items)
    for done in range(0, count, STEP):
        doing('%s: %d of %d' % (what, done, count))
        yield from islice(waiting, STEP)


def is_terminal() -> bool:
    """Whether standard error is a terminal."""
    return sys.stderr is not None and sys.stderr.isatty()
