"""How the command is stopped by a signal: in order, so that nothing that it began is left."""

from __future__ import annotations

import contextlib
import signal
import threading
import time
from types import FrameType
from typing import Iterator, Optional

SIGNALS = ('SIGINT', 'SIGTERM', 'SIGHUP', 'SIGBREAK')  # of which each system has some
AT_ONCE = 1.0  # so many seconds another signal is taken for the same one, while what was begun is cleared away


class Stop:
    """What stops the command at a signal: at the first one, since a terminal and a shell may both send one, and not
    while it is held."""

    def __init__(self) -> None:
        self.last = -AT_ONCE
        self.holds = 0
        self.is_waiting = False

    def __call__(self, number: int, frame: Optional[FrameType]) -> None:
        if self.holds:
            self.is_waiting = True
        else:
            self.now()

    def now(self) -> None:
        """Stops the command, unless it was stopped just now."""
        time_now = time.monotonic()
        if time_now - self.last >= AT_ONCE:
            self.last = time_now
            raise KeyboardInterrupt


STOP = Stop()


def catch_signals() -> None:
    """Lets the signals that end a program end it in order, so that no temporary file is left. Those that were ignored
    when it began, as by nohup, stay ignored."""
    if threading.current_thread() is threading.main_thread():
        for number in (getattr(signal, name) for name in SIGNALS if hasattr(signal, name)):
            if signal.getsignal(number) is not signal.SIG_IGN:
                signal.signal(number, STOP)


@contextlib.contextmanager
def held() -> Iterator[None]:
    """Lets a signal wait while something is begun, as a process, until it is known to what ends it."""
    STOP.holds += 1
    try:
        yield
    finally:
        STOP.holds -= 1
        if STOP.is_waiting and not STOP.holds:
            STOP.is_waiting = False
            STOP.now()
