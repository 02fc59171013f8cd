"""What differs between systems: what a program is called, how a script is handed over, and what the system lacks."""

from __future__ import annotations

import os
import sys
from typing import IO

IS_WINDOWS = os.name == 'nt'
PROGRAM = 'dgnedit.exe' if IS_WINDOWS else 'dgnedit'

# The name by which the program reads what is piped to it; none where the system has no such name.
PIPED = None if IS_WINDOWS else '/dev/stdin'

# How a file is opened to wait until the disk has it: Windows wants a handle that may write.
TO_FLUSH = os.O_RDWR if IS_WINDOWS else os.O_RDONLY

FAR = 1 << 40  # bytes behind the end of any file that is locked


def has_timer() -> bool:
    """Whether a timer can interrupt the main thread in what Python itself can't be stopped in."""
    import signal

    return hasattr(signal, 'setitimer') and hasattr(signal, 'SIGALRM')


def write_plainly() -> None:
    """Has what is printed be UTF-8 with lines that end with LF, everywhere: scripts and tables are read by programs."""
    if IS_WINDOWS:
        for stream in (sys.stdout, sys.stderr):
            reconfigure = getattr(stream, 'reconfigure', None)
            if reconfigure is not None:
                reconfigure(encoding='utf-8', newline='\n')


def lock(file: IO[bytes]) -> bool:
    """Locks an open file for this process and those that it hands it to, until all have closed it or ended; false where
    another one has it."""
    try:
        if IS_WINDOWS:
            import msvcrt

            file.seek(FAR)  # where nothing is read
            msvcrt.locking(file.fileno(), msvcrt.LK_NBLCK, 1)  # type: ignore[attr-defined]
        else:
            import fcntl

            fcntl.flock(file.fileno(), fcntl.LOCK_EX | fcntl.LOCK_NB)
    except OSError:
        return False
    return True
