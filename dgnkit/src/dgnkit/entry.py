"""Where the command begins. Little is loaded here, so that it ends in order whenever it is stopped."""

from __future__ import annotations

import os
import sys
from typing import NoReturn

STOPPED, ENDED = 130, 2
NO_MEMORY = b'dgnkit: there is not enough memory for it\n'


def command() -> NoReturn:
    """Runs the command that the program was called with, and ends with its status."""
    try:
        status = _run()
        _flush()
    except KeyboardInterrupt:
        status = STOPPED
    except MemoryError:
        status = ENDED
        _say(NO_MEMORY)
    except Exception as why:  # before the command itself could heed it, as where a module can't be read
        status = ENDED
        _say(("dgnkit: it couldn't be started: %r\n" % why).encode('ascii', 'backslashreplace'))
    os._exit(status)


def _run() -> int:
    open_streams()
    from .system import write_plainly

    write_plainly()
    from .cli import main
    from .waiting import watch

    watch()
    return main()


def open_streams() -> None:
    """Opens the null device in the place of each standard stream that is closed, so that no file comes to stand
    there. For Python such a stream stays none."""
    while True:
        number = os.open(os.devnull, os.O_RDWR)
        if number > 2:
            os.close(number)
            return


def _flush() -> None:
    """Says what is still to be said. What can't be said any more is no reason for another status."""
    for stream in (sys.stdout, sys.stderr):
        try:
            if stream is not None:
                stream.flush()
        except (OSError, ValueError):
            pass


def _say(line: bytes) -> None:
    """Says a line on standard error with as little as may be."""
    try:
        os.write(2, line)
    except OSError:
        pass
