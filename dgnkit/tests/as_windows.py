"""Runs dgnkit as on Windows, as far as another system can: what Python lacks there is taken away before dgnkit is
loaded, which then finds the names by which it knows that system.

    as_windows.py WORD ..

What of Python's own modules asks for the system is loaded before, and goes on with the one that there is."""

import argparse  # noqa: F401
import csv  # noqa: F401
import fcntl
import io
import json  # noqa: F401
import os
import pathlib  # noqa: F401
import queue  # noqa: F401
import shutil  # noqa: F401
import signal
import subprocess
import sys
import tempfile  # noqa: F401
import webbrowser  # noqa: F401
from pathlib import Path
from types import ModuleType

LACKING = {
    signal: ['SIGHUP', 'SIGALRM', 'SIGKILL', 'setitimer', 'ITIMER_REAL', 'alarm', 'pthread_sigmask'],
    os: ['chown', 'fchmod', 'fchown', 'getuid', 'geteuid', 'killpg', 'setsid', 'fork', 'mkfifo', 'sched_getaffinity']
    + ['sync', 'O_NOFOLLOW', 'O_DIRECTORY', 'O_CLOEXEC', 'O_NONBLOCK'],
}
ABSENT = ['fcntl', 'resource', 'select', 'selectors', 'termios', 'pwd', 'grp', 'syslog', 'tty', 'pty']


def take_away() -> None:
    """Takes away what Windows lacks; what Python has loaded of it for itself stays with Python."""
    for module, names in LACKING.items():
        for name in names:
            vars(module).pop(name, None)
    lock = ModuleType('msvcrt')
    vars(lock).update(LK_NBLCK=1, locking=lock_far)
    sys.modules['msvcrt'] = lock
    for name in ABSENT:
        sys.modules[name] = None  # type: ignore[assignment]


def lock_far(number: int, mode: int, count: int) -> None:
    """Locks a file as msvcrt does, where nothing stands in it."""
    fcntl.lockf(number, fcntl.LOCK_EX | fcntl.LOCK_NB, count, 1 << 40)


def refuse_folders() -> None:
    """Has no folder be opened, as Windows opens none."""
    opened = os.open

    def refusing(path: str, *words: int, **more: int) -> int:
        if not more and os.path.isdir(path):
            raise PermissionError(13, 'Permission denied', path)
        return opened(path, *words, **more)

    os.open = refusing  # type: ignore[assignment]


def begin() -> None:
    """Loads all of dgnkit as on Windows."""
    sys.path.insert(0, str(Path(__file__).resolve().parents[1] / 'src'))
    os.name, sys.platform, kept = 'nt', 'win32', (os.name, sys.platform)
    import dgnkit.system

    os.name, sys.platform = kept
    assert dgnkit.system.IS_WINDOWS and dgnkit.system.PIPED is None


def main() -> None:
    subprocess._USE_POSIX_SPAWN = False
    sys.stdout = io.TextIOWrapper(sys.stdout.buffer, encoding='cp1252', newline='\r\n')
    take_away()
    refuse_folders()
    begin()
    sys.argv[0] = os.path.join(os.environ['DGNKIT_FOLDER'], 'dgnkit.pyz')
    from dgnkit.entry import command

    command()


if __name__ == '__main__':
    main()
