"""Reading files: no longer ones than there may be. What a call reads is kept in mind, so that it writes over none of
it. The name `-` is standard input."""

from __future__ import annotations

import os
import re
import stat
import sys
from pathlib import Path
from typing import IO, Iterable, Optional, Set, Tuple, Union

from .errors import Mistake
from .format.limits import DRAWING_LONGEST
from .output import printable

Name = Union[str, Path]
TABLE_LONGEST = 1 << 30  # bytes of a table or of GeoJSON
STANDARD_INPUT = '-'
INPUT_READ = (-1, 0)  # what stands among the files that were read for standard input, which can be read once
HANDLES = r'/proc/%d(?:/task/\d+)?/fd'  # where the system names the open files of a process
LINKS_MOST = 40

# The files that were read in this run, each by its device and its number there.
READ: Set[Tuple[int, int]] = set()


def read_file(path: Name, longest: int = TABLE_LONGEST) -> bytes:
    """The bytes of a file. It raises Mistake, with the reason, where it can't be read or has more bytes than that."""
    try:
        with _opened(path) as file:
            note_read(os.fstat(file.fileno()))
            content = _front(file, longest)
    except (OSError, ValueError) as why:
        raise mistake_of(path, why)
    if len(content) > longest:
        raise Mistake('%s has more than %d bytes, which is the limit' % (said_name(path), longest))
    return content


def _opened(path: Name) -> IO[bytes]:
    if str(path) != STANDARD_INPUT:
        return open(path, 'rb')
    if sys.stdin is None:
        raise OSError('it is closed')
    if INPUT_READ in READ:
        raise OSError("it is named more than once, and can't be read again")
    READ.add(INPUT_READ)
    return open(0, 'rb', closefd=False)


def _front(file: IO[bytes], longest: int) -> bytes:
    """The bytes of a file, or a few more than are asked for where it has them."""
    if os.fstat(file.fileno()).st_size > longest:
        return bytes(longest + 1)
    return file.read(longest + 1)


def read_drawing(path: Name) -> bytes:
    """The bytes of a drawing. It raises Mistake where it is no file that the program can read once more."""
    ask_drawing(path)
    return read_file(path, DRAWING_LONGEST)


def ask_drawing(path: Name) -> None:
    """It raises Mistake where a drawing is named that is there and is no file on disk: standard input, a pipe, a
    device. The program would wait for these, or read another one's."""
    what = 'standard input' if str(path) == STANDARD_INPUT else kind_of_stream(path)
    if what:
        said = "%s isn't a file on disk%s, and a drawing has to be read more than once"
        more = '' if what == said_name(path) else ' (it is %s)' % what
        raise Mistake(said % (said_name(path), more))


def kind_of_stream(path: Name) -> str:
    """What a name stands for that is no lasting file: a pipe, a device, an open file of this process; else nothing."""
    try:
        mode = os.stat(path).st_mode
    except (OSError, ValueError):
        return ''
    kinds = {stat.S_IFIFO: 'a pipe', stat.S_IFSOCK: 'a socket', stat.S_IFCHR: 'a device', stat.S_IFBLK: 'a device'}
    other = 'an open file without a name of its own' if handle_of(path) is not None else ''
    return kinds.get(stat.S_IFMT(mode), other)


def is_stream(path: Name) -> bool:
    """Whether a name stands for what can be read once, or only by this process: standard input, a pipe, a device, an
    open file as /dev/fd/3."""
    return str(path) == STANDARD_INPUT or bool(kind_of_stream(path))


def handle_of(path: Name) -> Optional[int]:
    """The number of the open file that a name stands for, as 0 for /dev/stdin and 3 for /dev/fd/3; none where it is
    another name."""
    place = str(path)
    try:
        for _ in range(LINKS_MOST):
            folder, name = os.path.split(place)
            if name.isdecimal() and re.fullmatch(HANDLES % os.getpid(), os.path.realpath(folder)):
                return int(name)
            if not os.path.islink(place):
                return None
            place = os.path.join(folder, os.readlink(place))
    except (OSError, ValueError):
        pass
    return None


def note_read(facts: os.stat_result) -> None:
    """Keeps in mind that a file was read."""
    READ.add((facts.st_dev, facts.st_ino))


def note_inputs(names: Iterable[Name]) -> None:
    """Keeps in mind the files that the program reads; a name that has none is no matter."""
    for name in names:
        try:
            note_read(os.stat(name))
        except (OSError, ValueError):
            pass


def front_of(path: Name, count: int) -> bytes:
    """The first bytes of a file, none where there is none that may be read. It raises Mistake where reading fails."""
    try:
        with open(path, 'rb') as file:
            return file.read(count)
    except (FileNotFoundError, IsADirectoryError, NotADirectoryError, PermissionError, ValueError):
        return b''
    except OSError as why:
        raise mistake_of(path, why)


def said_name(path: Name) -> str:
    """What a file is called in words."""
    return 'standard input' if str(path) == STANDARD_INPUT else printable(str(path))


def mistake_of(path: Name, why: Exception) -> Mistake:
    """What is wrong with a file, in one line."""
    reason = (why.strerror or str(why)).lower() if isinstance(why, OSError) else str(why)
    return Mistake('%s: %s' % (said_name(path), reason))
