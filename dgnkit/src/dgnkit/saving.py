"""Writing files, in the one way that there is: a file is written beside its place, is safe on the disk, and then takes
its name, so that what was there stays until the new file is whole. Nothing that was read in this run is written over;
another file only where that was asked for, and a drawing by none but those that write drawings."""

from __future__ import annotations

import contextlib
import errno
import os
import shutil
import stat
import sys
import tempfile
from dataclasses import dataclass
from typing import Collection, Dict, Iterable, Iterator

from .errors import Mistake
from .files import READ, STANDARD_INPUT, Name, front_of, handle_of, kind_of_stream, mistake_of
from .format.tcb import kind_of
from .output import printable
from .system import IS_WINDOWS, TO_FLUSH

DRAWINGS = ('design', 'v8', 'library')
NO_LINKS = (
    errno.EPERM,
    errno.ENOTSUP,
    errno.ENOSYS,
    errno.EMLINK,
    errno.EINVAL,
)  # of file systems that know no second name
NOT_ALLOWED = (errno.EACCES, errno.EPERM, errno.EROFS)  # where it is the folder that may not be written to
NO_SYNC = (errno.EINVAL, errno.ENOTSUP, errno.EACCES, errno.ENOSYS)  # where a file or a folder can't be made safe


@dataclass(frozen=True)
class Target:
    """A file that is to be written: its name, empty where it is printed instead; whether one that is there may be
    replaced; and whether it is only said what would be written."""

    path: str
    may_replace: bool = False
    is_dry: bool = False


def ask_target(path: Name, may_replace: bool, is_for_drawing: bool = False) -> None:
    """It raises Mistake where a file may not be written: it was read in this run, or is there and may not be replaced,
    or is a drawing where none is to be written; or where it is a folder, or named as standard input is."""
    if str(path) == STANDARD_INPUT:
        raise Mistake("- is standard input, which can't be written: name a file, such as ./-")
    try:
        facts = os.stat(path)
    except (OSError, ValueError):
        return
    if stat.S_ISDIR(facts.st_mode):
        raise Mistake("%s can't be written: it is a folder" % printable(str(path)))
    if kind_of_stream(path):
        return
    if (facts.st_dev, facts.st_ino) in READ:
        raise Mistake("%s is an input, and isn't overwritten: name another file" % printable(str(path)))
    if not is_for_drawing and kind_of(front_of(path, 4)) in DRAWINGS:
        raise Mistake("%s is a drawing, and isn't overwritten" % printable(str(path)))
    if not may_replace:
        raise exists(path)


def exists(path: Name) -> Mistake:
    """A file is there that may not be replaced."""
    return Mistake('%s already exists: --force overwrites it' % printable(str(path)))


def write_file(path: Name, content: bytes, may_replace: bool) -> None:
    """Writes a file, which is there whole or stays as it was. It raises Mistake where it can't be written, or may not
    be."""
    write_files({str(path): content}, may_replace)


def write_files(contents: Dict[str, bytes], may_replace: bool, drawings: Collection[str] = ()) -> None:
    """Writes files as above, of which some are drawings; where one can't be written, none is."""
    for path in contents:
        ask_target(path, may_replace, path in drawings)
    with contextlib.ExitStack() as stack:
        made = {path: stack.enter_context(_staged(path, [content])) for path, content in contents.items()}
        for path, name in made.items():
            put_in_place(name, path, may_replace)


def write_pieces(path: Name, pieces: Iterable[bytes], may_replace: bool) -> None:
    """Writes a file of pieces as above, without all of them in memory at once."""
    ask_target(path, may_replace)
    with _staged(path, pieces) as made:
        put_in_place(made, path, may_replace)


@contextlib.contextmanager
def delivered(out: Name, may_replace: bool) -> Iterator[str]:
    """The name of a drawing that is to be made, and then takes the place of OUT; where none was made, or something is
    raised meanwhile, OUT stays as it was. It raises Mistake where OUT can't be written, or may not be."""
    ask_target(out, may_replace, True)
    with folder_in(_folder_of(out), out) as folder:
        made = os.path.join(folder, 'out.dgn')
        yield made
        if os.path.exists(made):
            put_in_place(made, out, may_replace)


@contextlib.contextmanager
def folder_in(place: str, target: Name) -> Iterator[str]:
    """A temporary folder in a place, for what becomes the target. However this ends, nothing of it is left."""
    if not os.path.isdir(place):
        raise Mistake("%s can't be written: there is no folder %s" % (printable(str(target)), printable(place)))
    name = _new_name(place)
    try:
        try:
            os.mkdir(name, 0o700)
        except (OSError, ValueError) as why:
            raise mistake_of(place, why)
        yield name
    finally:
        shutil.rmtree(name, ignore_errors=True)


@contextlib.contextmanager
def _staged(target: Name, pieces: Iterable[bytes]) -> Iterator[str]:
    """Writes pieces to a file that becomes the target, and gives its name. However this ends, it is gone."""
    folder = _folder_of(target)
    name = _new_name(folder)
    try:
        try:
            with open(name, 'xb') as file:
                file.writelines(pieces)
        except (OSError, ValueError) as why:
            is_folder = isinstance(why, OSError) and why.errno in NOT_ALLOWED
            raise mistake_of(folder if is_folder else target, why)
        yield name
    finally:
        with contextlib.suppress(FileNotFoundError, NotADirectoryError, ValueError):
            os.unlink(name)


def _new_name(folder: str) -> str:
    """A name that nothing has. It is known before anything is made, so that whatever stops that leaves nothing."""
    return os.path.join(folder, '.dgnkit-' + os.urandom(8).hex())


def _folder_of(target: Name) -> str:
    """The folder that a file comes to be in, behind a link where its name is one; of a pipe or a device any folder."""
    try:
        return tempfile.gettempdir() if kind_of_stream(target) else os.path.dirname(os.path.realpath(target))
    except (OSError, ValueError) as why:
        raise mistake_of(target, why)


def put_in_place(made: Name, target: Name, may_replace: bool, is_last: bool = True) -> None:
    """Gives a file that was made its name, behind a link where that is one; the mode of one that it replaces stays. It
    raises Mistake where one is there and may not be replaced; also where that came up just now, as by another run. Into
    a pipe or a device it is copied. Where more files follow, it isn't the last one, and the caller makes their folder
    safe once they are all there."""
    place = os.path.realpath(target)
    try:
        if kind_of_stream(target):
            _pour(made, target)
            return
        make_safe(made)
        if may_replace:
            _take_mode(made, place)
            os.replace(made, place)
        else:
            _link(made, place)
        if is_last:
            make_safe(os.path.dirname(place))
    except FileExistsError:
        raise exists(target)
    except (OSError, ValueError) as why:
        raise mistake_of(target, why)


def _link(made: Name, place: str) -> None:
    """Gives a file a name that nothing has. It raises FileExistsError where something has it."""
    try:
        os.link(made, place)
    except OSError as why:
        if why.errno not in NO_LINKS:
            raise
        if os.path.lexists(place):
            raise FileExistsError(errno.EEXIST, 'file exists', place)
        os.replace(made, place)
    else:
        os.unlink(made)


def make_safe(name: Name) -> None:
    """Waits until the disk has a file, or the names in a folder, which Windows opens to nobody."""
    if IS_WINDOWS and os.path.isdir(name):
        return
    try:
        handle = os.open(name, TO_FLUSH)
        try:
            os.fsync(handle)
        finally:
            os.close(handle)
    except OSError as why:
        if why.errno not in NO_SYNC:
            raise


def _take_mode(made: Name, place: str) -> None:
    """Gives a file the owner and the mode of the one that it replaces; the owner where that is allowed."""
    try:
        facts = os.stat(place)
    except FileNotFoundError:
        return
    if not IS_WINDOWS:
        with contextlib.suppress(OSError):
            os.chown(made, facts.st_uid, facts.st_gid)
    os.chmod(made, stat.S_IMODE(facts.st_mode))


def _pour(made: Name, target: Name) -> None:
    """Copies a file into a pipe or a device, or into an open file of this process behind what was said there."""
    handle = handle_of(target)
    if handle == 1 and sys.stdout is None:
        raise OSError('standard output is closed')
    for stream in (sys.stdout, sys.stderr):
        if stream is not None:
            stream.flush()
    sink = open(target, 'wb') if handle is None else open(handle, 'wb', closefd=False)
    with open(made, 'rb') as source, sink:
        shutil.copyfileobj(source, sink)
