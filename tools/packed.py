"""Files as they are to stand in a folder or in an archive, and archives that are the same to the byte each time."""

from __future__ import annotations

import gzip
import io
import os
import tarfile
from typing import NamedTuple

PLAIN, RUNS, LINK = 0o644, 0o755, 0


class Entry(NamedTuple):
    """A file: its bytes and its rights; or, with LINK as its rights, a link to the name that the bytes are."""

    content: bytes
    mode: int = PLAIN


Tree = dict[str, Entry]    # files by their places


def entry_of(path: str, mode: int = PLAIN) -> Entry:
    """A file of this machine."""
    with open(path, 'rb') as file:
        return Entry(file.read(), mode)


def zipped(content: bytes) -> Entry:
    """A file that gzip has packed, without its time and name."""
    return Entry(gzip.compress(content, 9, mtime=0))


def below(front: str, tree: Tree) -> Tree:
    """The same files in a folder."""
    return {front + '/' + name: entry for name, entry in tree.items()}


def folders_of(tree: Tree) -> list[str]:
    """The folders that the files of a tree stand in, each behind the one that it stands in."""
    found = set()
    for name in tree:
        while '/' in name:
            name = name.rpartition('/')[0]
            found.add(name)
    return sorted(found)


def tar_entry(name: str, kind: bytes, mode: int, when: int) -> tarfile.TarInfo:
    info = tarfile.TarInfo(name)
    info.type, info.mode, info.mtime = kind, mode, when
    return info


def write_tar(tree: Tree, place: str, when: int) -> None:
    """Packs a tree by tar and gzip; each file has this time and belongs to nobody's name."""
    made = io.BytesIO()
    with tarfile.open(fileobj=made, mode='w', format=tarfile.GNU_FORMAT) as archive:
        for folder in folders_of(tree):
            archive.addfile(tar_entry(folder, tarfile.DIRTYPE, 0o755, when))
        for name in sorted(tree):
            entry = tree[name]
            info = tar_entry(name, tarfile.REGTYPE, entry.mode, when)
            if entry.mode == LINK:
                info.type, info.mode, info.linkname = tarfile.SYMTYPE, 0o777, os.fsdecode(entry.content)
                archive.addfile(info)
            else:
                info.size = len(entry.content)
                archive.addfile(info, io.BytesIO(entry.content))
    with open(place, 'wb') as file:
        file.write(gzip.compress(made.getvalue(), 9, mtime=0))


def write_file(entry: Entry, path: str) -> None:
    """Puts a file in its place, or a link, in the place of one that is there."""
    if os.path.lexists(path):
        os.remove(path)
    if entry.mode == LINK:
        os.symlink(os.fsdecode(entry.content), path)
        return
    with open(path, 'wb') as file:
        file.write(entry.content)
    os.chmod(path, entry.mode)


def write_tree(tree: Tree, folder: str) -> None:
    """Puts the files below a folder. Folders that are made can be entered by all."""
    for name in ['', *folders_of(tree)]:
        path = os.path.join(folder, name)
        if not os.path.isdir(path):
            os.makedirs(path)
            os.chmod(path, 0o755)
    for name, entry in tree.items():
        write_file(entry, os.path.join(folder, name))
