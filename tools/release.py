"""What the parts of a release have in common: the version, the date of its files, and archives that are the same to the
byte each time they are made of one commit."""

from __future__ import annotations

import os
import re
import struct
import subprocess
import time
import zipfile
from collections.abc import Collection, Iterator
from datetime import datetime, timezone

TOP = os.path.dirname(os.path.dirname(os.path.abspath(__file__)))
OLDEST = 315532800    # the first of January 1980, the least that a zip file can say
PROGRAM = 0o100755    # a plain file that may be run, as pip asks
LOADER = 3            # the kind of an entry of a program's headers that names a loader

# The machines that a release has a program for, with the name of that in a folder named so.
TARGETS = {'x86_64': 'dgnedit', 'aarch64': 'dgnedit', 'windows': 'dgnedit.exe'}


def text_of(name: str) -> str:
    """A file of the sources."""
    return text_of_file(TOP, name)


def text_of_file(folder: str, name: str) -> str:
    with open(os.path.join(folder, name), encoding='utf-8') as file:
        return file.read()


def version() -> str:
    """The version, which stands in the file VERSION and nowhere else."""
    return text_of('VERSION').strip()


def date() -> int:
    """The date of all files of a release, in seconds: $SOURCE_DATE_EPOCH, or that of the commit, or, where the sources
    are no clone, that of the newest release in CHANGELOG.md."""
    given = os.environ.get('SOURCE_DATE_EPOCH', '')
    if given:
        return int(given)
    ran = subprocess.run(['git', '-C', TOP, 'log', '-1', '--format=%ct'], stdout=subprocess.PIPE,
                         stderr=subprocess.DEVNULL, text=True)
    if ran.returncode == 0 and os.path.exists(os.path.join(TOP, '.git')):
        return int(ran.stdout)
    found = re.search(r'^## \[[^]]+\] - (\d{4}-\d\d-\d\d)$', text_of('CHANGELOG.md'), re.M)
    if found is None:
        raise ValueError('CHANGELOG.md has no date of a release')
    return int(datetime.strptime(found[1], '%Y-%m-%d').replace(tzinfo=timezone.utc).timestamp())


def contact() -> dict[str, str]:
    """Whom people write to about this copy, and where its sources are: what docs/CONTACT says and isn't empty."""
    lines = (line.partition(':') for line in text_of('docs/CONTACT').splitlines() if not line.startswith('#'))
    return {name.strip(): said.strip() for name, _, said in lines if said.strip()}


def maintainer() -> str:
    """Who answers for a package: a name, and an address where docs/CONTACT has one."""
    said = contact()
    return '%s <%s>' % (said['name'], said['email']) if 'email' in said else said['name']


def programs_in(folder: str) -> dict[str, str]:
    """The programs that a folder has, by their machines."""
    places = {target: os.path.join(folder, target, name) for target, name in TARGETS.items()}
    return {target: place for target, place in places.items() if os.path.exists(place)}


def is_static(program: str) -> bool:
    """Whether a program for Linux stands alone: it names no loader, which would bring the system's libraries."""
    with open(program, 'rb') as file:
        content = file.read()
    at, size, count = struct.unpack_from('<Q', content, 32)[0], *struct.unpack_from('<HH', content, 54)
    return all(struct.unpack_from('<I', content, at + size * i)[0] != LOADER for i in range(count))


def files_below(folder: str) -> Iterator[str]:
    """The files below a folder, by their places there, in one order everywhere."""
    for place, folders, names in sorted(os.walk(folder)):
        for name in sorted(names):
            yield os.path.relpath(os.path.join(place, name), folder)


def zip_files(contents: dict[str, bytes], place: str, front: bytes = b'', programs: Collection[str] = ()) -> None:
    """Writes a zip file of these files, of which some are programs, behind a front such as the line that a shell
    reads."""
    stamp = time.gmtime(max(date(), OLDEST))[:6]
    with open(place, 'wb') as file:
        file.write(front)
        with zipfile.ZipFile(file, 'w', zipfile.ZIP_DEFLATED, compresslevel=9) as made:
            for name in sorted(contents):
                info = zipfile.ZipInfo(name, stamp)
                info.create_system, info.external_attr = 3, (PROGRAM if name in programs else 0o644) << 16
                info.compress_type = zipfile.ZIP_DEFLATED
                made.writestr(info, contents[name])
