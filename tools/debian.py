"""The Debian package of a release."""

from __future__ import annotations

import hashlib
import os
import subprocess
import tempfile
from email.utils import formatdate

import release
from packed import LINK, Entry, Tree, below, folders_of, write_tree, zipped

NAMES = {'amd64': 'x86_64-linux-gnu', 'arm64': 'aarch64-linux-gnu'}    # how the folder of libraries is called
BLOCK = 1024

CONTROL = """Package: dgnedit
Version: %s
Section: graphics
Priority: optional
Architecture: %s
%sRecommends: python3 (>= 3.9)
Installed-Size: %d
Maintainer: %s
%sDescription: editor for MicroStation design files that leaves every other byte
 Moves, copies, recolours, deletes and appends elements of design files (DGN,
 version 7) by a script, lists what they hold, and writes corrections as patch
 files for drawings that others keep. What no accepted edit writes stays as it
 was, to the byte. The companion dgnkit, which wants Python, finds elements,
 explains refusals, mends and compares drawings, and shows them in a browser.
 The library for C and C++ runs the same program over files in memory.
"""
COPYRIGHT = """Format: https://www.debian.org/doc/packaging-manuals/copyright-format/1.0/

Files: *
Copyright: 2026 the dgnedit authors
License: MIT
"""
CHANGES = """dgnedit (%s) stable; urgency=medium

  * Release %s; CHANGELOG.md says what is new in it.

 -- %s  %s
"""


def changes() -> str:
    """dpkg's own file of the changes: the release as it stands first in CHANGELOG.md."""
    version, said = release.version(), release.contact()
    author = '%s <%s>' % (said['name'], said.get('email', ''))
    return CHANGES % (version, version, author, formatdate(release.date(), usegmt=True).replace('GMT', '+0000'))


def copyright_text() -> str:
    text = release.text_of('LICENSE')
    lines = text[text.index('Permission'):].splitlines()
    return COPYRIGHT + ''.join(' %s\n' % (line or '.') for line in lines)


def control(tree: Tree, architecture: str, needs: str) -> str:
    """What the package says of itself; `needs` are the packages that it stands on."""
    size = sum((len(entry.content) + BLOCK - 1) // BLOCK for entry in tree.values())
    home = release.contact().get('homepage', '')
    return CONTROL % (release.version(), architecture, needs and 'Depends: %s\n' % needs, size, release.maintainer(),
                      home and 'Homepage: %s\n' % home)


def sums(tree: Tree) -> str:
    lines = ('%s  %s\n' % (hashlib.md5(tree[name].content).hexdigest(), name) for name in sorted(tree)
             if tree[name].mode != LINK)
    return ''.join(lines)


def write_package(files: Tree, architecture: str, needs: str, folder: str) -> str:
    """Packs the files of /usr, and gives the package's place."""
    doc = 'usr/share/doc/dgnedit/'
    tree = below('usr', files)
    tree[doc + 'changelog.gz'] = zipped(changes().encode())
    tree[doc + 'copyright'] = Entry(copyright_text().encode())
    place = os.path.join(folder, 'dgnedit_%s_%s.deb' % (release.version(), architecture))
    with tempfile.TemporaryDirectory(prefix='dgnedit-package-') as room:
        os.chmod(room, 0o755)
        about = {'DEBIAN/control': Entry(control(tree, architecture, needs).encode()),
                 'DEBIAN/md5sums': Entry(sums(tree).encode())}
        write_tree({**tree, **about}, room)
        for name in ['', *folders_of(tree), *tree]:
            os.utime(os.path.join(room, name), (release.date(), release.date()), follow_symlinks=False)
        subprocess.run(['dpkg-deb', '--root-owner-group', '-Zxz', '--build', room, place], check=True,
                       stdout=subprocess.DEVNULL,
                       env={**os.environ, 'DPKG_DEB_THREADS_MAX': '1', 'SOURCE_DATE_EPOCH': str(release.date())})
    return place
