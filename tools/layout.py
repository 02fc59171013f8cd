"""Which files a release has, and where each stands: in an archive, and below a folder such as /usr."""

from __future__ import annotations

import glob
import os
import subprocess
import sys
import tempfile

import links
import release
from packed import LINK, RUNS, Entry, Tree, below, entry_of, zipped

TOP = os.path.dirname(os.path.dirname(os.path.abspath(__file__)))
PAGES = ('dgnedit', 'dgnkit')           # the manual pages
DOCUMENTS = ('md', 'svg', 'png')        # what of docs/ is read
SHARED = 'libdgnedit.so.1'              # the shared library, by the name that programs ask for
DLL = ('dgnedit.dll', 'dgnedit.lib')    # that for Windows, and what a program is linked with
DOC = 'share/doc/dgnedit'
SINGLE = ('dgnedit-manual.html', 'dgnedit-card.html')     # pages that have all of theirs in one file

# What pkg-config reads, which stands in `pkgconfig` beside the libraries.
PKG_CONFIG = """prefix=${pcfiledir}/%s
libdir=${pcfiledir}/..
includedir=${prefix}/include

Name: dgnedit
Description: Edits MicroStation design files of version 7 in memory
Version: %s
Libs: -L${libdir} -ldgnedit
Cflags: -I${includedir}
"""


# How the companion is called on Windows, by the Python that is there.
CALLER = b"""@echo off\r
where py >nul 2>nul\r
if %errorlevel%==0 (py -3 "%~dp0dgnkit.pyz" %*) else (python "%~dp0dgnkit.pyz" %*)\r
exit /b %errorlevel%\r
"""


def source(*names: str) -> str:
    return os.path.join(TOP, *names)


def optional(place: str, path: str) -> Tree:
    """A file under this name, where it is there."""
    return {place: entry_of(path)} if os.path.exists(path) else {}


def page_of(name: str, packed: set[str]) -> Entry:
    """A page, in which what isn't packed is named without a link."""
    text = links.without_links(release.text_of(name), name, packed)
    return Entry(text.encode('utf-8'))


def documents(made: str) -> Tree:
    """Documents and examples, in the folders in which they stand in the sources, so that links lead on, and the manual
    and the quick card, where the folder `made` has them."""
    paths = [it for kind in DOCUMENTS for it in glob.glob(source('docs', '*.' + kind))]
    packed = {'README.md', *('docs/' + os.path.basename(it) for it in paths)}
    tree = {'README.md': page_of('README.md', packed)}
    for path in paths:
        name = 'docs/' + os.path.basename(path)
        tree[name] = page_of(name, packed) if name.endswith('.md') else entry_of(path)
    for path in glob.glob(source('examples', '*')):
        if os.path.isfile(path):
            runs = os.stat(path).st_mode & 0o100
            tree['examples/' + os.path.basename(path)] = entry_of(path, RUNS if runs else 0o644)
    for name in SINGLE:
        tree.update(optional(name, os.path.join(made, name)))
    return tree


def companion() -> Entry:
    """dgnkit as one file."""
    with tempfile.TemporaryDirectory(prefix='dgnedit-layout-') as room:
        place = os.path.join(room, 'dgnkit')
        subprocess.run([sys.executable, source('tools', 'make_dgnkit'), place], check=True, stdout=subprocess.DEVNULL)
        return entry_of(place, RUNS)


def library(made: str, folder: str, up: str) -> Tree:
    """The library for C in this folder for libraries, from which `up` leads to that of all; nothing where it isn't
    made."""
    if not os.path.exists(os.path.join(made, 'libdgnedit.a')):
        return {}
    return {
        'include/dgnedit.h': entry_of(os.path.join(made, 'dgnedit.h')),
        folder + '/libdgnedit.a': entry_of(os.path.join(made, 'libdgnedit.a')),
        folder + '/' + SHARED: entry_of(os.path.join(made, SHARED)),
        folder + '/libdgnedit.so': Entry(SHARED.encode(), LINK),
        folder + '/pkgconfig/dgnedit.pc': Entry((PKG_CONFIG % (up, release.version())).encode()),
    }


def common(made: str, first: str) -> Tree:
    """What each archive has: where to begin, the editor in a browser, documents and examples."""
    text = release.text_of('docs/' + first).replace('VERSION', release.version())
    tree = {'README.txt': Entry(text.encode())}
    for name in ('LICENSE', 'CHANGELOG.md', 'VERSION'):
        tree[name] = entry_of(source(name))
    return {**tree, **optional('dgnedit.html', os.path.join(made, 'dgnedit.html')), **documents(made)}


def archive(program: str, made: str) -> Tree:
    """The archive for Linux: the program, the companion and the man pages, too."""
    tree = {'dgnedit': entry_of(program, RUNS), 'dgnkit': companion(), **common(made, 'archive.txt')}
    for page in PAGES:
        tree['man/%s.1' % page] = entry_of(source('docs', 'man', page + '.1'))
    return tree


def windows(program: str, made: str) -> Tree:
    """That for Windows: the program, and the companion with a file by which it is called."""
    tree = {'dgnedit.exe': entry_of(program, RUNS), 'dgnkit.pyz': companion(), 'dgnkit.cmd': Entry(CALLER),
            **common(made, 'archive-windows.txt')}
    for name in DLL:
        tree.update(optional('lib/' + name, os.path.join(made, 'windows', name)))
    if 'lib/' + DLL[0] in tree:
        tree['include/dgnedit.h'] = entry_of(source('include', 'dgnedit.h'))
    return tree


def installed(program: str, made: str) -> Tree:
    """What stands below a folder such as /usr/local, but for the library."""
    tree = {'bin/dgnedit': entry_of(program, RUNS), 'bin/dgnkit': companion()}
    for page in PAGES:
        tree['share/man/man1/%s.1' % page] = entry_of(source('docs', 'man', page + '.1'))
    tree.update(below(DOC, documents(made)))
    tree.update(optional('share/dgnedit/dgnedit.html', os.path.join(made, 'dgnedit.html')))
    if 'share/dgnedit/dgnedit.html' in tree:
        tree['share/applications/dgnedit.desktop'] = entry_of(source('web', 'dgnedit.desktop'))
    tree['share/mime/packages/dgnedit.xml'] = entry_of(source('web', 'dgnedit.xml'))
    return tree


def packaged(program: str, made: str) -> Tree:
    """What a Debian package has below /usr, but for the library."""
    tree = installed(program, made)
    for page in PAGES:
        place = 'share/man/man1/%s.1' % page
        tree[place + '.gz'] = zipped(tree.pop(place).content)
    tree[DOC + '/CHANGELOG.md.gz'] = zipped(entry_of(source('CHANGELOG.md')).content)
    return tree
