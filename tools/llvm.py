"""The LLVM modules of the program and of the library: all code of each in one file, from which every target is made."""

from __future__ import annotations

import hashlib
import os
import shutil
import subprocess
import tempfile

from typing import NamedTuple

import release
from kit import TOP, find_kit, rt
from standing import Crate, copy_sources, read_crates, standing_under

PROGRAM, LIBRARY = 'dgnedit', 'dgnedit_lib'
KINDS: dict[str, list[str]] = {PROGRAM: [], LIBRARY: ['--crate-type', 'staticlib']}
KEPT = os.path.join(TOP, 'dist', 'modules')
PARTS = ('src', 'specs', 'proofs')

# Stands in the place of the kit's clang, and keeps the module that it is to compile.
KEEPER = '#!/bin/sh\nfor it; do case $it in *.bc) cp "$it" "%s";; esac; done\nexec "%s" "$@"\n'


NATIVE = os.path.join(TOP, 'native')    # what stands below a module on other machines


class Target(NamedTuple):
    """A kind of machine: what LLVM calls it, the compiler of C for it, and how the program is linked and called."""

    triple: str
    code: list[str]         # how the module's code is written
    compiler: str
    source: str             # what stands below the module, in C
    linking: list[str]
    name: str


LINUX = ['-static', '-s', '-Wl,--gc-sections', '-Wl,--wrap=main', '-Wl,--build-id=none', '-Wl,-z,noexecstack']
WINDOWS = ['-s', '-Wl,--gc-sections', '-Wl,--stack,8388608', '-Wl,--no-insert-timestamp', '-lshell32']
TARGETS = {
    'x86_64': Target('x86_64-unknown-linux-gnu', ['-march=x86-64-v2', '-fno-pic'], 'musl-gcc', 'linux.c', LINUX,
                     'dgnedit'),
    'aarch64': Target('aarch64-unknown-linux-gnu', ['-fno-pic'], 'aarch64-linux-gnu-gcc', 'linux.c', LINUX, 'dgnedit'),
    'windows': Target('x86_64-w64-windows-gnu', ['-march=x86-64-v2'], 'x86_64-w64-mingw32-gcc', 'windows.c', WINDOWS,
                      'dgnedit.exe'),
}


class Failed(Exception):
    """A step failed; the text says which, and what it said."""


def step(what: str, words: list[str], folder: str) -> None:
    """Runs one command in a folder; what it says is told only where it fails."""
    ran = subprocess.run(words, cwd=folder, stdin=subprocess.DEVNULL, stdout=subprocess.PIPE, stderr=subprocess.STDOUT,
                         text=True, errors='replace')
    if ran.returncode != 0:
        raise Failed('%s failed:\n%s' % (what, ran.stdout[-3000:]))


def clang(kit: str) -> str:
    return os.path.join(kit, 'toolchain', 'bin', 'clang')


def keeping_toolchain(kit: str, room: str, module: str) -> str:
    """A folder of links to the kit's toolchain whose clang keeps what it compiles, as this module."""
    made = os.path.join(room, 'toolchain')
    os.makedirs(os.path.join(made, 'bin'))
    for folder in ('', 'bin'):
        for name in os.listdir(os.path.join(kit, 'toolchain', folder)):
            if os.path.join(folder, name) not in ('bin', 'bin/clang'):
                os.symlink(os.path.join(kit, 'toolchain', folder, name), os.path.join(made, folder, name))
    keeper = os.path.join(made, 'bin', 'clang')
    with open(keeper, 'w', encoding='utf-8') as file:
        file.write(KEEPER % (module, clang(kit)))
    os.chmod(keeper, 0o755)
    return made


def digest_of(crates: dict[str, Crate], tops: list[str]) -> str:
    """A digest of all that the modules of these crates are made of, and of the kit."""
    made = hashlib.sha256(repr((rt('version'), sorted(tops), sorted(crates.items()))).encode())
    for name in sorted(crates):
        for part in PARTS:
            folder = os.path.join(TOP, 'crates', name, part)
            for path in (os.path.join(folder, it) for it in sorted(release.files_below(folder))):
                with open(path, 'rb') as file:
                    content = file.read()
                made.update(b'%s %d ' % (os.path.relpath(path, TOP).encode(), len(content)) + content)
    return made.hexdigest()


def compile_module(kit: str, tree: str, name: str, to: str) -> None:
    """Has the kit's compiler write the code of a crate of a proved tree, with all that it stands on, as one module."""
    crates = read_crates()
    words = [os.path.join(kit, 'bin', 'rattle'), 'build', '--crate-name', name]
    is_library = os.path.exists(os.path.join(tree, 'crates', name, 'src', 'lib.rt'))
    words.append('src/lib.rt' if is_library else 'src/main.rt')
    words += ['--extern', 'std=%s/rlibs/std.rlib' % kit, '-L', 'dependency=%s/rlibs' % kit]
    for below in standing_under(name, crates):
        folder = os.path.join(tree, 'crates', below, 'out', 'rlib')
        if below != name:
            words += ['-L', 'dependency=' + folder]
        if below in crates[name].below:
            words += ['--extern', '%s=%s/%s.rlib' % (below, folder, below)]
    words += ['--antt-project', '%s/rattle/logic/antt-project.json' % kit, '--logic-built', '%s/logic_built' % kit]
    with tempfile.TemporaryDirectory(prefix='dgnedit-module-') as room:
        words += [*KINDS[name], '--backend', 'llvm', '--toolchain', keeping_toolchain(kit, room, to)]
        step('the compilation of ' + name, [*words, '-o', os.path.join(room, 'made')],
             os.path.join(tree, 'crates', name))


def prove(crates: dict[str, Crate], room: str) -> str:
    """Proves crates and all that they stand on in a copy of their sources, and gives the copy."""
    # rt runs what it has built as another user, who has to reach it.
    os.chmod(room, 0o755)
    tree = os.path.join(room, 'tree')
    copy_sources(crates, tree)
    step('the proof', ['rt', 'ci'], tree)
    return tree


def is_kept(names: list[str], digest: str) -> bool:
    """Whether the modules that are kept were made of just this."""
    path = os.path.join(KEPT, 'digest')
    if not all(os.path.exists(os.path.join(KEPT, name + '.bc')) for name in names) or not os.path.exists(path):
        return False
    with open(path, encoding='utf-8') as file:
        return file.read() == digest


def make_modules() -> dict[str, str]:
    """The module of the program and that of the library, by the names of their crates. Both are kept in dist/modules,
    and made anew only where something that they are made of has changed."""
    kit, crates = find_kit(), read_crates()
    found = {name: crate for top in KINDS for name, crate in standing_under(top, crates).items()}
    digest = digest_of(found, list(KINDS))
    if not is_kept(list(KINDS), digest):
        shutil.rmtree(KEPT, ignore_errors=True)
        os.makedirs(KEPT)
        with tempfile.TemporaryDirectory(prefix='dgnedit-modules-') as room:
            tree = prove(found, room)
            for name in KINDS:
                compile_module(kit, tree, name, os.path.join(KEPT, name + '.bc'))
        with open(os.path.join(KEPT, 'digest'), 'w', encoding='utf-8') as file:
            file.write(digest)
    return {name: os.path.join(KEPT, name + '.bc') for name in KINDS}
