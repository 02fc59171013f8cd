"""The crates that something stands on, and a copy of their sources alone: no crate of tests, no planted bugs."""

import os
import shutil
from typing import Dict, List, NamedTuple, Set

TOP = os.path.dirname(os.path.dirname(os.path.abspath(__file__)))
LEFT_OUT = ('out', 'must-fail')              # of a crate's folder
TESTS = '\n#[cfg(test)]\nmod tests;\n'        # how a crate's first file names its own tests, in src/tests.rt


class Unusual(Exception):
    """The sources aren't laid out as they have to be; the text says where."""


class Crate(NamedTuple):
    """A line of crates.txt: what stands before the colon, as 'NAME' or 'NAME staticlib', and the crates behind it."""

    head: str
    below: List[str]


def read_crates() -> Dict[str, Crate]:
    """The crates of the repository, each with those that it names, of the kit's too, as crates.txt has them."""
    found = {}
    with open(os.path.join(TOP, 'crates.txt'), encoding='utf-8') as lines:
        for line in lines:
            head, colon, below = line.partition('#')[0].partition(':')
            if colon:
                found[head.split()[0]] = Crate(head.strip(), below.split())
    return found


def standing_under(top: str, crates: Dict[str, Crate]) -> Dict[str, Crate]:
    """The crates of the repository that this one stands on, and itself."""
    found: Set[str] = set()
    left = [top]
    while left:
        name = left.pop()
        if name in crates and name not in found:
            found.add(name)
            left += crates[name].below
    return {name: crates[name] for name in crates if name in found}


def leave_tests_out(crate: str) -> None:
    """Takes a crate's own tests from its folder, if it has some: they cost a processor what the crate does."""
    tests, first = os.path.join(crate, 'src', 'tests.rt'), os.path.join(crate, 'src', 'lib.rt')
    if not os.path.exists(tests):
        return
    with open(first, encoding='utf-8') as file:
        text = file.read()
    if TESTS not in text:
        raise Unusual('%s has tests.rt, and lib.rt doesn\'t name it as usual' % os.path.basename(crate))
    with open(first, 'w', encoding='utf-8') as file:
        file.write(text.replace(TESTS, ''))
    os.remove(tests)


def copy_sources(crates: Dict[str, Crate], to: str) -> None:
    """Makes a repository of these crates alone."""
    os.makedirs(os.path.join(to, 'crates'))
    with open(os.path.join(to, 'crates.txt'), 'w', encoding='utf-8') as out:
        out.write(''.join('%s: %s\n' % (crate.head, ' '.join(crate.below)) for crate in crates.values()))
    shutil.copy(os.path.join(TOP, 'HANDLES'), to)
    for name in crates:
        shutil.copytree(os.path.join(TOP, 'crates', name), os.path.join(to, 'crates', name),
                        ignore=lambda at, names: LEFT_OUT if os.path.basename(at) in crates else ())
        leave_tests_out(os.path.join(to, 'crates', name))
