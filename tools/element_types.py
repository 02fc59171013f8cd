"""What an element of each type can have done to it: by the classes and the causes that the crates define, as rows of a
table, and by what the program says of an element of that type."""

from __future__ import annotations

import os
import re
import subprocess
import sys
import tempfile
from collections.abc import Iterator
from typing import Dict, List, NamedTuple, Tuple

TOP = os.path.dirname(os.path.dirname(os.path.abspath(__file__)))
sys.path[:0] = [os.path.join(TOP, 'tools'), os.path.join(TOP, 'examples')]

import drawings  # noqa: E402
import make_plan as plan  # noqa: E402
from dgnkit.format.classes import TYPE_NAMES  # noqa: E402
from format_facts import TYPES, Broken, Sources, classes  # noqa: E402

DONE = 'yes'
CAUSES = 'edit_ops/specs/Causes.antt'
HEAD = ['type', 'called', 'class', '`show`', '`move`, `copy`', '`color`, `sym`', '`delete`', 'a fence takes it',
        '`audit`, `fit`']
END_MARK = 127
BY_POINTS, BY_RANGE, BY_MEMBERS, NEVER = 'by its points', 'by its range', 'by what is below it', 'never'

# What a class shows, by what a fence takes it, and whether its stored range is checked.
SHOWN = {
    'Vertices': ('`path`', BY_POINTS, DONE),
    'Words': ('`text`', BY_RANGE, 'no'),
    'Counted': ('`group`', BY_MEMBERS, DONE),
    'Run': ('`box`', BY_RANGE, 'no'),
    'Floating': ('`box`', BY_RANGE, 'no'),
    'Boxed': ('`box`', BY_RANGE, 'no'),
    'Silent': ('nothing', NEVER, 'no'),
}
SHOWN_OTHERWISE = {2: '`cell`', 7: '`node`', 34: 'nothing'}

# What is asked of one element: a script, of which the last answer but one counts.
MOVED, COPIED, LOOKED, DELETED = 'move 1 1 1', 'copy 1 1 1', 'color 1 2', 'delete 1'
FENCED = 'fence -50,-50 900,-50 900,900 -50,900\nselect overlap'
LOW, HIGH = (0, 0), (400, 400)                       # the range that each stores, which isn't its hull
POINTS = [(0, 0), (100, 0), (100, 50), (0, 0)]
MEMBER = drawings.line(True)
SPLINE_PART = drawings.element(21, 1, 40, member=True)


class Row(NamedTuple):
    """What can be done to a type: each field as the table has it."""

    shown: str
    moved: str
    looked: str
    deleted: str
    fenced: str
    audited: str


def against(sources: Sources, name: str) -> Dict[str, str]:
    """The classes that a test has something against, each with the word that the program says."""
    form = r'(?:Class\.(\w+)|read|other) = (?:Some \(causes\.(\w+) m\)|None)'
    found = sources[CAUSES].all(name + ' m ', form)
    return {it[1]: '`%s`' % it[2].lower() for it in found if it[1] is not None}


def rows(sources: Sources) -> Dict[int, Tuple[str, Row]]:
    """The class and the row of each type."""
    _, class_of = classes(sources)
    unmovable, lookless = against(sources, 'unmovable'), against(sources, 'lookless')
    form = r'if is_silent \(class_of e\.kind\) then Some \(causes\.(\w+) n\) else None'
    deletes = sources[CAUSES].one('silent n (Some e) = ', form)
    made = {}
    for kind in TYPES:
        name = class_of[kind]
        shown, fenced, audited = SHOWN[name]
        shown = SHOWN_OTHERWISE.get(kind, shown)
        deleted = '`%s`' % deletes[1].lower() if name == 'Silent' else DONE
        row = Row(shown, unmovable.get(name, DONE), lookless.get(name, DONE), deleted,
                  NEVER if shown == 'nothing' else fenced, audited)
        made[kind] = name.lower(), row
    return made


def ranges(kinds: List[int]) -> str:
    """Numbers in words, those that follow one another as a range."""
    said: List[str] = []
    for kind in kinds:
        first, _, last = said[-1].partition(' to ') if said else ('', '', '')
        if said and kind == int(last or first) + 1:
            said[-1] = '%s to %d' % (first, kind)
        else:
            said.append(str(kind))
    return ', '.join(said)


def table(sources: Sources) -> List[str]:
    """The lines of the table: a row for each type that has a name, and one for all others."""
    found = rows(sources)
    lines = ['| %s |' % ' | '.join(HEAD), '|%s' % ('---|' * len(HEAD))]
    for kind, name in TYPE_NAMES.items():
        lines.append('| %d | %s | %s | %s |' % (kind, name, found[kind][0], ' | '.join(found[kind][1])))
    others = [it for it in TYPES if it not in TYPE_NAMES]
    if len({found[it] for it in others}) != 1:
        raise Broken('the types without a name are not of one class')
    name, row = found[others[0]]
    lines.append('| %s | | %s | %s |' % (ranges(others), name, ' | '.join(row)))
    return lines


# By the program.


def sized(made: bytes) -> bytes:
    """An element whose stored range isn't that of what it holds."""
    ends = b''.join(plan.range_number(it) for it in (*LOW, 0, *HIGH, 0))
    return made[:4] + ends + made[28:]


def element_of(kind: int) -> bytes:
    """An element of a type, with a member or a part where it is a header."""
    if kind == 3:
        return sized(plan.line(1, POINTS[0], POINTS[1]))
    if kind in (4, 6, 11):
        return sized(plan.path(kind, 1, POINTS))
    if kind == 17:
        return sized(plan.text(1, (10, 10), b'AB'))
    if kind == 2:
        return sized(drawings.cell(MEMBER))
    if kind in (7, 12, 14, 18, 19):
        size = 70 if kind == 7 else 40
        return sized(drawings.with_total(drawings.element(kind, 1, size), (size + len(MEMBER) - 38) // 2)) + MEMBER
    return sized(drawings.element(kind, 1, 36)) + (SPLINE_PART if kind in (24, 27) else MEMBER if kind == 34 else b'')


def said_by(program: str, kind: int, script: str) -> List[str]:
    """What the program says to a script on a drawing of an element of this type alone."""
    with tempfile.TemporaryDirectory(prefix='dgnedit-types-') as folder:
        for name, content in (('IN', drawings.drawing(element_of(kind))), ('SCRIPT', script.encode('ascii'))):
            with open(os.path.join(folder, name), 'wb') as file:
                file.write(content)
        ran = subprocess.run([program, 'edit', 'IN', 'SCRIPT', 'OUT'], cwd=folder, capture_output=True, timeout=60)
    if ran.returncode not in (0, 1):
        raise Broken('type %d: the program ends with %d' % (kind, ran.returncode))
    return ran.stdout.decode('ascii').splitlines()


def answered(program: str, kind: int, script: str) -> str:
    """Whether a command is done, or the word by which it is refused."""
    said = said_by(program, kind, script)[0]
    refused = re.fullmatch(r'refused ([a-z-]+) 1', said)
    return '`%s`' % refused[1] if refused else DONE if said == 'ok' else said


def row_by_program(program: str, kind: int) -> Row:
    """The row of a type as the program says it; of a fence only whether it takes it."""
    first = [it.split(' ') for it in said_by(program, kind, 'show')[:-1] if it.startswith('1 ')]
    shown = '`%s`' % first[0][7] if first else 'nothing'
    moved, copied = answered(program, kind, MOVED), answered(program, kind, COPIED)
    if moved != copied:
        raise Broken('type %d: move answers %s, copy %s' % (kind, moved, copied))
    takes = '1' in said_by(program, kind, FENCED)[1:-1]
    audited = any(it.startswith('1 ') for it in said_by(program, kind, 'audit')[:-1])
    return Row(shown, moved, answered(program, kind, LOOKED), answered(program, kind, DELETED),
               'taken' if takes else NEVER, DONE if audited else 'no')


def differing(program: str, sources: Sources) -> Iterator[str]:
    """A line for each type of which the program says something else than the table."""
    for kind, (_, row) in rows(sources).items():
        wanted = row._replace(fenced=NEVER if row.fenced == NEVER else 'taken')
        found = row_by_program(program, kind)
        if found != wanted:
            yield 'type %d: the table says %s, and the program %s' % (kind, ', '.join(wanted), ', '.join(found))
