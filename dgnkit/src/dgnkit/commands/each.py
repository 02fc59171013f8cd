"""`dgnkit each SCRIPT IN .. --into DIR`: one script, patch file or change over many drawings and folders of them."""

from __future__ import annotations

import argparse
import os
import sys
from typing import TYPE_CHECKING, Any, Dict, List, Tuple

from ..archive.changing import Change, Changer, commands_of
from ..archive.hands import Cluster, Local
from ..archive.journal import Entry, Journal
from ..archive.running import Archive, Hands, Options, ask_places
from ..archive.walking import Sheet, Walk, names_in
from ..drawing.spans import number_of
from ..errors import Mistake
from ..explain.explaining import imports_of
from ..files import ask_drawing, mistake_of, note_inputs, said_name
from ..output import counted, note, say, say_csv, say_json, table
from ..program.runs import Program
from ..waiting import is_terminal, tells_itself
from ._options import add_force
from ._runs import is_patch, on_disk

if TYPE_CHECKING:
    from ..cli import Subparsers

WIDTH = 30
JOBS_MOST = 1024


def register(words: Subparsers) -> None:
    parser = words.add_parser('each', help='run one script, patch file or change over many drawings and folders')
    parser.add_argument('names', metavar='SCRIPT IN', nargs='*', help='a script or a patch file; drawings and folders')
    parser.add_argument('--into', metavar='DIR', required=True, help='the folder that the new drawings are written to')
    parser.add_argument(
        '--from', metavar='FILE', dest='listed', help='more drawings: a list, one name a line; - reads it'
    )
    parser.add_argument(
        '-0', dest='ends_with_zero', action='store_true', help='in the list each name ends with a zero byte'
    )
    parser.add_argument(
        '--find', metavar='CONDITIONS', default='', help='in place of SCRIPT: a line for each element found'
    )
    parser.add_argument(
        '--edit', metavar='LINE', action='append', default=[], help='that line, with {n} for its number'
    )
    parser.add_argument(
        '--propose',
        metavar='WORDS',
        action='append',
        default=[],
        help='in place of SCRIPT: a command such as relevel, with the words that follow IN and PATCH there',
    )
    parser.add_argument('--jobs', metavar='N', default=str(os.cpu_count() or 1), help='how many at a time')
    parser.add_argument('--scheduler', metavar='ADDRESS', help='have the workers of this Dask scheduler do it')
    parser.add_argument('--anew', action='store_true', help='begin again: what DIR has from earlier runs is made anew')
    add_force(parser)
    form = parser.add_mutually_exclusive_group()
    form.add_argument('--json', action='store_true', help='print it as JSON')
    form.add_argument('--csv', action='store_true', help='print it as CSV')
    parser.set_defaults(run=run)


def run(arguments: argparse.Namespace) -> int:
    """The status is 1 where a drawing wasn't written, or a command was refused."""
    program = Program.find()
    tells_itself()
    jobs = number_of(arguments.jobs, 'number of jobs', JOBS_MOST)
    if jobs < 1:
        raise Mistake('--jobs must be at least 1')
    commands = commands_of(arguments.find, arguments.edit, arguments.propose)
    if commands:
        return run_on(arguments, arguments.names, Change(program.path, commands=commands), jobs)
    if not arguments.names:
        raise Mistake('which script? name it before the drawings, or give --find with --edit, or --propose')
    with on_disk(arguments.names[0]) as script:
        called = said_name(arguments.names[0])
        change = Change(program.path, os.path.abspath(script), is_patch(script), called)
        return run_on(arguments, arguments.names[1:], change, jobs)


def run_on(arguments: argparse.Namespace, names: List[str], change: Change, jobs: int) -> int:
    """Runs a change on drawings and folders, and tells what came of it."""
    folder = arguments.into
    Changer(change)  # which reads the script
    walk = Walk(folder)
    listed = names_in(arguments.listed, arguments.ends_with_zero) if arguments.listed else []
    sheets = walk.sheets(names, listed)
    if not sheets:
        raise Mistake('no drawing is named, and none is in the folders that are')
    ask_inputs(change, sheets, folder)
    try:
        os.makedirs(folder, exist_ok=True)
    except OSError as why:
        raise mistake_of(folder, why)
    options = Options(arguments.force, arguments.anew)
    journal = Journal(folder, arguments.anew)
    try:
        ask_places(folder, sheets, journal, change, options)
    except Mistake:
        journal.drop()
        raise
    try:
        archive = Archive(folder, change, options, journal)
        hands: Hands = Local(change, min(jobs, len(sheets)), journal.file)
        if arguments.scheduler:
            hands = Cluster(change, arguments.scheduler)
        archive.run(sheets, hands, lambda done: show_progress(done, len(sheets)))
        tell(arguments, walk, sheets, archive)
        return int(any(entry_in(journal, it).status for it in sheets))
    finally:
        journal.close()


def ask_inputs(change: Change, sheets: List[Sheet], folder: str) -> None:
    """Keeps in mind what the run reads, which none of what it writes may be. It raises Mistake where a script imports
    what is no file on disk, or a drawing would be written over itself."""
    imports = [] if change.commands or change.is_patch else imports_of(change.file)
    for name in imports:
        ask_drawing(name)
    note_inputs([*filter(None, [change.file]), *imports, *(it.source for it in sheets)])
    for sheet in sheets:
        target = os.path.join(folder, sheet.place)
        if os.path.exists(target) and os.path.exists(sheet.source) and os.path.samefile(sheet.source, target):
            raise Mistake('%s is itself in %s: name another folder' % (sheet.source, folder))


def entry_in(journal: Journal, sheet: Sheet) -> Entry:
    """What the journal says of a drawing."""
    return journal.entry(sheet.place) or Entry(sheet.place, ending='not done')


def tell(arguments: argparse.Namespace, walk: Walk, sheets: List[Sheet], archive: Archive) -> None:
    """Says what became of each drawing that was named, and of those of folders and lists what isn't done."""
    journal = archive.journal
    if arguments.json or arguments.csv:
        rows = [as_row(entry_in(journal, it), it, arguments.into) for it in sheets]
        if arguments.json:
            say_json(rows)
        else:
            say_csv(list(rows[0]), [list(it.values()) for it in rows])
        return
    is_short = bool(arguments.listed) or any(os.path.isdir(it) for it in arguments.names)
    counts = {'failed': 0, 'partly': 0}
    shown: List[Tuple[Sheet, Entry]] = []
    for sheet in sheets:
        entry = entry_in(journal, sheet)
        counts['failed'] += not entry.written
        counts['partly'] += bool(entry.refused)
        if entry.status or not is_short:
            shown.append((sheet, entry))
    if shown:
        cells: List[List[Any]] = [[it.source, entry.status, entry.refused, entry.ending] for it, entry in shown]
        for line in table(['drawing', 'status', 'refused', 'ending'], cells, left=('drawing',)):
            say(line)
    say(
        '%s, %d not written, %d with refused commands'
        % (counted(len(sheets), 'drawing'), counts['failed'], counts['partly'])
    )
    for said in notes(walk, archive):
        note(said)


def as_row(entry: Entry, sheet: Sheet, folder: str) -> Dict[str, Any]:
    """What became of a drawing, as it is told to other programs."""
    out = os.path.join(folder, sheet.place) if entry.written else ''
    return {
        'drawing': sheet.source,
        'status': entry.status,
        'ending': entry.ending,
        'refused': entry.refused,
        'out': out,
    }


def notes(walk: Walk, archive: Archive) -> List[str]:
    """What was left, and why."""
    said = []
    if archive.left:
        said.append('%s of an earlier run' % counted(archive.left, 'drawing'))
    if walk.links:
        said.append('%s left out' % counted(walk.links, 'link'))
    if walk.others:
        kinds = {'v8': 'of version 8', 'library': 'cell libraries'}
        more = ', '.join('%d %s' % (count, kinds[kind]) for kind, count in sorted(walk.kinds.items()))
        said.append('%s left out, no drawings of version 7%s' % (counted(walk.others, 'file'), more and ' (%s)' % more))
    return said


def show_progress(done: int, count: int) -> None:
    """A bar on standard error: on a terminal it grows, elsewhere there is a line at each tenth."""
    if is_terminal():
        bar = ('#' * (WIDTH * done // count)).ljust(WIDTH)
        print('\r[%s] %d of %d' % (bar, done, count), end='\n' if done == count else '', file=sys.stderr, flush=True)
    elif done * 10 // count != (done - 1) * 10 // count:
        note('%d of %d' % (done, count))
