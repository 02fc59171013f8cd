"""`dgnkit merge A B ..`: the script that imports drawings into one."""

from __future__ import annotations

import argparse
from typing import TYPE_CHECKING, Callable

from ..drawing.drawing import Drawing
from ..errors import Mistake
from ..format.element import described
from ..output import note, printable, say
from ..program.runs import Program
from ..program.script import Script
from ..propose.merging import Merge, left_of, merge_of, words_of
from ..propose.scripting import give_script
from ._options import add_dry_run, add_output, target_of

if TYPE_CHECKING:
    from ..cli import Subparsers


def register(words: Subparsers) -> None:
    parser = words.add_parser('merge', help='write the script that imports other drawings')
    parser.add_argument('drawing', metavar='A', help='the drawing to import into')
    parser.add_argument('others', metavar='B', nargs='+', help='the drawings to import')
    add_output(parser)
    add_dry_run(parser)
    parser.set_defaults(run=run)


def run(arguments: argparse.Namespace) -> int:
    program = Program.find()
    first = Drawing(arguments.drawing, program)
    merges = [merge_of(first, Drawing(name, program)) for name in arguments.others]
    script = Script()
    for merge in merges:
        ask_import(first, merge)
        script.add(merge.line)
        for line in left_of(merge):
            note(printable(line))
    tell: Callable[[str], None] = say if arguments.output or arguments.dry_run else note
    for line in (line for merge in merges for line in words_of(first, merge)):
        tell(printable(line))
    give_script(first.path, script, [], target_of(arguments, arguments.output))
    return 0


def ask_import(first: Drawing, merge: Merge) -> None:
    """Asks the program whether it takes the import. It raises Mistake where it refuses it."""
    answer = first.program.edit(first.path, Script().add(merge.line))[0]
    if answer.cause is None:
        if answer.count != len(merge.taken):
            said = '%s: dgnedit imports %s trees, not %d'
            raise Mistake(said % (merge.drawing.path, answer.count, len(merge.taken)))
        return
    words = answer.cause.split(' ')
    if len(words) == 3 and words[1] in ('floating', 'opaque', 'off-plane'):
        said = "%s can't be imported: its global origin differs, so all of it has to be moved, and %s can't be (%s)"
        raise Mistake(said % (merge.drawing.path, described(merge.drawing.elements[int(words[2])]), words[1]))
    raise Mistake("%s can't be imported: dgnedit says %r" % (merge.drawing.path, answer.cause))
