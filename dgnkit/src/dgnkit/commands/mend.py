"""`dgnkit mend IN PATCH`: a patch file that mends what can be mended of broken trees."""

from __future__ import annotations

import argparse
import os
import tempfile
from pathlib import Path
from typing import TYPE_CHECKING, Sequence

from ..drawing.changes import Change
from ..drawing.drawing import Drawing
from ..drawing.mending import mending_of
from ..errors import Mistake
from ..format.element import described
from ..output import counted, note, say, say_csv, say_json
from ..propose.writing import applied, patch_of, propose_patch
from ..saving import write_file
from ._options import add_dry_run, add_force, target_of

if TYPE_CHECKING:
    from ..cli import Subparsers


def register(words: Subparsers) -> None:
    parser = words.add_parser('mend', help='write a patch file that mends broken trees')
    parser.add_argument('drawing', metavar='IN', help='the drawing')
    parser.add_argument(
        'patch', metavar='PATCH', nargs='?', default='', help='the patch file to write; not needed with --dry-run'
    )
    add_force(parser)
    add_dry_run(parser)
    form = parser.add_mutually_exclusive_group()
    form.add_argument('--json', action='store_true', help='print it as JSON')
    form.add_argument('--csv', action='store_true', help='print it as CSV')
    parser.set_defaults(run=run)


def run(arguments: argparse.Namespace) -> int:
    if not arguments.patch and not arguments.dry_run:
        raise Mistake('name the patch file to write: dgnkit mend %s PATCH' % arguments.drawing)
    drawing = Drawing(arguments.drawing)
    mending = mending_of(drawing)
    words = [it.in_words() for it in mending.changes]
    after = broken_after(drawing, mending.changes)
    before = len(drawing.nesting.broken_roots)
    if arguments.json:
        mended = [{'element': it.element.number, 'words': it.in_words()} for it in mending.changes]
        left = [{'element': it.element.number, 'why': it.why} for it in mending.left]
        say_json({'mended': mended, 'left': left, 'before': before, 'after': after})
    elif arguments.csv:
        rows = [[it.element.number, 'mended', it.in_words()] for it in mending.changes]
        say_csv(['element', 'becomes', 'words'], [*rows, *([it.element.number, 'left', it.why] for it in mending.left)])
    else:
        for line in words:
            say(line)
    for it in mending.left:
        note('not mended: %s: %s' % (described(it.element), it.why))
    if not arguments.json and not arguments.csv:
        say('%s now, %d with the patch file' % (counted(before, 'broken tree'), after))
        propose_patch(drawing, mending.changes, [], target_of(arguments, arguments.patch))
    elif not arguments.dry_run:
        patch = patch_of(drawing, mending.changes)
        applied(drawing, patch, mending.changes)
        write_file(arguments.patch, patch.to_bytes(), arguments.force)
    return 0


def broken_after(drawing: Drawing, changes: Sequence[Change]) -> int:
    """How many trees are broken in the drawing with these changes, as the program says."""
    with tempfile.TemporaryDirectory(prefix='dgnkit-') as folder:
        patch, out = os.path.join(folder, 'patch'), os.path.join(folder, 'out.dgn')
        Path(patch).write_bytes(patch_of(drawing, changes).to_bytes())
        drawing.program.apply(drawing.path, patch, out)
        return len(Drawing(out, drawing.program).nesting.broken_roots)
