"""`dgnkit clip IN X,Y X,Y .. -o SCRIPT`: a script that deletes what lies outside of a polygon, or inside of it."""

from __future__ import annotations

import argparse
from typing import TYPE_CHECKING, List

from ..drawing.drawing import Drawing
from ..drawing.fencing import fenced, polygon_of, trees_of
from ..drawing.frames import frame_of
from ..errors import Mistake
from ..explain.wording import command_said
from ..format.numbers import Point
from ..format.places import Scale
from ..output import counted, few, note
from ..program.script import Script
from ..propose.scripting import causes, give_script, note_proposal, propose
from ._options import add_dry_run, add_output, target_of

if TYPE_CHECKING:
    from ..cli import Subparsers


def register(words: Subparsers) -> None:
    parser = words.add_parser(
        'clip', help='write a script that deletes what lies outside of a polygon, or inside of it'
    )
    parser.add_argument('drawing', metavar='IN', help='the drawing')
    parser.add_argument(
        'corners', metavar='X,Y', nargs='*', help='the two corners of a box, or three or more of a polygon'
    )
    parser.add_argument('--element', metavar='N', help='the shape or complex shape of this number is the polygon')
    side = parser.add_mutually_exclusive_group()
    side.add_argument('--inside', action='store_true', help='delete what lies inside')
    side.add_argument('--outside', action='store_true', help='delete what lies outside, as without --inside')
    parser.add_argument(
        '--units', choices=('auto', 'master', 'resolution'), default='auto', help='the units of the corners'
    )
    add_output(parser)
    add_dry_run(parser)
    parser.set_defaults(run=run)


def run(arguments: argparse.Namespace) -> int:
    drawing = Drawing(arguments.drawing)
    fence = fence_of(drawing, arguments)
    mode = 'inside' if arguments.inside else 'void'
    made = propose(drawing, sorted(trees_of(drawing, fence, mode, False)), 'delete {n}')
    note_proposal(drawing, made)
    crossing = trees_of(drawing, fence, 'crossing', False)
    frame = -1 if arguments.element is None else int(arguments.element)
    tell_crossing(sorted(crossing - {frame}))
    if not made.named:
        note('nothing is deleted')
    by_fence = Script().fence(fence).fdelete(mode)
    is_whole = bool(made.named) and not any(causes(drawing, by_fence.lines))
    words = (command_said(drawing, it.text) for it in made.script.commands)
    give_script(drawing.path, by_fence if is_whole else made.script, words, target_of(arguments, arguments.output))
    return 0


def fence_of(drawing: Drawing, arguments: argparse.Namespace) -> List[Point]:
    """The corners of the polygon. It raises Mistake where they aren't given, or given twice."""
    if bool(arguments.corners) == (arguments.element is not None):
        raise Mistake('give the corners X,Y of a polygon, or a closed shape with --element N')
    if arguments.element is not None:
        return fenced(frame_of(drawing, arguments.element))
    if len(arguments.corners) == 1:
        raise Mistake('give two corners X,Y of a box, or three or more of a polygon')
    return polygon_of(arguments.corners, Scale(drawing.units, arguments.units))


def tell_crossing(numbers: List[int]) -> None:
    """Says which trees the edge of the polygon goes through or touches."""
    if numbers:
        said = counted(
            len(numbers), 'tree that crosses or touches the edge stays', 'trees that cross or touch the edge stay'
        )
        note('%s: %s' % (said, few(numbers)))
