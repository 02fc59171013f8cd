"""`dgnkit why IN SCRIPT [OUT]`: runs a script, or puts a patch file on, and explains what was refused."""

from __future__ import annotations

import argparse
import contextlib
from typing import TYPE_CHECKING, List

from ..drawing.drawing import Drawing
from ..errors import Mistake, WriteFault
from ..files import ask_drawing
from ..output import say, say_csv, say_json
from ..program.runs import NOWHERE, Program
from ..saving import delivered
from ._options import add_force
from ._runs import HEAD, Step, Told, ask_inputs, on_disk
from .run import aside

if TYPE_CHECKING:
    from ..cli import Subparsers


def register(words: Subparsers) -> None:
    parser = words.add_parser('why', help='run a script or a patch file, and explain what is refused')
    parser.add_argument('drawing', metavar='IN', help='the drawing')
    parser.add_argument('script', metavar='SCRIPT', help='a script or a patch file')
    parser.add_argument(
        'out', metavar='OUT', nargs='?', default='', help='the drawing to write; otherwise none is written'
    )
    add_force(parser)
    form = parser.add_mutually_exclusive_group()
    form.add_argument('--json', action='store_true', help='print it as JSON')
    form.add_argument('--csv', action='store_true', help='print the refused lines as CSV')
    parser.set_defaults(run=run)


def run(arguments: argparse.Namespace) -> int:
    """The status is 0 where nothing was refused, else 1. It raises Mistake where OUT can't be written."""
    program, out = Program.find(), arguments.out
    ask_drawing(arguments.drawing)
    with contextlib.ExitStack() as stack:
        script = stack.enter_context(on_disk(arguments.script))
        ask_inputs([arguments.drawing], [script])
        made = stack.enter_context(delivered(out, arguments.force)) if out else NOWHERE
        step = Step(program, arguments.drawing, script, made, arguments.script)
        why = step.run(out)
        if step.status == WriteFault.STATUS:
            raise Mistake(why)
        if not why and step.is_refused:
            step.explain(Drawing(arguments.drawing, program))
    with aside(out):
        return tell_ending(arguments, step, why) if why else tell(arguments, step.refused, step.end)


def tell(arguments: argparse.Namespace, refused: List[Told], end: str) -> int:
    if arguments.json:
        say_json({'ending': None, 'refused': refused})
    elif arguments.csv:
        say_csv(HEAD, [[it[name] for name in HEAD] for it in refused])
    else:
        for it in refused:
            say('line %s, %s: %s' % (it['line'], it['command'], it['why']))
        say(end)
    return 1 if refused else 0


def tell_ending(arguments: argparse.Namespace, step: Step, why: str) -> int:
    if arguments.json:
        say_json({'ending': step.status, 'said': step.said, 'why': why, 'refused': []})
    else:
        say(why)
    return 1
