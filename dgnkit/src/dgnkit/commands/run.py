"""`dgnkit run IN SCRIPT .. OUT`: has dgnedit run scripts and patch files, and says how that ended."""

from __future__ import annotations

import argparse
import contextlib
import os
import sys
from typing import TYPE_CHECKING, Iterator, List, Sequence

from ..drawing.drawing import Drawing
from ..errors import Mistake
from ..files import ask_drawing, handle_of, said_name
from ..output import counted, note, say, say_csv, say_json, say_raw
from ..program.runs import Program
from ..saving import delivered
from ._options import add_force
from ._runs import HEAD, Step, ask_inputs, on_disk

if TYPE_CHECKING:
    from ..cli import Subparsers

ABOUT = """Has dgnedit run scripts and patch files on a drawing, one after the other, and says in sentences what was
refused and how it ended. OUT is there whole or not at all. A SCRIPT that is called - is standard input."""


def register(words: Subparsers) -> None:
    parser = words.add_parser('run', help='run scripts and patch files with dgnedit', description=ABOUT)
    parser.add_argument('drawing', metavar='IN', help='the drawing')
    parser.add_argument(
        'steps', metavar='SCRIPT', nargs='+', help='scripts and patch files, in the order in which to run them'
    )
    parser.add_argument('out', metavar='OUT', help='the drawing to write')
    add_force(parser)
    form = parser.add_mutually_exclusive_group()
    form.add_argument('--json', action='store_true', help='print it as JSON')
    form.add_argument('--csv', action='store_true', help='print the refused lines as CSV')
    parser.set_defaults(run=run)


def run(arguments: argparse.Namespace) -> int:
    """The status is 0 where nothing was refused, 1 where a command was; it raises Mistake where nothing was written."""
    program, steps, out = Program.find(), [], arguments.out
    with contextlib.ExitStack() as stack:
        names = [stack.enter_context(on_disk(it)) for it in arguments.steps]
        made = stack.enter_context(making(arguments.drawing, names, out, arguments.force))
        steps.extend(run_steps(program, arguments.drawing, names, made, out, arguments.steps))
    with aside(out):
        tell(arguments, steps)
    tell_texts(steps)
    return int(any(it.is_refused for it in steps))


@contextlib.contextmanager
def making(drawing: str, files: Sequence[str], out: str, may_replace: bool) -> Iterator[str]:
    """The name of a drawing that is to be made of these files, and then takes the place of OUT, where nothing is raised
    meanwhile. It raises Mistake where OUT may not be written, or where what is to be read is no file on disk."""
    ask_drawing(drawing)
    ask_inputs([drawing], files)
    with delivered(out, may_replace) as made:
        yield made


def aside(out: str) -> contextlib.AbstractContextManager[object]:
    """Where OUT is standard output, lets what is said come to standard error."""
    return contextlib.redirect_stdout(sys.stderr) if handle_of(out) == 1 else contextlib.nullcontext()


def run_steps(
    program: Program, drawing: str, files: Sequence[str], made: str, out: str, called: Sequence[str] = ()
) -> List[Step]:
    """Runs scripts and patch files one behind the other, and explains what is refused. The last one makes the drawing
    `made`, which is called OUT in words; `called` is what the files are called. It raises Mistake where one can't be
    run."""
    steps = []
    for index, (name, said) in enumerate(zip(files, called or files), 1):
        end = made if index == len(files) else '%s.%d' % (made, index)
        step = Step(program, drawing, name, end, said)
        why = step.run(out)
        if why:
            raise Mistake(why)
        if step.is_refused:
            step.explain(Drawing(drawing, program))
        steps.append(step)
        drawing = end
    return steps


def tell_texts(steps: List[Step]) -> None:
    """Says that the ranges of appended texts are points, where no patch file behind the script sets them."""
    count = 0
    for step in steps:
        named = zip(step.script.commands, step.answers)
        count = 0 if step.is_patch else count + sum(it.name == 'text' and not made.is_refused for it, made in named)
    if count:
        said = '%s only a point for a range, so fences and --near miss it; `dgnkit text` and `draw` set the range too'
        note(said % counted(count, 'appended text has', 'appended texts have'))


def tell(arguments: argparse.Namespace, steps: List[Step]) -> None:
    if arguments.json:
        say_json([{'step': name, 'said': it.end, 'refused': it.refused} for name, it in zip(arguments.steps, steps)])
        return
    if arguments.csv:
        rows = [
            [name, *(it[word] for word in HEAD)] for name, step in zip(arguments.steps, steps) for it in step.refused
        ]
        say_csv(['step', *HEAD], rows)
        return
    for name, step in zip(arguments.steps, steps):
        for line in (line for answer in step.answers for line in answer.lines):
            say_raw(line)
        for it in step.refused:
            say('line %s, %s: %s' % (it['line'], it['command'], it['why']))
        say('%s: %s' % (said_name(name), step.end))
    if os.path.isfile(arguments.out):
        say('%s: written, %s' % (arguments.out, counted(os.path.getsize(arguments.out), 'byte')))
