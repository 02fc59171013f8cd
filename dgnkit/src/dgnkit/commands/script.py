"""`dgnkit script --numbers FILE LINE`: a script for a selection that was made elsewhere, as in QGIS."""

from __future__ import annotations

import argparse
from typing import TYPE_CHECKING

from ..drawing.conditions import ask_numbers
from ..drawing.drawing import Drawing
from ..drawing.tables import numbers_in
from ..errors import Mistake
from ..program.grammar import fault_of
from ..program.script import Script
from ..propose.scripting import LINE_HELP, give_proposal, give_script, propose
from ..propose.templates import line_of, template_of
from ._options import add_dry_run, add_output, target_of

if TYPE_CHECKING:
    from ..cli import Subparsers

TWICE = ('move', 'copy')  # what an edit of a header does to its members, and does once more where these are named too


def register(words: Subparsers) -> None:
    parser = words.add_parser('script', help='write a script for the elements whose numbers are in a file')
    parser.add_argument('line', metavar='LINE', help=LINE_HELP)
    parser.add_argument(
        '--numbers', metavar='FILE', required=True, help='a list, a CSV or a GeoJSON file with the numbers'
    )
    parser.add_argument('--field', default='number', help='the field with the numbers')
    parser.add_argument('--drawing', metavar='IN', help='the drawing, to leave out what dgnedit would refuse')
    add_output(parser)
    add_dry_run(parser)
    parser.set_defaults(run=run)


def run(arguments: argparse.Namespace) -> int:
    numbers = numbers_in(arguments.numbers, arguments.field)
    target = target_of(arguments, arguments.output)
    if arguments.drawing:
        drawing = Drawing(arguments.drawing)
        ask_numbers(drawing, numbers, arguments.numbers)
        made = propose(drawing, sorted(numbers), arguments.line)
        made.tell_members(drawing, numbers)
        give_proposal(drawing, made, target)
        return 0
    template = template_of(arguments.line, None)
    if template.split()[0] in TWICE:
        raise Mistake(
            '%s needs --drawing: a member would be edited twice if its header is listed too' % template.split()[0]
        )
    script = Script(line_of(template, it) for it in numbers)
    for line in script.lines[:1]:
        fault = fault_of(line)
        if fault or line.lstrip().startswith(b'#'):
            raise Mistake("%r isn't a command of a script: %s" % (arguments.line, fault or 'it is a comment'))
    words = ['element %d: %s' % (number, line.decode('utf-8')) for number, line in zip(numbers, script.lines)]
    give_script('IN.dgn', script, words, target)
    return 0
