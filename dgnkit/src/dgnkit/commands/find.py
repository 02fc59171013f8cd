"""`dgnkit find IN [conditions]`: elements that meet conditions, as numbers, a table, CSV, JSON or a script."""

from __future__ import annotations

import argparse
from typing import TYPE_CHECKING, List

from ..drawing.conditions import Conditions
from ..drawing.drawing import Drawing
from ..drawing.nothing import nothing_said
from ..drawing.options import add_conditions
from ..errors import Mistake
from ..explain.members import parts_said
from ..output import counted, note, say_csv, say_lines
from ..propose.scripting import LINE_HELP, give_proposal, propose
from ._options import add_output, target_of
from ._rows import Facts, JsonRows, Table

if TYPE_CHECKING:
    from ..cli import Subparsers

TOLD = 8  # so many headers with chosen members are told


def register(words: Subparsers) -> None:
    parser = words.add_parser('find', help='find elements that meet conditions, and write a script for them')
    parser.add_argument('drawing', metavar='IN', help='the drawing')
    parser.add_argument(
        '--numbers',
        metavar='FILE',
        nargs='?',
        const='',
        help='with the numbers listed in FILE; without FILE: print only the numbers, one per line',
    )
    add_conditions(parser, has_numbers=False)
    form = parser.add_mutually_exclusive_group()
    form.add_argument('--json', action='store_true', help='print them as JSON')
    form.add_argument('--csv', action='store_true', help='print them as CSV')
    form.add_argument('--script', metavar='LINE', dest='line', help=LINE_HELP)
    add_output(parser, 'the file for --script')
    parser.add_argument(
        '--dry-run', action='store_true', help='say in words what the script would do, and write nothing'
    )
    parser.set_defaults(run=run)


def run(arguments: argparse.Namespace) -> int:
    if (arguments.output or arguments.dry_run) and arguments.line is None:
        raise Mistake('-o and --dry-run need --script')
    arguments.numbers_file = arguments.numbers
    drawing = Drawing(arguments.drawing)
    conditions = Conditions(drawing, arguments)
    chosen = conditions.chosen()
    if arguments.line is not None:
        named = chosen if arguments.members else conditions.roots_of(chosen)
        made = propose(drawing, named, arguments.line)
        made.tell_members(drawing, chosen)
        give_proposal(drawing, made, target_of(arguments, arguments.output))
    else:
        tell(conditions, chosen, arguments)
        for said in parts_said(drawing, chosen, TOLD):
            note(said)
    note('found %d of %s' % (len(chosen), counted(len(drawing.elements), 'element')))
    if not chosen:
        note(nothing_said(conditions))
    return 0


def tell(conditions: Conditions, chosen: List[int], arguments: argparse.Namespace) -> None:
    """Says the chosen elements, the nearest to a place first."""
    chosen = conditions.in_order(chosen)
    if arguments.json:
        say_lines(JsonRows(Facts(conditions)).lines(chosen))
    elif arguments.csv:
        facts = Facts(conditions)
        say_csv(facts.head() if chosen else ['number'], facts.csv_rows(chosen))
    elif arguments.numbers == '':
        say_lines(map(str, chosen))
    elif chosen:
        say_lines(Table(conditions, chosen).lines())
