"""`dgnkit purge IN OUT`: the drawing without what is marked deleted."""

from __future__ import annotations

import argparse
from typing import TYPE_CHECKING

from ..drawing.drawing import Drawing
from ..output import counted, printable, say
from ..propose.extracting import Extractor, Gone, ask_whole
from ..saving import delivered
from ._options import add_force

if TYPE_CHECKING:
    from ..cli import Subparsers

ABOUT = """Has dgnedit make a drawing in which what is marked deleted in IN is gone. A deleted member of a tree that
isn't deleted stays with it. OUT is a new file, whose elements have new numbers."""


def register(words: Subparsers) -> None:
    parser = words.add_parser('purge', help='make a drawing without what is marked deleted', description=ABOUT)
    parser.add_argument('drawing', metavar='IN', help='the drawing')
    parser.add_argument('out', metavar='OUT', help='the drawing to write')
    add_force(parser)
    parser.set_defaults(run=run)


def run(arguments: argparse.Namespace) -> int:
    drawing = Drawing(arguments.drawing)
    ask_whole(drawing)
    extractor, gone = Extractor(drawing), Gone.of(drawing)
    with delivered(arguments.out, arguments.force) as name:
        made = extractor.make(extractor.trees, name)
    for line in gone.in_lines() or ['nothing is marked deleted']:
        say(line)
    said = '%s: written, %s: a new file, whose elements have new numbers, and %s stays as it is'
    say(printable(said % (arguments.out, counted(made.bytes, 'byte'), arguments.drawing)))
    return 0
