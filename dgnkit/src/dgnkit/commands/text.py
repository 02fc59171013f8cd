"""`dgnkit text IN X,Y CHARACTERS`: the script that appends a text, and the patch file that sets its range."""

from __future__ import annotations

import argparse
from typing import TYPE_CHECKING

from ..drawing.drawing import Drawing
from ..drawing.tables import Row
from ..format.places import Scale
from ..propose.wishes import Reader
from ._drawn import add_looks, defaults_of, give

if TYPE_CHECKING:
    from ..cli import Subparsers


def register(words: Subparsers) -> None:
    parser = words.add_parser('text', help='write the script that appends a text')
    parser.add_argument('drawing', metavar='IN', help='the drawing')
    parser.add_argument('place', metavar='X,Y', help='the lower left corner of the text')
    parser.add_argument('text', metavar='CHARACTERS', help='the text')
    add_looks(parser)
    parser.set_defaults(run=run)


def run(arguments: argparse.Namespace) -> int:
    drawing = Drawing(arguments.drawing)
    scale = Scale(drawing.units, arguments.units)
    places = arguments.place.split(',')
    rows = [
        Row('the text', 1, ['x', 'y', 'z'][: len(places)] + ['text']),
        Row('the text', 1, [*places, arguments.text]),
    ]
    reader = Reader(rows, drawing.axes, scale, defaults_of(arguments, 'text'))
    give(drawing, scale, reader.wishes(), arguments, False)
    return 0
