"""`dgnkit draw IN CSV`: the script that draws lines, line strings, shapes and texts from the places of a table."""

from __future__ import annotations

import argparse
from typing import TYPE_CHECKING

from ..drawing.drawing import Drawing
from ..drawing.tables import rows_of
from ..format.places import Scale
from ..propose.wishes import Reader
from ._drawn import add_looks, defaults_of, give

if TYPE_CHECKING:
    from ..cli import Subparsers

ABOUT = """Writes the script that draws what a table says. Each row is a point; consecutive rows with the same element
are one line, line string or shape, and each row with a text is a text. The first row names the columns: x and y, or
easting and northing; and, if wanted, z, element, kind, level, color, weight, style, text, height, angle, font,
justification. Texts need a patch file after the script; -o SCRIPT writes it too, with the name of the script and
.patch."""


def register(words: Subparsers) -> None:
    parser = words.add_parser('draw', help='write the script that draws what a table says', description=ABOUT)
    parser.add_argument('drawing', metavar='IN', help='the drawing')
    parser.add_argument('table', metavar='CSV', help='a table of positions')
    kinds = ('line', 'string', 'shape', 'text')
    parser.add_argument('--as', dest='kind', choices=kinds, default='', help="what is drawn, if a row doesn't say")
    parser.add_argument('--cut', action='store_true', help='cut lines of too many points into pieces')
    add_looks(parser)
    parser.set_defaults(run=run)


def run(arguments: argparse.Namespace) -> int:
    drawing = Drawing(arguments.drawing)
    scale = Scale(drawing.units, arguments.units)
    reader = Reader(rows_of(arguments.table), drawing.axes, scale, defaults_of(arguments, arguments.kind))
    give(drawing, scale, reader.wishes(), arguments, arguments.cut)
    return 0
