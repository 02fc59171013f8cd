"""`dgnkit place IN CELL CSV`: the script that copies a cell to places, its own or one of another drawing."""

from __future__ import annotations

import argparse
import os
import tempfile
from dataclasses import dataclass
from pathlib import Path
from typing import TYPE_CHECKING, List, Optional, Sequence, Tuple

from ..drawing.cells import cells_called
from ..drawing.drawing import Drawing
from ..drawing.spans import number_of
from ..drawing.tables import Row, columns_of, is_head, rows_of
from ..errors import Mistake
from ..files import is_stream
from ..format.element import Element, described
from ..format.limits import ELEMENTS_MOST, FARTHEST
from ..format.numbers import Point
from ..format.places import Scale
from ..output import few, note, printable
from ..program.script import Script, plain_name
from ..propose.extracting import Extractor
from ..propose.merging import ask_alike
from ..propose.scripting import REASONS, causes, give_script
from ._options import add_dry_run, add_output, target_of

if TYPE_CHECKING:
    from ..cli import Subparsers

PLACES = ('x', 'y', 'z')


@dataclass(frozen=True)
class Spot:
    """A row of the file, and the place that it says, of two or three coordinates."""

    row: Row
    point: Point


def register(words: Subparsers) -> None:
    parser = words.add_parser('place', help='write the script that copies a cell to places')
    parser.add_argument('drawing', metavar='IN', help='the drawing')
    parser.add_argument('cell', metavar='CELL', help="the cell's name, such as MHOLE")
    parser.add_argument('places', metavar='CSV', help='rows of x,y or x,y,z; the first row may name the columns')
    parser.add_argument('--number', help='the number of the cell to copy, if several have the name')
    parser.add_argument(
        '--from', metavar='LIB', dest='library', help='the drawing that has the cell; CELL.dgn is written beside SCRIPT'
    )
    parser.add_argument(
        '--units', choices=('auto', 'master', 'resolution'), default='auto', help='the units of the positions'
    )
    add_output(parser)
    add_dry_run(parser)
    parser.set_defaults(run=run)


def run(arguments: argparse.Namespace) -> int:
    drawing = Drawing(arguments.drawing)
    library = drawing if arguments.library is None else library_of(arguments, drawing)
    number = None if arguments.number is None else number_of(arguments.number, 'element number', ELEMENTS_MOST)
    cell = cell_of(library, arguments.cell, number, arguments.library is not None)
    scale = Scale(drawing.units, arguments.units)
    spots = spots_of(drawing, arguments.places, scale)
    imported = {}
    if arguments.library is None:
        script = copies(cell.number, [shift_to(cell, it) for it in spots])
        ask(drawing, cell, script, spots)
    else:
        name = name_beside(arguments.output, cell)
        script, imported[name] = imports(drawing, library, cell, spots, name)
    tell_outside(drawing, scale, spots)
    words = ['row %d: %s to %s' % (it.row.line, described(cell), scale.place_said(it.point)) for it in spots]
    give_script(drawing.path, script, words, target_of(arguments, arguments.output), imported)
    return 0


def library_of(arguments: argparse.Namespace, drawing: Drawing) -> Drawing:
    """The drawing that has the cell. It raises Mistake where its axes or its units are others, or where no file is
    named that the script is written to."""
    if not arguments.output or is_stream(arguments.output):
        raise Mistake('--from needs -o SCRIPT: the drawing that the script imports is written beside it')
    library = Drawing(arguments.library, drawing.program)
    ask_alike(drawing, library)
    return library


def name_beside(script: str, cell: Element) -> str:
    """What the drawing of a cell is called, beside a script. It raises Mistake where the script has that name."""
    name = Path(script).with_name(plain_name(cell.cell_name or 'cell') + '.dgn')
    if name == Path(script):
        raise Mistake('%s is the name of the drawing that the script imports: name another file' % printable(script))
    return str(name)


def copies(number: int, shifts: Sequence[Point]) -> Script:
    """The script that copies an element, so moved."""
    script = Script()
    for shift in shifts:
        script.copy(number, *shift)
    return script


def imports(
    drawing: Drawing, library: Drawing, cell: Element, spots: Sequence[Spot], name: str
) -> Tuple[Script, bytes]:
    """The script that imports a cell to the first place, from a drawing of this name, and copies it to the others, and
    the bytes of that drawing. It raises Mistake where the program refuses one of these."""
    first, *others = (shift_to(cell, it) for it in spots)
    shifts = [tuple(b - a for a, b in zip(first, it)) for it in others]
    more = copies(len(drawing.elements), shifts)

    def script_of(source: str) -> Script:
        script = Script().import_(source, *(first if any(first) else ()))
        script.lines.extend(more.lines)
        return script

    script = script_of(name)
    with tempfile.TemporaryDirectory(prefix='dgnkit-') as folder:
        made = os.path.join(folder, 'cell.dgn')
        Extractor(library).make([cell.number], made)
        ask(drawing, cell, script_of(made), spots)
        return script, Path(made).read_bytes()


def cell_of(drawing: Drawing, name: str, number: Optional[int], is_root: bool = False) -> Element:
    """The first cell of a name that can be copied, or the one with a number; only one that is no member, where that is
    asked for. It raises Mistake where there is none."""
    roots, broken = drawing.nesting.roots, drawing.nesting.broken_roots
    named = [it for it in cells_called(drawing, name) if not is_root or roots[it.number] == it.number]
    if not named:
        raise Mistake('each cell %s of %s is a member of another element' % (name, drawing.path))
    whole = [it for it in named if roots[it.number] not in broken and number in (None, it.number)]
    numbers = few([it.number for it in named])
    if not whole and number is not None:
        raise Mistake(
            "element %d isn't a cell %s that can be copied: the cells of this name are %s" % (number, name, numbers)
        )
    if not whole:
        raise Mistake('all cells %s are in broken trees (%s): run `dgnkit mend` first' % (name, numbers))
    if len(whole) > 1:
        note('the first of %d cells %s is copied, element %d' % (len(whole), name, whole[0].number))
    return whole[0]


def spots_of(drawing: Drawing, file: str, scale: Scale) -> List[Spot]:
    """The places of a file. It raises Mistake with the row where one can't be read."""
    rows = rows_of(file)
    columns: Sequence[Optional[int]] = range(drawing.axes)
    if is_head(rows[0]):
        columns = columns_of(rows[0], PLACES[: drawing.axes])
        if columns[0] is None or columns[1] is None:
            said = 'it has no columns x and y, or easting and northing: %s'
            raise rows[0].mistake(said % ', '.join(rows[0].fields))
        rows = rows[1:]
    else:
        for row in rows:
            if row.width > drawing.axes:
                said = 'it has %d columns, but the drawing has %d dimensions: name them in a first row, such as x,y'
                raise row.mistake(said % (row.width, drawing.axes))
    made = []
    for row in rows:
        words = [row.field(it) for it in columns[:2] if it is not None]
        z = columns[2] if len(columns) > 2 else None
        if z is not None and z < len(row.fields) and row.field(z):
            words.append(row.field(z))
        made.append(_spot(row, words, scale))
    return made


def _spot(row: Row, words: Sequence[str], scale: Scale) -> Spot:
    try:
        return Spot(row, scale.nearest(words))
    except Mistake as why:
        raise row.mistake(why)


def shift_to(cell: Element, spot: Spot) -> Point:
    """By what a cell is moved so that its origin comes to a place; a place without z keeps the cell's."""
    origin = cell.points[0]
    target = (*spot.point, *origin[len(spot.point) :])
    shift = tuple(b - a for a, b in zip(origin, target))
    if any(abs(it) > FARTHEST for it in shift):
        raise spot.row.mistake('it is too far from the cell')
    return shift


def ask(drawing: Drawing, cell: Element, script: Script, spots: Sequence[Spot]) -> None:
    """It raises Mistake where the program refuses a copy."""
    for cause, spot in zip(causes(drawing, script.lines), spots):
        if cause:
            word = cause[len('import ') :] if cause.startswith('import ') else cause
            reason = REASONS.get(word.split(' ')[0], cause)
            raise spot.row.mistake("%s can't be copied there (%s): %s" % (described(cell), cause, reason))


def tell_outside(drawing: Drawing, scale: Scale, spots: Sequence[Spot]) -> None:
    """Warns of places that lie outside of what is drawn: a wrong column or unit shows so."""
    extent = drawing.extent
    if extent is None:
        return
    low, high = extent
    far = [it for it in spots if not all(a <= at <= b for a, at, b in zip(low, it.point[:2], high))]
    if far:
        said = '%d of %d positions are outside of what is drawn (%s to %s): rows %s, the first at %s'
        corners = scale.place_said(low, False), scale.place_said(high)
        rows = few([it.row.line for it in far])
        note(said % (len(far), len(spots), *corners, rows, scale.place_said(far[0].point)))
