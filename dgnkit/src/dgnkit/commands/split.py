"""`dgnkit split IN --by level|cell FOLDER`: a drawing for each level, or for each name of a cell."""

from __future__ import annotations

import argparse
import os
from typing import TYPE_CHECKING, Callable, Dict, List, Tuple

from ..drawing.drawing import Drawing
from ..drawing.measuring import level_of_tree
from ..errors import Mistake
from ..files import mistake_of
from ..format import classes
from ..output import counted, note, printable, say, say_csv, say_json, table
from ..propose.extracting import Extract, Extractor, Gone, ask_whole
from ..saving import ask_target, folder_in, make_safe, put_in_place
from ._options import add_force

if TYPE_CHECKING:
    from ..cli import Subparsers

HEAD = ['file', 'trees', 'elements', 'bytes']
IN_NAMES = '.-_$%'  # what a name of a file has beside letters and digits
ABOUT = """Has dgnedit make a drawing for each level of IN, or for each name of its cells, in which what isn't in it is
gone and not only marked deleted. What isn't drawn, such as the colour table, and the definitions of shared cells are in
each of them. They are new files, whose elements have new numbers."""


def register(words: Subparsers) -> None:
    parser = words.add_parser('split', help='make a drawing for each level or cell', description=ABOUT)
    parser.add_argument('drawing', metavar='IN', help='the drawing')
    parser.add_argument('folder', metavar='FOLDER', help='the folder that the new drawings are written to')
    parser.add_argument('--by', choices=('level', 'cell'), required=True, help='what each drawing holds')
    add_force(parser)
    form = parser.add_mutually_exclusive_group()
    form.add_argument('--json', action='store_true', help='print it as JSON')
    form.add_argument('--csv', action='store_true', help='print it as CSV')
    parser.set_defaults(run=run)


def run(arguments: argparse.Namespace) -> int:
    drawing, folder = Drawing(arguments.drawing), arguments.folder
    ask_whole(drawing)
    extractor = Extractor(drawing)
    sheets = sheets_of(extractor, stem_by_level if arguments.by == 'level' else stem_by_cell)
    names = {stem: os.path.join(folder, stem + '.dgn') for stem in sheets}
    place = ask_folder(folder)
    for name in names.values():
        ask_target(name, arguments.force, True)
    with folder_in(place, folder) as made:
        extracts = {stem: extractor.make(sheets[stem], os.path.join(made, stem)) for stem in names}
        put_all({os.path.join(made, stem): name for stem, name in names.items()}, folder, arguments.force)
    tell(arguments, [(names[stem], it) for stem, it in extracts.items()])
    for line in Gone.of(drawing).in_lines():
        note(line)
    if extractor.definitions:
        note('in each file: %s' % counted(len(extractor.definitions), 'definition of shared cells', 'definitions'))
    return 0


def sheets_of(extractor: Extractor, stem_of: Callable[[Drawing, int], str]) -> Dict[str, List[int]]:
    """The roots of the trees of each file, by its name without ending: the definitions of shared cells first. It raises
    Mistake where there is nothing to split."""
    by_stem: Dict[str, List[int]] = {}
    definitions = set(extractor.definitions)
    for root in extractor.trees:
        if root not in definitions:
            by_stem.setdefault(stem_of(extractor.drawing, root), []).append(root)
    if not by_stem:
        raise Mistake('%s has no trees to split' % extractor.drawing.path)
    stems = plain_stems(sorted(by_stem, key=in_order))
    return {stems[stem]: [*extractor.definitions, *by_stem[stem]] for stem in stems}


def stem_by_level(drawing: Drawing, root: int) -> str:
    """The file that a tree belongs to by its level."""
    return 'level-%d' % level_of_tree(drawing, root)


def stem_by_cell(drawing: Drawing, root: int) -> str:
    """The file that a tree belongs to by the name of its cell."""
    element = drawing.elements[root]
    return 'cell-%s' % (element.cell_name or 'unnamed') if element.type == classes.CELL else 'others'


def in_order(stem: str) -> Tuple[int, str]:
    """By what files are sorted: levels by their numbers, and the others by their names."""
    number = stem.rpartition('-')[2]
    return (int(number) if stem.startswith('level-') else 0), stem


def plain_stems(stems: List[str]) -> Dict[str, str]:
    """Names as files can have them: another sign becomes _, and of names that then are the same, whatever their case,
    the second one ends with -2."""
    made: Dict[str, str] = {}
    for stem in stems:
        plain = ''.join(it if it.isascii() and it.isalnum() or it in IN_NAMES else '_' for it in stem)
        taken = {it.lower() for it in made.values()}
        names = (plain if it == 1 else '%s-%d' % (plain, it) for it in range(1, len(stems) + 1))
        made[stem] = next(it for it in names if it.lower() not in taken)
    return made


def ask_folder(folder: str) -> str:
    """Where the files of a folder are made: in it, or where it isn't there yet in the nearest one above it. It raises
    Mistake where something else has its name."""
    place = os.path.abspath(folder)
    while not os.path.isdir(place):
        if os.path.lexists(place):
            raise Mistake("%s can't be written to: %s isn't a folder" % (printable(folder), printable(place)))
        place = os.path.dirname(place)
    return place


def put_all(names: Dict[str, str], folder: str, may_replace: bool) -> None:
    """Gives all files their names in a folder, which is made where it isn't there."""
    try:
        os.makedirs(folder, exist_ok=True)
    except OSError as why:
        raise mistake_of(folder, why)
    for made, name in names.items():
        put_in_place(made, name, may_replace, False)
    make_safe(folder)


def tell(arguments: argparse.Namespace, made: List[Tuple[str, Extract]]) -> None:
    rows = [[name, it.trees, it.elements, it.bytes] for name, it in made]
    said = '%s: these are new files, whose elements have new numbers, and %s stays as it is'
    words = printable(said % (counted(len(made), 'drawing'), arguments.drawing))
    if arguments.json:
        say_json([dict(zip(HEAD, row)) for row in rows])
    elif arguments.csv:
        say_csv(HEAD, rows)
    else:
        for line in table(HEAD, rows, left=HEAD[:1]):
            say(line)
    (note if arguments.json or arguments.csv else say)(words)
