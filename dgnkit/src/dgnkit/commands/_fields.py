"""What the commands that write patch files of single fields share."""

from __future__ import annotations

import argparse
from dataclasses import dataclass
from typing import TYPE_CHECKING, Callable, List, Sequence

from ..drawing.conditions import Conditions
from ..drawing.drawing import Drawing
from ..drawing.nothing import nothing_said
from ..drawing.options import add_conditions, has_conditions
from ..errors import Mistake
from ..explain.members import parts_said
from ..output import counted, few, note, printable
from ..propose.field_edits import FieldEdits
from ..propose.writing import note_left, propose_patch
from ._options import add_dry_run, add_force, target_of

if TYPE_CHECKING:
    from ..cli import Parser, Subparsers

Edit = Callable[[Drawing, Sequence[int], argparse.Namespace], FieldEdits]
TOLD = 8


@dataclass(frozen=True)
class Word:
    """A command that edits a field: its name, what it does, how, whether it asks for a condition, whether what stands
    below a chosen header goes along, and whether it is what is marked deleted that is edited."""

    name: str
    text: str
    edit: Edit
    asks: bool = True
    takes_parts: bool = True
    takes_deleted: bool = False


def register_edit(words: Subparsers, word: Word) -> Parser:
    """Adds the parser of such a command."""
    parser = words.add_parser(word.name, help=word.text)
    parser.add_argument('drawing', metavar='IN', help='the drawing')
    parser.add_argument('patch', metavar='PATCH', help='the patch file to write')
    add_conditions(parser)
    add_force(parser)
    add_dry_run(parser)
    parser.set_defaults(run=lambda arguments: run_edit(arguments, word))
    return parser


def run_edit(arguments: argparse.Namespace, word: Word) -> int:
    if word.asks and not has_conditions(arguments):
        raise Mistake('which elements? give at least one condition, such as --level 12')
    drawing = Drawing(arguments.drawing)
    conditions = Conditions(drawing, arguments)
    numbers = taken(conditions, word)
    if not numbers:
        note(nothing_said(conditions))
    made = word.edit(drawing, conditions.in_order(numbers), arguments)
    note_left(made.left)
    words = [printable(it.in_words()) for it in made.changes]
    propose_patch(drawing, made.changes, words, target_of(arguments, arguments.patch))
    return 0


def parts_of(drawing: Drawing, chosen: Sequence[int]) -> List[int]:
    """Elements and what stands below them; what is marked deleted goes along with what is."""
    nesting, dead = drawing.nesting, drawing.dead
    return sorted({it for top in chosen for it in nesting.part(top) if it not in dead or top in dead})


def taken(conditions: Conditions, word: Word) -> List[int]:
    """The chosen elements, and what stands below them where parts are taken; with --trees all elements of the chosen
    trees. What is marked deleted goes along with what is, or where that is what is edited. It says what goes along, and
    what stays."""
    drawing = conditions.drawing
    chosen = conditions.chosen()
    if not word.takes_parts and not conditions.takes_trees:
        return chosen
    tell_broken(conditions, chosen)
    parts = {it for top in chosen for it in drawing.nesting.part(top)}
    below = parts if word.takes_deleted else set(parts_of(drawing, chosen))
    more = sorted(it for it in below.difference(chosen) if drawing.elements[it].is_deleted or not word.takes_deleted)
    if conditions.takes_members:
        tell(more, 'not changed: %s of chosen headers', drawing)
        return chosen
    tell(more, '%s would change with their header', drawing)
    left = sorted(parts - below)
    if left:
        note('not changed: %s marked deleted: %s' % (counted(len(left), 'member'), few(left)))
    for said in parts_said(drawing, chosen, TOLD):
        note(said + ', and the rest of its tree stays (--trees changes it too)')
    return sorted(below)


def tell_broken(conditions: Conditions, chosen: Sequence[int]) -> None:
    """Says which chosen elements stand in broken trees: what belongs to these, as the rings of a parcel that GDAL
    wrote, isn't known, and stays, but for the members that a chosen header has by its own total."""
    nesting = conditions.drawing.nesting
    broken = [it for it in chosen if nesting.roots[it] in conditions.broken_roots]
    if broken:
        has_members = not conditions.takes_members and any(len(nesting.part(it)) > 1 for it in broken)
        which = 'elements and the members below them' if has_members else 'elements'
        said = 'in broken trees only the chosen %s would change, since it is not known what else belongs to them (%s)'
        note((said + ': run `dgnkit mend` first') % (which, few(broken)))


def tell(numbers: Sequence[int], what: str, drawing: Drawing) -> None:
    """Says what becomes of elements below chosen ones that meet no condition by themselves, and on which levels."""
    if numbers:
        levels = sorted({drawing.elements[it].level for it in numbers})
        level = 'level' if len(levels) == 1 else 'levels'
        members = what % counted(len(numbers), 'member')
        note('%s, on %s %s: %s' % (members, level, few(levels), few(numbers)))
