"""`dgnkit retext IN PATCH OLD NEW`: a patch file that exchanges characters of texts in place, or numbers them."""

from __future__ import annotations

import argparse
import contextlib
from typing import TYPE_CHECKING, Sequence

from ..drawing.cells import cells_of
from ..drawing.conditions import form_of, word_form
from ..drawing.drawing import Drawing
from ..drawing.spans import number_of
from ..errors import Mistake
from ..format import classes
from ..format.limits import ELEMENTS_MOST
from ..output import note
from ..propose.field_edits import FieldEdits, Replacement, retext
from ..propose.numbering import Numbering, renumber
from ..waiting import Matcher
from ._fields import Word, register_edit

if TYPE_CHECKING:
    from ..cli import Subparsers


def register(words: Subparsers) -> None:
    text = 'write a patch file that replaces words in texts, or numbers texts'
    parser = register_edit(words, Word('retext', text, edit, asks=False, takes_parts=False))
    parser.add_argument('old', metavar='OLD', help='what to replace, as a whole word; not with --each')
    parser.add_argument('new', metavar='NEW', help='what to put there instead; not with --each')
    parser.add_argument(
        '--regex', action='store_true', help='OLD is a regular expression, and NEW may refer to its groups'
    )
    parser.add_argument(
        '--each', metavar='FORM', action=Each, help='in place of OLD and NEW: a running number, such as N{:03}'
    )
    parser.add_argument(
        '--by',
        choices=('x', 'y', '-x', '-y'),
        help='number the texts along this axis, or against it; otherwise as find',
    )
    parser.add_argument('--start', metavar='N', help='the first number; 1 without it')
    parser.add_argument('--encoding', help='the encoding of characters beyond ASCII, such as utf-8 or latin-1')


class Each(argparse.Action):
    """The option --each, with which OLD and NEW aren't needed."""

    def __call__(
        self, parser: argparse.ArgumentParser, namespace: argparse.Namespace, values: object, option: object = None
    ) -> None:
        setattr(namespace, self.dest, values)
        for it in parser._actions:
            it.required = it.required and it.dest not in ('old', 'new')


def edit(drawing: Drawing, numbers: Sequence[int], arguments: argparse.Namespace) -> FieldEdits:
    if arguments.each is not None:
        return number_each(drawing, numbers, arguments)
    if arguments.by or arguments.start:
        raise Mistake('--by and --start need --each')
    form = Matcher((form_of if arguments.regex else word_form)(arguments.old, arguments.ignore_case))
    new = arguments.new if arguments.regex else arguments.new.replace('\\', '\\\\')
    with form.limited() if arguments.regex else contextlib.nullcontext():
        made = retext(drawing, numbers, Replacement(form, new, arguments.encoding))
        named = {it.cell_name or '' for it in cells_of(drawing) if form.is_in(it.cell_name or '')}
    if named and not made.changes:
        note('no text is changed; to change the name of a cell such as %s, use `dgnkit rename`' % min(named))
    return made


def number_each(drawing: Drawing, numbers: Sequence[int], arguments: argparse.Namespace) -> FieldEdits:
    """Gives the texts among elements running numbers, by their places where that was asked for."""
    if arguments.old is not None or arguments.regex:
        raise Mistake('--each takes the place of OLD and NEW: give the one or the other')
    first = 1 if arguments.start is None else number_of(arguments.start, 'first number', ELEMENTS_MOST)
    wanted = Numbering.read(arguments.each, first)
    if arguments.by:
        axis, sign = 'xy'.index(arguments.by[-1]), -1 if arguments.by[0] == '-' else 1
        texts = [it for it in numbers if drawing.elements[it].type == classes.TEXT]
        numbers = sorted(texts, key=lambda it: (sign * drawing.elements[it].points[0][axis], it))
    return renumber(drawing, numbers, wanted, arguments.encoding)
