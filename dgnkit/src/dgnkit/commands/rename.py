"""`dgnkit rename IN PATCH OLD NEW`: a patch file that gives cells another name."""

from __future__ import annotations

import argparse
from typing import TYPE_CHECKING, Sequence

from ..drawing.cells import cells_called
from ..drawing.drawing import Drawing
from ..errors import Mistake
from ..format.radix50 import words_of
from ..propose.field_edits import FieldEdits, rename
from ._fields import Word, register_edit

if TYPE_CHECKING:
    from ..cli import Subparsers


def register(words: Subparsers) -> None:
    text = 'write a patch file that gives cells another name'
    parser = register_edit(words, Word('rename', text, edit, asks=False, takes_parts=False))
    parser.add_argument('old', metavar='OLD', help='the present name')
    parser.add_argument('new', metavar='NEW', help='the new name, of at most 6 characters')


def edit(drawing: Drawing, numbers: Sequence[int], arguments: argparse.Namespace) -> FieldEdits:
    try:
        words = words_of(arguments.new)
    except ValueError as why:
        raise Mistake(str(why))
    named = {it.number for it in cells_called(drawing, arguments.old, arguments.deleted)}
    return rename(drawing, [it for it in numbers if it in named], words)
