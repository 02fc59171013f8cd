"""`dgnkit relevel IN PATCH --to LEVEL`: a patch file that puts elements on another level."""

from __future__ import annotations

import argparse
from typing import TYPE_CHECKING, Sequence

from ..drawing.drawing import Drawing
from ..drawing.spans import number_of
from ..format.limits import LEVEL_MOST
from ..propose.field_edits import FieldEdits, relevel
from ._fields import Word, register_edit

if TYPE_CHECKING:
    from ..cli import Subparsers


def register(words: Subparsers) -> None:
    word = Word('relevel', 'write a patch file that puts elements on another level', edit)
    parser = register_edit(words, word)
    parser.add_argument('--to', metavar='LEVEL', required=True, help='the new level')


def edit(drawing: Drawing, numbers: Sequence[int], arguments: argparse.Namespace) -> FieldEdits:
    return relevel(drawing, numbers, number_of(arguments.to, 'level', LEVEL_MOST))
