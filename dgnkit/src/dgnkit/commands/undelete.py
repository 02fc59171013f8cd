"""`dgnkit undelete IN PATCH`: a patch file that takes deletions back."""

from __future__ import annotations

import argparse
from typing import TYPE_CHECKING, Sequence

from ..drawing.drawing import Drawing
from ..propose.field_edits import FieldEdits, undelete
from ._fields import Word, register_edit

if TYPE_CHECKING:
    from ..cli import Subparsers


def register(words: Subparsers) -> None:
    word = Word('undelete', 'write a patch file that undeletes elements', edit, takes_deleted=True)
    parser = register_edit(words, word)
    parser.set_defaults(deleted=True)


def edit(drawing: Drawing, numbers: Sequence[int], arguments: argparse.Namespace) -> FieldEdits:
    return undelete(drawing, numbers)
