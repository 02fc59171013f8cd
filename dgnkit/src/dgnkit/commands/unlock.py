"""`dgnkit unlock IN PATCH`: a patch file that unlocks elements."""

from __future__ import annotations

import argparse
from typing import TYPE_CHECKING, Sequence

from ..drawing.drawing import Drawing
from ..propose.field_edits import FieldEdits, set_lock
from ._fields import Word, register_edit

if TYPE_CHECKING:
    from ..cli import Subparsers


def register(words: Subparsers) -> None:
    register_edit(words, Word('unlock', 'write a patch file that unlocks elements', edit))


def edit(drawing: Drawing, numbers: Sequence[int], arguments: argparse.Namespace) -> FieldEdits:
    return set_lock(drawing, numbers, False)
