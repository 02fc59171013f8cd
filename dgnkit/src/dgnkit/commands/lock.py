"""`dgnkit lock IN PATCH`: a patch file that locks elements."""

from __future__ import annotations

import argparse
from typing import TYPE_CHECKING, Sequence

from ..drawing.drawing import Drawing
from ..propose.field_edits import FieldEdits, set_lock
from ._fields import Word, register_edit

if TYPE_CHECKING:
    from ..cli import Subparsers


def register(words: Subparsers) -> None:
    register_edit(words, Word('lock', 'write a patch file that locks elements', edit))


def edit(drawing: Drawing, numbers: Sequence[int], arguments: argparse.Namespace) -> FieldEdits:
    return set_lock(drawing, numbers, True)
