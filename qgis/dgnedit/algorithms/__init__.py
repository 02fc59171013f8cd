"""The algorithms, in the order of the menu."""

from typing import List, Type

from .base import DgnAlgorithm
from .check import Check
from .commands import Copy, Delete, Look, Move
from .compare import Compare
from .drawn import DrawLine, DrawText
from .fields import Lock, Relevel, Retext, Undelete, Unlock
from .find import Find
from .mend import Mend
from .open_drawing import OpenDrawing
from .scripts import ApplyPatch, RunScript

ALGORITHMS: List[Type[DgnAlgorithm]] = [
    OpenDrawing,
    Check,
    Mend,
    Find,
    Compare,
    Move,
    Copy,
    Look,
    Delete,
    Relevel,
    Retext,
    Lock,
    Unlock,
    Undelete,
    DrawLine,
    DrawText,
    RunScript,
    ApplyPatch,
]
