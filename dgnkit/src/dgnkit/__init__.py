"""What stands beside the editor dgnedit: it finds, explains, mends and compares what drawings hold, and writes scripts
and patch files. It never edits a drawing: dgnedit alone does."""

from importlib import import_module
from pkgutil import get_data
from typing import TYPE_CHECKING, Any, List

if TYPE_CHECKING:
    from .drawing.drawing import Drawing
    from .drawing.nesting import Nesting
    from .errors import (
        BadDesign,
        BadPatch,
        BadScript,
        BadUsage,
        Ending,
        ListingError,
        MissingProgram,
        Mistake,
        OutOfMemory,
        PatchRefused,
        ReadFault,
        TooLong,
        WriteFault,
    )
    from .explain.comparing import Difference
    from .explain.comparing import differences as changes_between
    from .format.element import Element
    from .format.patch import Entry, Field, Patch
    from .format.tcb import Tcb
    from .format.units import Units
    from .program.answers import Answer
    from .program.listings import Finding, Item, Link, Node, Reference
    from .program.runs import Program
    from .program.script import Command, Script

__version__: str  # which the file VERSION has, that of the sources or of the package

# Where each name of the package is defined; a module is loaded once a name of it is wanted.
PLACES = {
    'drawing.drawing': 'Drawing',
    'drawing.nesting': 'Nesting',
    'errors': 'BadDesign BadPatch BadScript BadUsage Ending ListingError MissingProgram Mistake OutOfMemory '
    'PatchRefused ReadFault TooLong WriteFault',
    'explain.comparing': 'Difference',
    'format.element': 'Element',
    'format.patch': 'Entry Field Patch',
    'format.tcb': 'Tcb',
    'format.units': 'Units',
    'program.answers': 'Answer',
    'program.listings': 'Finding Item Link Node Reference',
    'program.runs': 'Program',
    'program.script': 'Command Script',
}


def __getattr__(name: str) -> Any:
    if name == '__version__':
        try:
            return (get_data('dgnkit', 'VERSION') or b'').decode('ascii').strip()
        except OSError:  # of modules that were copied without it
            return 'unknown'
    if name == 'changes_between':
        return getattr(import_module('dgnkit.explain.comparing'), 'differences')
    for place, names in PLACES.items():
        if name in names.split():
            return getattr(import_module('dgnkit.' + place), name)
    raise AttributeError('dgnkit has no %r' % name)


def __dir__() -> List[str]:
    return [*__all__, '__version__']


__all__ = [
    'Answer',
    'BadDesign',
    'BadPatch',
    'BadScript',
    'BadUsage',
    'Command',
    'Difference',
    'Drawing',
    'Element',
    'Ending',
    'Entry',
    'Field',
    'Finding',
    'Item',
    'Link',
    'ListingError',
    'MissingProgram',
    'Mistake',
    'Nesting',
    'Node',
    'OutOfMemory',
    'Patch',
    'PatchRefused',
    'Program',
    'ReadFault',
    'Reference',
    'Script',
    'Tcb',
    'TooLong',
    'Units',
    'WriteFault',
    'changes_between',
]
