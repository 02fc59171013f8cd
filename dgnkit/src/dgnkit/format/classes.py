"""Types of elements: what each is called, and its class, which says what of it is read (docs/FORMAT.md)."""

from __future__ import annotations

from typing import Dict, FrozenSet

from . import tables

LINE, STRING, SHAPE, CURVE = 3, 4, 6, 11
CELL, NODE, TEXT, GROUP_DATA, DEFINITION = 2, 7, 17, 5, tables.SHARED_CELL
CHAIN, COMPLEX_SHAPE, SPLINE_CURVE = 12, 14, 27

# The types of each class.
CLASSES: Dict[str, FrozenSet[int]] = {
    name: frozenset(kind for kind, it in enumerate(tables.CLASS_OF) if it == number)
    for name, number in tables.CLASS.items()
}
VERTICES, WORDS, COUNTED, RUN = (CLASSES[it] for it in ('vertices', 'words', 'counted', 'run'))
LOUD = frozenset(range(len(tables.CLASS_OF))) - CLASSES['silent']  # all that have a display header

HEADERS = COUNTED | RUN  # what may have elements below it
SPLINES = frozenset(tables.SPLINES)
SPLINE_PARTS = frozenset(tables.SPLINE_PARTS)
COMPLEX = COUNTED - {CELL, NODE}  # chains, shapes, surfaces, solids
JOINED = frozenset([CHAIN, COMPLEX_SHAPE])  # headers whose members are one line or one outline
BY_RANGE = WORDS | CLASSES['floating'] | CLASSES['boxed'] | SPLINES  # what lies where its stored range says
DRAWN = VERTICES | BY_RANGE  # what is drawn by itself, and not by its members
MOST = len(tables.CLASS_OF) - 1  # the greatest type

TYPE_NAMES = {
    0: 'nothing',
    1: 'cell library header',
    2: 'cell',
    3: 'line',
    4: 'line string',
    5: 'group data',
    6: 'shape',
    7: 'text node',
    8: 'digitizer setup',
    9: 'design file header',
    10: 'level symbology',
    11: 'curve',
    12: 'complex chain',
    14: 'complex shape',
    15: 'ellipse',
    16: 'arc',
    17: 'text',
    18: 'surface',
    19: 'solid',
    21: 'B-spline pole',
    22: 'point string',
    23: 'cone',
    24: 'B-spline surface',
    25: 'B-spline surface boundary',
    26: 'B-spline knot',
    27: 'B-spline curve',
    28: 'B-spline weight factor',
    33: 'dimension',
    34: 'shared cell definition',
    35: 'shared cell',
    37: 'tag value',
    66: 'application data',
    87: 'raster header',
    88: 'raster component',
}


def class_of(kind: int) -> str:
    """The class of a type: vertices, words, counted, run, floating, boxed or silent."""
    return next(name for name, kinds in CLASSES.items() if kind in kinds)


def type_name(kind: int) -> str:
    """A type in words, or its number where it has none."""
    return TYPE_NAMES.get(kind, 'element of type %d' % kind)


def kind_by_name(word: str) -> int:
    """The type that a number or its name in words stands for. It raises ValueError where there is none."""
    name = word.strip().lower()
    if name.isdecimal() and name.isascii() and len(name) <= 3 and int(name) <= MOST:
        return int(name)
    for kind, there in TYPE_NAMES.items():
        if there.lower() == name:
            return kind
    raise ValueError('there is no type %r' % word)
