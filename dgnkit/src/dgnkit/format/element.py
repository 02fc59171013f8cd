"""An element: its row of the listing `elements`, and what its bytes say that no listing does."""

from __future__ import annotations

import math
import struct
from dataclasses import dataclass
from fractions import Fraction
from typing import List, Optional, Tuple

from . import classes, radix50, tables
from .numbers import OFFSET, Point, long_at, longs_at, points_at, word_at

HOLE = 0x8000  # of the properties
PROPERTIES = 32  # where the word of properties stands
LOCK_BYTE, LOCK_BIT = PROPERTIES + 1, tables.LOCKED >> 8  # the high byte of it, and the bit of that that says locked
LOOK_BYTE, COLOUR_BYTE = 34, 35  # where the weight and the style stand, in one byte, and the colour
RANGE = struct.Struct('<12H')
RANGE_XY = struct.Struct('<4H4x4H')
Bounds = Tuple[int, int, int, int]
POINTS_IN = {2: tables.POINTS_IN_PLANE, 3: tables.POINTS_IN_SPACE}
TEXT_IN = {2: tables.TEXT_IN_PLANE, 3: tables.TEXT_IN_SPACE}
TEXT_UNIT = Fraction(6, 1000)  # what one of a text's multipliers stands for, in units of resolution
UNIT_OVER, UNIT_UNDER = TEXT_UNIT.numerator, TEXT_UNIT.denominator


def decoded(characters: bytes) -> str:
    """Characters of a text: as UTF-8 where they are that, else as Latin-1."""
    try:
        return characters.decode('utf-8')
    except UnicodeDecodeError:
        return characters.decode('latin-1')


@dataclass
class Element:
    """An element by its number. `offset` is the byte at which it begins and `size` its bytes; `data` is the whole file
    and `axes` how many it has. A silent element has no look, no range and is never locked, whatever its bytes are."""

    __slots__ = ('number', 'offset', 'size', 'type', 'level', 'has_c', 'is_deleted', 'data', 'axes')

    number: int
    offset: int
    size: int
    type: int
    level: int
    has_c: bool
    is_deleted: bool
    data: bytes
    axes: int

    def __repr__(self) -> str:
        return 'Element(%d, type %d, level %d, at %d)' % (self.number, self.type, self.level, self.offset)

    @property
    def content(self) -> bytes:
        """All bytes of the element."""
        return self.data[self.offset : self.offset + self.size]

    @property
    def is_silent(self) -> bool:
        """Whether the type has no display header, so that of the bytes only the head is read."""
        return self.type not in classes.LOUD

    @property
    def colour(self) -> int:
        """The colour, 0 to 255. Only of an element that is not silent; so are weight and style."""
        return self.data[self.offset + COLOUR_BYTE]

    @property
    def weight(self) -> int:
        """The weight, 0 to 31."""
        return self.data[self.offset + LOOK_BYTE] >> 3

    @property
    def style(self) -> int:
        """The style, 0 to 7."""
        return self.data[self.offset + LOOK_BYTE] & 7

    @property
    def properties(self) -> int:
        """The word of properties, 0 of a silent element."""
        return 0 if self.is_silent else word_at(self.data, self.offset + PROPERTIES)

    @property
    def is_locked(self) -> bool:
        """Whether the element is locked."""
        return self.type in classes.LOUD and bool(self.data[self.offset + LOCK_BYTE] & LOCK_BIT)

    @property
    def is_hole(self) -> bool:
        """Whether the element is a hole in another one."""
        return bool(self.properties & HOLE)

    @property
    def group(self) -> int:
        """The graphic group, 0 for none."""
        return 0 if self.is_silent else word_at(self.data, self.offset + 28)

    @property
    def linkage_place(self) -> int:
        """Where in the element its attribute data begin: its size where it has none."""
        if not self.properties & tables.LINKED:
            return self.size
        return 32 + 2 * word_at(self.data, self.offset + 30)

    @property
    def range(self) -> Optional[Tuple[Point, Point]]:
        """The low and the high corner of the stored range, none of a silent element."""
        if self.type not in classes.LOUD:
            return None
        corners = self.corners
        return corners[: self.axes], corners[self.axes :]

    @property
    def corners(self) -> Tuple[int, ...]:
        """The coordinates of the low and of the high corner of the stored range, all in a row. Only of an element that
        isn't silent."""
        words = RANGE.unpack_from(self.data, self.offset + 4)
        low_x, low_y = words[0] * 65536 + words[1] - OFFSET, words[2] * 65536 + words[3] - OFFSET
        high_x, high_y = words[6] * 65536 + words[7] - OFFSET, words[8] * 65536 + words[9] - OFFSET
        if self.axes == 2:
            return low_x, low_y, high_x, high_y
        low_z, high_z = words[4] * 65536 + words[5] - OFFSET, words[10] * 65536 + words[11] - OFFSET
        return low_x, low_y, low_z, high_x, high_y, high_z

    @property
    def bounds(self) -> Bounds:
        """The stored range on x and y, low and high. Only of an element that isn't silent."""
        words = RANGE_XY.unpack_from(self.data, self.offset + 4)
        low = words[0] * 65536 + words[1] - OFFSET, words[2] * 65536 + words[3] - OFFSET
        return (*low, words[4] * 65536 + words[5] - OFFSET, words[6] * 65536 + words[7] - OFFSET)

    @property
    def has_points(self) -> bool:
        """Whether a line, string, shape or curve has a point."""
        return self.points_count > 0

    @property
    def points(self) -> List[Point]:
        """The points of a line, string, shape or curve; the origin of a text, a cell or a text node; else none."""
        kind, axes = self.type, self.axes
        count = tables.COUNTS[kind]
        if not count:
            return []
        if count == tables.BY_WORD:
            count = word_at(self.data, self.offset + tables.COUNT_AT)
        return points_at(self.data, self.offset + POINTS_IN[axes][kind], count, axes)

    @property
    def first_point(self) -> Optional[Point]:
        """The first of these points, none where there is none."""
        place = self.points_place
        if place is None or not self.points_count:
            return None
        return points_at(self.data, self.offset + place, 1, self.axes)[0]

    @property
    def points_count(self) -> int:
        """How many points there are, or 1 for an origin."""
        count = tables.COUNTS[self.type]
        return word_at(self.data, self.offset + tables.COUNT_AT) if count == tables.BY_WORD else count

    @property
    def points_place(self) -> Optional[int]:
        """Where in the element its points or its origin begin, none where no such are read of its type."""
        return POINTS_IN[self.axes][self.type] if tables.COUNTS[self.type] else None

    @property
    def total(self) -> Optional[int]:
        """The total of a counted header: the words behind it up to the end of the last member."""
        return word_at(self.data, self.offset + 36) if self.type in classes.COUNTED else None

    @property
    def cell_name(self) -> Optional[str]:
        """A cell's name as a person writes it."""
        if self.type != classes.CELL:
            return None
        return radix50.name_of(word_at(self.data, self.offset + 38), word_at(self.data, self.offset + 40))

    @property
    def text_place(self) -> int:
        """Where in a text its characters begin; the byte two before it counts them."""
        return TEXT_IN[self.axes]

    @property
    def characters(self) -> Optional[bytes]:
        """The bytes of a text's characters."""
        if self.type != classes.TEXT:
            return None
        start = self.offset + self.text_place
        return self.data[start : start + self.data[start - 2]]

    @property
    def text(self) -> Optional[str]:
        """A text's characters: as UTF-8 where they are that, else as Latin-1."""
        characters = self.characters
        return None if characters is None else decoded(characters)

    @property
    def multipliers(self) -> Tuple[int, int]:
        """The multipliers of a text's length and height. Only of a text; so is the one of the height."""
        return long_at(self.data, self.offset + 38), long_at(self.data, self.offset + 42)

    @property
    def height_multiplier(self) -> int:
        """The multiplier of a text's height."""
        return long_at(self.data, self.offset + 42)

    @property
    def text_size(self) -> Optional[Tuple[float, float]]:
        """How wide and how high a sign of a text is, in units of resolution, as its multipliers say."""
        if self.type != classes.TEXT:
            return None
        width, height = self.multipliers
        return width * UNIT_OVER / UNIT_UNDER, height * UNIT_OVER / UNIT_UNDER

    @property
    def text_height(self) -> float:
        """How high a sign of a text is, in units of resolution. Only of a text."""
        return self.height_multiplier * UNIT_OVER / UNIT_UNDER

    @property
    def text_angle(self) -> Optional[float]:
        """A text's angle in degrees, against the clock; in three axes its turn around z."""
        if self.type != classes.TEXT:
            return None
        if self.axes == 2:
            return long_at(self.data, self.offset + 46) / 360000.0
        whole, _, _, around = longs_at(self.data, self.offset + 46, 4)
        return math.degrees(-2 * math.atan2(around, whole))

    @property
    def font(self) -> Optional[int]:
        """The font of a text."""
        return self.data[self.offset + 36] if self.type == classes.TEXT else None

    @property
    def justification(self) -> Optional[int]:
        """The justification of a text."""
        return self.data[self.offset + 37] if self.type == classes.TEXT else None

    @property
    def type_name(self) -> str:
        """The type in words."""
        return classes.type_name(self.type)


def described(element: Element) -> str:
    """An element in words: its number, what it is, its name or its characters, its level."""
    more = ''
    if element.type == classes.CELL:
        more = ' %s' % element.cell_name if element.cell_name else ''
    elif element.type == classes.TEXT:
        more = ' %r' % element.text
    return '%s %d%s on level %d' % (element.type_name, element.number, more, element.level)
