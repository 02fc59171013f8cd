"""The limits of the format and of the program (docs/FORMAT.md, docs/EDITING.md), made of its definitions."""

from __future__ import annotations

from . import tables

PLANE_LOW, PLANE_HIGH = tables.LEAST, tables.GREATEST  # the design plane, on each axis
FARTHEST = tables.FARTHEST  # a displacement, either way
NUMBER_MOST = tables.NUMBER_MOST  # the number of an element, as a script has it
LEVEL_MOST, COLOUR_MOST = tables.LEVEL_MOST, tables.COLOUR_MOST
WEIGHT_MOST, STYLE_MOST = tables.WEIGHT_MOST, tables.STYLE_MOST
FONT_MOST, JUSTIFICATION_MOST = tables.FONT_MOST, tables.JUSTIFICATION_MOST
MULTIPLIER_MOST = tables.MULTIPLIER_MOST  # of a text's length and height
TEXT_LONGEST = tables.TEXT_LONGEST  # the characters of a text
POINTS_MOST = max(most for _, most in tables.POINTS_OF.values())  # of a line string or a shape that a script appends
CORNERS_LEAST, CORNERS_MOST = tables.CORNERS_LEAST, tables.CORNERS_MOST  # of a fence
TOTAL_MOST = 65535  # what a total can count, one word
DRAWING_LONGEST = tables.DESIGN_LONGEST  # bytes
SCRIPT_LONGEST, PATCH_LONGEST = tables.SCRIPT_LONGEST, tables.PATCH_LONGEST
ELEMENTS_MOST = DRAWING_LONGEST // 4  # no drawing has more elements
IMPORTS_MOST = tables.IMPORTS_MOST  # lines of import in a script
NAME_LONGEST = tables.NAME_LONGEST  # the name of a file in an import line


def is_on_plane(value: int) -> bool:
    """Whether a coordinate is on the design plane."""
    return PLANE_LOW <= value <= PLANE_HIGH
