"""The rows of the tables of a drawing: what is said of each element that is drawn, and where it is."""

from dataclasses import dataclass, field
from typing import Any, Dict, Iterable, Iterator, NamedTuple, Optional, Tuple

from dgnkit.drawing.broken import why_broken
from dgnkit.drawing.drawing import Drawing
from dgnkit.drawing.placing import ONLY_RANGE, Placed, Placing
from dgnkit.drawing.spelling import Wkb
from dgnkit.format import classes
from dgnkit.format.element import Element, described
from dgnkit.format.places import Scale
from osgeo import ogr
from qgis.core import QgsCoordinateReferenceSystem

from .package import Field
from .strokes import STROKED, Strokes

NUMBER, TEXT, REAL, FLAG = (
    (ogr.OFTInteger, ogr.OFSTNone),
    (ogr.OFTString, ogr.OFSTNone),
    (ogr.OFTReal, ogr.OFSTNone),
    (ogr.OFTInteger, ogr.OFSTBoolean),
)
# In the order of the values of a row.
FIELDS: Tuple[Field, ...] = (
    ('number', *NUMBER),
    ('last', *NUMBER),
    ('root', *NUMBER),
    ('depth', *NUMBER),
    ('type', *NUMBER),
    ('type_name', *TEXT),
    ('level', *NUMBER),
    ('colour', *NUMBER),
    ('rgb', *TEXT),
    ('weight', *NUMBER),
    ('style', *NUMBER),
    ('text', *TEXT),
    ('height', *REAL),
    ('angle', *REAL),
    ('cell', *TEXT),
    ('graphic_group', *NUMBER),
    ('mslink', *NUMBER),
    ('entity', *NUMBER),
    ('fill', *TEXT),
    ('deleted', *FLAG),
    ('locked', *FLAG),
    ('broken', *FLAG),
    ('why', *TEXT),
)
STYLES = 8
LOOK = '%d * "colour" + "style"' % STYLES  # of a row, for QGIS and SQLite
OF_GEOMETRY = {'Point': 'points', 'LineString': 'lines', 'MultiLineString': 'lines', 'Polygon': 'areas'}
NO_WORDS = (None,) * 4
Values = Tuple[Any, ...]
Reasons = Dict[int, str]


@dataclass
class Wishes:
    """How a drawing is opened: its units, the system of its coordinates, and what of it."""

    units: str = 'auto'
    system: QgsCoordinateReferenceSystem = field(default_factory=QgsCoordinateReferenceSystem)
    has_members: bool = False
    has_holes: bool = True
    has_deleted: bool = False


class Row(NamedTuple):
    """A row: its table, the level and the look that it is drawn with, its element, where this is, and its fields."""

    kind: str
    level: int
    look: int  # its colour and its style, as one number
    number: int
    geometry: bytes
    values: Values


class Rows:
    """Makes the rows of a drawing, of those that are placed; places are in the units that are wished."""

    def __init__(self, drawing: Drawing, wishes: Wishes, reasons: Optional[Reasons] = None) -> None:
        """`reasons` are those of the broken trees, where they are known already."""
        scale = Scale(drawing.units, wishes.units)
        self.drawing, self.spelling = drawing, Wkb(drawing.units, drawing.axes, scale.is_master)
        self.placing = Placing(drawing, self.spelling, wishes.has_members, wishes.has_holes, wishes.has_deleted)
        self.scale = 1 / drawing.units.in_master if scale.is_master else 1.0
        self.nesting, self.dead = drawing.nesting, drawing.dead
        self.strokes = Strokes(drawing, self.spelling)
        self.reasons = reasons_of(drawing) if reasons is None else reasons
        self.looks: Dict[Tuple[int, int, bytes], Values] = {}

    def all(self) -> Iterator[Row]:
        """All rows, in the order of their elements."""
        return map(self.row, self.placing.all())

    def of(self, numbers: Iterable[int]) -> Iterator[Row]:
        """The rows of the elements with these numbers, which are those of whole trees; the drawing needn't have all."""
        elements = self.drawing.elements
        return map(self.row, self.placing.of(elements[it] for it in numbers if it < len(elements)))

    def row(self, placed: Placed) -> Row:
        """The row of an element."""
        kind, geometry = self.shape(placed)
        look = look_of(placed.look.colour, placed.look.style)
        return Row(kind, placed.level, look, placed.element.number, geometry, self.values(placed))

    def shape(self, placed: Placed) -> Tuple[str, bytes]:
        """The table of an element, and where it is: a line as one of several, which the table of lines has."""
        coordinates = placed.coordinates
        assert isinstance(coordinates, bytes)
        if placed.element.type in STROKED and placed.kind != 'Point':
            line = self.strokes.line(placed.element)
            if line is not None:
                return 'lines', line
        kind = kind_of(placed)
        if placed.kind == 'LineString':
            return kind, self.spelling.whole('MultiLineString', self.spelling.lines([coordinates]))
        return kind, self.spelling.whole(placed.kind, coordinates)

    def values(self, placed: Placed) -> Values:
        """What is said of an element, field by field."""
        element, nesting = placed.element, self.nesting
        number = element.number
        root = nesting.roots[number]
        front = number, placed.last, root, nesting.depths[number]
        words = self.words(element) if element.type in (classes.TEXT, classes.CELL) else NO_WORDS
        links = element.group or None, *self.strokes.linked(element)
        why = self.reasons.get(root)
        state = number in self.dead, element.is_locked, why is not None, why
        return (*front, *self.look(placed), *words, *links, *state)

    def look(self, placed: Placed) -> Values:
        """The type, the level and the look; many elements have the same."""
        element, look = placed.element, placed.look
        key = element.type, placed.level, look.data[look.offset + 34 : look.offset + 36]
        found = self.looks.get(key)
        if found is None:
            colour = look.colour
            rest = colour, self.drawing.palette.spelled[colour], look.weight, look.style
            found = self.looks[key] = (element.type, element.type_name, placed.level, *rest)
        return found

    def words(self, element: Element) -> Values:
        """The text with its height and its angle, or the name of a cell."""
        if element.type == classes.CELL:
            return None, None, None, element.cell_name
        height = (element.text_size or (0.0, 0.0))[1] * self.scale
        text = (element.text or '').replace('\0', '\\x00')  # a field can hold no such sign
        return text, round(height, 9), round(element.text_angle or 0.0, 6), None


def look_of(colour: int, style: int) -> int:
    """A colour and a style as one number, as LOOK has it."""
    return STYLES * colour + style


def kind_of(placed: Placed) -> str:
    """The table of an element."""
    if placed.element.type in ONLY_RANGE:
        return 'ranges'
    return 'texts' if placed.element.type == classes.TEXT else OF_GEOMETRY[placed.kind]


def reasons_of(drawing: Drawing) -> Reasons:
    """By the root of a tree that is broken why it is."""
    made: Reasons = {}
    for number in drawing.nesting.broken:
        root = drawing.nesting.roots[number]
        why = why_broken(drawing, number)
        why = why if number == root else '%s: %s' % (described(drawing.elements[number]), why)
        made[root] = '%s; %s' % (made[root], why) if root in made else why
    return made
