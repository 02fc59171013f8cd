"""What GDAL reads of a drawing beyond dgnkit: arcs, ellipses and curves as lines of short pieces, links of elements to
databases, and colours of fills. Where it doesn't open the file, arcs and ellipses are drawn from their fields."""

import math
import re
from typing import Any, Optional, Sequence, Tuple

from dgnkit.drawing.drawing import Drawing
from dgnkit.drawing.spelling import COUNT, Wkb
from dgnkit.format import classes
from dgnkit.format.arcs import ARC, ELLIPSE, arc_of
from dgnkit.format.element import Element
from osgeo import gdal, ogr

ROUND = frozenset([ARC, ELLIPSE])
STROKED = ROUND | {classes.CURVE}
PIECE = math.radians(5)  # how far an arc goes round in a piece, as GDAL has it
NEAR, SHARE = 2, 0.03  # by how much the range may differ: in units of resolution, and as a share of its size
Place = Tuple[float, ...]
Linked = Tuple[Optional[int], Optional[int], Optional[str]]
NOT_LINKED: Linked = (None, None, None)
FILL = re.compile('BRUSH[(]fc:(#[0-9a-f]{6})')


class Strokes:
    """The reading of a drawing by GDAL, which is opened when it is first wanted."""

    def __init__(self, drawing: Drawing, spelling: Wkb) -> None:
        self.drawing, self.spelling = drawing, spelling
        self.source: Optional[Any] = None
        self.is_asked = False

    def feature(self, element: Element) -> Optional[Any]:
        """What GDAL reads of an element, none where it reads none, or something else."""
        if not self.is_asked:
            self.is_asked, self.source = True, opened(self.drawing.path)
        found = None if self.source is None else quietly(self.source.GetLayer(0).GetFeature, element.number)
        if found is None or (found['Type'], found['Level']) != (element.type, element.level):
            return None
        return found

    def linked(self, element: Element) -> Linked:
        """What the attribute data of an element say: the number of the row that it is linked to, that of its table, and
        the colour that it is filled with; none of what they don't say."""
        if element.linkage_place >= element.size:
            return NOT_LINKED
        found = self.feature(element)
        if found is None:
            return NOT_LINKED
        fill = FILL.search(found.GetStyleString() or '')
        return found['MSLink'] or None, found['EntityNum'] or None, fill[1] if fill else None

    def line(self, element: Element) -> Optional[bytes]:
        """An arc, an ellipse or a curve as several lines, of which there is one; none where it can't be read."""
        return self.read(element) or (self.drawn(element) if element.type in ROUND else None)

    def read(self, element: Element) -> Optional[bytes]:
        """The same, as GDAL reads it."""
        found = self.feature(element) if self.drawing.units.is_known else None
        geometry = None if found is None else found.GetGeometryRef()
        if geometry is None or ogr.GT_Flatten(geometry.GetGeometryType()) != ogr.wkbLineString:
            return None
        points = [it[: element.axes] for it in geometry.GetPoints()]
        if element.type in ROUND and not is_its_range([self.stored(it) for it in points], element):
            return None
        return self.spelled(points if self.spelling.is_master else [self.stored(it) for it in points])

    def stored(self, point: Place) -> Place:
        """A place in master units, in units of resolution."""
        units = self.drawing.units
        return tuple(it * units.in_master + float(zero) for it, zero in zip(point, units.origin))

    def drawn(self, element: Element) -> Optional[bytes]:
        """An arc or an ellipse, from its fields."""
        arc = arc_of(element)
        if arc is None:
            return None
        count = max(1, math.ceil(abs(arc.sweep) / PIECE))
        height = element.corners[2:3] if element.axes == 3 else ()
        places = [(*arc.at(arc.start + arc.sweep * it / count), *height) for it in range(count + 1)]
        return self.spelled([self.shown(it) for it in places])

    def shown(self, point: Place) -> Place:
        """A place in units of resolution, in those of the layers."""
        if not self.spelling.is_master:
            return point
        units = self.drawing.units
        return tuple((it - float(zero)) / units.in_master for it, zero in zip(point, units.origin))

    def spelled(self, points: Sequence[Place]) -> bytes:
        """A line through places, in the units of the layers."""
        spell = self.spelling
        row = COUNT.pack(len(points)) + b''.join(spell.pack(*it) for it in points)
        return spell.whole('MultiLineString', spell.lines([row]))


def is_its_range(points: Sequence[Place], element: Element) -> bool:
    """Whether the box around the pieces of an arc is its stored range, or nearly so; else its fields may stand for
    something else."""
    low_x, low_y, high_x, high_y = element.bounds
    near = NEAR + SHARE * max(high_x - low_x, high_y - low_y)
    xs, ys = [it[0] for it in points], [it[1] for it in points]
    pairs = ((low_x, min(xs)), (low_y, min(ys)), (high_x, max(xs)), (high_y, max(ys)))
    return all(abs(stored - found) <= near for stored, found in pairs)


def opened(path: str) -> Optional[Any]:
    """A design file as GDAL opens it, none where it doesn't."""
    return quietly(gdal.OpenEx, path, gdal.OF_VECTOR, ['DGN'])


def quietly(run: Any, *words: Any) -> Optional[Any]:
    """What a call of GDAL gives, none where it fails, of which nothing is said."""
    gdal.PushErrorHandler('CPLQuietErrorHandler')
    try:
        return run(*words)
    except RuntimeError:
        return None
    finally:
        gdal.PopErrorHandler()
