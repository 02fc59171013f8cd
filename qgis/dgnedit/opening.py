"""Writes a drawing as the tables of a GeoPackage: lines, areas, points, texts, and what is known by its range alone."""

import hashlib
import os
from dataclasses import dataclass, field
from typing import Callable, Dict, Sequence, Tuple

from dgnkit.drawing.drawing import Drawing
from osgeo import ogr

from .package import Package
from .rows import FIELDS, Rows, Wishes

KINDS = ('texts', 'points', 'lines', 'areas', 'ranges')  # the topmost first
GEOMETRIES = {
    'texts': ogr.wkbPoint,
    'points': ogr.wkbPoint,
    'lines': ogr.wkbMultiLineString,
    'areas': ogr.wkbPolygon,
    'ranges': ogr.wkbPolygon,
}
STEP = 2048  # so many elements are written between two looks at the progress


@dataclass
class Written:
    """The tables that were written: of which drawing, how, the colours by their numbers, and how many rows of each
    table and level have which look."""

    package: str
    drawing: str
    digest: str
    wishes: Wishes
    colours: Sequence[str]
    looks: Dict[Tuple[int, str], Dict[int, int]] = field(default_factory=dict)
    counts: Dict[str, int] = field(default_factory=lambda: dict.fromkeys(KINDS, 0))


def digest_of(drawing: Drawing) -> str:
    """What tells the bytes of a drawing from those of others."""
    return hashlib.sha256(drawing.data).hexdigest()


def write_layers(drawing: Drawing, package: str, wishes: Wishes, tell: Callable[[float], None]) -> Written:
    """Writes the tables. `tell` is told the share that is done, and may raise what ends it; nothing is left then."""
    written = Written(package, os.path.abspath(drawing.path), digest_of(drawing), wishes, drawing.palette.spelled)
    rows = Rows(drawing, wishes)
    is_solid = drawing.axes == 3
    tables = {it: ogr.GT_SetZ(geometry) if is_solid else geometry for it, geometry in GEOMETRIES.items()}
    made = Package(package, wishes.system, tables, FIELDS)
    try:
        count = max(len(drawing.elements), 1)
        for index, row in enumerate(rows.all()):
            if index % STEP == 0:
                tell(row.number / count)
            made.filling.put(row.kind, row.number, row.geometry, row.values)
            written.counts[row.kind] += 1
            looks = written.looks.setdefault((row.level, row.kind), {})
            looks[row.look] = looks.get(row.look, 0) + 1
        made.close('level', written.digest)
    except BaseException:
        made.drop()
        raise
    return written
