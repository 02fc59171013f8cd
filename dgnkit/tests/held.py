"""What GDAL reads of a drawing, and a test that holds the page's picture of it against that."""

from __future__ import annotations

import json
import re
import sys
import unittest
from typing import Any, Dict, List, NamedTuple, Sequence, Tuple

from app import MISSING, WithBrowser
from pictures import Line, Picture
from samples import OGR, drawings, with_units

NO_OGR = 'ogr2ogr and ogrinfo (gdal-bin) are not installed'


def say_what_is_missing() -> None:
    if MISSING or not OGR:
        print('what the page draws is not held against GDAL: ' + (MISSING or NO_OGR), file=sys.stderr)


class Reading(NamedTuple):
    """What GDAL reads of an element: its lines, those of rings among them, its style and its fields."""

    kind: str
    lines: List[Line]
    style: str
    fields: Dict[str, Any]

    def styled(self, name: str) -> str:
        """A part of the style, such as c in PEN(c:#ffffff), or nothing."""
        found = re.search(r'[(,]%s:"?([^",)]+)' % name, self.style)
        return found[1] if found else ''

    @property
    def size(self) -> float:
        """The height of a text in units of the ground, of which GDAL says whole ones."""
        return float(self.styled('s').rstrip('g'))


class Case(NamedTuple):
    """An element, and its path by the definition of the format and why, where GDAL reads another one."""

    name: str
    made: bytes
    why: str = ''
    lines: Sequence[Line] = ()


def lines_of(geometry: Dict[str, Any]) -> List[Line]:
    """The lines of a geometry of GeoJSON; a point is a line of one."""
    kind, values = geometry['type'], geometry.get('coordinates') or []
    if kind == 'GeometryCollection':
        return [line for it in geometry['geometries'] for line in lines_of(it)]
    if kind == 'Point':
        return [[(values[0], values[1])]]
    if kind == 'LineString':
        return [[(it[0], it[1]) for it in values]]
    deeper = 'Polygon' if kind == 'MultiPolygon' else 'LineString'
    return [line for it in values for line in lines_of({'type': deeper, 'coordinates': it})]


@unittest.skipUnless(OGR, NO_OGR)
class WithGdal(WithBrowser):
    """A drawing is read by GDAL and drawn by the page. A master unit is one unit of resolution, so the places of both
    are the same."""

    path_to: str

    def draw(self, *elements: bytes, axes: int = 2) -> Picture:
        """Opens a drawing of these elements, and gives its picture."""
        file = with_units(drawings.drawing(*elements, axes=axes), 1, 1, ('m', 'cm'), (0, 0, 0))
        self.path_to = self.put('true.dgn', file)
        self.open(self.path_to)
        return Picture(self.seen)

    def show(self, *elements: bytes, axes: int = 2) -> Tuple[Picture, Dict[int, Reading]]:
        """The same, with what GDAL reads of each."""
        return self.draw(*elements, axes=axes), self.read()

    def read(self) -> Dict[int, Reading]:
        asked = 'SELECT FID AS number, *, OGR_STYLE AS ogr_style FROM elements'
        said = self.ogr('ogr2ogr', '-f', 'GeoJSON', '-sql', asked, '/vsistdout/', self.path_to)
        made = {}
        for feature in json.loads(said)['features']:
            fields = feature['properties']
            lines = lines_of(feature['geometry'])
            made[int(fields['number'])] = Reading(feature['geometry']['type'], lines, fields['ogr_style'] or '', fields)
        return made

    def hold(self, cases: Sequence[Case], axes: int = 2) -> None:
        """Holds each case against GDAL, or against the definition where that is another; and what is drawn against all
        of them together, so that there is nothing else."""
        picture, read = self.show(*(it.made for it in cases), axes=axes)
        wanted: List[Line] = []
        number = 1
        for case in cases:
            with self.subTest(case.name):
                read_lines = read[number].lines if number in read else []
                if case.lines:
                    self.assertTrue(case.why, 'it says why GDAL reads another path')
                    other = picture.apart(case.lines, read_lines) or picture.apart(read_lines, case.lines)
                    self.assertTrue(other, 'GDAL reads it by its definition, though ' + case.why)
                else:
                    self.assertTrue(read_lines, 'GDAL reads it')
                lines = list(case.lines) or read_lines
                self.assertEqual(picture.missing(lines)[:5], [], 'places that no dot is near to')
                wanted += lines
            number += count_of(case.made)
        self.assertEqual(picture.astray(wanted)[:5], [], 'dots that are near to no line')


def count_of(made: bytes) -> int:
    """How many elements stand one behind the other."""
    at = count = 0
    while at < len(made):
        at, count = at + 4 + 2 * int.from_bytes(made[at + 2 : at + 4], 'little'), count + 1
    return count


def in_rows(step: int, columns: int, index: int) -> Tuple[int, int]:
    """The place of one of several things that stand in rows, so far apart."""
    return index % columns * step, -(index // columns) * step
