"""`dgnkit geojson IN`: the drawing for QGIS, each feature with its element's number."""

from __future__ import annotations

import argparse
import json
import re
import sys
from dataclasses import dataclass
from typing import TYPE_CHECKING, Iterator, Optional

from ..drawing.drawing import Drawing
from ..drawing.features import Features
from ..errors import Mistake
from ..format.places import Scale
from ..output import note
from ..saving import write_pieces
from ._options import add_output

if TYPE_CHECKING:
    from ..cli import Subparsers

SYSTEM = re.compile(r'(EPSG):(\d{4,6})', re.IGNORECASE)


def register(words: Subparsers) -> None:
    parser = words.add_parser('geojson', help='write a drawing as GeoJSON, for QGIS')
    parser.add_argument('drawing', metavar='IN', help='the drawing')
    parser.add_argument('--crs', metavar='EPSG:CODE', help='the coordinate system of the drawing')
    parser.add_argument(
        '--units', choices=('auto', 'master', 'resolution'), default='auto', help='the units of its positions'
    )
    parser.add_argument('--members', action='store_true', help='also write the members of complex chains and shapes')
    add_output(parser, 'the file; otherwise it is printed', 'FILE')
    parser.set_defaults(run=run)


def run(arguments: argparse.Namespace) -> int:
    system = system_of(arguments.crs)
    drawing = Drawing(arguments.drawing)
    scale = Scale(drawing.units, arguments.units)
    features = Features(drawing, scale.is_master, arguments.members)
    count = Count()
    lines = lines_of(features, system, count)
    if arguments.output:
        write_pieces(arguments.output, (it.encode('ascii') for it in lines), arguments.force)
    elif sys.stdout is None:
        raise OSError('standard output is closed')
    else:
        sys.stdout.writelines(lines)
    note('%d features in %s' % (count.features, scale.name))
    if system is None:
        note('no coordinate system is given: a reader may take the numbers for degrees; give it with --crs EPSG:CODE')
    return 0


def system_of(word: Optional[str]) -> Optional[str]:
    """The name of a system of coordinates as GeoJSON has it, none where none is given."""
    if word is None:
        return None
    found = SYSTEM.fullmatch(word.strip())
    if not found:
        raise Mistake("%r isn't a coordinate system: write it as EPSG:25832" % word)
    return 'urn:ogc:def:crs:EPSG::' + found[2]


@dataclass
class Count:
    """How many features were written."""

    features: int = 0


def lines_of(features: Features, system: Optional[str], count: Count) -> Iterator[str]:
    """The lines of a collection, one for each feature. Without a system it says that none is known."""
    crs = None if system is None else {'type': 'name', 'properties': {'name': system}}
    yield '{"type": "FeatureCollection", "crs": %s, "features": [' % json.dumps(crs)
    for feature in features.all():
        yield ('\n' if count.features == 0 else ',\n') + feature
        count.features += 1
    yield '\n]}\n'
