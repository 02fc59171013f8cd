"""Drawings that ogr2ogr makes for the tests: parcels with holes, roads of 300 vertices, labels."""

from __future__ import annotations

import json
import math
import re
from typing import Dict, List, Sequence

from samples import WithProgram

Ring = List[List[float]]  # points, of which the first and the last are the same
Feature = Dict[str, object]

UNITS = {
    'MASTER_UNIT_NAME': 'm',
    'SUB_UNIT_NAME': 'cm',
    'SUB_UNITS_PER_MASTER_UNIT': 100,
    'UOR_PER_SUB_UNIT': 10,
    'ORIGIN': '-100,-100,0',
}


def square(x: float, y: float, side: float) -> Ring:
    return [[x, y], [x + side, y], [x + side, y + side], [x, y + side], [x, y]]


def circle(x: float, y: float, radius: float, count: int) -> Ring:
    turns = [2 * math.pi * it / count for it in range(count)]
    points = [[round(x + radius * math.cos(it), 3), round(y + radius * math.sin(it), 3)] for it in turns]
    return points + points[:1]


def feature(level: int, kind: str, coordinates: Sequence[object], **more: object) -> Feature:
    properties: Dict[str, object] = {'Level': level, 'ColorIndex': 1, **more}
    return {'type': 'Feature', 'properties': properties, 'geometry': {'type': kind, 'coordinates': coordinates}}


def parcels() -> List[Feature]:
    """Five parcels with a hole, and one whose rings have many points, by itself and with a hole."""
    made = [feature(20, 'Polygon', [square(100 * it, 0, 80), square(100 * it + 20, 20, 20)]) for it in range(5)]
    ring, hole = circle(500, 500, 200, 120), circle(500, 500, 50, 60)
    return made + [feature(21, 'Polygon', [ring, hole]), feature(22, 'Polygon', [ring])]


def roads() -> List[Feature]:
    """Five roads of level 12, of which two have 300 vertices."""
    made = [feature(12, 'LineString', [[0, 300 + 10 * it], [100, 300 + 10 * it]]) for it in range(3)]
    for start in (200, 250):
        points = [[it, round(start + 20 * math.sin(it / 10), 3)] for it in range(300)]
        made.append(feature(12, 'LineString', points))
    return made


def labels() -> List[Feature]:
    words = ['DN 150', 'GOLDEN', 'OLD pump', 'the OLD', 'PUMP 3']
    return [feature(30, 'Point', [10 * it, 10], Text=word) for it, word in enumerate(words)]


def made(test: WithProgram, features: List[Feature], name: str = 'ogr.dgn', **units: object) -> str:
    """Makes a drawing of features, with these options for UNITS, and gives its path."""
    source = test.put(name + '.geojson', json.dumps({'type': 'FeatureCollection', 'features': features}))
    options = [it for key, value in {**UNITS, **units}.items() for it in ('-dsco', '%s=%s' % (key, value))]
    test.ogr('ogr2ogr', '-f', 'DGN', *options, test.path(name), source)
    return test.path(name)


def features_of(test: WithProgram, drawing: str) -> List[str]:
    """What ogrinfo says of each feature of a drawing."""
    said = test.ogr('ogrinfo', '-al', drawing)
    return re.split(r'^(?=OGRFeature\()', said, flags=re.M)[1:]
