"""How the coordinates of geometries are spelled: as GeoJSON has them, or as well-known binary (WKB) has them."""

from __future__ import annotations

import struct
from typing import Callable, Dict, Generic, Sequence, TypeVar

from ..format.numbers import Point
from ..format.units import Units

Spelled = TypeVar('Spelled')
COUNT = struct.Struct('<I')
KINDS: Dict[str, int] = {'Point': 1, 'LineString': 2, 'Polygon': 3, 'MultiLineString': 5}
OF_THREE_AXES = 1000  # what the kind of a geometry with three axes has more


class Spelling(Generic[Spelled]):
    """Spells places, rows of places, outlines, and lines."""

    def place(self, point: Point) -> Spelled:
        """A place."""
        raise NotImplementedError

    def row(self, points: Sequence[Point]) -> Spelled:
        """Places one behind the other."""
        raise NotImplementedError

    def rings(self, rows: Sequence[Spelled]) -> Spelled:
        """An outline, and the outlines of holes in it."""
        raise NotImplementedError

    def lines(self, rows: Sequence[Spelled]) -> Spelled:
        """Lines that are one geometry."""
        raise NotImplementedError


class Json(Spelling[str]):
    """The coordinates of GeoJSON; `spell` spells a place."""

    def __init__(self, spell: Callable[[Point], str]) -> None:
        self.spell = spell

    def place(self, point: Point) -> str:
        return self.spell(point)

    def row(self, points: Sequence[Point]) -> str:
        return '[%s]' % ', '.join(map(self.spell, points))

    def rings(self, rows: Sequence[str]) -> str:
        return '[%s]' % ', '.join(rows)

    def lines(self, rows: Sequence[str]) -> str:
        return '[%s]' % ', '.join(rows)


class Wkb(Spelling[bytes]):
    """The coordinates of well-known binary, in master units or in units of resolution."""

    def __init__(self, units: Units, axes: int, is_master: bool) -> None:
        self.units, self.is_master = units, is_master
        self.pack = struct.Struct('<%dd' % axes).pack
        self.more = OF_THREE_AXES if axes == 3 else 0

    def place(self, point: Point) -> bytes:
        return self.pack(*(self.units.to_master(point) if self.is_master else point))

    def row(self, points: Sequence[Point]) -> bytes:
        return COUNT.pack(len(points)) + b''.join(map(self.place, points))

    def rings(self, rows: Sequence[bytes]) -> bytes:
        return COUNT.pack(len(rows)) + b''.join(rows)

    def lines(self, rows: Sequence[bytes]) -> bytes:
        return COUNT.pack(len(rows)) + b''.join(self.whole('LineString', it) for it in rows)

    def whole(self, kind: str, coordinates: bytes) -> bytes:
        """A geometry of this kind, with its coordinates."""
        return b'\1' + COUNT.pack(KINDS[kind] + self.more) + coordinates
