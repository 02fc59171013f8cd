"""What a unit of a drawing is: the TCB's units and global origin, and places in master units."""

from __future__ import annotations

from dataclasses import dataclass
from decimal import Decimal
from fractions import Fraction
from functools import cached_property
from typing import List, Optional, Sequence, Tuple, Union

from ..output import counted, listed, printable
from .numbers import long_at, vax_double_at

# What two characters are known to stand for, in metres; a foot is the international one. Case doesn't count.
METRES = {
    'm': Fraction(1),
    'km': Fraction(1000),
    'dm': Fraction(1, 10),
    'cm': Fraction(1, 100),
    'mm': Fraction(1, 1000),
    'um': Fraction(1, 1000000),
    'ft': Fraction(3048, 10000),
    "'": Fraction(3048, 10000),
    'in': Fraction(254, 10000),
    '"': Fraction(254, 10000),
    'yd': Fraction(9144, 10000),
    'mi': Fraction(1609344, 1000),
}
WAYS = (('east', 'west'), ('north', 'south'), ('up', 'down'))  # what a displacement is along each axis


def metres_of(name: str) -> Optional[Fraction]:
    """How many metres a unit of that name has, none where it isn't known."""
    return METRES.get(name.strip().lower())


def name_at(data: bytes, place: int) -> str:
    """A name of two characters, which a zero byte ends."""
    return data[place : place + 2].split(b'\0')[0].decode('latin-1').strip()


@dataclass(frozen=True)
class Units:
    """The units of a drawing: so many subunits in a master unit, so many units of resolution in a subunit, the names of
    the first two, and the global origin in units of resolution."""

    subunits: int
    resolution: int
    master_name: str
    sub_name: str
    origin: Tuple[Fraction, Fraction, Fraction]

    @classmethod
    def read(cls, data: bytes) -> Units:
        """Reads them from the TCB, the first 1,536 bytes of a file."""
        origin = (vax_double_at(data, 1240), vax_double_at(data, 1248), vax_double_at(data, 1256))
        names = name_at(data, 1120), name_at(data, 1122)
        return cls(long_at(data, 1112), long_at(data, 1116), names[0], names[1], origin)

    @property
    def in_master(self) -> int:
        """How many units of resolution a master unit has; 0 where the TCB doesn't say."""
        if self.subunits <= 0 or self.resolution <= 0:
            return 0
        return self.subunits * self.resolution

    @property
    def is_known(self) -> bool:
        """Whether the drawing says what a master unit is."""
        return self.in_master > 0

    @property
    def master_metres(self) -> Optional[Fraction]:
        """How many metres a master unit has, none where that is not known."""
        return metres_of(self.master_name) if self.is_known else None

    @property
    def name(self) -> str:
        """What a master unit is called here."""
        return self.master_name or 'master units'

    @property
    def said(self) -> str:
        """The units in words, in metres too where the master unit's name is known."""
        if not self.is_known:
            said = 'not set (the TCB has %d subunits and %d units of resolution): positions are in units of resolution'
            return said % (self.subunits, self.resolution)
        master, sub = (printable(it) or '(no name)' for it in (self.master_name, self.sub_name))
        fine = counted(self.resolution, 'unit of resolution', 'units of resolution')
        said = '1 %s = %d %s, 1 %s = %s' % (master, self.subunits, sub, sub, fine)
        metres = self.master_metres
        if metres is None:
            return said + "; it isn't known how long 1 %s is" % master
        return said + '; 1 unit of resolution = %s m' % shortest(float(metres / self.in_master))

    def to_master(self, point: Sequence[int]) -> Tuple[float, ...]:
        """A place of the drawing in master units. Only where these are known."""
        whole, zeros = self._whole
        return tuple([float((at - zero) / whole) for at, zero in zip(point, zeros)])

    @cached_property
    def _whole(self) -> Tuple[int, Tuple[Union[int, Fraction], ...]]:
        """The units of resolution of a master unit, and the origin with whole numbers where it has such."""
        zeros: List[Union[int, Fraction]] = [it.numerator if it.denominator == 1 else it for it in self.origin]
        return self.in_master, tuple(zeros)

    def length_from_master(self, value: Fraction) -> Fraction:
        """A length in master units, in units of resolution."""
        return value * self.in_master

    def length_said(self, length: float) -> str:
        """A length of units of resolution in words, in master units too where these are known."""
        said = '%s units of resolution' % shortest(length)
        return said if not self.is_known else '%s %s (%s)' % (shortest(length / self.in_master), self.name, said)

    def shift_said(self, shift: Sequence[int]) -> str:
        """A displacement in words: how far to the east, north and up in master units where these are known, and in
        metres where their name is; else in units of resolution."""
        said = ','.join(str(it) for it in shift) + ' units of resolution'
        if not self.is_known:
            return 'by ' + said
        ways = [(abs(it), way[it < 0]) for it, way in zip(shift, WAYS) if it] or [(0, WAYS[0][0])]
        masters = ['%s %s %s' % (shortest(it / self.in_master), self.name, way) for it, way in ways]
        metres = self.master_metres
        more = ''
        if metres is not None and metres != 1:
            more = ', or ' + listed(['%s m' % shortest(float(it * metres / self.in_master)) for it, _ in ways])
        return '%s%s (%s)' % (listed(masters), more, said)


def rounded(value: Fraction) -> int:
    """The nearest whole number, the greater one of two."""
    return (2 * value.numerator + value.denominator) // (2 * value.denominator)


def shortest(value: float) -> str:
    """A number with at most 15 digits, without needless ones behind the point, and without an exponent."""
    said = '%.15g' % value
    if 'e' not in said and 'n' not in said:
        return said
    said = format(Decimal(said), 'f')
    return said.rstrip('0').rstrip('.') if '.' in said else said
