"""Places and lengths as a person writes them, in master units or in units of resolution."""

from __future__ import annotations

import re
from fractions import Fraction
from typing import List, Sequence, Tuple

from ..errors import Mistake
from .element import TEXT_UNIT
from .limits import MULTIPLIER_MOST, is_on_plane
from .numbers import Point
from .units import Units, rounded, shortest

DECIMAL = re.compile(r'[-+]?(\d{1,40}([.,]\d{0,40})?|[.,]\d{1,40})', re.ASCII)


def decimal_of(word: str) -> Fraction:
    """A decimal number, exactly; its point may be a comma. It raises Mistake where it is none."""
    if not DECIMAL.fullmatch(word.strip()):
        raise Mistake("%r isn't a number" % word)
    return Fraction(word.strip().replace(',', '.'))


class Scale:
    """How places are written: in master units where the drawing says them, and not otherwise wished."""

    def __init__(self, units: Units, wished: str) -> None:
        """`wished` is master, resolution, or auto for master where they are known. It raises Mistake where they aren't
        and are wished."""
        if wished == 'master' and not units.is_known:
            raise Mistake("the drawing doesn't say what a master unit is: use units of resolution")
        self.units = units
        self.is_master = units.is_known if wished == 'auto' else wished == 'master'

    @property
    def name(self) -> str:
        """What places are written in."""
        return self.units.name if self.is_master else 'units of resolution'

    def exact(self, words: Sequence[str]) -> List[Fraction]:
        """Coordinates in units of resolution, which may have fractions. It raises Mistake where they are no numbers."""
        values = [decimal_of(it) for it in words]
        if not self.is_master:
            return values
        return [value * self.units.in_master + zero for value, zero in zip(values, self.units.origin)]

    def nearest(self, words: Sequence[str]) -> Point:
        """A place, to the nearest unit of resolution. It raises Mistake where it isn't on the design plane."""
        point = tuple(rounded(it) for it in self.exact(words))
        if not all(map(is_on_plane, point)):
            raise Mistake("%s isn't on the design plane" % ','.join(words))
        return point

    def coordinate(self, word: str, axis: int) -> int:
        """A coordinate along an axis, to the nearest unit of resolution."""
        value = decimal_of(word)
        if self.is_master:
            value = value * self.units.in_master + self.units.origin[axis]
        return rounded(value)

    def signed_length(self, word: str) -> Fraction:
        """A length in units of resolution, which may have a fraction and go either way."""
        value = decimal_of(word)
        return self.units.length_from_master(value) if self.is_master else value

    def length(self, word: str) -> Fraction:
        """A length in units of resolution, which may have a fraction."""
        value = self.signed_length(word)
        if value < 0:
            raise Mistake("%r isn't a distance" % word)
        return value

    def multiplier(self, word: str) -> int:
        """The multiplier of a text that is so high. It raises Mistake where a text can't be so high."""
        value = rounded(self.length(word) / TEXT_UNIT)
        if not 0 < value <= MULTIPLIER_MOST:
            raise Mistake("a text can't be %s %s high" % (word, self.name))
        return value

    def place_said(self, point: Point, with_name: bool = True) -> str:
        """A place in words, with its unit."""
        said = ','.join(map(shortest, self.said(point)))
        return '%s %s' % (said, self.name) if with_name else said

    def said(self, point: Point) -> Tuple[float, ...]:
        """A place of the drawing as it is written."""
        return self.units.to_master(point) if self.is_master else point


def coordinates(word: str) -> List[str]:
    """The coordinates of a place `x,y`. It raises Mistake where it is none."""
    words = word.split(',')
    if len(words) == 4:
        raise Mistake("%r isn't a position: write x,y with decimal points, not decimal commas" % word)
    if len(words) != 2:
        raise Mistake("%r isn't a position: write x,y" % word)
    return words
