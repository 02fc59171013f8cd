"""The numbers of a design file (docs/FORMAT.md): words, longs, range numbers, and the doubles of the TCB."""

from __future__ import annotations

import struct
from fractions import Fraction
from typing import List, Sequence, Tuple

Point = Tuple[int, ...]

OFFSET = 2147483648  # what a range number has more than it means
WHOLE = 4294967296
PLACE = struct.Struct('<hHhH')  # a point of two axes


def word_at(data: bytes, place: int) -> int:
    """A word: two bytes, the low one first, without sign."""
    return data[place] | data[place + 1] << 8


def long_at(data: bytes, place: int) -> int:
    """A long: two words, the high one first, with sign."""
    high, low = struct.unpack_from('<hH', data, place)
    return int(high) * 65536 + int(low)


def longs_at(data: bytes, place: int, count: int) -> List[int]:
    """So many longs, one behind the other."""
    words = struct.unpack_from('<' + 'hH' * count, data, place)
    return [high * 65536 + low for high, low in zip(words[0::2], words[1::2])]


def range_numbers_at(data: bytes, place: int, count: int) -> List[int]:
    """So many range numbers, one behind the other."""
    words = struct.unpack_from('<%dH' % (2 * count), data, place)
    return [high * 65536 + low - OFFSET for high, low in zip(words[0::2], words[1::2])]


def long_bytes(value: int) -> bytes:
    """The bytes of a long."""
    value %= WHOLE
    return struct.pack('<HH', value >> 16, value & 0xFFFF)


def range_bytes(value: int) -> bytes:
    """The bytes of a range number."""
    return long_bytes(value + OFFSET)


def points_of(numbers: Sequence[int], axes: int) -> List[Point]:
    """Points of so many axes, out of their coordinates one behind the other."""
    return list(zip(*(numbers[axis::axes] for axis in range(axes))))


def points_at(data: bytes, place: int, count: int, axes: int) -> List[Point]:
    """So many points of longs, one behind the other."""
    if axes == 3:
        return points_of(longs_at(data, place, 3 * count), 3)
    if count == 1:
        a, b, c, d = PLACE.unpack_from(data, place)
        return [(a * 65536 + b, c * 65536 + d)]
    words = struct.unpack_from('<' + 'hHhH' * count, data, place)
    columns = words[0::4], words[1::4], words[2::4], words[3::4]
    return [(a * 65536 + b, c * 65536 + d) for a, b, c, d in zip(*columns)]


def vax_double_at(data: bytes, place: int) -> Fraction:
    """A VAX D double, exactly: four words, the most significant first, each with its low byte first; a sign, 8 bits of
    exponent in excess of 128, and a fraction from a half to 1 whose highest bit isn't kept."""
    words = struct.unpack_from('<HHHH', data, place)
    bits = words[0] << 48 | words[1] << 32 | words[2] << 16 | words[3]
    exponent = bits >> 55 & 0xFF
    if exponent == 0:
        return Fraction(0)
    fraction = bits & (1 << 55) - 1 | 1 << 55
    shift = exponent - 128 - 56
    value = Fraction(fraction << shift) if shift >= 0 else Fraction(fraction, 1 << -shift)
    return -value if bits >> 63 else value
