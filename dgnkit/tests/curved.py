"""Elements that the other tests don't make, from the rules of the format: curves, arcs and ellipses, B-splines, texts,
fills. Their paths are found from their definition, by other ways than the page's."""

from __future__ import annotations

import math
import random
import struct
from typing import Callable, List, Optional, Sequence, Tuple

from pictures import Line, Point
from samples import plan

Numbers = Sequence[float]
Whole = 2**31 - 1  # a weight, a knot or a part of a quaternion of 1
FILL = bytes([7, 0x10, 0x41, 0, 2, 8, 1, 0])  # a linkage of 16 bytes, whose ninth is the colour
LINKED = 0x0800


def real(value: float) -> bytes:
    """A number as a VAX D double."""
    if value == 0:
        return bytes(8)
    fraction, exponent = math.frexp(abs(value))
    bits = (int(value < 0) << 63) | ((exponent + 128) << 55) | (int(fraction * 2**56) & (2**55 - 1))
    return struct.pack('<HHHH', *(bits >> shift & 0xFFFF for shift in (48, 32, 16, 0)))


def longs(*values: float) -> bytes:
    return b''.join(plan.long(round(it)) for it in values)


def bounds(line: Line) -> Tuple[List[float], List[float]]:
    return [min(axis) for axis in zip(*line)], [max(axis) for axis in zip(*line)]


def element(kind: int, line: Line, behind: bytes, axes: int = 2, member: bool = False) -> bytes:
    """An element on level 1 whose range holds a line, and lies at z 0 in three axes."""
    low, high = ([round(it) for it in corner] + [0] for corner in bounds(line))
    made = plan.display(kind, 1, low[: max(axes - 1, 2)], high[: max(axes - 1, 2)], behind, member)
    if axes == 3:
        ranges = b''.join(plan.range_number(it) for it in [*low, *high])
        made = made[:4] + ranges + made[28:]
    return made


def looking(made: bytes, colour: int = 0, weight: int = 0, style: int = 0, kind: int = 0) -> bytes:
    """The same element with this colour, weight, style and class of its properties, from 0 to 15."""
    properties = struct.unpack_from('<H', made, 32)[0] | kind
    return made[:32] + struct.pack('<H', properties) + bytes([weight << 3 | style, colour]) + made[36:]


def filled(made: bytes, colour: int) -> bytes:
    """The same element with the linkage of a fill."""
    properties = struct.unpack_from('<H', made, 32)[0] | LINKED
    front = (
        struct.pack('<H', (len(made) + 16 - 4) // 2)
        + made[4:30]
        + struct.pack('<HH', (len(made) - 32) // 2, properties)
    )
    return made[:2] + front + made[34:] + FILL + bytes([colour]) + bytes(7)


def curve(points: Sequence[Tuple[int, int]]) -> bytes:
    return plan.path(11, 1, points)


def akima(points: Sequence[Tuple[int, int, int]], steps: int = 60) -> List[Point]:
    """A curve of three axes as it is seen along the third, by its definition: chords in all axes, slopes by weights of
    how much the next slopes differ."""
    count = len(points)
    lengths = [math.dist(a, b) for a, b in zip(points, points[1:])]
    slopes = [[(b[axis] - a[axis]) / d for axis in (0, 1)] for a, b, d in zip(points, points[1:], lengths)]

    def slope(at: int, axis: int) -> float:
        m = [slopes[at + it][axis] for it in (-2, -1, 0, 1)]
        one, other = abs(m[3] - m[2]), abs(m[1] - m[0])
        return (m[1] + m[2]) / 2 if one + other == 0 else (m[1] * one + m[2] * other) / (one + other)

    made: List[Point] = []
    for at in range(2, count - 3):
        for step in range(steps + 1):
            d, length = lengths[at] * step / steps, lengths[at]
            values = []
            for axis in (0, 1):
                rise, start, end = points[at + 1][axis] - points[at][axis], slope(at, axis), slope(at + 1, axis)
                a = (start + end - 2 * rise / length) / length**2
                b = (3 * rise / length - 2 * start - end) / length
                values.append(a * d**3 + b * d**2 + start * d + points[at][axis])
            made.append((values[0], values[1]))
    return made


def turned(angle: float) -> List[float]:
    """The quaternion of an element that is turned by so many degrees against the clock."""
    return [math.cos(math.radians(angle) / 2), 0, 0, -math.sin(math.radians(angle) / 2)]


def tilted(angle: float) -> List[float]:
    """The quaternion of an element that is turned around x."""
    return [math.cos(math.radians(angle) / 2), -math.sin(math.radians(angle) / 2), 0, 0]


def times(one: Numbers, other: Numbers) -> List[float]:
    """The quaternion of an element that is turned by the first and then by the second."""
    (w, x, y, z), (v, a, b, c) = one, other
    return [
        w * v - x * a - y * b - z * c,
        w * a + x * v + y * c - z * b,
        w * b - x * c + y * v + z * a,
        w * c + x * b - y * a + z * v,
    ]


def rotated(place: Numbers, quaternion: Numbers) -> Point:
    """Where a place of an element is seen that is turned by a quaternion: q* · p · q, of which x and y."""
    w, x, y, z = quaternion
    _, left, up, _ = times(times([w, -x, -y, -z], [0, *place, 0]), quaternion)
    return left, up


def arc_line(
    middle: Point, axes: Point, start: float, sweep: float, place_of: Callable[[Point], Point], steps: int = 720
) -> List[Point]:
    """An arc, each of whose places is turned by a function."""
    made = []
    for step in range(steps + 1):
        angle = math.radians(start + sweep * step / steps)
        x, y = place_of((axes[0] * math.cos(angle), axes[1] * math.sin(angle)))
        made.append((middle[0] + x, middle[1] + y))
    return made


def by_angle(angle: float) -> Callable[[Point], Point]:
    cosine, sine = math.cos(math.radians(angle)), math.sin(math.radians(angle))
    return lambda it: (it[0] * cosine - it[1] * sine, it[0] * sine + it[1] * cosine)


def span(start: float, sweep: float) -> bytes:
    """The fields of an arc's start and sweep, of which the highest bit is the sign."""
    value = longs(abs(sweep) * 360000)
    return longs(start * 360000) + (value[:1] + bytes([value[1] | 0x80]) + value[2:] if sweep < 0 else value)


def arc(middle: Point, axes: Point, start: float, sweep: float, angle: float = 0) -> Tuple[bytes, List[Point]]:
    """An arc of two axes, and its path."""
    line = arc_line(middle, axes, start, sweep, by_angle(angle))
    fields = span(start, sweep) + real(axes[0]) + real(axes[1]) + longs(angle * 360000)
    return element(16, line, fields + real(middle[0]) + real(middle[1])), line


def ellipse(middle: Point, axes: Point, angle: float = 0) -> Tuple[bytes, List[Point]]:
    line = arc_line(middle, axes, 0, 360, by_angle(angle))
    fields = real(axes[0]) + real(axes[1]) + longs(angle * 360000)
    return element(15, line, fields + real(middle[0]) + real(middle[1])), line


def arc_of_space(
    middle: Point, axes: Point, around: Optional[Tuple[float, float]], quaternion: Numbers
) -> Tuple[bytes, List[Point]]:
    """An arc of three axes with a start and a sweep, or else an ellipse, and its path as seen along z."""
    start, sweep = around or (0, 360)
    line = arc_line(middle, axes, start, sweep, lambda it: rotated(it, quaternion))
    fields = (span(start, sweep) if around else b'') + real(axes[0]) + real(axes[1])
    fields += longs(*(it * Whole for it in quaternion)) + real(middle[0]) + real(middle[1]) + real(0)
    return element(16 if around else 15, line, fields, axes=3), line


def text(
    place: Tuple[int, int], characters: bytes, wide: float, high: float, angle: float = 0, justification: int = 0
) -> bytes:
    """A text whose signs are so wide and high, in units of resolution."""
    behind = bytes([1, justification]) + longs(wide * 1000 / 6, high * 1000 / 6, angle * 360000, *place)
    behind += bytes([len(characters), 0]) + characters + bytes(len(characters) % 2)
    return element(17, [place], behind)


def text_of_space(place: Tuple[int, int], characters: bytes, wide: float, high: float, quaternion: Numbers) -> bytes:
    """A text of three axes that is turned by a quaternion."""
    behind = bytes([1, 0]) + longs(wide * 1000 / 6, high * 1000 / 6, *(it * Whole for it in quaternion), *place, 0)
    behind += bytes([len(characters), 0]) + characters + bytes(len(characters) % 2)
    return element(17, [place], behind, axes=3)


# B-splines.


def basis(index: int, order: int, knots: Numbers, at: float) -> float:
    """A basis function of B-splines, by Cox and de Boor."""
    if order == 1:
        return 1.0 if knots[index] <= at < knots[index + 1] else 0.0
    made = 0.0
    if knots[index + order - 1] > knots[index]:
        made += (at - knots[index]) / (knots[index + order - 1] - knots[index]) * basis(index, order - 1, knots, at)
    if knots[index + order] > knots[index + 1]:
        share = (knots[index + order] - at) / (knots[index + order] - knots[index + 1])
        made += share * basis(index + 1, order - 1, knots, at)
    return made


def spline_line(
    poles: Line, order: int, knots: Numbers, weights: Optional[Numbers] = None, steps: int = 400
) -> List[Point]:
    """A B-spline by its basis functions, from the knot of its order to the one as far from the end."""
    low, high, made = knots[order - 1], knots[len(knots) - order], []
    for step in range(steps + 1):
        at = low + (high - low) * min(step / steps, 1 - 1e-12)
        shares = [basis(it, order, knots, at) * (weights[it] if weights else 1) for it in range(len(poles))]
        made.append(tuple(sum(s * pole[axis] for s, pole in zip(shares, poles)) / sum(shares) for axis in (0, 1)))
    return [(it[0], it[1]) for it in made]


def spline(
    poles: Sequence[Tuple[int, int]],
    order: int,
    line: Line,
    knots: Numbers = (),
    weights: Numbers = (),
    closed: bool = False,
) -> bytes:
    """The header of a B-spline curve with its parts; knots and weights are from 0 to 1."""
    flags = (order - 2) | 0x10 | (0x40 if weights else 0) | (0x80 if closed else 0)
    header = element(27, line, longs(0) + bytes([flags, 0]) + struct.pack('<HH', len(poles), len(knots)))
    parts = [element(26, [(0, 0)], longs(*(it * Whole for it in knots)), member=True)] if knots else []
    parts.append(
        element(21, poles, struct.pack('<H', len(poles)) + longs(*(it for p in poles for it in p)), member=True)
    )
    if weights:
        parts.append(element(28, [(0, 0)], longs(*(it * Whole for it in weights)), member=True))
    return header + b''.join(parts)


def surface(rows: Sequence[Sequence[Tuple[int, int]]], orders: Tuple[int, int], lines: Tuple[int, int]) -> bytes:
    """The header of a B-spline surface with a part for each of its rows of poles, of even knots."""
    every = [pole for row in rows for pole in row]
    fields = longs(0)
    for order, count, drawn in zip(orders, (len(rows[0]), len(rows)), lines):
        fields += bytes([(order - 2) | 0x10, 0]) + struct.pack('<HHH', count, 0, drawn)
    made = element(24, every, fields + bytes(2))
    for row in rows:
        points = struct.pack('<H', len(row)) + longs(*(it for pole in row for it in pole))
        made += element(21, row, points, member=True)
    return made


def at_random(chance: random.Random, axes: int) -> bytes:
    """A curved element, or a part of a B-spline, with any numbers in its fields, which opens: the range is the whole
    plane or any."""
    kind = chance.choice([11, 15, 16, 21, 21, 24, 26, 27, 27, 28])
    body = bytearray(chance.choice([0, 255, chance.randrange(256)]) for _ in range(2 * chance.randrange(4, 60)))
    if kind in (11, 21):
        body[:2] = struct.pack('<H', min(chance.randrange(14), (len(body) - 2) // (4 * axes)))
    if kind in (24, 27):
        body += bytes(24)
        for place in (4, 12):
            body[place : place + 4] = bytes([chance.choice([0, 1, 2, 0x42, 0x82, 0xC2]), 0, chance.randrange(8), 0])
            body[place + 4 : place + 6] = bytes([chance.choice([0, 0, chance.randrange(6)]), 0])
    line = [(-(2**31), -(2**31)), (2**31 - 1, 2**31 - 1)] if chance.random() < 0.7 else [(-5, 7), (900, 800)]
    return element(kind, line, bytes(body), axes, member=kind in (21, 26, 28))
