"""What the page has drawn, dot by dot, and paths to hold it against."""

from __future__ import annotations

import base64
import math
from typing import Iterable, Iterator, List, Sequence, Set, Tuple

from browser import Browser

Point = Tuple[float, float]
Line = Sequence[Point]
Dot = Tuple[int, int]

SEEN = """
const { view, stage } = page, canvas = document.getElementById('drawing');
const dots = canvas.getContext('2d').getImageData(0, 0, canvas.width, canvas.height).data;
let said = '';
for (let at = 0; at < dots.length; at += 8190) said += btoa(String.fromCharCode(...dots.subarray(at, at + 8190)));
return { dots: said, wide: canvas.width, high: canvas.height, ratio: stage.renderer.ratio,
  view: [view.x, view.y, view.scale, view.width, view.height] };
"""


class Picture:
    """The dots of the drawing's canvas. A place of the drawing is at a place of it, both in fractions of a dot."""

    def __init__(self, seen: Browser) -> None:
        seen.settle()
        said = seen.run(SEEN)
        self.wide, self.high, self.ratio = int(said['wide']), int(said['high']), float(said['ratio'])
        self.dots = base64.b64decode(said['dots'])
        self.x, self.y, self.scale, self.width, self.height = (float(it) for it in said['view'])

    def place(self, x: float, y: float) -> Point:
        left, top = (x - self.x) * self.scale + self.width / 2, (self.y - y) * self.scale + self.height / 2
        return left * self.ratio, top * self.ratio

    def at(self, left: int, top: int) -> Tuple[int, ...]:
        """Red, green, blue and alpha of a dot; nothing beyond the canvas."""
        if not (0 <= left < self.wide and 0 <= top < self.high):
            return (0, 0, 0, 0)
        start = 4 * (top * self.wide + left)
        return tuple(self.dots[start : start + 4])

    def alpha(self, left: int, top: int) -> int:
        return self.at(left, top)[3]

    def colour(self, x: float, y: float) -> str:
        """The colour of the strongest dot within one of a place of the drawing, as #rrggbb."""
        left, top = (math.floor(it) for it in self.place(x, y))
        best = max(
            (self.at(left + right, top + down) for right in (-1, 0, 1) for down in (-1, 0, 1)), key=lambda it: it[3]
        )
        return '#%02x%02x%02x' % best[:3]

    def marked(self, least: int = 40) -> Iterator[Dot]:
        """The dots that are seen."""
        for index, alpha in enumerate(self.dots[3::4]):
            if alpha >= least:
                yield index % self.wide, index // self.wide

    def across(self, x: float, y: float, reach: int = 30) -> List[int]:
        """The alphas of the dots from above a place of the drawing to below it."""
        left, top = (math.floor(it) for it in self.place(x, y))
        return [self.alpha(left, top + down) for down in range(-reach, reach + 1)]

    def along(self, start: Point, end: Point) -> List[bool]:
        """Which dots are seen on a level line, from one place of the drawing to another."""
        (left, top), (right, _) = self.place(*start), self.place(*end)
        rows = range(math.floor(top) - 1, math.floor(top) + 2)
        return [any(self.alpha(at, row) > 100 for row in rows) for at in range(math.ceil(left), math.floor(right))]

    def missing(self, lines: Iterable[Line], within: float = 1.5, least: int = 60) -> List[Point]:
        """The places along lines of the drawing that no dot is near to whose alpha is enough."""
        lost = []
        for x, y in (it for line in lines for it in sampled(line, 1 / self.scale)):
            left, top = self.place(x, y)
            if not any(self.alpha(*dot) >= least for dot in disc(left, top, within)):
                lost.append((x, y))
        return lost

    def apart(self, lines: Iterable[Line], others: Iterable[Line], within: float = 4) -> List[Point]:
        """The places along lines of the drawing that are seen away from others."""
        near: Set[Dot] = set()
        for x, y in (it for line in others for it in sampled(line, 1 / self.scale)):
            near.update(disc(*self.place(x, y), within))
        places = [it for line in lines for it in sampled(line, 1 / self.scale)]
        return [(x, y) for x, y in places if tuple(math.floor(it) for it in self.place(x, y)) not in near]

    def astray(self, lines: Iterable[Line], within: float = 2) -> List[Point]:
        """The dots that are near to no line of the drawing, as places of the drawing."""
        near: Set[Dot] = set()
        for x, y in (it for line in lines for it in sampled(line, 0.5 / self.scale)):
            near.update(disc(*self.place(x, y), within))
        return [self.drawn(*dot) for dot in self.marked() if dot not in near]

    def drawn(self, left: float, top: float) -> Point:
        """The place of the drawing that the middle of a dot is at."""
        across, down = (left + 0.5) / self.ratio, (top + 0.5) / self.ratio
        return (across - self.width / 2) / self.scale + self.x, self.y - (down - self.height / 2) / self.scale

    def boxes(self, low: Point, high: Point) -> List[Point]:
        """The places of the drawing, between two corners of it, at which a dot is seen."""
        (left, bottom), (right, top) = self.place(*low), self.place(*high)
        columns = range(math.floor(left), math.ceil(right))
        rows = range(math.floor(top), math.ceil(bottom))
        return [self.drawn(column, row) for row in rows for column in columns if self.alpha(column, row) > 90]


def sampled(line: Line, step: float) -> Iterator[Point]:
    """Places along a line, from its first point to its last, no further apart than a step."""
    if line:
        yield line[0]
    for (x, y), (to_x, to_y) in zip(line, line[1:]):
        count = max(math.ceil(math.hypot(to_x - x, to_y - y) / step), 1)
        for it in range(1, count + 1):
            yield x + (to_x - x) * it / count, y + (to_y - y) * it / count


def disc(left: float, top: float, within: float) -> Iterator[Dot]:
    """The dots whose middle is within a distance of a place of the canvas."""
    reach, column, row = math.ceil(within), math.floor(left), math.floor(top)
    for across in range(column - reach, column + reach + 1):
        for down in range(row - reach, row + reach + 1):
            if math.hypot(across + 0.5 - left, down + 0.5 - top) <= within:
                yield across, down
