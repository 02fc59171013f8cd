"""What the program lists, read line by line. A line that isn't understood is an error, and never skipped."""

from __future__ import annotations

import re
from dataclasses import dataclass
from functools import lru_cache
from typing import Callable, Dict, Iterable, List, Optional, Pattern, Tuple, TypeVar

from ..errors import ListingError
from ..format.element import decoded
from ..format.numbers import Point

Row = TypeVar('Row')

NUMBER = r'-?\d+'
POINT = r'%s(?:,%s){1,2}' % (NUMBER, NUMBER)
ITEM = re.compile(r'(\d+) (\d+) (\d+) (\d+) (\d+) (\d+) (\d+) (path|text|box|cell|node|group)(?: (.*))?', re.S)
PATH = re.compile(r'%s(?: %s)*' % (POINT, POINT))
TEXT = re.compile(r'(%s) (.*)' % POINT, re.S)
CELL = re.compile(r'\[(.{10})\] (%s)' % POINT)
STANDING = re.compile(r'(\d+) (\d+) (\d+) (leaf|group|run|loose) (live|deleted)( orphan)?')
REFERENCE = re.compile(r'(\d+) (\d+) (\d+) (live|deleted)')
LINK = re.compile(r'(\d+) (\d+) (dmrs|user|rest)')
FINDING = re.compile(r'(\d+) (%s) (%s) (%s) (%s)' % (POINT, POINT, POINT, POINT))
CHOSEN = re.compile(r'(\d+)')
ESCAPE = re.compile(r'\\([0-9a-f]{2})')


@dataclass
class Item:
    """A line of `show`: what is shown of an element. `kind` is path, text, box, cell, node or group; `points` are a
    path's points, a box's two corners, or an origin; `characters` are a text's bytes, and `name` a cell's."""

    number: int
    depth: int
    type: int
    level: int
    colour: int
    weight: int
    style: int
    kind: str
    points: List[Point]
    characters: Optional[bytes] = None
    name: Optional[str] = None

    @property
    def text(self) -> Optional[str]:
        return None if self.characters is None else decoded(self.characters)


@dataclass
class Node:
    """A line of `tree`: where an element stands. `knot` is leaf, group, run or loose."""

    number: int
    depth: int
    type: int
    level: int
    knot: str
    is_deleted: bool
    is_orphan: bool


@dataclass
class Reference:
    """A line of `refs`: an element that may attach a reference file."""

    number: int
    offset: int
    size: int
    is_deleted: bool


@dataclass
class Link:
    """A line of `links`: a linkage's place in its element, its length, and dmrs, user or rest."""

    place: int
    length: int
    kind: str


@dataclass
class Finding:
    """A line of `audit`: the stored range of an element, and the hull that it should be."""

    number: int
    low: Point
    high: Point
    hull_low: Point
    hull_high: Point


def point_of(word: str) -> Point:
    """A point `x,y` or `x,y,z`."""
    return tuple(map(int, word.split(',')))


def item_of(line: str) -> Item:
    """A line of `show`."""
    found = ITEM.fullmatch(line)
    if not found:
        raise ListingError("dgnedit showed an item as %r, which dgnkit doesn't understand" % line)
    number, depth, type_, level, colour, weight, style = map(int, found.groups()[:7])
    kind, rest = found[8], found[9]
    item = Item(number, depth, type_, level, colour, weight, style, kind, [])
    fill = FILLS[kind]
    if not fill(item, rest):
        raise ListingError("dgnedit showed an item as %r, which dgnkit doesn't understand" % line)
    return item


def _fill_path(item: Item, rest: Optional[str]) -> bool:
    if rest is None:
        return True
    if not PATH.fullmatch(rest):
        return False
    item.points = [tuple(map(int, word.split(','))) for word in rest.split(' ')]
    return True


def _fill_text(item: Item, rest: Optional[str]) -> bool:
    found = TEXT.fullmatch(rest or '')
    if found:
        item.points = [point_of(found[1])]
        item.characters = unescaped(found[2])
    return found is not None


def _fill_box(item: Item, rest: Optional[str]) -> bool:
    return _fill_path(item, rest) and len(item.points) == 2


def _fill_cell(item: Item, rest: Optional[str]) -> bool:
    found = CELL.fullmatch(rest or '')
    if found:
        item.points = [point_of(found[2])]
        item.name = name_of_places(found[1])
    return found is not None


def _fill_node(item: Item, rest: Optional[str]) -> bool:
    return _fill_path(item, rest) and len(item.points) == 1


def _fill_group(item: Item, rest: Optional[str]) -> bool:
    return rest is None


FILLS: Dict[str, Callable[[Item, Optional[str]], bool]] = {
    'path': _fill_path,
    'text': _fill_text,
    'box': _fill_box,
    'cell': _fill_cell,
    'node': _fill_node,
    'group': _fill_group,
}


def name_of_places(places: str) -> str:
    """A cell's name as a person writes it, out of the ten places of a listing: two words of three signs and two blanks,
    or of a backslash and four hexadecimal digits."""
    halves = places[:5], places[5:]
    return ''.join(half if half.startswith('\\') else half[:3] for half in halves).rstrip()


def unescaped(text: str) -> bytes:
    """The bytes of characters, of which some are written as a backslash and two hexadecimal digits."""
    if '\\' not in text:
        return text.encode('ascii')
    pieces = ESCAPE.split(text)
    made = b''
    for index, piece in enumerate(pieces):
        made += bytes([int(piece, 16)]) if index % 2 else piece.encode('ascii')
    return made


def _rows(lines: Iterable[str], what: str, form: Pattern[str], make: Callable[..., Row]) -> List[Row]:
    made = []
    for line in lines:
        found = form.fullmatch(line)
        if not found:
            raise ListingError("dgnedit listed %s as %r, which dgnkit doesn't understand" % (what, line))
        made.append(make(*found.groups()))
    return made


def nodes_of(lines: Iterable[str]) -> List[Node]:
    """The lines of a `tree`."""
    made = []
    for line in lines:
        number, _, rest = line.partition(' ')
        standing = standing_of(rest)
        if standing is None or not (number.isdecimal() and number.isascii()):
            raise ListingError("dgnedit listed an element of a tree as %r, which dgnkit doesn't understand" % line)
        made.append(Node(int(number), *standing))
    return made


@lru_cache(maxsize=4096)
def standing_of(words: str) -> Optional[Tuple[int, int, int, str, bool, bool]]:
    """What stands in a line of `tree` behind the number, none where it can't be read; many elements have the same."""
    found = STANDING.fullmatch(words)
    if not found:
        return None
    depth, kind, level = map(int, found.groups()[:3])
    return depth, kind, level, found[4], found[5] == 'deleted', found[6] is not None


def references_of(lines: Iterable[str]) -> List[Reference]:
    """The lines of `refs`."""

    def make(number: str, offset: str, size: str, live: str) -> Reference:
        return Reference(int(number), int(offset), int(size), live == 'deleted')

    return _rows(lines, 'a reference', REFERENCE, make)


def links_of(lines: Iterable[str]) -> List[Link]:
    """The lines of `links`."""

    def make(place: str, length: str, kind: str) -> Link:
        return Link(int(place), int(length), kind)

    return _rows(lines, 'a linkage', LINK, make)


def findings_of(lines: Iterable[str]) -> List[Finding]:
    """The lines of `audit`."""

    def make(number: str, *corners: str) -> Finding:
        return Finding(int(number), *map(point_of, corners))

    return _rows(lines, 'a finding', FINDING, make)


def chosen_of(lines: Iterable[str]) -> List[int]:
    """The lines of `select`: numbers of roots."""
    return _rows(lines, 'a chosen tree', CHOSEN, int)
