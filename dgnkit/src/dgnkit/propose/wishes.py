"""What a table asks to be drawn: lines, line strings, shapes and texts, from the rows of a CSV file."""

from __future__ import annotations

from dataclasses import dataclass, field
from itertools import groupby
from typing import Dict, List, Sequence

from ..drawing.spans import number_of
from ..drawing.tables import Row, columns_of, is_head
from ..errors import Mistake
from ..format.limits import COLOUR_MOST, FONT_MOST, JUSTIFICATION_MOST, LEVEL_MOST, STYLE_MOST, WEIGHT_MOST
from ..format.numbers import Point
from ..format.places import Scale, decimal_of

KINDS = {
    'line': 'string',
    'string': 'string',
    'line string': 'string',
    'shape': 'shape',
    'polygon': 'shape',
    'text': 'text',
}
LOOKS = {'level': LEVEL_MOST, 'color': COLOUR_MOST, 'weight': WEIGHT_MOST, 'style': STYLE_MOST}
SYNONYMS = {'colour': 'color', 'id': 'element', 'what': 'kind', 'as': 'kind'}
LETTERING = {'font': FONT_MOST, 'justification': JUSTIFICATION_MOST}
COLUMNS = ('element', 'kind', 'x', 'y', 'z', *LOOKS, 'text', 'height', 'angle', *LETTERING)


@dataclass
class Wish:
    """One thing to be drawn: its row, what it is, its points, its look, and a text's characters, height, angle, font
    and justification."""

    row: Row
    kind: str
    points: List[Point]
    look: List[int]
    text: str = ''
    height: str = ''
    angle: str = '0'
    lettering: Sequence[int] = (1, 0)


@dataclass
class Defaults:
    """What holds where a row doesn't say it."""

    kind: str = ''
    look: Dict[str, str] = field(default_factory=dict)
    height: str = ''
    angle: str = '0'
    lettering: Dict[str, str] = field(default_factory=dict)


class Reader:
    """Reads what a table asks for."""

    def __init__(self, rows: Sequence[Row], axes: int, scale: Scale, defaults: Defaults) -> None:
        self.axes, self.scale, self.defaults = axes, scale, defaults
        self.places = self._columns(rows[0])
        self.rows = rows[1:] if is_head(rows[0]) else rows

    def wishes(self) -> List[Wish]:
        """All that is asked for. It raises Mistake with the row where one can't be read."""
        if not self.rows:
            raise Mistake('the table has no rows below its heading')
        made = []
        for _, group in groupby(self.rows, key=self._key):
            made.append(self._wish(list(group)))
        return made

    def _columns(self, head: Row) -> Dict[str, int]:
        """Where each column is. Without a head the columns are x, y and z."""
        if not is_head(head):
            if head.width > self.axes:
                said = (
                    'it has %d columns, but the drawing has %d dimensions: name them in a first row, such as x,y,text'
                )
                raise head.mistake(said % (head.width, self.axes))
            return {name: at for at, name in enumerate('xyz'[: self.axes])}
        names = [SYNONYMS.get(it.strip().lower(), it.strip()) for it in head.fields]
        found = columns_of(Row(head.file, head.line, names), COLUMNS)
        made = {name: at for name, at in zip(COLUMNS, found) if at is not None}
        if 'x' not in made or 'y' not in made:
            said = 'it has no columns x and y, or easting and northing: %s'
            raise head.mistake(said % ', '.join(head.fields))
        return made

    def _field(self, row: Row, name: str, default: str = '') -> str:
        place = self.places.get(name)
        found = '' if place is None or place >= len(row.fields) else row.fields[place].strip()
        return found or default

    def _key(self, row: Row) -> object:
        """What rows of one element have in common: the column `element`; each text is an element by itself."""
        if self._kind(row) == 'text':
            return row.line
        return self._field(row, 'element')

    def _kind(self, row: Row) -> str:
        word = self._field(row, 'kind', self.defaults.kind or ('text' if self._field(row, 'text') else 'string'))
        if word.lower() not in KINDS:
            raise row.mistake('%r is not one of line, string, shape and text' % word)
        return KINDS[word.lower()]

    def _wish(self, rows: Sequence[Row]) -> Wish:
        first = rows[0]
        kind = self._kind(first)
        made = Wish(first, kind, [self._point(it) for it in rows], self._look(first))
        if kind == 'text':
            made.text = self._text(first)
            made.height = self._field(first, 'height', self.defaults.height)
            made.angle = self._field(first, 'angle', self.defaults.angle)
            lettering = self.defaults.lettering
            made.lettering = [self._number(first, name, lettering[name], most) for name, most in LETTERING.items()]
            self._ask_text(made)
        return made

    def _text(self, row: Row) -> str:
        place = self.places.get('text')
        text = '' if place is None or place >= len(row.fields) else row.fields[place]
        if not text or '\n' in text or '\r' in text:
            raise row.mistake('its text is empty or has several lines')
        return text

    def _ask_text(self, wish: Wish) -> None:
        if not wish.height:
            raise wish.row.mistake('the text has no height: give it in a column height or with --height')
        try:
            self.scale.multiplier(wish.height)
            decimal_of(wish.angle)
        except Mistake as why:
            raise wish.row.mistake(why)

    def _point(self, row: Row) -> Point:
        words = [self._field(row, name) for name in 'xyz'[: self.axes] if name in self.places]
        if self.axes == 3 and len(words) == 2:
            words.append('0')
        try:
            return self.scale.nearest(words)
        except Mistake as why:
            raise row.mistake(why)

    def _look(self, row: Row) -> List[int]:
        return [self._number(row, name, self.defaults.look.get(name, '0'), most) for name, most in LOOKS.items()]

    def _number(self, row: Row, name: str, default: str, most: int) -> int:
        """A whole number of a row. It raises Mistake with the row where it isn't from 0 to the most."""
        try:
            return number_of(self._field(row, name, default), {'color': 'colour'}.get(name, name), most)
        except Mistake as why:
            raise row.mistake(why)
