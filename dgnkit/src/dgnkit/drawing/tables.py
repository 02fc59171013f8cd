"""Tables that others give: the rows of a CSV file, and numbers of elements in a list, a CSV or a GeoJSON file."""

from __future__ import annotations

import csv
import io
import json
import re
from dataclasses import dataclass
from typing import Any, Dict, Iterable, List, NoReturn, Optional, Sequence

from ..errors import Mistake
from ..files import read_file, said_name
from ..format.places import DECIMAL

NUMBER = re.compile(r'(\d{1,12})(?:\.0)?', re.ASCII)
# What columns of places may be called; case and blanks don't count.
NAMES = {
    'x': ('x', 'easting', 'east', 'e'),
    'y': ('y', 'northing', 'north', 'n'),
    'z': ('z', 'elevation'),
}


@dataclass(frozen=True)
class Row:
    """A row of a file: its line, from 1, and its fields."""

    file: str
    line: int
    fields: List[str]

    def mistake(self, why: object) -> Mistake:
        """What is wrong with this row, with its file and line."""
        return Mistake('%s, row %d: %s' % (self.file, self.line, why))

    def field(self, column: int) -> str:
        """A field. It raises Mistake where the row has fewer."""
        if column >= len(self.fields):
            raise self.mistake('there is no column %d' % (column + 1))
        return self.fields[column].strip()

    @property
    def width(self) -> int:
        """How many fields there are up to the last that isn't empty."""
        return max((at for at, it in enumerate(self.fields, 1) if it.strip()), default=0)


def text_of(file: str) -> str:
    """The text of a file, with or without a byte order mark. It raises Mistake where it isn't in UTF-8."""
    try:
        return read_file(file).decode('utf-8-sig')
    except UnicodeDecodeError as why:
        raise Mistake("%s isn't UTF-8 (byte %d): save it as UTF-8" % (said_name(file), why.start))


def rows_of(file: str, text: Optional[str] = None) -> List[Row]:
    """The rows of a CSV file that aren't empty, with commas, semicolons or tabs between their fields. It raises Mistake
    where the file can't be read, or a row has more fields than the first one."""
    text = text_of(file) if text is None else text
    file = said_name(file)
    first = next((line for line in text.split('\n') if line.strip()), '')
    sign = next((it for it in ';\t' if it in first), ',')
    reader = csv.reader(io.StringIO(text, newline=''), delimiter=sign, strict=True)
    made: List[Row] = []
    try:
        for fields in reader:
            if any(it.strip() for it in fields):
                made.append(Row(file, reader.line_num, fields))
    except csv.Error as why:
        raise Mistake('%s, row %d: %s' % (file, reader.line_num, why))
    if not made:
        raise Mistake('%s has no rows' % file)
    for row in made:
        if row.width > len(made[0].fields):
            said = 'it has %d fields, but the first row has %d%s'
            more = '; if numbers have decimal commas, separate the fields with semicolons' if sign == ',' else ''
            raise row.mistake(said % (row.width, len(made[0].fields), more))
    return made


def is_head(row: Row) -> bool:
    """Whether a row names columns: no field of it is a number."""
    return not any(DECIMAL.fullmatch(it.strip()) for it in row.fields)


def columns_of(row: Row, names: Sequence[str]) -> List[Optional[int]]:
    """The columns with these names, or another one that means the same; none where there is no such."""
    there = [it.strip().lower() for it in row.fields]
    wanted = (NAMES.get(name, (name,)) for name in names)
    return [next((there.index(it) for it in words if it in there), None) for words in wanted]


def numbers_in(file: str, field: str) -> List[int]:
    """The numbers in a field of a CSV or a GeoJSON file, or in a list, each once, in their order. It raises Mistake
    where one can't be read."""
    text, file = text_of(file), said_name(file)
    if text.lstrip()[:1] in ('{', '['):
        found = _numbers_of_features(file, text, field)
    else:
        found = _numbers_of_rows(file, text, field)
    return list(dict.fromkeys(found))


def _numbers_of_rows(file: str, text: str, field: str) -> Iterable[int]:
    rows = rows_of(file, text)
    column = 0
    if is_head(rows[0]):
        named = columns_of(rows[0], [field.lower()])[0]
        if named is None:
            raise rows[0].mistake('there is no column %r: the columns are %s' % (field, ', '.join(rows[0].fields)))
        column, rows = named, rows[1:]
    return [_number_of(row.field(column), row) for row in rows]


def _number_of(word: str, row: Row) -> int:
    found = NUMBER.fullmatch(word)
    if not found:
        raise row.mistake("%r isn't an element number" % word)
    return int(found[1])


def _no_number(word: str) -> NoReturn:
    raise ValueError("%s isn't a number" % word)


def _numbers_of_features(file: str, text: str, field: str) -> Iterable[int]:
    try:
        features = json.loads(text, parse_constant=_no_number)['features']
        properties: List[Dict[str, Any]] = [dict(it['properties'] or {}) for it in features]
    except (ValueError, KeyError, TypeError, RecursionError) as why:
        raise Mistake("%s isn't a GeoJSON feature collection: %s" % (file, why))
    for index, it in enumerate(properties, 1):
        value = it.get(field)
        is_whole = isinstance(value, int) or (isinstance(value, float) and value.is_integer())
        if isinstance(value, bool) or not is_whole or not 0 <= (value or 0) < 1e12:
            raise Mistake("%s, feature %d: its field %r isn't an element number: %r" % (file, index, field, value))
        yield int(value or 0)
