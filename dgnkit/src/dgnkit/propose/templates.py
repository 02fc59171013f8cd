"""Lines of a script with {n} for an element's number, and numbers in braces for master units."""

from __future__ import annotations

import re
from typing import List, Optional

from ..errors import Mistake
from ..format.places import Scale
from ..format.units import Units, rounded
from ..program.grammar import kinds_of

PLACE = '{n}'
LENGTH = re.compile(r'\{(-?\d{1,12}(?:\.\d{1,12})?)\}', re.ASCII)
WORD = re.compile(r'[^ ]+')


def template_of(text: str, units: Optional[Units]) -> str:
    """A line of the script in which each number in braces, in master units, is now the nearest number of units of
    resolution: of a point a place, of a text's multipliers the height, else a length. It raises Mistake where the line
    has no {n}, is more than a line, or the units aren't known."""
    if PLACE not in text or '\n' in text:
        raise Mistake("%r doesn't name the element: write %s where its number goes" % (text, PLACE))
    if '{' not in text.replace(PLACE, ''):
        return text
    if units is None or not units.is_known:
        raise Mistake("%r has a length in master units, but the drawing doesn't say what these are" % text)
    return expanded(text, Scale(units, 'master'))


def expanded(text: str, scale: Scale) -> str:
    """A line with each number in braces in units of resolution."""
    words = list(WORD.finditer(text))
    kinds = kinds_of([it[0] for it in words])
    made: List[str] = []
    at = 0
    for word, kind in zip(words, kinds):
        made += [text[at : word.start()], _piece(word[0], kind, scale)]
        at = word.end()
    return ''.join(made) + text[at:]


def _piece(word: str, kind: str, scale: Scale) -> str:
    """A piece of a line, by its kind. It raises Mistake where other things stand in braces than a number."""
    if kind and '{' in LENGTH.sub('', word.replace(PLACE, '')):
        raise Mistake("%r has something in braces that isn't a number: write {2.5}, with a decimal point" % word)
    if kind in ('P', 'Q'):
        axes = enumerate(word.split(','))
        return ','.join(LENGTH.sub(lambda it: str(scale.coordinate(it[1], axis)), one) for axis, one in axes)
    if kind == 'M':
        return LENGTH.sub(lambda it: str(scale.multiplier(it[1])), word)
    if kind == '':
        return word
    return LENGTH.sub(lambda it: str(rounded(scale.signed_length(it[1]))), word)


def line_of(template: str, number: int) -> bytes:
    """The line of an element."""
    return template.replace(PLACE, str(number)).encode('utf-8')
