"""Commands of a script in words, for dry runs and explanations."""

from __future__ import annotations

from typing import Callable, Dict, List

from ..drawing.drawing import Drawing
from ..format.element import described
from ..output import counted, printable

Words = List[str]


def command_said(drawing: Drawing, text: str) -> str:
    """A command that names an element, in words: what it does, and to what."""
    words = text.split()
    make = SAID.get(words[0])
    if make is None or len(words) < 2 or not words[1].isdigit():
        return text
    number = int(words[1])
    if number >= len(drawing.elements):
        return '%s: there is no element %d' % (text, number)
    return printable('%s: %s' % (part_said(drawing, number), make(drawing, words[2:])))


def part_said(drawing: Drawing, number: int) -> str:
    """An element in words, with how many stand below it."""
    below = len(drawing.nesting.part(number)) - 1
    return described(drawing.elements[number]) + (' with %s' % counted(below, 'member') if below else '')


def _moved(drawing: Drawing, words: Words) -> str:
    return 'moved ' + drawing.units.shift_said([int(it) for it in words])


def _copied(drawing: Drawing, words: Words) -> str:
    return 'copied, with the copy moved ' + drawing.units.shift_said([int(it) for it in words])


def _coloured(drawing: Drawing, words: Words) -> str:
    return 'colour ' + drawing.palette.said(int(words[0]))


def _looks(drawing: Drawing, words: Words) -> str:
    looks = [it for it in zip(('colour', 'weight', 'style'), words) if it[1] != '-']
    names = ['%s %s' % (name, drawing.palette.said(int(it)) if name == 'colour' else it) for name, it in looks]
    return ', '.join(names) or 'nothing changes'


def _deleted(drawing: Drawing, words: Words) -> str:
    return 'marked deleted'


def _fitted(drawing: Drawing, words: Words) -> str:
    return 'the ranges in its tree are corrected'


SAID: Dict[str, Callable[[Drawing, Words], str]] = {
    'move': _moved,
    'copy': _copied,
    'color': _coloured,
    'sym': _looks,
    'delete': _deleted,
    'fit': _fitted,
}
