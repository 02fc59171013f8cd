"""What of the differences between two drawings a script can do: whole trees and members that moved, got another look or
were deleted, and lines, line strings, shapes and texts that were appended."""

from __future__ import annotations

import os
import tempfile
from dataclasses import dataclass
from typing import AbstractSet, Any, Callable, Dict, Iterator, List, Optional, Sequence, Tuple

from ..drawing.drawing import Drawing
from ..explain.comparing import Difference, differences
from ..format import classes
from ..format.element import Element
from ..format.limits import POINTS_MOST
from ..program.script import Script
from .copies import Copies
from .scripting import causes

Look = Tuple[Optional[int], Optional[int], Optional[int]]
NAMES = ('colour', 'weight', 'style')


@dataclass
class Redoing:
    """A script that makes of the first drawing what it can of the second, and what still differs then."""

    script: Script
    left: List[Difference]


def redoing_of(first: Drawing, second: Drawing, found: Sequence[Difference]) -> Redoing:
    """The script is run on the first drawing, with none written, and what it refuses is left out."""
    lines = Script()
    for line in _lines(first, second, found):
        lines.add(line)
    refused = causes(first, lines.lines) if lines.lines else []
    script = Script(line for line, cause in zip(lines.lines, refused) if not cause)
    with tempfile.TemporaryDirectory(prefix='dgnkit-') as folder:
        name = first.path
        for index, part in enumerate(script.parts()):
            out = os.path.join(folder, '%d.dgn' % index)
            first.program.edit(name, part, out)
            name = out
        made = Drawing(name, first.program) if name != first.path else first
        return Redoing(script, differences(made, second))


def _lines(first: Drawing, second: Drawing, found: Sequence[Difference]) -> Iterator[bytes]:
    """The lines of the script: deletions of what else stays as it is, then what is moved, looks, other deletions,
    ranges, and what is appended."""
    changes: Dict[int, Dict[str, Any]] = {it.before: it.changes for it in found if it.before is not None}
    gone = {it: True for it, change in changes.items() if change.get('deleted') or 'gone' in change}
    alone = {it: True for it in gone if len(changes[it]) == 1}
    yield from _of_parts(first, alone, first.dead, lambda it: 'delete %d' % it)
    dead = first.dead | set(alone)
    shifts = {it: tuple(change['moved']['resolution']) for it, change in changes.items() if 'moved' in change}
    yield from _of_parts(first, shifts, dead, lambda it: 'move %d %s' % (it, ' '.join(map(str, shifts[it]))))
    looks = {it: look_of(change) for it, change in changes.items() if look_of(change) != (None, None, None)}
    yield from _of_looks(first, second, found, looks, dead)
    rest = {it: True for it in gone if it not in alone}
    yield from _of_parts(first, rest, dead, lambda it: 'delete %d' % it)
    fitted = {first.nesting.roots[it] for it, change in changes.items() if 'range' in change}
    yield from (b'fit %d' % it for it in sorted(fitted))
    yield from _appended(second, [it.after for it in found if it.before is None and it.after is not None])


def _appended(second: Drawing, numbers: Sequence[int]) -> Iterator[bytes]:
    """A line for each tree that the second drawing has more: of what a script can draw, or copy."""
    copies = Copies(second, min(numbers, default=0))
    for number in numbers:
        if second.nesting.depths[number] == 0:
            line = copies.line(number) or drawn_again(second.elements[number])
            if line:
                yield line


def _of_parts(
    drawing: Drawing, facts: Dict[int, Any], dead: AbstractSet[int], line: Callable[[int], str]
) -> Iterator[bytes]:
    """A line for each element of which all that stands below it has the same fact, but for what is deleted."""
    end = 0
    for number in sorted(facts):
        part = drawing.nesting.part(number)
        live = [it for it in part if it not in dead]
        if number >= end and live and all(facts.get(it) == facts[number] for it in live):
            yield line(number).encode('ascii')
            end = part.stop


def look_of(change: Dict[str, Any]) -> Look:
    """The new colour, weight and style of a change, each none where it stays."""
    facts = {**change.get('recoloured', {}), **change.get('looks', {})}
    return tuple(facts[name][1] if name in facts else None for name in NAMES)  # type: ignore[return-value]


def _of_looks(
    first: Drawing, second: Drawing, found: Sequence[Difference], looks: Dict[int, Look], dead: AbstractSet[int]
) -> Iterator[bytes]:
    """A line for each element whose part has one look where any of it has changed."""
    after = {it.before: it.after for it in found if it.before is not None and it.after is not None}
    end = 0
    for number in sorted(looks):
        part = first.nesting.part(number)
        live = [it for it in part if it not in dead and not first.elements[it].is_silent]
        changed = [any(looks[it][axis] is not None for it in live if it in looks) for axis in range(3)]
        news = {_look(second.elements[after[it]] if it in after else first.elements[it], changed) for it in live}
        if number >= end and len(news) == 1:
            words = ('-' if it is None else str(it) for it in news.pop())
            yield ('sym %d %s' % (number, ' '.join(words))).encode('ascii')
            end = part.stop


def _look(element: Element, changed: Sequence[bool]) -> Look:
    look = element.colour, element.weight, element.style
    return tuple(it if asked else None for it, asked in zip(look, changed))  # type: ignore[return-value]


def drawn_again(element: Element) -> Optional[bytes]:
    """The line that appends an element like this one, none where there is no such command."""
    names = {classes.LINE: 'line', classes.STRING: 'string', classes.SHAPE: 'shape', classes.TEXT: 'text'}
    if element.type not in names:
        return None
    look = '%d %d %d %d' % (element.level, element.colour, element.weight, element.style)
    if element.type != classes.TEXT and 2 <= element.points_count <= POINTS_MOST:
        points = ' '.join(','.join(map(str, it)) for it in element.points)
        return ('%s %s %s' % (names[element.type], look, points)).encode('ascii')
    characters = element.characters
    if characters and b'\n' not in characters:
        sizes = element.font, element.justification, *element.multipliers
        origin = ','.join(map(str, element.points[0]))
        return ('text %s %s %s %d %d %s ' % (look, *sizes, origin)).encode('ascii') + characters
    return None
