"""What became of each element between two drawings, in words."""

from __future__ import annotations

from dataclasses import dataclass, field
from typing import Any, Callable, Dict, List, Optional, Sequence, Set, Tuple

from ..drawing.drawing import Drawing
from ..format import classes
from ..format.element import Element, described
from ..format.fields import field_name, points_span
from ..format.numbers import Point
from ..output import counted
from .aligning import Contents, Pair, aligned


@dataclass
class Difference:
    """What became of an element: its number in the first drawing and in the second, none where it isn't there; what it
    is; each change as a word, `moved`, `recoloured` .., with its facts; and all in words."""

    before: Optional[int]
    after: Optional[int]
    described: str
    changes: Dict[str, Any] = field(default_factory=dict)
    words: List[str] = field(default_factory=list)

    def add(self, name: str, facts: Any, words: str) -> None:
        """Adds a change."""
        self.changes[name] = facts
        self.words.append(words)


def differences(first: Drawing, second: Drawing) -> List[Difference]:
    """The elements that differ, in the order of the first drawing, and then what the second has more."""
    made = []
    for before, after, is_elsewhere in differing(Contents(first.elements, second.elements)):
        if before is None:
            assert after is not None
            made.append(_alone(second.elements[after], None, after, 'appended'))
        elif after is None:
            made.append(_alone(first.elements[before], before, None, 'gone'))
        elif is_elsewhere:
            made.append(_alone(first.elements[before], before, after, 'reordered', 'the same, in another order'))
        else:
            made.append(_Comparison(first, first.elements[before], second.elements[after]).difference())
    return made


def _alone(element: Element, before: Optional[int], after: Optional[int], name: str, words: str = '') -> Difference:
    made = Difference(before, after, described(element))
    made.add(name, True, words or name)
    return made


def differing(contents: Contents) -> Sequence[Pair]:
    """Which element of the second drawing is which of the first, where they differ. The editor keeps numbers, and
    appends behind the last: so those of one number are one, up to the first whose type and size don't agree. Or else
    elements came between, went, or stand in another order: then those are one that are the same. Whichever tells of
    fewer elements is taken."""
    same = contents.agreeing()
    changed = [Pair(it, it) for it in range(same) if contents.olds[it] != contents.news[it]]
    numbered = [*changed, *filter(contents.told, aligned(contents, same))]
    if not changed or _is_least(contents, numbered):
        return numbered
    return min([numbered, list(filter(contents.told, aligned(contents, 0)))], key=_weight)


def _is_least(contents: Contents, told: Sequence[Pair]) -> bool:
    """Whether no other way tells of fewer elements: of those that differ, none is the same as one of the other drawing,
    and as many as may be are told together."""
    olds = [contents.olds[it.before] for it in told if it.before is not None]
    news = [contents.news[it.after] for it in told if it.after is not None]
    return len(told) == max(len(olds), len(news)) and set(olds).isdisjoint(news)


def _weight(told: Sequence[Pair]) -> Tuple[int, int]:
    """Of how many elements a difference is told, and of how many another one than that of their order."""
    return len(told), sum(not it.is_elsewhere for it in told)


class _Comparison:
    """What differs between two elements of one type and size."""

    def __init__(self, drawing: Drawing, old: Element, new: Element) -> None:
        self.units, self.palette, self.old, self.new = drawing.units, drawing.palette, old, new
        self.made = Difference(old.number, new.number, described(old))
        a, b = old.content, new.content
        self.places: Set[int] = {it for it in range(len(a)) if a[it] != b[it]}

    def difference(self) -> Difference:
        """Each known change takes the bytes that it explains away; what is left is told as bytes."""
        for step in STEPS:
            if self.places:
                step(self)
        return self.made

    def take(self, start: int, end: int) -> bool:
        """Whether bytes from `start` to before `end` differ; they are explained."""
        found = {it for it in self.places if start <= it < end}
        self.places -= found
        return bool(found)

    def marks(self) -> None:
        """Level, bit C, type, deleted, locked."""
        old, new = self.old, self.new
        if 1 in self.places and old.type == new.type:
            self.places.discard(1)
            word = 'deleted' if new.is_deleted else 'no longer deleted'
            self.made.add('deleted', new.is_deleted, word)
        if 0 in self.places and (self.old.content[0] ^ self.new.content[0]) & 0x40 == 0:
            self.places.discard(0)
            if old.level != new.level:
                self.made.add('level', [old.level, new.level], 'level %d to %d' % (old.level, new.level))
            if old.has_c != new.has_c:
                self.made.add('bit_c', new.has_c, 'member mark (bit C) %s' % ('set' if new.has_c else 'cleared'))
        if 33 in self.places and not old.is_silent and (self.old.content[33] ^ self.new.content[33]) == 1:
            self.places.discard(33)
            self.made.add('locked', new.is_locked, 'locked' if new.is_locked else 'unlocked')

    def looks(self) -> None:
        """Colour, weight and style."""
        if self.old.is_silent or not self.take(34, 36):
            return
        pairs = [
            ('colour', self.old.colour, self.new.colour),
            ('weight', self.old.weight, self.new.weight),
            ('style', self.old.style, self.new.style),
        ]
        changed = {name: [old, new] for name, old, new in pairs if old != new}
        words = ', '.join('%s %s to %s' % (name, *self.look_said(name, it)) for name, it in changed.items())
        self.made.add('recoloured' if 'colour' in changed else 'looks', changed, words)

    def look_said(self, name: str, values: Sequence[int]) -> List[str]:
        """A look before and after, colours with their names."""
        return [self.palette.said(it) if name == 'colour' else str(it) for it in values]

    def characters(self) -> None:
        """The characters of a text, and their number."""
        if self.old.type != classes.TEXT or self.old.characters == self.new.characters:
            return
        self.take(self.old.text_place - 2, self.old.text_place - 1)
        longest = max(len(self.old.characters or b''), len(self.new.characters or b''))
        self.take(self.old.text_place, self.old.text_place + longest)
        self.made.add('text', [self.old.text, self.new.text], 'text %r to %r' % (self.old.text, self.new.text))

    def name(self) -> None:
        """The name of a cell."""
        if self.old.type == classes.CELL and self.take(38, 42):
            names = [self.old.cell_name, self.new.cell_name]
            self.made.add('name', names, 'name %s to %s' % (names[0], names[1]))

    def place(self) -> None:
        """A displacement of all points, and of the range with them."""
        start, end = points_span(self.old)
        shift = shift_of(self.old.points, self.new.points)
        ranges = shift_of(corners(self.old), corners(self.new))
        if shift is None and not self.old.points and self.old.type in classes.LOUD:
            shift = ranges
        if shift is None or not any(shift):
            return
        self.take(start, end)
        if ranges == shift:
            self.take_range()
        self.made.add('moved', self.shift_facts(shift), 'moved ' + self.units.shift_said(shift))

    def shift_facts(self, shift: Point) -> Dict[str, Any]:
        """A displacement in all units that are known."""
        facts: Dict[str, Any] = {'resolution': list(shift), 'master': None, 'metres': None}
        if self.units.is_known:
            facts['master'] = [it / self.units.in_master for it in shift]
            metres = self.units.master_metres
            facts['metres'] = None if metres is None else [float(it * metres / self.units.in_master) for it in shift]
        return facts

    def take_range(self) -> bool:
        """Takes the range's fields of the axes that there are."""
        axes = self.old.axes
        low = self.take(4, 4 + 4 * axes)
        return self.take(16, 16 + 4 * axes) or low

    def range(self) -> None:
        """The range, where it isn't the points' displacement."""
        if self.old.is_silent or not self.take_range():
            return
        (low, high), (new_low, new_high) = corners(self.old), corners(self.new)
        is_wider = all(a >= b for a, b in zip(low, new_low)) and all(a <= b for a, b in zip(high, new_high))
        name = 'widened' if is_wider else 'range'
        words = 'range widened' if is_wider else 'range changed'
        facts = {'from': [low, high], 'to': [new_low, new_high]}
        self.made.add(name, facts, '%s from %s to %s' % (words, box_said(low, high), box_said(new_low, new_high)))

    def points(self) -> None:
        """Single points, where they have not all moved by the same."""
        start, end = points_span(self.old)
        olds, news = self.old.points, self.new.points
        if len(olds) != len(news) or not self.take(start, end):
            return
        changed = [it for it in range(len(olds)) if olds[it] != news[it]]
        facts = [{'point': it + 1, 'from': olds[it], 'to': news[it]} for it in changed]
        first = changed[0]
        words = 'point %d from %s to %s' % (first + 1, point_said(olds[first]), point_said(news[first]))
        words += ' and %s' % counted(len(changed) - 1, 'more point', 'more points') if len(changed) > 1 else ''
        self.made.add('points', facts, words)

    def total(self) -> None:
        """The total of a header."""
        if self.old.total is not None and self.take(36, 38):
            totals = [self.old.total, self.new.total]
            self.made.add('total', totals, 'total %s to %s' % (self.old.total, self.new.total))

    def rest(self) -> None:
        """Any other bytes, by their places in the element."""
        places = sorted(self.places)
        names = sorted({field_name(self.old, it) for it in places})
        some = ', '.join(map(str, places[:8])) + (' ..' if len(places) > 8 else '')
        words = 'other bytes at %s (%s: %s)' % (some, counted(len(places), 'byte'), ', '.join(names))
        self.made.add('bytes', places, words)


STEPS: List[Callable[[_Comparison], None]] = [
    _Comparison.marks,
    _Comparison.looks,
    _Comparison.characters,
    _Comparison.name,
    _Comparison.total,
    _Comparison.place,
    _Comparison.range,
    _Comparison.points,
    _Comparison.rest,
]


def shift_between(drawing: Drawing, old: Element, new: Element) -> Optional[Point]:
    """By what an element is moved against another one, none where they differ in something else."""
    if old.type != new.type or old.size != new.size:
        return None
    changes = _Comparison(drawing, old, new).difference().changes
    if not changes:
        return (0,) * drawing.axes
    return tuple(changes['moved']['resolution']) if list(changes) == ['moved'] else None


def corners(element: Element) -> List[Point]:
    """The two corners of the stored range."""
    stored = element.range
    return [] if stored is None else list(stored)


def shift_of(olds: Sequence[Point], news: Sequence[Point]) -> Optional[Point]:
    """By what all points have moved, none where they haven't moved by the same."""
    if not olds or len(olds) != len(news):
        return None
    shifts = {tuple(b - a for a, b in zip(old, new)) for old, new in zip(olds, news)}
    return shifts.pop() if len(shifts) == 1 else None


def point_said(point: Point) -> str:
    """A point in words."""
    return ','.join(map(str, point))


def box_said(low: Point, high: Point) -> str:
    """Two corners in words."""
    return '%s %s' % (point_said(low), point_said(high))
