"""The rows of found elements, as a table, as CSV and as JSON. A drawing may have a million elements, so a row is made
when it is said, and what elements have in common is put in words once."""

from __future__ import annotations

import json
from itertools import compress
from typing import Any, Dict, Iterator, List, Optional, Sequence, Tuple

from ..drawing.conditions import Conditions
from ..drawing.drawing import Drawing
from ..format import classes
from ..format.element import COLOUR_BYTE, LOOK_BYTE, Element
from ..format.numbers import Point
from ..format.units import shortest
from ..output import printable

HEAD = ['number', 'root', 'type', 'level', 'colour', 'weight', 'style', 'state', 'text or cell']
LEFT = ('type', 'colour', 'state')  # columns that are set to the left
STATES = ('deleted', 'locked', 'broken')  # each has a bit
FRONT = 'number root type type_name level colour colour_name rgb weight style text cell'.split()
LETTERING = ('height', 'angle', 'font', 'justification')
WORDY = frozenset([classes.TEXT, classes.CELL])
IS_LOUD = bytes(kind in classes.LOUD for kind in range(256))
STATE_FIELDS = [tuple(it >> bit & 1 for bit in range(len(STATES))) for it in range(8)]
NO_LOOKS, NO_CORNERS, NO_LETTERING = (None,) * 5, (None,) * 4, (None,) * len(LETTERING)
NO_LOOK = -1  # the key of what a silent element has for a look


def states_of(drawing: Drawing) -> bytearray:
    """How each element stands: 1 for deleted, 2 for locked, 4 for broken, or a sum of these."""
    made, nesting = bytearray(len(drawing.elements)), drawing.nesting
    broken = (it for root in nesting.broken_roots for it in nesting.part(root))
    for bit, numbers in enumerate((drawing.dead, drawing.elements.locked(), broken)):
        for number in numbers:
            made[number] |= 1 << bit
    return made


def padded(head: str, words: Dict[int, str]) -> Tuple[str, Dict[int, str]]:
    """The head of a column and its words, all as wide as the widest."""
    width = max(map(len, [head, *words.values()]))
    pad = str.ljust if head in LEFT else str.rjust
    return pad(head, width), {key: pad(word, width) for key, word in words.items()}


class Table:
    """The table of elements, of which there is at least one. How wide its columns are is known by what types, levels,
    looks and states there are."""

    def __init__(self, conditions: Conditions, chosen: Sequence[int]) -> None:
        self.conditions, self.chosen, self.drawing = conditions, chosen, conditions.drawing
        self.states = states_of(self.drawing)
        elements, names = self.drawing.elements, self.drawing.palette.names
        kinds = bytes(map(elements.types.__getitem__, chosen))
        places = list(compress(map(elements.offsets.__getitem__, chosen), kinds.translate(IS_LOUD)))
        colours, looks = ({self.drawing.data[at + it] for at in places} for it in (COLOUR_BYTE, LOOK_BYTE))
        states = set(map(self.states.__getitem__, chosen))
        self.type_head, self.types = padded('type', {it: printable(classes.type_name(it)) for it in set(kinds)})
        levels = {elements.levels[it] for it in chosen}
        self.level_head, self.levels = padded('level', {it: str(it) for it in levels})
        said = {it: printable(('%d %s' % (it, names[it])).rstrip()) for it in colours}
        self.colour_head, self.colours = padded('colour', {NO_LOOK: '', **said})
        self.weight_head, self.weights = padded('weight', {NO_LOOK: '', **{it: str(it >> 3) for it in looks}})
        self.style_head, self.styles = padded('style', {NO_LOOK: '', **{it: str(it & 7) for it in looks}})
        self.state_head, self.states_said = padded('state', {it: state_said(it) for it in states})

    def lines(self) -> Iterator[str]:
        """The lines of the table, its head first."""
        roots, chosen = self.drawing.nesting.roots, self.chosen
        numbers = '%%%dd' % max(len(HEAD[0]), len(str(max(chosen))))
        fronts = '  %%%dd  ' % max(len(HEAD[1]), len(str(max(map(roots.__getitem__, chosen)))))
        distance_head, distances = self.distances()
        rest = [self.type_head, self.level_head, self.colour_head, self.weight_head, self.style_head, self.state_head]
        root_head = HEAD[1].rjust(len(fronts % 0) - 4)
        yield '  '.join([HEAD[0].rjust(len(numbers % 0)), *distance_head, root_head, *rest, HEAD[-1]])
        for number, distance in zip(chosen, distances):
            yield ''.join([numbers % number, distance, fronts % roots[number], *self.rest_of(number)]).rstrip()

    def rest_of(self, number: int) -> List[str]:
        """What the table says of an element behind its root."""
        elements, data = self.drawing.elements, self.drawing.data
        kind, place, colour, look = elements.types[number], elements.offsets[number], NO_LOOK, NO_LOOK
        if IS_LOUD[kind]:
            colour, look = data[place + COLOUR_BYTE], data[place + LOOK_BYTE]
        made = [self.types[kind], self.levels[elements.levels[number]], self.colours[colour], self.weights[look]]
        made += [self.styles[look], self.states_said[self.states[number]]]
        if kind in WORDY:
            element = elements[number]
            made.append(printable(element.text or element.cell_name or ''))
        return ['  '.join(made)]

    def distances(self) -> Tuple[List[str], Iterator[str]]:
        """The head of the column of distances, none where no place was asked for, and what it says of each element."""
        conditions = self.conditions
        if conditions.nearness is None:
            return [], ('' for _ in self.chosen)
        said = [shortest(round(conditions.length_said(conditions.distance(it)), 3)) for it in self.chosen]
        width = max(map(len, ['distance', *said]))
        return ['distance'.rjust(width)], ('  ' + it.rjust(width) for it in said)


def state_said(state: int) -> str:
    """How an element stands, in words."""
    return ' '.join(word for bit, word in enumerate(STATES) if state >> bit & 1)


class Facts:
    """What CSV and JSON say of elements."""

    def __init__(self, conditions: Conditions) -> None:
        self.conditions, self.drawing, self.scale = conditions, conditions.drawing, conditions.scale
        self.states, self.roots = states_of(self.drawing), self.drawing.nesting.roots
        self.is_near = conditions.nearness is not None
        palette = self.drawing.palette
        self.colours = list(zip(range(256), palette.names, palette.spelled))

    def head(self) -> List[str]:
        """The names of the columns of CSV: the range by the names of the coordinates, before what a text has."""
        corners = ['%s_%s' % (word, name) for word in ('low', 'high') for name in 'xy']
        distance = ['distance'] if self.is_near else []
        return [*FRONT, *STATES, *distance, *'xyz'[: self.drawing.axes], *corners, *LETTERING]

    def lettering(self, element: Element) -> Tuple[Optional[float], ...]:
        """How a text is written: its height as lengths are written, its angle in degrees, its font and
        justification."""
        size, angle = element.text_size, element.text_angle
        if size is None or angle is None:
            return NO_LETTERING
        height = round(self.conditions.length_said(size[1]), 9)
        return height, round(angle, 6), element.font, element.justification

    def csv_row(self, element: Element) -> List[object]:
        """The row of an element."""
        number, kind, state, axes = element.number, element.type, self.states[element.number], element.axes
        row: List[object] = [number, self.roots[number], kind, classes.type_name(kind), element.level]
        is_loud, is_text = IS_LOUD[kind], kind == classes.TEXT
        row += (*self.colours[element.colour], element.weight, element.style) if is_loud else NO_LOOKS
        row += (element.text, element.cell_name) if kind in WORDY else (None, None)
        row += STATE_FIELDS[state]
        if self.is_near:
            row.append(csv_field(self.distance(number)))
        point = element.first_point
        row += (None,) * axes if point is None else self.spelled(point)
        if is_loud:
            corners = element.corners
            row += (*self.spelled(corners[:2]), *self.spelled(corners[axes : axes + 2]))
        else:
            row += NO_CORNERS
        row += map(csv_field, self.lettering(element)) if is_text else NO_LETTERING
        return row

    def spelled(self, place: Point) -> Sequence[object]:
        """A place as it is written."""
        return list(map(shortest, self.scale.units.to_master(place))) if self.scale.is_master else place

    def distance(self, number: int) -> float:
        """How far an element is from the place that was asked for, as lengths are written."""
        return self.conditions.length_said(self.conditions.distance(number))

    def csv_rows(self, chosen: Sequence[int]) -> Iterator[List[object]]:
        """The rows of elements."""
        elements = self.drawing.elements
        return (self.csv_row(elements[it]) for it in chosen)


def csv_field(value: object) -> object:
    """A value as CSV has it."""
    return shortest(value) if isinstance(value, float) else value


class JsonRows:
    """The rows of elements as JSON has them, each as its text."""

    def __init__(self, facts: Facts) -> None:
        self.facts, self.axes = facts, facts.drawing.axes
        names = 'xyz'[: self.axes]
        self.place = members(dict.fromkeys(names, '%s')).replace('"%s"', '%s')
        self.no_place = members(dict.fromkeys(names))
        corner = '   [\n%s\n   ]' % ',\n'.join(['    %d'] * self.axes)
        self.range = '  "range": [\n%s,\n%s\n  ]' % (corner, corner)
        self.no_range, self.no_lettering = members({'range': None}), members(dict.fromkeys(LETTERING))
        self.states = [members({word: bool(it >> bit & 1) for bit, word in enumerate(STATES)}) for it in range(8)]
        self.types = [members({'type': it, 'type_name': classes.type_name(it)}) for it in range(classes.MOST + 1)]
        self.colours = [members(dict(zip(LOOK, it))) for it in facts.colours]
        self.looks = [members({'weight': it >> 3, 'style': it & 7}) for it in range(256)]
        self.no_look = members(dict.fromkeys((*LOOK, 'weight', 'style')))
        self.no_words = members({'text': None, 'cell': None})

    def lines(self, chosen: Sequence[int]) -> Iterator[str]:
        """The lines of a list of these elements."""
        elements, last = self.facts.drawing.elements, len(chosen) - 1
        yield '[' if chosen else '[]'
        for place, number in enumerate(chosen):
            yield ' {\n%s\n }%s' % (',\n'.join(self.pieces(elements[number])), '' if place == last else ',')
        if chosen:
            yield ']'

    def pieces(self, element: Element) -> Iterator[str]:
        """What is said of an element, in pieces."""
        facts, number = self.facts, element.number
        yield '  "number": %d,\n  "root": %d' % (number, facts.roots[number])
        yield self.types[element.type]
        yield '  "level": %d' % element.level
        if element.is_silent:
            yield self.no_look
        else:
            yield self.colours[element.colour]
            yield self.looks[element.data[element.offset + LOOK_BYTE]]
        is_wordy = element.type in WORDY
        yield members({'text': element.text, 'cell': element.cell_name}) if is_wordy else self.no_words
        yield self.states[facts.states[number]]
        yield self.no_range if element.is_silent else self.range % element.corners
        point = element.first_point
        yield self.no_place if point is None else self.place % tuple(map(repr, facts.scale.said(point)))
        is_text = element.type == classes.TEXT
        yield members(dict(zip(LETTERING, facts.lettering(element)))) if is_text else self.no_lettering
        if facts.is_near:
            yield members({'distance': facts.distance(number)})


LOOK = ('colour', 'colour_name', 'rgb')


def members(facts: Dict[str, Any]) -> str:
    """Facts, none of which is a list, as the members of an object in a list."""
    return ',\n'.join('  "%s": %s' % (name, json.dumps(it)) for name, it in facts.items())
