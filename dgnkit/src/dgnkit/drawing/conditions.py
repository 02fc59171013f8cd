"""Conditions on elements, as `find` and the commands that write patch files take them."""

from __future__ import annotations

import argparse
import contextlib
import fnmatch
import re
from array import array
from fractions import Fraction
from functools import partial
from typing import AbstractSet, Callable, Iterable, List, Optional, Sequence, Set

from ..errors import Mistake
from ..files import said_name
from ..format import classes
from ..format.element import COLOUR_BYTE, LOOK_BYTE
from ..format.elements import Elements
from ..format.limits import COLOUR_MOST, ELEMENTS_MOST, LEVEL_MOST, STYLE_MOST, WEIGHT_MOST
from ..format.places import Scale, coordinates
from ..output import few
from ..waiting import Matcher
from .drawing import Drawing
from .duplicates import repeated
from .fencing import MODES, fenced, polygon_of, trees_of
from .frames import frame_of
from .nearness import Nearness
from .spans import Spans, number_of, sizes_of
from .tables import numbers_in

Test = Callable[[int], bool]  # whether the element of a number meets a condition


class Conditions:
    """What was asked of elements, of one drawing."""

    def __init__(self, drawing: Drawing, arguments: argparse.Namespace) -> None:
        """It raises Mistake where a condition can't be read."""
        self.drawing, self.arguments = drawing, arguments
        self.scale = Scale(drawing.units, arguments.units)
        self.nearness = nearness_of(drawing, arguments, self.scale)
        self.matcher = matcher_of(arguments)
        self.tests = [*self._listed_tests(), *plain_tests(drawing.elements, arguments, self.scale)]
        self.tests += self._standing_tests()
        self.tests += self._place_tests()
        if self.matcher is not None:
            self.tests.append(partial(_matches, drawing.elements, self.matcher))

    @property
    def takes_trees(self) -> bool:
        """Whether whole trees were asked for."""
        return bool(self.arguments.trees)

    @property
    def takes_members(self) -> bool:
        """Whether members were asked for by themselves."""
        return bool(self.arguments.members)

    def chosen(self) -> List[int]:
        """The numbers of the elements that meet all conditions, or with --trees of the roots of their trees, in file
        order."""
        met: Iterable[int] = self._likely()
        with self.matcher.limited() if self.matcher is not None else contextlib.nullcontext():
            for test in self.tests:
                met = array('I', filter(test, met))
        found = list(met)
        if self.arguments.nearest is not None:
            found = self._nearest(found)
        return self.roots_of(found) if self.takes_trees else found

    def _likely(self) -> Iterable[int]:
        """The elements of the levels and types that are asked for, which are found without a look at each."""
        arguments, elements = self.arguments, self.drawing.elements
        levels = Spans.read('level', arguments.level or ['0-%d' % LEVEL_MOST], LEVEL_MOST)
        kinds = types_of(arguments.type) if arguments.type else frozenset(range(classes.MOST + 1))
        if arguments.cell:
            kinds &= {classes.CELL}
        if (arguments.text, arguments.pattern, arguments.size) != (None, None, None):
            kinds &= {classes.TEXT}
        is_level = bytes(it in levels for it in range(LEVEL_MOST + 1))
        is_kind = bytes(it in kinds for it in range(classes.MOST + 1))
        likely: Iterable[int] = range(len(elements))
        for column, is_asked in ((elements.levels, is_level), (elements.types, is_kind)):
            if not all(is_asked):
                flags = column.translate(is_asked.ljust(256, b'\0'))
                likely = array('I', (it for it in likely if flags[it]))
        return likely

    def roots_of(self, numbers: Iterable[int]) -> List[int]:
        """The roots of the trees that elements stand in, each once."""
        roots = self.drawing.nesting.roots
        return sorted({roots[number] for number in numbers})

    def _nearest(self, found: List[int]) -> List[int]:
        """Those of elements that are nearest to the place."""
        count = number_of(self.arguments.nearest, 'number of elements', ELEMENTS_MOST)
        return sorted(sorted(found, key=lambda it: (self.distance(it), it))[:count])

    def in_order(self, numbers: Iterable[int]) -> List[int]:
        """Elements in the order in which they are listed: the nearest first where a place was asked for, else by their
        numbers."""
        if self.nearness is None:
            return sorted(numbers)
        return sorted(numbers, key=lambda it: (self.distance(it), it))

    def distance(self, number: int) -> float:
        """How far from the place of --near an element is, in units of resolution."""
        assert self.nearness is not None
        return self.nearness.distance(number)

    def length_said(self, length: float) -> float:
        """A length of units of resolution as lengths are written here."""
        return length / self.drawing.units.in_master if self.scale.is_master else length

    @property
    def broken_roots(self) -> Set[int]:
        """The roots of all trees that are broken."""
        return self.drawing.nesting.broken_roots

    def _listed_tests(self) -> List[Test]:
        """The numbers of a file. It raises Mistake where one is none of the drawing's elements."""
        file = self.arguments.numbers_file
        if not file:
            return []
        numbers = frozenset(numbers_in(file, self.arguments.field))
        ask_numbers(self.drawing, sorted(numbers), file)
        return [numbers.__contains__]

    def _standing_tests(self) -> List[Test]:
        """How an element stands: deleted, locked, broken."""
        arguments, dead = self.arguments, self.drawing.dead
        tests: List[Test] = []
        if arguments.deleted:
            tests.append(dead.__contains__)
        elif dead:
            tests.append(lambda it: it not in dead)
        if arguments.locked:
            tests.append(frozenset(self.drawing.elements.locked()).__contains__)
        if arguments.wrong_range:
            tests.append(frozenset(it.number for it in self.drawing.findings).__contains__)
        if arguments.duplicates:
            tests.append(repeated(self.drawing).__contains__)
        if arguments.broken:
            tests.append(partial(_is_below, self.broken_roots, self.drawing.nesting.roots))
        return tests

    def _place_tests(self) -> List[Test]:
        """The tests on places: near one, or in a tree that the program takes by a fence."""
        tests: List[Test] = []
        if self.nearness is not None:
            tests.append(self.nearness.squares.__contains__)
        for mode in MODES:
            fences = [polygon_of(it, self.scale) for it in getattr(self.arguments, mode) or []]
            numbers = getattr(self.arguments, mode + '_element') or []
            fences += [fenced(frame_of(self.drawing, it)) for it in numbers]
            if fences:
                taken = (trees_of(self.drawing, it, mode, self.arguments.deleted) for it in fences)
                tests.append(partial(_is_below, frozenset().union(*taken), self.drawing.nesting.roots))
        return tests


def _is_below(taken: AbstractSet[int], roots: Sequence[int], number: int) -> bool:
    return roots[number] in taken


def ask_numbers(drawing: Drawing, numbers: Sequence[int], file: str) -> None:
    """It raises Mistake where a number is none of the drawing's elements."""
    unknown = [it for it in numbers if it >= len(drawing.elements)]
    if unknown:
        last = len(drawing.elements) - 1
        said = '%s: %s has elements 0 to %d, but not %s'
        raise Mistake(said % (said_name(file), drawing.path, last, few(unknown)))


def plain_tests(elements: Elements, arguments: argparse.Namespace, scale: Scale) -> List[Test]:
    """The conditions that ask an element alone; that its level and type are asked for is known before."""
    tests: List[Test] = []
    if arguments.number:
        tests.append(Spans.read('element number', arguments.number, ELEMENTS_MOST - 1).__contains__)
    if arguments.level:
        Spans.read('level', arguments.level, LEVEL_MOST)
    if arguments.type:
        types_of(arguments.type)
    looks: List[tuple[str, Optional[Sequence[str]], int, int, Callable[[int], int]]] = [
        ('colour', arguments.color, COLOUR_MOST, COLOUR_BYTE, lambda it: it),
        ('weight', arguments.weight, WEIGHT_MOST, LOOK_BYTE, lambda it: it >> 3),
        ('style', arguments.style, STYLE_MOST, LOOK_BYTE, lambda it: it & 7),
    ]
    for what, words, most, place, value_of in looks:
        if words:
            values = Spans.read(what, words, most)
            tests.append(partial(_looks, elements, place, bytes(value_of(it) in values for it in range(256))))
    if arguments.size:
        tests.append(partial(_has_size, elements, sizes_of(arguments.size), scale))
    return tests + text_tests(elements, arguments)


def text_tests(elements: Elements, arguments: argparse.Namespace) -> List[Test]:
    """The conditions on characters and names."""
    tests: List[Test] = []
    if arguments.text:
        tests.append(partial(_holds, elements, [word_form(it, arguments.ignore_case) for it in arguments.text]))
    if arguments.cell:
        tests.append(partial(_is_called, elements, [it.upper() for it in arguments.cell]))
    return tests


def _looks(elements: Elements, place: int, is_asked: bytes, number: int) -> bool:
    """Whether the byte at a place of an element that is drawn is one that is asked for."""
    is_loud = elements.types[number] in classes.LOUD
    return is_loud and bool(is_asked[elements.data[elements.offsets[number] + place]])


def _holds(elements: Elements, forms: Sequence[re.Pattern[str]], number: int) -> bool:
    text = elements[number].text
    return text is not None and any(it.search(text) for it in forms)


def _is_called(elements: Elements, names: Sequence[str], number: int) -> bool:
    element = elements[number]
    name = (element.cell_name or '').upper()
    return element.type == classes.CELL and any(fnmatch.fnmatchcase(name, it) for it in names)


def matcher_of(arguments: argparse.Namespace) -> Optional[Matcher]:
    """The regular expressions of --pattern, none without it. It raises Mistake where one doesn't compile."""
    forms = [form_of(it, arguments.ignore_case) for it in arguments.pattern or []]
    return Matcher(*forms) if forms else None


def _matches(elements: Elements, matcher: Matcher, number: int) -> bool:
    text = elements[number].text
    return text is not None and matcher.is_in(text)


def _has_size(elements: Elements, wanted: Sequence[tuple[str, str]], scale: Scale, number: int) -> bool:
    """Whether a text has one of these heights, which are compared as the multipliers that stand for them."""
    element = elements[number]
    if element.type != classes.TEXT:
        return False
    there = element.height_multiplier
    for sign, word in wanted:
        size = scale.multiplier(word)
        if {'': there == size, '>': there > size, '>=': there >= size, '<': there < size, '<=': there <= size}[sign]:
            return True
    return False


def form_of(pattern: str, ignores_case: bool) -> re.Pattern[str]:
    """A regular expression. It raises Mistake where it doesn't compile."""
    try:
        return re.compile(pattern, re.IGNORECASE if ignores_case else 0)
    except (re.error, OverflowError, RecursionError, ValueError) as why:
        raise Mistake("%r isn't a regular expression: %s" % (pattern, why))


def word_form(word: str, ignores_case: bool) -> re.Pattern[str]:
    """What finds a word, not in the midst of another one. It raises Mistake where there is none."""
    if not word:
        raise Mistake("the word to look for can't be empty")
    front = r'(?<!\w)' if re.match(r'\w', word) else ''
    back = r'(?!\w)' if re.search(r'\w\Z', word) else ''
    return form_of(front + re.escape(word) + back, ignores_case)


def types_of(words: Sequence[str]) -> frozenset[int]:
    """Types by their numbers or names. It raises Mistake where there is none of a name."""
    try:
        return frozenset(classes.kind_by_name(it) for it in ','.join(words).split(','))
    except ValueError as why:
        raise Mistake('%s: give a number from 0 to %d, or one of %s' % (why, classes.MOST, TYPES_SAID))


TYPES_SAID = ', '.join(classes.TYPE_NAMES[it] for it in sorted(classes.LOUD) if it in classes.TYPE_NAMES)


def nearness_of(drawing: Drawing, arguments: argparse.Namespace, scale: Scale) -> Optional[Nearness]:
    """How far elements are from the place of --near, none without it. It raises Mistake where something is missing."""
    reach, count = arguments.within, arguments.nearest
    if arguments.near is None and (reach is not None or count is not None):
        raise Mistake('--within and --nearest need --near X,Y')
    if arguments.near is None:
        return None
    if reach is None and count is None:
        raise Mistake('--near needs --within (how far) or --nearest (how many)')
    within: Optional[Fraction] = None if reach is None else scale.length(reach)
    return Nearness(drawing, scale.nearest(coordinates(arguments.near)), within)
