"""Where each element of a drawing stands in its tree, as the program's `tree` says."""

from __future__ import annotations

from array import array
from dataclasses import dataclass, field
from functools import cached_property
from typing import Callable, Dict, Iterator, List, Sequence, Set

from ..errors import ListingError
from ..format import classes
from ..format.elements import Elements
from ..program.answers import Answer
from ..program.listings import Node, nodes_of
from ..program.script import Script
from .reach import Rows


@dataclass
class Nesting:
    """By an element's number: its depth, the root of its tree, the header right above it (-1 where it is a root). What
    isn't a leaf has its knot, group, run or loose, in `knots`; `orphans` are roots with bit C."""

    depths: array[int]
    roots: array[int]
    parents: array[int]
    knots: Dict[int, str] = field(default_factory=dict)
    orphans: Set[int] = field(default_factory=set)

    @classmethod
    def of_leaves(cls, count: int) -> Nesting:
        """That of so many elements of which each is a tree of its own."""
        return cls(array('H', bytes(2 * count)), array('I', range(count)), array('i', b'\xff' * 4 * count))

    def take(self, tree: Sequence[Node]) -> None:
        """Takes the tree of a root in."""
        above: List[int] = []
        for node in tree:
            del above[node.depth :]
            self.depths[node.number] = node.depth
            self.roots[node.number] = tree[0].number
            self.parents[node.number] = above[-1] if above else -1
            above.append(node.number)
            if node.knot != 'leaf':
                self.knots[node.number] = node.knot
            if node.is_orphan:
                self.orphans.add(node.number)

    @cached_property
    def ends(self) -> array[int]:
        """Of each element the number behind the last that stands below it. Only once all trees are taken in."""
        count = len(self.depths)
        made = array('I', range(1, count + 1))
        for number in sorted({it for it in set(self.parents) if it >= 0}, reverse=True):
            end = number + 1
            while end < count and self.depths[end] > self.depths[number]:
                end = made[end]
            made[number] = end
        return made

    def part(self, number: int) -> range:
        """The element and all that stands below it, which are numbered in a row."""
        return range(number, self.ends[number])

    def above(self, number: int) -> List[int]:
        """The headers above an element, from the nearest to the root."""
        found = []
        while self.parents[number] >= 0:
            number = self.parents[number]
            found.append(number)
        return found

    def knot(self, number: int) -> str:
        """What an element is in its tree: leaf, group, run or loose."""
        return self.knots.get(number, 'leaf')

    @cached_property
    def broken(self) -> List[int]:
        """The broken elements: loose headers and orphans."""
        loose = {number for number, knot in self.knots.items() if knot == 'loose'}
        return sorted(loose | self.orphans)

    @cached_property
    def broken_roots(self) -> Set[int]:
        """The roots whose trees hold a broken element; no edit of these trees is accepted."""
        return {self.roots[it] for it in self.broken}


def read_nesting(ask: Callable[[Script], List[Answer]], elements: Elements) -> Nesting:
    """Asks for all trees that aren't sure to be a leaf alone. Without bit C an element is a root, and a leaf where its
    type is no header's. What has bit C and is in no tree of these is an orphan, or stands below one: of these only the
    headers are asked for, and not those that an orphan before them seems to hold."""
    nesting = Nesting.of_leaves(len(elements))
    rest = set(elements.with_c())
    heads = [it for it in elements.of_types(classes.HEADERS) if it and it not in rest]
    for tree in _trees(ask, elements, heads):
        nesting.take(tree)
        rest.difference_update(it.number for it in tree)
    waiting = sorted(rest)
    rows = Rows(elements) if waiting else None
    while waiting and rows is not None:
        waiting = _take_orphans(ask, nesting, rows, waiting)
    return nesting


def _take_orphans(ask: Callable[[Script], List[Answer]], nesting: Nesting, rows: Rows, waiting: List[int]) -> List[int]:
    """Takes in the trees of what has bit C and isn't in a tree yet, and gives what is left, which is nothing where all
    trees end where they seem to."""
    elements = rows.elements
    asked, below = [], 0
    for number in waiting:
        if number >= below and elements.types[number] in classes.HEADERS:
            asked.append(number)
            below = rows.seeming_end(number)
    trees = _trees(ask, elements, asked)
    heads, below = set(asked), 0
    for place, number in enumerate(waiting):
        if number < below:
            continue
        if number in heads:
            tree = next(trees)
            nesting.take(tree)
            below = tree[-1].number + 1
        elif elements.types[number] in classes.HEADERS:
            return waiting[place:]
        else:
            nesting.orphans.add(number)
    return []


def _trees(ask: Callable[[Script], List[Answer]], elements: Elements, numbers: Sequence[int]) -> Iterator[List[Node]]:
    """The trees of elements. It raises ListingError where one isn't of the drawing."""
    script = Script()
    for number in numbers:
        script.tree(number)
    for number, answer in zip(numbers, ask(script)):
        tree = nodes_of(answer.lines)
        if [it.number for it in tree] != list(range(number, number + len(tree))) or not tree:
            raise ListingError("dgnedit listed a tree for element %d that it can't have" % number)
        if tree[-1].number >= len(elements):
            raise ListingError("dgnedit listed element %d, which doesn't exist" % tree[-1].number)
        yield tree
