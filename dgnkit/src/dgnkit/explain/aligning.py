"""Which element of one drawing is which of another, where numbers don't say it. Elements that are the same, byte by
byte, are one where they stand in the same order, then those that stand elsewhere; of what is left between those in
their order elements of one type and size are one."""

from __future__ import annotations

from array import array
from bisect import bisect_left
from collections import defaultdict, deque
from difflib import SequenceMatcher
from typing import Deque, Dict, Iterator, List, NamedTuple, Optional, Sequence, Tuple

from ..format.elements import Elements
from .matching import matched

Anchor = Tuple[int, int]
MANY = 1000000  # more pairs than that aren't compared one by one
SAME_MOST = 300  # so many of the same elements may come and go between two anchors


class Pair(NamedTuple):
    """The number of an element in the first drawing and in the second, none where it isn't there; and whether it is the
    same, but stands in another order."""

    before: Optional[int]
    after: Optional[int]
    is_elsewhere: bool = False


class Contents:
    """Of each element of two drawings a number, which is the same where the bytes are the same."""

    def __init__(self, first: Elements, second: Elements) -> None:
        numbers: Dict[bytes, int] = {}
        self.first, self.second = first, second
        self.olds = array('I', (numbers.setdefault(it, len(numbers)) for it in first.contents()))
        self.news = array('I', (numbers.setdefault(it, len(numbers)) for it in second.contents()))

    def agreeing(self) -> int:
        """Up to which number the elements of one number may be one: their types and their sizes are the same."""
        rows = zip(self.first.types, self.second.types, self.first.sizes, self.second.sizes)
        agree = (kind == other and size == more for kind, other, size, more in rows)
        common = min(len(self.olds), len(self.news))
        return next((place for place, it in enumerate(agree) if not it), common)

    def told(self, pair: Pair) -> bool:
        """Whether a difference would be told of a pair."""
        before, after, is_elsewhere = pair
        if before is None or after is None:
            return True
        return is_elsewhere or self.olds[before] != self.news[after]


def aligned(contents: Contents, start: int) -> List[Pair]:
    """Pairs of the elements from a place on, and those that are in one drawing alone."""
    olds, news = contents.olds[start:], contents.news[start:]
    same = same_in_order(olds, news)
    elsewhere = same_elsewhere(olds, news, same)
    partners = dict(same)
    before = (-1, -1)
    taken = set(elsewhere.values())
    for anchor in [*same, (len(olds), len(news))]:
        left = [start + it for it in range(before[0] + 1, anchor[0]) if it not in elsewhere]
        right = [start + it for it in range(before[1] + 1, anchor[1]) if it not in taken]
        if left and right:
            partners.update((a - start, b - start) for a, b in _by_kind(contents, left, right))
        before = anchor
    return list(_in_order(len(olds), len(news), partners, elsewhere, start))


def _in_order(olds: int, news: int, partners: Dict[int, int], elsewhere: Dict[int, int], start: int) -> Iterator[Pair]:
    """All elements in the order of the first drawing; those of the second alone stand before the next one that is in
    both."""
    new, taken = 0, set(elsewhere.values())
    for old in range(olds):
        after = partners.get(old)
        if after is not None:
            yield from (Pair(None, start + it) for it in range(new, after) if it not in taken)
            yield Pair(start + old, start + after)
            new = after + 1
        elif old in elsewhere:
            yield Pair(start + old, start + elsewhere[old], True)
        else:
            yield Pair(start + old, None)
    yield from (Pair(None, start + it) for it in range(new, news) if it not in taken)


def same_in_order(olds: Sequence[int], news: Sequence[int]) -> List[Anchor]:
    """Places in two rows of contents where these are the same, and which rise in both: the contents that stand once in
    each row are anchors, and between two anchors as many as possible are taken, unless very many come and go."""
    found: List[Anchor] = []
    before = (-1, -1)
    for anchor in [*anchors_of(olds, news), (len(olds), len(news))]:
        old, new = range(before[0] + 1, anchor[0]), range(before[1] + 1, anchor[1])
        if old and new:
            found += _same_between(olds, news, old, new)
        if anchor[0] < len(olds):
            found.append(anchor)
        before = anchor
    return found


def _same_between(olds: Sequence[int], news: Sequence[int], old: range, new: range) -> Iterator[Anchor]:
    """The places between two anchors: those that are the same at the front and at the back, and what a shortest way
    matches of the others that stand in both rows."""
    front = back = 0
    least = min(len(old), len(new))
    while front < least and olds[old[front]] == news[new[front]]:
        front += 1
    while back < least - front and olds[old[-1 - back]] == news[new[-1 - back]]:
        back += 1
    yield from zip(old[:front], new[:front])
    left, right = old[front : len(old) - back], new[front : len(new) - back]
    common = {olds[it] for it in left} & {news[it] for it in right}
    left_common = [it for it in left if olds[it] in common]
    right_common = [it for it in right if news[it] in common]
    way = matched([olds[it] for it in left_common], [news[it] for it in right_common], SAME_MOST)
    yield from ((left_common[a], right_common[b]) for a, b in way or [])
    yield from zip(old[len(old) - back :], new[len(new) - back :])


def same_elsewhere(olds: Sequence[int], news: Sequence[int], same: Sequence[Anchor]) -> Dict[int, int]:
    """Of the places that aren't matched in their order those that have the same contents, the first with the first."""
    found_olds, found_news = {it for it, _ in same}, {it for _, it in same}
    places: Dict[int, Deque[int]] = defaultdict(deque)
    for place, content in enumerate(news):
        if place not in found_news:
            places[content].append(place)
    made: Dict[int, int] = {}
    for place, content in enumerate(olds):
        if place not in found_olds and places.get(content):
            made[place] = places[content].popleft()
    return made


def anchors_of(olds: Sequence[int], news: Sequence[int]) -> List[Anchor]:
    """The contents that stand once in each row, as many as stand in the same order in both."""
    places = _singles(news)
    common = [(place, places[content]) for content, place in _singles(olds).items() if content in places]
    return _rising(sorted(common))


def _singles(contents: Sequence[int]) -> Dict[int, int]:
    """Where each content stands that stands once."""
    found: Dict[int, int] = {}
    for place, content in enumerate(contents):
        found[content] = -1 if content in found else place
    return {content: place for content, place in found.items() if place >= 0}


def _rising(pairs: Sequence[Anchor]) -> List[Anchor]:
    """A longest part of pairs, whose first numbers rise, in which the second rise too."""
    ends: List[int] = []  # the least last number of a rising part, by its length
    last: List[int] = []  # the pair that has it
    before: List[int] = []  # of each pair the one before it in its part
    for index, (_, number) in enumerate(pairs):
        length = bisect_left(ends, number)
        before.append(last[length - 1] if length else -1)
        ends[length : length + 1] = [number]
        last[length : length + 1] = [index]
    made = []
    index = last[-1] if last else -1
    while index >= 0:
        made.append(pairs[index])
        index = before[index]
    return made[::-1]


def _by_kind(contents: Contents, olds: Sequence[int], news: Sequence[int]) -> Sequence[Anchor]:
    """Elements of one type and size, by the longest rows of such; of very many by the fewest that come and go, or,
    where these are very many too, in their order up to the first that doesn't agree."""
    kinds = _kinds(contents.first, olds), _kinds(contents.second, news)
    if len(olds) * len(news) > MANY:
        found = matched(*kinds)
        if found is None:
            same = list(zip(*kinds))
            count = next((at for at, (a, b) in enumerate(same) if a != b), len(same))
            found = [(it, it) for it in range(count)]
        return [(olds[a], news[b]) for a, b in found]
    blocks = SequenceMatcher(None, *kinds, autojunk=False).get_matching_blocks()
    return [(olds[it.a + at], news[it.b + at]) for it in blocks for at in range(it.size)]


def _kinds(elements: Elements, numbers: Sequence[int]) -> List[Tuple[int, int]]:
    return [(elements.types[it], elements.sizes[it]) for it in numbers]
