"""A shortest way from one row of keys to another, by what goes and what comes (E. W. Myers, An O(ND) Difference
Algorithm): fast where little differs, however long the rows are."""

from __future__ import annotations

from typing import Dict, Hashable, List, Optional, Sequence, Tuple

MOST = 1500  # so many keys may come and go


def matched(olds: Sequence[Hashable], news: Sequence[Hashable], most: int = MOST) -> Optional[List[Tuple[int, int]]]:
    """Which places of two rows are matched, in their order; none where more than so many come and go."""
    ends: Dict[int, int] = {1: 0}  # by the diagonal, how far the furthest way reaches in the first row
    kept: List[Dict[int, int]] = []
    for count in range(min(most, len(olds) + len(news)) + 1):
        kept.append(dict(ends))
        for diagonal in range(-count, count + 1, 2):
            at = _start(ends, diagonal, count)
            while at < len(olds) and at - diagonal < len(news) and olds[at] == news[at - diagonal]:
                at += 1
            ends[diagonal] = at
            if at >= len(olds) and at - diagonal >= len(news):
                return _walked_back(kept, len(olds), len(news))
    return None


def _comes_down(ends: Dict[int, int], diagonal: int, count: int) -> bool:
    """Whether the way on a diagonal comes from the one above it, by a key that comes, and not by one that goes."""
    return diagonal == -count or (diagonal != count and ends[diagonal - 1] < ends[diagonal + 1])


def _start(ends: Dict[int, int], diagonal: int, count: int) -> int:
    """Where a way begins on a diagonal: it comes from the one beside that reaches further."""
    return ends[diagonal + 1] if _comes_down(ends, diagonal, count) else ends[diagonal - 1] + 1


def _walked_back(kept: Sequence[Dict[int, int]], old: int, new: int) -> List[Tuple[int, int]]:
    """The matches on the way to an end, from the ways that were kept of each step."""
    made: List[Tuple[int, int]] = []
    for count in range(len(kept) - 1, -1, -1):
        ends, diagonal = kept[count], old - new
        start = _start(ends, diagonal, count)
        while old > start and new > start - diagonal:
            old, new = old - 1, new - 1
            made.append((old, new))
        if count:
            before = diagonal + 1 if _comes_down(ends, diagonal, count) else diagonal - 1
            old, new = ends[before], ends[before] - before
    return made[::-1]
