"""What the program says to the commands of a script: one answer a command, in their order (docs/EDITING.md)."""

from __future__ import annotations

import re
from dataclasses import dataclass
from typing import List, Optional, Sequence

from ..errors import ListingError
from .grammar import LISTS

OK = re.compile(r'ok(?: (\d+))?')
REFUSED = re.compile(r'refused ([a-z].*)')


@dataclass
class Answer:
    """An answer: the lines of a listing, the number in the line that ends it or behind `ok`, and why it was refused."""

    lines: List[str]
    count: Optional[int] = None
    cause: Optional[str] = None

    @property
    def is_refused(self) -> bool:
        """Whether the command was refused, and so changed nothing."""
        return self.cause is not None


def answers_of(names: Sequence[str], said: Sequence[str]) -> List[Answer]:
    """Matches what was said to commands of these names. It raises ListingError where it is too much or too little."""
    made: List[Answer] = []
    at = 0
    for name in names:
        if at >= len(said):
            raise ListingError("dgnedit didn't answer command %d, %r" % (len(made) + 1, name))
        found = REFUSED.fullmatch(said[at]) if said[at].startswith('refused') else None
        if found:
            answer, taken = Answer([], cause=found[1]), 1
        elif name in LISTS:
            answer = _listing(LISTS[name], said, at)
            taken = len(answer.lines) + 1
        else:
            answer, taken = _accepted(said[at]), 1
        made.append(answer)
        at += taken
    if at != len(said):
        raise ListingError('dgnedit printed more than its commands ask for: %r' % said[at])
    return made


def _accepted(line: str) -> Answer:
    found = OK.fullmatch(line)
    if not found:
        raise ListingError("dgnedit answered %r, which dgnkit doesn't understand" % line)
    return Answer([], count=None if found[1] is None else int(found[1]))


def _listing(word: str, said: Sequence[str], at: int) -> Answer:
    """The listing that begins at a line and ends with `word` and a number."""
    front, end = word + ' ', at
    while end < len(said) and not said[end].startswith(front):
        end += 1
    if end == len(said) or not said[end][len(front) :].isdigit():
        raise ListingError("dgnedit didn't end a listing with %r and a number" % word)
    answer = Answer(list(said[at:end]), count=int(said[end][len(front) :]))
    # `elements` lists counts of levels and types too, which begin with a word
    listed = sum(line[:1].isdigit() for line in answer.lines) if word == 'elements' else len(answer.lines)
    if listed != answer.count:
        raise ListingError('dgnedit listed %d lines, but counted %d' % (listed, answer.count or 0))
    return answer
