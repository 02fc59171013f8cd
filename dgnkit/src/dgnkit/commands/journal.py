"""`dgnkit journal DIR`: what came of `each`, by the journal that it keeps in the folder."""

from __future__ import annotations

import argparse
import heapq
from collections import Counter
from typing import TYPE_CHECKING, Any, Dict, List, Tuple

from ..archive.journal import Entry, entries_in
from ..output import counted, say, say_csv, say_json, table

if TYPE_CHECKING:
    from ..cli import Subparsers

MOST = 10  # so many of the slowest drawings and of those that failed are told


def register(words: Subparsers) -> None:
    parser = words.add_parser('journal', help='say what came of each, by the journal in its folder')
    parser.add_argument('folder', metavar='DIR', help='the folder that each has written to')
    form = parser.add_mutually_exclusive_group()
    form.add_argument('--json', action='store_true', help='print all entries as JSON')
    form.add_argument('--csv', action='store_true', help='print all entries as CSV')
    parser.set_defaults(run=run)


def run(arguments: argparse.Namespace) -> int:
    """The status is 1 where a drawing isn't written, or a command was refused."""
    summary = Summary()
    if arguments.json or arguments.csv:
        entries = list(entries_in(arguments.folder))
        for entry in entries:
            summary.add(entry)
        if arguments.json:
            say_json([vars(it) for it in entries])
        else:
            say_csv(HEAD, [row_of(it) for it in entries])
        return int(summary.is_bad)
    for entry in entries_in(arguments.folder):
        summary.add(entry)
    summary.tell()
    return int(summary.is_bad)


HEAD = ['drawing', 'status', 'ending', 'refused', 'seconds', 'size', 'read', 'script', 'written']


def row_of(entry: Entry) -> List[Any]:
    """An entry as a row of CSV."""
    return [vars(entry)[name] for name in HEAD]


class Summary:
    """What entries come to, of which few are kept."""

    def __init__(self) -> None:
        self.endings: Dict[Tuple[int, str], int] = {}
        self.causes: Counter[str] = Counter()
        self.count, self.more, self.bytes = 0, 0, 0
        self.slowest: List[Tuple[float, str]] = []
        self.failed: List[Entry] = []
        self.is_bad = False

    def add(self, entry: Entry) -> None:
        """Takes an entry in."""
        self.count += 1
        self.bytes += max(entry.size, 0)
        self.is_bad = self.is_bad or entry.status != 0
        kind = (entry.status, 'written' if entry.written else 'not written')
        self.endings[kind] = self.endings.get(kind, 0) + 1
        self.causes.update(cause_of(it['cause']) for it in entry.answers)
        self.more += entry.refused - len(entry.answers)
        heapq.heappush(self.slowest, (entry.seconds, entry.drawing))
        if len(self.slowest) > MOST:
            heapq.heappop(self.slowest)
        if not entry.written:
            self.failed.append(entry)
            del self.failed[MOST * MOST :]

    def tell(self) -> None:
        """Says it."""
        say('%s, %.1f MB' % (counted(self.count, 'drawing'), self.bytes / 1e6))
        self._table(['status', 'new drawing', 'drawings'], [[*kind, n] for kind, n in sorted(self.endings.items())])
        causes: List[List[Any]] = [[cause, n] for cause, n in self.causes.most_common()]
        if self.more:
            causes.append(['not listed', self.more])
        self._table(['refused', 'commands'], causes)
        failed = [[it.drawing, it.status, it.ending] for it in self.failed]
        self._table(['not written', 'status', 'ending'], failed)
        slow = [['%.2f' % seconds, name] for seconds, name in sorted(self.slowest, reverse=True)]
        self._table(['seconds', 'slowest'], slow)

    def _table(self, head: List[str], rows: List[List[Any]]) -> None:
        if rows:
            say('')
            for line in table(head, rows, left=('not written',)):
                say(line)


def cause_of(text: str) -> str:
    """A cause without the number of an element or the like behind it."""
    return text.split(':')[0] if text.startswith('left out') else text.split(' ')[0]
