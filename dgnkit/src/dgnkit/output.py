"""How commands say things: lines, tables, CSV, JSON, counted words, and the command to run next."""

from __future__ import annotations

import csv
import io
import json
import os
import shlex
import subprocess
import sys
from itertools import chain, islice
from pathlib import Path
from typing import Any, Iterable, Iterator, List, Sequence

from .system import IS_WINDOWS

AT_ONCE = 1024  # so many lines are said at once, where there are many


def say(text: str) -> None:
    """Says lines on standard output, without signs that would steer a terminal."""
    say_raw('\n'.join(map(printable, text.split('\n'))))


def say_raw(text: str) -> None:
    """Says lines as they are, as those of a script. It raises OSError where standard output is closed."""
    if sys.stdout is None:
        raise OSError('standard output is closed')
    print(text)


def note(text: str) -> None:
    """Says a line on standard error, where there is one."""
    if sys.stderr is not None:
        print(printable(text), file=sys.stderr)


def say_json(value: Any) -> None:
    """Says a value as JSON, in the signs of ASCII."""
    say(json.dumps(value, indent=1))


def say_lines(lines: Iterable[str]) -> None:
    """Says many lines as `say` does, as they come."""
    waiting = iter(lines)
    while True:
        some = list(islice(waiting, AT_ONCE))
        if not some:
            return
        said = '\n'.join(some)
        say_raw(said if said.replace('\n', '').isprintable() else '\n'.join(map(printable, said.split('\n'))))


def say_csv(head: Sequence[str], rows: Iterable[Sequence[object]]) -> None:
    """Says rows as CSV, the names of the columns first; what isn't there is an empty field."""
    say_lines(csv_lines(head, rows))


def csv_lines(head: Sequence[str], rows: Iterable[Sequence[object]]) -> Iterator[str]:
    """The rows of CSV, each without the end of its line."""
    text = io.StringIO()
    writer = csv.writer(text, lineterminator='\n')
    for row in chain([head], rows):
        writer.writerow(row)
        yield text.getvalue()[:-1]
        text.seek(0)
        text.truncate()


def table(head: Sequence[str], rows: Iterable[Sequence[object]], left: Sequence[str] = ()) -> List[str]:
    """The lines of a table; columns are set to the right, but for the last and those that `left` names."""
    cells = [list(head), *([printable(str(it)) for it in row] for row in rows)]
    widths = [max(map(len, column)) for column in zip(*cells)]
    lefts = [name in left or name == head[-1] for name in head]
    lines = []
    for row in cells:
        padded = [it.ljust(width) if is_left else it.rjust(width) for it, width, is_left in zip(row, widths, lefts)]
        lines.append('  '.join(padded).rstrip())
    return lines


def printable(text: str) -> str:
    """Text of a drawing or a name of a file without signs that would steer a terminal: each is an escape instead."""
    if text.isprintable():
        return text
    return ''.join(it if it.isprintable() else it.encode('unicode_escape').decode('ascii') for it in text)


def counted(count: int, one: str, many: str = '') -> str:
    """A number with its word: `1 tree`, `2 trees`."""
    return '%d %s' % (count, one if count == 1 else many or one + 's')


def few(numbers: Sequence[int], most: int = 8) -> str:
    """Numbers in words, of which not too many are said."""
    said = ', '.join(map(str, numbers[:most]))
    return said if len(numbers) <= most else '%s and %d more' % (said, len(numbers) - most)


def listed(words: Sequence[object]) -> str:
    """Words as a row of them is spoken: `1`, `1 and 2`, `1, 2 and 3`."""
    said = [str(it) for it in words]
    return said[0] if len(said) == 1 else '%s and %s' % (', '.join(said[:-1]), said[-1])


def quoted(*words: object) -> str:
    """Words as the system's shell reads them."""
    if IS_WINDOWS:
        return subprocess.list2cmdline([str(it) for it in words])
    return ' '.join(shlex.quote(str(it)) for it in words)


def out_name(drawing: str) -> str:
    """What a drawing that is made of another one may be called: a name that isn't there."""
    path = Path(drawing)
    stem = path.stem + '-out'
    names = (str(path.with_name('%s%s%s' % (stem, more, path.suffix))) for more in _numbered())
    return next(it for it in names if not os.path.lexists(it))


def _numbered() -> Iterable[str]:
    yield ''
    for number in range(2, 1 << 30):
        yield '-%d' % number
