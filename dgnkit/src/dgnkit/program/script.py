"""A script of the editor: a method for each command, its text, and what the program answered to its commands."""

from __future__ import annotations

import os
from dataclasses import dataclass
from pathlib import Path
from typing import Iterable, List, Optional, Sequence, Union

from ..errors import Mistake
from ..files import read_file
from ..format.limits import IMPORTS_MOST, NAME_LONGEST, SCRIPT_LONGEST
from ..output import quoted
from ..system import IS_WINDOWS
from .answers import Answer, answers_of

Change = Optional[int]
Corner = Sequence[int]


@dataclass(frozen=True)
class Command:
    """A line that is a command: its number in the script, from 1, and its bytes without the line's end."""

    line: int
    spelling: bytes

    @property
    def words(self) -> List[str]:
        """The pieces between blanks."""
        return self.text.split(' ')

    @property
    def text(self) -> str:
        """The line without the blanks around it."""
        return self.spelling.decode('latin-1').strip(' ')

    @property
    def name(self) -> str:
        """The first piece: what the command is."""
        return self.text.split(' ', 1)[0]


class Script:
    """Lines of the editor's language. Each method appends one and gives the script back."""

    def __init__(self, lines: Iterable[bytes] = ()) -> None:
        self.lines: List[bytes] = list(lines)

    @classmethod
    def from_bytes(cls, text: bytes) -> Script:
        """The script with this text."""
        lines = text.split(b'\n')
        if lines[-1] == b'':
            lines.pop()
        return cls(line[:-1] if line.endswith(b'\r') else line for line in lines)

    @classmethod
    def read(cls, path: Union[str, Path]) -> Script:
        """The script in a file. It raises Mistake where that can't be read."""
        return cls.from_bytes(read_file(path, SCRIPT_LONGEST))

    @property
    def text(self) -> bytes:
        """The bytes of the script as a file."""
        return b''.join(line + b'\n' for line in self.lines)

    @property
    def commands(self) -> List[Command]:
        """The lines that are commands: not those that are empty, blanks alone or a comment."""
        found = []
        for number, line in enumerate(self.lines, 1):
            bare = line.strip(b' ')
            if bare and not bare.startswith(b'#'):
                found.append(Command(number, line))
        return found

    @property
    def names(self) -> List[str]:
        """The first piece of each line that is a command."""
        bare = (line.strip(b' ') for line in self.lines)
        return [it.split(b' ', 1)[0].decode('latin-1') for it in bare if it and not it.startswith(b'#')]

    def answers(self, said: Sequence[str]) -> List[Answer]:
        """What was said to each of its commands, in their order. It raises ListingError where that can't be matched."""
        return answers_of(self.names, said)

    def add(self, line: Union[str, bytes]) -> Script:
        """Appends a line as it is."""
        self.lines.append(line.encode('ascii') if isinstance(line, str) else line)
        return self

    def comment(self, text: str) -> Script:
        """Appends a comment."""
        return self.add(b'# ' + text.encode('utf-8'))

    def move(self, number: int, *shift: int) -> Script:
        """Moves the part of an element, by units of resolution along each axis."""
        return self.add(' '.join(['move %d' % number, *map(str, shift)]))

    def copy(self, number: int, *shift: int) -> Script:
        """Appends a copy of the part of an element, moved."""
        return self.add(' '.join(['copy %d' % number, *map(str, shift)]))

    def color(self, number: int, colour: int) -> Script:
        """Gives a colour."""
        return self.add('color %d %d' % (number, colour))

    def sym(self, number: int, colour: Change, weight: Change, style: Change) -> Script:
        """Gives a colour, a weight and a style, each none where it stays."""
        return self.add('sym %d %s' % (number, _changes(colour, weight, style)))

    def delete(self, number: int) -> Script:
        """Marks the part of an element deleted."""
        return self.add('delete %d' % number)

    def line(self, look: Sequence[int], start: Corner, end: Corner) -> Script:
        """A line, with the level, colour, weight and style `look`; so the next two."""
        return self.add(' '.join(['line', *map(str, look), _point(start), _point(end)]))

    def string(self, look: Sequence[int], points: Sequence[Corner]) -> Script:
        """A line string."""
        return self.add(' '.join(['string', *map(str, look), *map(_point, points)]))

    def shape(self, look: Sequence[int], points: Sequence[Corner]) -> Script:
        """A shape."""
        return self.add(' '.join(['shape', *map(str, look), *map(_point, points)]))

    def write_text(self, look: Sequence[int], font: Sequence[int], origin: Corner, characters: bytes) -> Script:
        """A text: `font` is its font, its justification, and its multipliers of length and height."""
        words = ' '.join(['text', *map(str, look), *map(str, font), _point(origin)])
        return self.add(words.encode('ascii') + b' ' + characters)

    def import_(self, name: str, *shift: int) -> Script:
        """An import. It raises Mistake where the name is none that a script can have."""
        return self.add(' '.join(['import', importable(name), *map(str, shift)]))

    def fit(self, number: int) -> Script:
        """Sets the ranges of the tree of an element to what it holds."""
        return self.add('fit %d' % number)

    def undo(self) -> Script:
        """Takes the last accepted edit back."""
        return self.add('undo')

    def levels(self, *spans: Union[int, str]) -> Script:
        """Levels and spans `a-b`, or `all`, or `none`."""
        return self.add(' '.join(['levels', *map(str, spans)]))

    def show(self) -> Script:
        """Lists what is shown."""
        return self.add('show')

    def tree(self, number: int) -> Script:
        """Lists the tree of an element."""
        return self.add('tree %d' % number)

    def elements(self) -> Script:
        """Lists all elements."""
        return self.add('elements')

    def refs(self) -> Script:
        """Lists what may attach a reference file."""
        return self.add('refs')

    def links(self, number: int) -> Script:
        """Lists the linkages of an element."""
        return self.add('links %d' % number)

    def audit(self) -> Script:
        """Lists the elements whose range is not what they hold."""
        return self.add('audit')

    def fence(self, corners: Sequence[Corner]) -> Script:
        """Sets the fence, by its corners."""
        return self.add(' '.join(['fence', *('%d,%d' % (it[0], it[1]) for it in corners)]))

    def nofence(self) -> Script:
        """Clears the fence."""
        return self.add('nofence')

    def select(self, mode: str) -> Script:
        """Lists what the fence chooses, by the mode inside, overlap or void."""
        return self.add('select ' + mode)

    def fmove(self, mode: str, *shift: int) -> Script:
        """Moves what the fence chooses."""
        return self.add(' '.join(['fmove', mode, *map(str, shift)]))

    def fcopy(self, mode: str, *shift: int) -> Script:
        """Appends copies of what the fence chooses, moved."""
        return self.add(' '.join(['fcopy', mode, *map(str, shift)]))

    def fsym(self, mode: str, colour: Change, weight: Change, style: Change) -> Script:
        """Gives what the fence chooses a colour, a weight and a style."""
        return self.add('fsym %s %s' % (mode, _changes(colour, weight, style)))

    def fdelete(self, mode: str) -> Script:
        """Marks what the fence chooses deleted."""
        return self.add('fdelete ' + mode)

    def parts(self) -> List[Script]:
        """The same lines in as few scripts as the program reads: each of at most 1048576 bytes and four imports. It
        raises Mistake where a line alone has more."""
        made: List[Script] = []
        size = imports = 0
        for line in self.lines:
            is_import = line.strip(b' ').startswith(b'import ')
            if len(line) + 1 > SCRIPT_LONGEST:
                raise Mistake('a line of the script has more than %d bytes' % SCRIPT_LONGEST)
            if not made or size + len(line) + 1 > SCRIPT_LONGEST or imports + is_import > IMPORTS_MOST:
                made.append(Script())
                size = imports = 0
            made[-1].lines.append(line)
            size, imports = size + len(line) + 1, imports + is_import
        return made


def importable(name: str) -> str:
    """The name of a file as an `import` line has it. It raises Mistake where the editor reads no such name."""
    if not name or len(name) > NAME_LONGEST:
        raise Mistake("%r can't be in an import line: a name there has 1 to %d characters" % (name, NAME_LONGEST))
    if any(not '!' <= sign <= '~' for sign in name):
        said = "%r can't be in an import line, since it has a space or a character beyond ASCII: name a copy or a link"
        how = 'copy' if IS_WINDOWS else 'ln -s'
        raise Mistake((said + ' without one, as from %s %s %s') % (name, how, quoted(name), plain_name(name)))
    return name


def plain_name(name: str) -> str:
    """A name of a file, in this folder, that can stand in an import line."""
    last = os.path.basename(name)
    return ''.join(it if it.isascii() and it.isalnum() or it in '.-_' else '_' for it in last)


def _changes(*changes: Change) -> str:
    return ' '.join('-' if it is None else str(it) for it in changes)


def _point(point: Corner) -> str:
    return ','.join(map(str, point))
