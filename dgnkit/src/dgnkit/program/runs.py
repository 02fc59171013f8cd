"""The program dgnedit: where it is, and its runs. What is called here writes no drawing but where `out` says so."""

from __future__ import annotations

import os
import shutil
import signal
import subprocess
import sys
import tempfile
from dataclasses import dataclass
from functools import cached_property
from pathlib import Path
from typing import List, Optional, Sequence, Tuple, Union

from ..errors import ListingError, MissingProgram, ending_of
from ..format.elements import Elements
from ..format.walking import elements_in
from ..stopping import held
from ..system import PIPED, PROGRAM
from ..waiting import doing
from .answers import Answer
from .script import Script

Name = Union[str, Path]
NOWHERE = os.devnull


@dataclass
class Run:
    """How the program ended, and what it said."""

    status: int
    output: bytes

    @cached_property
    def said(self) -> List[str]:
        """The lines that it said."""
        return lines_of(self.output)


class Program:
    """The built program at a place."""

    def __init__(self, path: Name) -> None:
        self.path = str(path)

    @classmethod
    def find(cls) -> Program:
        """The program that $DGNEDIT names, or the one beside this command, or the one on the path. It raises
        MissingProgram where there is none."""
        named = os.environ.get('DGNEDIT')
        if named:
            place = shutil.which(named)
            if not place:
                raise MissingProgram("$DGNEDIT names %s, which isn't a program that can be run" % named)
            return cls(os.path.abspath(place))
        beside = Path(sys.argv[0]).resolve().parent / PROGRAM
        if beside.is_file() and os.access(beside, os.X_OK):
            return cls(beside)
        found = shutil.which(PROGRAM)
        if not found:
            raise MissingProgram("dgnedit wasn't found: not through $DGNEDIT, not beside dgnkit and not on the path")
        return cls(found)

    def run(self, *words: Name, given: Optional[bytes] = None) -> Run:
        """Runs it with these words, and with these bytes on its standard input."""
        command = [self.path, *map(str, words)]
        doing('dgnedit is working on %s' % words[1] if len(words) > 1 else 'dgnedit is working')
        try:
            status, output = output_of(command, given or b'')
        except OSError as why:
            raise MissingProgram("%s can't be run: %s" % (self.path, (why.strerror or str(why)).lower()))
        if status < 0:
            raise ListingError('dgnedit was ' + stopped_said(-status))
        return Run(status, output)

    def edit(self, drawing: Name, script: Script, out: Name = NOWHERE) -> List[Answer]:
        """Runs a script, and gives the answers to its commands. It raises an Ending where it wasn't run whole."""
        ran = self._ran(drawing, script, out)
        if ran.status not in (0, 1):
            raise ending_of(ran.status, ran.said, str(drawing))
        answers = script.answers(ran.said)
        if ran.status != int(any(it.is_refused for it in answers)):
            raise ListingError("dgnedit ended with %d, which doesn't match its answers" % ran.status)
        ask_written(out)
        return answers

    def _ran(self, drawing: Name, script: Script, out: Name) -> Run:
        """Runs a script, which the program reads from its standard input, or from a file that is gone afterwards."""
        if PIPED:
            return self.run('edit', drawing, PIPED, out, given=script.text)
        with tempfile.TemporaryDirectory(prefix='dgnkit-') as folder:
            name = os.path.join(folder, 'script')
            with open(name, 'wb') as file:
                file.write(script.text)
            return self.run('edit', drawing, name, out)

    def elements(self, drawing: Name, data: bytes, axes: int) -> Elements:
        """The elements of a drawing whose bytes are `data`. It raises an Ending where the program doesn't open it."""
        count = self.check(drawing)
        try:
            made = elements_in(data, axes)
        except ValueError as why:
            raise ListingError('dgnedit opened %s, but %s' % (drawing, why))
        if len(made) != count:
            raise ListingError('dgnedit found %d elements in %s, where there are %d' % (count, drawing, len(made)))
        return made

    def listed(self, drawing: Name, script: Script) -> List[Answer]:
        """The answers of a script of any length that lists and sets fences alone, cut in as many runs as it takes. It
        raises ListingError where one is refused."""
        answers = [answer for part in script.parts() for answer in self.edit(drawing, part)]
        place = next((place for place, it in enumerate(answers) if it.is_refused), None)
        if place is not None:
            said = 'dgnedit refused %r of %s: %s'
            raise ListingError(said % (script.commands[place].text, drawing, answers[place].cause))
        return answers

    def check(self, drawing: Name) -> int:
        """How many elements a drawing has. It raises an Ending where it doesn't open."""
        return self._counted('elements', drawing, 'check', drawing)

    def apply(self, drawing: Name, patch: Name, out: Name = NOWHERE) -> int:
        """Puts a patch file on a drawing, and says how many entries it has. It raises an Ending where it doesn't."""
        count = self._counted('applied', drawing, 'apply', drawing, patch, out)
        ask_written(out)
        return count

    def pack(self, drawing: Name, script: Name, patch: Name) -> int:
        """Writes what a script does, of which no line is refused, as a patch file, and says how many entries it has. It
        raises an Ending where it doesn't."""
        count = self._counted('entries', drawing, 'pack', drawing, script, patch)
        ask_written(patch)
        return count

    def _counted(self, word: str, drawing: Name, *words: Name) -> int:
        ran = self.run(*words)
        if ran.status != 0:
            raise ending_of(ran.status, ran.said, str(drawing))
        return counted(word, ran.said)


def output_of(command: Sequence[str], given: bytes) -> Tuple[int, bytes]:
    """Runs a command with these bytes on its standard input, and gives its status and what it said. However this ends,
    the command has ended too."""
    process: Optional[subprocess.Popen[bytes]] = None
    try:
        with held():
            process = subprocess.Popen(command, stdin=subprocess.PIPE, stdout=subprocess.PIPE)
        output, _ = process.communicate(given)
    except BaseException:
        if process is not None:
            with process:
                process.kill()
        raise
    return process.returncode, output


def stopped_said(number: int) -> str:
    """That a signal stopped the program, in words."""
    said = signal.strsignal(number) or ''
    return 'stopped by signal %d%s' % (number, ' (%s)' % said.lower() if said else '')


def ask_written(out: Name) -> None:
    """It raises ListingError where a file that was to be written isn't there."""
    if not os.path.exists(out):
        raise ListingError('dgnedit said that it was done, but there is no %s' % out)


def lines_of(said: bytes) -> List[str]:
    """The lines that the program said. It raises ListingError where they are no lines of ASCII."""
    try:
        lines = said.decode('ascii').split('\n')
    except UnicodeDecodeError:
        raise ListingError("dgnedit printed something that isn't ASCII")
    if lines.pop() != '':
        raise ListingError('dgnedit printed an incomplete line')
    return lines


def counted(word: str, said: Sequence[str]) -> int:
    """The number in the one line that was said, behind this word."""
    if len(said) != 1 or not said[0].startswith(word + ' ') or not said[0][len(word) + 1 :].isdigit():
        raise ListingError("dgnedit printed %r, which dgnkit doesn't understand" % said)
    return int(said[0][len(word) + 1 :])
