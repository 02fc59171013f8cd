"""What is run on each drawing of an archive: a script, a patch file, or commands of dgnkit that make one for each."""

from __future__ import annotations

import contextlib
import hashlib
import io
import json
import os
import shlex
import tempfile
from dataclasses import dataclass, field
from typing import List, Sequence, Tuple

from ..errors import BadDesign, Mistake, NothingThere, ReadFault, WriteFault, ending_of
from ..explain.explaining import imports_of, why_bad_design, why_not_read
from ..files import read_file
from ..format.limits import PATCH_LONGEST
from ..program.answers import answers_of
from ..program.runs import Program, Run
from ..program.script import Script

# The commands that write a patch file for a drawing, as `WORD IN PATCH ..`.
PATCHING = ('relevel', 'retext', 'rename', 'lock', 'unlock', 'undelete', 'mend')
LEFT = 'left out: '  # how the line begins that says which elements a command leaves out
PIECE = 1 << 20


@dataclass(frozen=True)
class Change:
    """What is run on each drawing: a script or a patch file by its name, which is called `called` in words, or commands
    of dgnkit, one after the other."""

    program: str
    file: str = ''
    is_patch: bool = False
    called: str = ''
    commands: List[List[str]] = field(default_factory=list)

    @property
    def script(self) -> str:
        """The SHA-256 of the script or the patch file, or of the commands."""
        if self.commands:
            return hashlib.sha256(json.dumps(self.commands).encode()).hexdigest()
        return digest_of(self.file)

    @property
    def imports(self) -> str:
        """The SHA-256 of those of the drawings that a script imports; nothing where it imports none."""
        names = [] if self.commands or self.is_patch else imports_of(self.file)
        return hashlib.sha256(''.join(map(digest_of, names)).encode()).hexdigest() if names else ''


@dataclass
class Ended:
    """How it ended on a drawing: the program's exit number, in words, and the commands that were refused."""

    status: int
    said: str
    refused: List[Tuple[int, str, str]] = field(default_factory=list)


def digest_of(path: str) -> str:
    """The SHA-256 of a file; nothing where it can't be read."""
    made = hashlib.sha256()
    try:
        with open(path, 'rb') as file:
            for piece in iter(lambda: file.read(PIECE), b''):
                made.update(piece)
    except (OSError, ValueError):
        return ''
    return made.hexdigest()


class Changer:
    """Runs a change on drawings."""

    def __init__(self, change: Change) -> None:
        """It raises Mistake where the script or the patch file can't be read."""
        self.change, self.program = change, Program(change.program)
        self.lines: List[Tuple[int, str, str]] = []  # of the script: the number of each command, its word and its text
        if change.is_patch:
            read_file(change.file, PATCH_LONGEST)
        elif change.file:
            self.lines = commands_in(change.file)

    def run(self, drawing: str, out: str) -> Ended:
        """Makes a new drawing, which is there whole where the status is 0 or 1."""
        if self.change.commands:
            return self._commands(drawing, out)
        if self.change.is_patch:
            return self._ended(self.program.run('apply', drawing, self.change.file, out), drawing, self.change.file)
        ran = self.program.run('edit', drawing, self.change.file, out)
        made = self._ended(ran, drawing, self.change.file)
        if ran.status == 1:
            made.refused = refused_of(self.lines, ran)
        return made

    def _ended(self, ran: Run, drawing: str, file: str) -> Ended:
        if ran.status in (0, 1):
            return Ended(ran.status, 'done' if ran.status == 0 else 'some refused')
        ending = ending_of(ran.status, ran.said, drawing)
        said = str(ending)
        if isinstance(ending, BadDesign):
            said = why_bad_design(drawing, ending)
        elif isinstance(ending, ReadFault):
            said = why_not_read([drawing, file, *imports_of(file)]).replace(file, self.change.called)
        elif isinstance(ending, WriteFault):
            said += ' completely, perhaps because the disk is full: nothing is written'
        return Ended(ran.status, without_name(said, drawing))

    def _commands(self, drawing: str, out: str) -> Ended:
        """Has dgnkit make a script or a patch file by each command, for what those before it have made."""
        refused: List[Tuple[int, str, str]] = []
        with tempfile.TemporaryDirectory(prefix='.steps-', dir=os.path.dirname(out)) as folder:
            at = drawing
            for number, words in enumerate(self.change.commands, 1):
                made = out if number == len(self.change.commands) else os.path.join(folder, '%d.dgn' % number)
                ended = self._command(words, at, os.path.join(folder, 'step-%d' % number), made)
                refused += [(number, text, cause) for _, text, cause in ended.refused]  # by the number of the step
                if ended.status not in (0, 1):
                    return Ended(ended.status, ended.said, refused)
                at = made
        return Ended(1 if refused else 0, 'some refused' if refused else 'done', refused)

    def _command(self, words: Sequence[str], drawing: str, file: str, out: str) -> Ended:
        """Makes a new drawing by one command of dgnkit, which proposes what the program then does."""
        # the drawing has to open, so that why it doesn't is told as ever
        checked = self._ended(self.program.run('check', drawing), drawing, file)
        if checked.status != 0:
            return checked
        proposed, left = self._proposed(words, drawing, file)
        if proposed:
            return Ended(-1, proposed)
        if words[0] in PATCHING and os.path.exists(file):
            ended = self._ended(self.program.run('apply', drawing, file, out), drawing, file)
        else:
            ended = self._parts(drawing, file, out)
        ended.refused += [(0, ' '.join(words), it) for it in left]
        return ended

    def _parts(self, drawing: str, file: str, out: str) -> Ended:
        """Runs a script that may stand in several files, each on what the one before has made, or, where there is
        nothing to change, none."""
        made = Ended(0, 'done')
        names = parts_of(file) or [os.devnull]
        for number, name in enumerate(names, 1):
            lines = [] if name == os.devnull else commands_in(name)
            to = out if number == len(names) else '%s-%d.dgn' % (file, number)
            ran = self.program.run('edit', drawing, name, to)
            ended = self._ended(ran, drawing, name)
            if ended.status not in (0, 1):
                return ended
            made.refused += refused_of(lines, ran) if ran.status == 1 else []
            drawing = to
        return made

    def _proposed(self, words: Sequence[str], drawing: str, file: str) -> Tuple[str, List[str]]:
        """Has dgnkit write the script or the patch file of a command: why not, where it doesn't, and which elements it
        leaves out."""
        from ..cli import run_words

        asked = [words[0], drawing, *words[1:], '-o', file]
        if words[0] in PATCHING:
            asked = [words[0], drawing, file, *words[1:]]
        told = io.StringIO()
        try:
            with contextlib.redirect_stdout(io.StringIO()), contextlib.redirect_stderr(told):
                status = run_words(asked)
        except NothingThere:
            return '', []
        except Mistake as why:
            return without_name(str(why), drawing), []
        lines = told.getvalue().split('\n')
        why_not = next(filter(None, reversed(lines)), 'dgnkit %s failed' % words[0])
        return ('' if status == 0 else why_not), [it for it in lines if it.startswith(LEFT)]


def commands_in(file: str) -> List[Tuple[int, str, str]]:
    """The commands of a script: the number of the line of each, its word and its text."""
    return [(it.line, it.name, it.text) for it in Script.read(file).commands]


def parts_of(file: str) -> List[str]:
    """The files of a script that was to be written to this one, which may have been too long for one."""
    if os.path.exists(file):
        return [file]
    names: List[str] = []
    while os.path.exists('%s-%d' % (file, len(names) + 1)):
        names.append('%s-%d' % (file, len(names) + 1))
    return names


def refused_of(lines: Sequence[Tuple[int, str, str]], ran: Run) -> List[Tuple[int, str, str]]:
    """The commands that were refused: the line of each, its text, and the cause."""
    answers = answers_of([name for _, name, _ in lines], ran.said)
    return [(line, text, it.cause or '') for (line, _, text), it in zip(lines, answers) if it.is_refused]


def without_name(said: str, name: str) -> str:
    """What is said of a drawing, without its name in front."""
    for between in (' ', ': '):
        if said.startswith(name + between):
            return said[len(name + between) :]
    return said


def commands_of(found: str, edits: Sequence[str], proposals: Sequence[str]) -> List[List[str]]:
    """The commands of dgnkit that --find with --edit and --propose stand for. It raises Mistake where they are none
    that can be run on each drawing."""
    made = [['find', *_words(found), '--script', line] for line in edits]
    if found and not edits:
        raise Mistake('--find needs --edit, a line of a script such as "color {n} 5"')
    if edits and not found:
        raise Mistake('--edit needs --find, conditions such as "--level 12"')
    for text in proposals:
        words = _words(text)
        if not words or words[0] not in PATCHING:
            said = '--propose takes %s or %s, with the words that follow IN and PATCH there'
            raise Mistake(said % (', '.join(PATCHING[:-1]), PATCHING[-1]))
        made.append(words)
    return made


def _words(text: str) -> List[str]:
    """The words of a text as a shell takes it apart. It raises Mistake where it has a quotation mark alone."""
    try:
        return shlex.split(text)
    except ValueError as why:
        raise Mistake('%r: %s' % (text, str(why).lower()))
