"""What `run` and `why` share: the steps of a run, each a script or a patch file, and what is said of it."""

from __future__ import annotations

import contextlib
import os
import tempfile
from pathlib import Path
from typing import Any, Dict, Iterator, List, Sequence

from ..drawing.drawing import Drawing
from ..errors import ListingError, ending_of
from ..explain.explaining import imports_of, why_ended
from ..explain.refusals import Explainer
from ..files import ask_drawing, front_of, is_stream, note_inputs, read_file, said_name
from ..format.limits import PATCH_LONGEST, SCRIPT_LONGEST
from ..format.patch import MARK
from ..output import counted
from ..program.answers import Answer
from ..program.runs import Program
from ..program.script import Script

Told = Dict[str, Any]
HEAD = ['line', 'command', 'cause', 'why']  # what is told of a refused line


def is_patch(name: str) -> bool:
    """Whether a file begins as a patch file does."""
    return front_of(name, len(MARK)) == MARK


def ask_inputs(drawings: Sequence[str], steps: Sequence[str]) -> None:
    """Keeps in mind what a run reads, which none of what it writes may be: drawings, scripts and patch files, and the
    files that scripts import. It raises Mistake where a script imports what is no file on disk."""
    imports = [it for step in steps if not is_patch(step) for it in imports_of(step)]
    for name in imports:
        ask_drawing(name)
    note_inputs([*drawings, *steps, *imports])


@contextlib.contextmanager
def on_disk(name: str) -> Iterator[str]:
    """The name of a script or a patch file that the program can read, and that can be read more than once: its own, or
    that of a copy where it is standard input, a pipe or an open file."""
    if not is_stream(name):
        yield name
        return
    with tempfile.TemporaryDirectory(prefix='dgnkit-') as folder:
        place = os.path.join(folder, 'script')
        Path(place).write_bytes(read_file(name, max(SCRIPT_LONGEST, PATCH_LONGEST)))
        yield place


class Step:
    """A script or a patch file that is run on a drawing."""

    def __init__(self, program: Program, drawing: str, name: str, out: str, called: str = '') -> None:
        """`called` is what the script or the patch file is called in words, where that isn't its name."""
        self.program, self.drawing, self.name, self.out = program, drawing, name, out
        self.called = said_name(called or name)
        self.is_patch = is_patch(name)
        self.status, self.said = 0, ['']
        self.script = Script()
        self.answers: List[Answer] = []
        self.refused: List[Told] = []
        self.end = ''

    def run(self, said_out: str = '') -> str:
        """Runs it, and gives why it ended without doing it, or nothing; what it made then is gone. `said_out` is what
        OUT is called in words."""
        word = 'apply' if self.is_patch else 'edit'
        ran = self.program.run(word, self.drawing, self.name, self.out)
        if ran.status not in (0, 1):
            ending = ending_of(ran.status, ran.said, self.drawing)
            self.status, self.said = ran.status, ran.said
            if os.path.isfile(self.out):
                os.unlink(self.out)
            why = why_ended(self.program, ending, self.drawing, self.name, said_out or self.out)
            return why.replace(self.name, self.called)
        if not os.path.exists(self.out):
            raise ListingError('dgnedit said that it was done, but there is no %s' % self.out)
        if self.is_patch:
            self.end = '%s: every entry matched the drawing' % ran.said[0]
            return ''
        self.script = Script.read(self.name)
        self.answers = self.script.answers(ran.said)
        refused = sum(it.is_refused for it in self.answers)
        self.end = '%s, %d refused' % (counted(len(self.answers), 'command'), refused)
        return ''

    def explain(self, drawing: Drawing) -> None:
        """Explains what was refused, on the drawing as it was before the script."""
        if not self.is_refused:
            return
        explainer = Explainer(drawing, self.script.commands, self.answers)
        self.refused = [
            {'line': it.command.line, 'command': it.command.text, 'cause': it.cause, 'why': explainer.sentence(it)}
            for it in explainer.refused
        ]

    @property
    def is_refused(self) -> bool:
        """Whether a command of the script was refused."""
        return any(it.is_refused for it in self.answers)
