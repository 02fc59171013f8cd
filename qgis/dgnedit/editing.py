"""Makes a new drawing by scripts and patch files, whole or not at all, with the script and the patch file as files."""

import contextlib
import os
import tempfile
from dataclasses import dataclass, field
from pathlib import Path
from typing import Any, Dict, Iterator, List, Sequence, Tuple

from dgnkit.commands._runs import Step
from dgnkit.commands.run import making, run_steps
from dgnkit.drawing.drawing import Drawing
from dgnkit.errors import Mistake
from dgnkit.files import read_file
from dgnkit.format.limits import PATCH_LONGEST
from dgnkit.format.patch import Patch
from dgnkit.program.runs import Program
from dgnkit.program.script import Script
from dgnkit.propose.writing import script_names
from dgnkit.saving import ask_target, write_files

from .calls import Call
from .translation import tr

Refused = Dict[str, Any]  # a refused line, as `dgnkit run --json` has it


@dataclass
class Made:
    """What was made: how many commands or entries were accepted, and what was refused."""

    accepted: int = 0
    refused: List[Refused] = field(default_factory=list)
    said: List[str] = field(default_factory=list)


@contextlib.contextmanager
def folder() -> Iterator[Path]:
    """A folder for files that are gone afterwards, and that mistakes name without it."""
    with tempfile.TemporaryDirectory(prefix='dgnedit-') as name:
        try:
            yield Path(name)
        except Mistake as why:
            if type(why) is not Mistake:
                raise
            raise Mistake(str(why).replace(name + os.sep, ''))


def run_files(call: Call, drawing: Drawing, files: Sequence[str], out: str) -> Made:
    """Runs scripts and patch files on a drawing. It raises Mistake where one can't be run; OUT isn't written then."""
    with making(drawing.path, files, out, True) as made:
        steps = run_steps(drawing.program, drawing.path, files, made, out)
        call.ask()
    return outcome(steps)


def outcome(steps: Sequence[Step]) -> Made:
    """What steps came to."""
    made = Made()
    for step in steps:
        made.refused += step.refused
        made.accepted += sum(not it.is_refused for it in step.answers)
        made.said += [line for it in step.answers for line in it.lines]
        made.said.append(step.end)
    return made


def run_lines(call: Call, drawing: Drawing, lines: Sequence[bytes], saved: Tuple[str, str], out: str) -> Made:
    """Runs the lines of a script. `saved` names the files of the script without the lines that are refused, and of the
    patch file of what it does; an empty name is no file."""
    with folder() as place:
        files = scripts_in(place, 'script', Script(lines))
        with making(drawing.path, files, out, True) as made:
            steps = run_steps(drawing.program, drawing.path, files, made, out)
            accepted = [
                it.spelling for step in steps for it, said in zip(step.script.commands, step.answers) if not said.cause
            ]
            call.ask()
            save(drawing, Script(accepted), saved, place)
    return outcome(steps)


def scripts_in(place: Path, name: str, script: Script) -> List[str]:
    """Writes a script as the files that the program reads, and gives their names."""
    names = []
    for index, part in enumerate(script.parts() or [script]):
        file = place / ('%s-%d.txt' % (name, index))
        file.write_bytes(part.text)
        names.append(str(file))
    return names


def save(drawing: Drawing, script: Script, saved: Tuple[str, str], place: Path) -> None:
    """Writes the script, and the patch file of what it does, both or none."""
    script_name, patch_name = saved
    contents: Dict[str, bytes] = {}
    if script_name:
        names = script_names(script, script_name)
        contents.update((name, part.text) for name, part in zip(names, script.parts() or [script]))
    if patch_name:
        contents[patch_name] = packed(drawing.program, drawing.path, script, place)
    if contents:
        write_files(contents, True)


def packed(program: Program, drawing: str, script: Script, place: Path) -> bytes:
    """The patch file of what a script does, all of whose lines are accepted."""
    whole = Patch()
    files = scripts_in(place, 'accepted', script)
    for index, file in enumerate(files):
        patch, out = str(place / ('%d.patch' % index)), str(place / ('%d.dgn' % index))
        program.pack(drawing, file, patch)
        whole.entries += Patch.from_bytes(read_file(patch, PATCH_LONGEST)).entries
        if index + 1 < len(files):
            program.edit(drawing, Script.read(file), out)
            drawing = out
    made = whole.to_bytes()
    if len(made) > PATCH_LONGEST:
        raise Mistake(tr('the patch file would have more than %d bytes') % PATCH_LONGEST)
    return made


def run_patch(call: Call, drawing: Drawing, patch: Patch, saved: str, out: str) -> Made:
    """Puts a patch file on a drawing, and writes it where it is named."""
    if saved:
        ask_target(saved, True)
    with folder() as place:
        file = place / 'patch'
        file.write_bytes(patch.to_bytes())
        with making(drawing.path, [str(file)], out, True) as made:
            steps = run_steps(drawing.program, drawing.path, [str(file)], made, out)
            call.ask()
            if saved:
                write_files({saved: patch.to_bytes()}, True)
    return outcome(steps)
