"""Writing scripts and patch files, whole or not at all, and never over a drawing."""

from __future__ import annotations

import os
import tempfile
from pathlib import Path
from types import MappingProxyType
from typing import List, Mapping, Sequence

from ..drawing.changes import Change
from ..drawing.drawing import Drawing
from ..errors import ListingError
from ..files import read_file
from ..format.patch import Patch
from ..output import counted, few, note, out_name, quoted, say
from ..program.script import Script
from ..saving import Target, write_file, write_files


def patch_of(drawing: Drawing, changes: Sequence[Change]) -> Patch:
    """The patch file of changes, an entry for each that changes a byte."""
    patch = Patch()
    for change in changes:
        patch.add(drawing.body_length, drawing.data, change.edits)
    return patch


def propose_patch(drawing: Drawing, changes: Sequence[Change], words: Sequence[str], target: Target) -> None:
    """Writes a patch file of changes, tries it on the drawing, and says what it does and how it is put on. A dry run
    says it alone."""
    patch = patch_of(drawing, changes)
    if target.is_dry:
        say('%s would change' % counted(len(changes), 'element'))
        for line in words:
            say(line)
        say(
            'nothing is written; without --dry-run the next command is: '
            + next_command(drawing.path, [target.path or 'PATCH'])
        )
        return
    applied(drawing, patch, changes)
    write_file(target.path, patch.to_bytes(), target.may_replace)
    say('%s would change: %s written' % (counted(len(changes), 'element'), target.path))
    say('next: ' + next_command(drawing.path, [target.path]))


def applied(drawing: Drawing, patch: Patch, changes: Sequence[Change]) -> None:
    """Asks the program what it makes of a drawing by a patch file. It raises ListingError where that isn't the drawing
    with these changes and no other byte changed."""
    expected = bytearray(drawing.data)
    for change in changes:
        for place, value in change.edits.items():
            expected[place] = value
    with tempfile.TemporaryDirectory(prefix='dgnkit-') as folder:
        name, out = os.path.join(folder, 'patch'), os.path.join(folder, 'out.dgn')
        Path(name).write_bytes(patch.to_bytes())
        drawing.program.apply(drawing.path, name, out)
        if read_file(out) != expected:
            raise ListingError('dgnedit made another drawing from the patch file than was intended')
        drawing.program.check(out)


def script_names(script: Script, path: str) -> List[str]:
    """What the files of a script are called: FILE, or FILE with -1, -2 .. behind its stem where it takes several."""
    count = len(script.parts())
    place = Path(path)
    names = [str(place.with_name('%s-%d%s' % (place.stem, it, place.suffix))) for it in range(1, count + 1)]
    return names if count > 1 else [path]


def write_script(script: Script, target: Target, imported: Mapping[str, bytes] = MappingProxyType({})) -> List[str]:
    """Writes a script in as many files as the program reads, and the drawings that it imports where they are made for
    it, and gives the names of the script's files."""
    names = script_names(script, target.path)
    contents = {name: part.text for name, part in zip(names, script.parts() or [script])}
    write_files({**imported, **contents}, target.may_replace, imported)
    return names


def next_command(drawing: str, steps: Sequence[str]) -> str:
    """The command that runs scripts and patch files on a drawing, one behind the other."""
    return quoted('dgnkit', 'run', drawing, *steps, out_name(drawing))


def note_left(left: Sequence[tuple[int, str]]) -> None:
    """Says on standard error how many elements are left out, and why: the number of each, and its reason."""
    by_reason: dict[str, List[int]] = {}
    for number, reason in left:
        by_reason.setdefault(reason, []).append(number)
    for reason, numbers in by_reason.items():
        note('left out: %s (%s): %s' % (counted(len(numbers), 'element'), reason, few(numbers)))
