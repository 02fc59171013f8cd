"""Scripts of a line for each chosen element. The program is asked which it would refuse, and these are left out."""

from __future__ import annotations

import os
import tempfile
from dataclasses import dataclass, field
from types import MappingProxyType
from typing import Iterable, List, Mapping, Sequence, Tuple

from ..drawing.drawing import Drawing
from ..errors import BadScript, Mistake
from ..explain.members import parts_said
from ..explain.wording import command_said
from ..output import counted, few, note, say, say_raw
from ..program.script import Script
from ..saving import Target
from .templates import line_of, template_of
from .writing import next_command, note_left, script_names, write_script

LINE_HELP = 'write this line of a script for each, with {n} for its number and {2.5} for 2.5 master units'
REASONS = {
    'broken': 'in a broken tree; `dgnkit mend` may mend it',
    'locked': 'locked, or its header or a member is; `dgnkit unlock` unlocks',
    'deleted': 'marked deleted, or its header is',
    'floating': "of a type that can't be moved or copied, or with such a member",
    'opaque': "of a type that this command can't edit, or with such a member",
    'off-plane': 'it would leave the design plane',
    'too-long': 'the drawing would be too long',
    'unknown': 'there is no such element',
}
TOLD = 8  # so many trees with chosen members are told
BELOW = 'a member of another one that is chosen, and changes with it'


@dataclass
class Proposal:
    """A script, the elements that it names, those that are left out with the reason, and those that go along though
    they weren't chosen."""

    script: Script = field(default_factory=Script)
    named: List[int] = field(default_factory=list)
    left: List[Tuple[int, str]] = field(default_factory=list)
    along: List[int] = field(default_factory=list)
    members: List[str] = field(default_factory=list)

    def tell_members(self, drawing: Drawing, chosen: Sequence[int]) -> None:
        """Lets it say which of the chosen elements are members of trees whose header wasn't chosen."""
        named = set(self.named)
        whole = [it for it in chosen if it not in named and drawing.nesting.roots[it] in named]
        alone = [it for it in chosen if it in named and drawing.nesting.parents[it] >= 0]
        below = set(chosen)
        self.along = [it for it in self.along if it not in below]
        parts = [it for it in whole if drawing.nesting.roots[it] not in below]
        self.members += [
            it + ', and the whole tree is edited (--members edits only the members)' for it in _parts(drawing, parts)
        ]
        self.members += [it + ', and the rest of its tree stays' for it in _parts(drawing, alone)]


def _parts(drawing: Drawing, numbers: Sequence[int]) -> List[str]:
    return parts_said(drawing, numbers, TOLD)


def propose(drawing: Drawing, numbers: Sequence[int], template: str) -> Proposal:
    """A line for each element, but not for those below another chosen one, nor for those that the program refuses."""
    made = Proposal()
    tops = topmost(drawing, numbers, made)
    ready = template_of(template, drawing.units)
    lines = [line_of(ready, it) for it in tops]
    for number, line, cause in zip(tops, lines, causes(drawing, lines)):
        if cause:
            word = cause.split(' ')[0]
            made.left.append((number, REASONS.get(word, 'dgnedit answers %r' % cause)))
        else:
            made.named.append(number)
            made.script.add(line)
    chosen = set(numbers)
    made.along = [it for number in made.named for it in drawing.nesting.part(number) if it not in chosen]
    return made


def topmost(drawing: Drawing, numbers: Sequence[int], made: Proposal) -> List[int]:
    """Those that stand below no other one; the others are left out, since an edit of that one takes them along."""
    tops: List[int] = []
    end = 0
    for number in sorted(numbers):
        if number < end:
            made.left.append((number, BELOW))
        else:
            tops.append(number)
            end = drawing.nesting.part(number).stop
    return tops


def causes(drawing: Drawing, lines: Sequence[bytes]) -> List[str]:
    """Why the program refuses each line when all are run in their order, or nothing. It raises Mistake where a line is
    none of a script."""
    parts = Script(lines).parts()
    made: List[str] = []
    with tempfile.TemporaryDirectory(prefix='dgnkit-') as folder:
        name = drawing.path
        for index, part in enumerate(parts):
            out = os.devnull if index == len(parts) - 1 else os.path.join(folder, '%d.dgn' % index)
            try:
                answers = drawing.program.edit(name, part, out)
            except BadScript as why:
                raise Mistake("%r isn't a command of a script" % part.lines[why.line - 1].decode('utf-8', 'replace'))
            made.extend(it.cause or '' for it in answers)
            name = out
    if len(made) != len(lines):
        raise Mistake('the line for each element has to be one command, not a comment')
    return made


def note_proposal(drawing: Drawing, made: Proposal) -> None:
    """Says on standard error what is left out and why, and what goes along."""
    note_left(made.left)
    for said in made.members:
        note(said)
    if made.along:
        header = 'its header' if len(made.along) == 1 else 'their headers'
        note('%s would change with %s: %s' % (counted(len(made.along), 'member'), header, few(made.along)))


def give_proposal(drawing: Drawing, made: Proposal, target: Target) -> None:
    """Gives the script of a proposal, and says what is left out of it."""
    note_proposal(drawing, made)
    words = (command_said(drawing, it.text) for it in made.script.commands)
    give_script(drawing.path, made.script, words, target)


def give_script(
    drawing: str,
    script: Script,
    words: Iterable[str],
    target: Target,
    imported: Mapping[str, bytes] = MappingProxyType({}),
) -> None:
    """Writes a script, with the drawings that are made for it, or says it where no file is named; a dry run says its
    edits in words. What is to be run next is said at the end."""
    names = script_names(script, target.path or 'SCRIPT')
    if target.is_dry:
        for line in words:
            say(line)
        say('nothing is written; without --dry-run the next command is: ' + next_command(drawing, names))
    elif target.path:
        write_script(script, target, imported)
        for name, content in imported.items():
            say('%s: %s written, which the script imports' % (counted(len(content), 'byte'), name))
        say('%s: %s written' % (counted(len(script.commands), 'command'), ', '.join(names)))
        say('next: ' + next_command(drawing, names))
    elif len(names) > 1 or not script.text.isascii():
        why = 'is longer than dgnedit reads' if len(names) > 1 else 'has characters beyond ASCII'
        raise Mistake('the script %s: name a file for it with -o' % why)
    else:
        for command in script.lines:
            say_raw(command.decode('ascii'))
        note('next: ' + next_command(drawing, names))
