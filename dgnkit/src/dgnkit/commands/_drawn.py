"""What `draw` and `text` share: their options, and what they give."""

from __future__ import annotations

import argparse
from pathlib import Path
from typing import Optional

from ..drawing.drawing import Drawing
from ..errors import Mistake
from ..format.places import Scale
from ..output import counted, note, say, say_raw
from ..propose.appending import Appender, Appending
from ..propose.wishes import LETTERING, LOOKS, Defaults, Wish
from ..propose.writing import next_command, script_names
from ..saving import write_files
from ._options import add_dry_run, add_output


def add_looks(parser: argparse.ArgumentParser) -> None:
    """Adds the options of what is drawn."""
    parser.add_argument('--level', metavar='LV', default='1', help="the level, if a row doesn't give one")
    parser.add_argument('--color', '--colour', metavar='C', default='0', help='the colour')
    parser.add_argument('--weight', metavar='W', default='0', help='the weight')
    parser.add_argument('--style', metavar='S', default='0', help='the style')
    parser.add_argument('--height', metavar='H', default='', help='the height of texts')
    parser.add_argument('--angle', metavar='DEGREES', default='0', help='the rotation of texts, anticlockwise')
    parser.add_argument('--font', metavar='F', default='1', help='the font of texts')
    parser.add_argument('--justification', metavar='J', default='0', help='the justification of texts')
    parser.add_argument(
        '--encoding', default='', help='the encoding of characters beyond ASCII, such as utf-8 or latin-1'
    )
    parser.add_argument(
        '--units', choices=('auto', 'master', 'resolution'), default='auto', help='the units of positions and heights'
    )
    add_output(parser)
    add_dry_run(parser)


def defaults_of(arguments: argparse.Namespace, kind: str) -> Defaults:
    """What holds where a row doesn't say it."""
    look = {name: str(getattr(arguments, name)) for name in LOOKS}
    lettering = {name: str(getattr(arguments, name)) for name in LETTERING}
    return Defaults(kind, look, arguments.height, arguments.angle, lettering)


def give(drawing: Drawing, scale: Scale, wishes: list[Wish], arguments: argparse.Namespace, cuts: bool) -> None:
    """Gives the script, and the patch file behind it, which is called as the script is, with .patch."""
    made = Appender(drawing, scale, cuts, arguments.encoding).appending(wishes)
    names = script_names(made.script, arguments.output or 'SCRIPT')
    patch = patch_name(arguments.output or 'SCRIPT') if made.patch is not None else None
    steps = [*names, *([patch] if patch else [])]
    if arguments.dry_run:
        for line in made.words:
            say(line)
        say('nothing is written; without --dry-run the next command is: ' + next_command(drawing.path, steps))
    elif arguments.output:
        write_both(made, names, patch, arguments.force)
        say('%s: %s written' % (counted(len(made.script.commands), 'command'), ', '.join(names)))
        if made.patch is not None:
            say('%s: %s written' % (counted(len(made.patch.entries), 'entry', 'entries'), patch))
        say('next: ' + next_command(drawing.path, steps))
    else:
        give_lines(made, names)


def write_both(made: Appending, names: list[str], patch: Optional[str], may_replace: bool) -> None:
    """Writes the script, in as many files as the program reads, and the patch file."""
    contents = {name: part.text for name, part in zip(names, made.script.parts())}
    if patch is not None and made.patch is not None:
        contents[patch] = made.patch.to_bytes()
    write_files(contents, may_replace)


def patch_name(script: str) -> str:
    """What the patch file behind a script is called."""
    return str(Path(script).with_suffix('.patch'))


def give_lines(made: Appending, names: list[str]) -> None:
    """Says the script on standard output, where it can be said."""
    if len(names) > 1 or not made.script.text.isascii():
        raise Mistake('the script is long or has characters beyond ASCII: name a file for it with -o')
    for line in made.script.lines:
        say_raw(line.decode('ascii'))
    if made.patch is not None:
        note("texts aren't rotated and their ranges are points; with -o a patch file rotates them and sets the ranges")
