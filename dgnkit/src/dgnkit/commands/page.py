"""`dgnkit page IN`: the app as one HTML file with a drawing in it, alone or beside what became of it."""

from __future__ import annotations

import argparse
import os
from pathlib import Path
from typing import TYPE_CHECKING, List, Optional

from ..drawing.drawing import Drawing
from ..errors import Mistake
from ..files import front_of, note_inputs, read_file, said_name
from ..output import say
from ..page.app import PAGE_MARK, Part, page_of
from ..saving import ask_target, write_file
from ._options import add_force

if TYPE_CHECKING:
    from ..cli import Subparsers

ABOUT = """Writes one HTML file that a browser opens from disk: the app dgnedit.html with the drawing in it, to look at,
edit and save. With --after it shows what differs in another drawing; with --script it runs a script on it."""


def register(words: Subparsers) -> None:
    parser = words.add_parser('page', help='write a drawing as a page for a browser', description=ABOUT)
    parser.add_argument('drawing', metavar='IN', help='the drawing')
    other = parser.add_mutually_exclusive_group()
    other.add_argument('--after', metavar='OUT', help='another drawing to compare it with')
    other.add_argument('--script', metavar='SCRIPT', help='a script that the page runs when it is opened')
    parser.add_argument(
        '-o', '--output', metavar='PAGE', help="the page; otherwise IN's name with .html, in the current folder"
    )
    add_force(parser)
    parser.set_defaults(run=run)


def run(arguments: argparse.Namespace) -> int:
    """Writes the page, and says its name and how large it is. A page that this command wrote may be replaced."""
    place = Path(arguments.output or Path(arguments.drawing).stem + '.html')
    may_replace = arguments.force or is_page(place)
    note_inputs(it for it in (arguments.drawing, arguments.after, arguments.script) if it)
    ask_target(place, may_replace)
    text = page_text(arguments.drawing, arguments.after, arguments.script)
    write_file(place, text.encode('utf-8'), may_replace)
    say('%s: %d bytes; open it in a browser' % (place, place.stat().st_size))
    return 0


def page_text(name: str, after: Optional[str] = None, script: Optional[str] = None) -> str:
    """The page of a drawing. It raises Mistake or BadDesign where one of the files isn't what it should be."""
    drawing = Drawing(name)
    count = drawing.program.check(name)
    title = '%s – %d element%s' % (os.path.basename(name), count, '' if count == 1 else 's')
    parts: List[Part] = [('drawing', os.path.basename(name), drawing.data)]
    if after:
        other = Drawing(after, drawing.program)
        drawing.program.check(after)
        if drawing.axes != other.axes:
            raise Mistake('%s has %d dimensions, and %s has %d' % (name, drawing.axes, after, other.axes))
        parts.append(('after', os.path.basename(after), other.data))
    if script:
        parts.append(('script', os.path.basename(said_name(script)), read_file(script)))
    return page_of(title, parts)


def is_page(place: Path) -> bool:
    """Whether a file is a page that this command wrote."""
    return place.is_file() and PAGE_MARK.encode('ascii') in front_of(place, 4096)
