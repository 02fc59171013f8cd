"""`dgnkit open IN`: opens a drawing in the app, in the browser that the system has set."""

from __future__ import annotations

import argparse
import tempfile
import webbrowser
from pathlib import Path
from typing import TYPE_CHECKING

from ..output import say
from ..page.app import app_place
from ..saving import write_file
from .page import page_text

if TYPE_CHECKING:
    from ..cli import Subparsers

ABOUT = """Opens a drawing in a browser, in the app dgnedit.html; without IN it opens the app alone. The page is written
to a temporary folder and kept there, since the browser may need it later. IN is read, and never written."""


def register(words: Subparsers) -> None:
    parser = words.add_parser('open', help='open a drawing in a browser', description=ABOUT)
    parser.add_argument('drawing', metavar='IN', nargs='?', help='the drawing')
    parser.set_defaults(run=run)


def run(arguments: argparse.Namespace) -> int:
    """Has the browser open the page, and says where it stands; 1 where there is no browser."""
    place = page_of_drawing(arguments.drawing) if arguments.drawing else app_place()
    is_open = webbrowser.open(place.resolve().as_uri())
    say('%s: %s' % (place, 'opened in a browser' if is_open else 'no browser was found; open it in one'))
    return 0 if is_open else 1


def page_of_drawing(name: str) -> Path:
    """Writes the page of a drawing in a folder of its own, and gives its place."""
    text = page_text(name)
    place = Path(tempfile.mkdtemp(prefix='dgnkit-open-')) / (Path(name).stem + '.html')
    write_file(place, text.encode('utf-8'), False)
    return place
