"""The app dgnedit.html with a drawing in it."""

from __future__ import annotations

import base64
import gzip
import html
import os
import sys
from pathlib import Path
from typing import Iterator, List, Optional, Tuple

from ..errors import Mistake
from ..files import read_file

NAME = 'dgnedit.html'
MANUAL = 'dgnedit-manual.html'
APP_MARK = '<meta name="generator" content="dgnedit">'
PAGE_MARK = '<meta name="generator" content="dgnkit page">'
APP_TITLE = '<title>dgnedit</title>'
SLOT = '<!-- a drawing stands here -->'
LONGEST_LINE = 20000

Part = Tuple[str, str, bytes]  # what it is for, as `drawing`, the name of its file, and its bytes


def app_places() -> Iterator[Path]:
    """Where the app may be: named by $DGNEDIT_APP, beside an installed dgnkit, or made by `make web` in the sources."""
    named = os.environ.get('DGNEDIT_APP')
    if named:
        yield Path(named)
        return
    beside = Path(sys.argv[0]).resolve().parent
    yield beside / NAME
    yield beside.parent / 'share' / 'dgnedit' / NAME
    yield Path(__file__).resolve().parents[4] / 'dist' / NAME


def manual_place() -> Optional[Path]:
    """Where the manual is: beside an installed dgnkit, among the documents, or made by `make manual` in the sources."""
    beside = Path(sys.argv[0]).resolve().parent
    documents = beside.parent / 'share' / 'doc' / 'dgnedit'
    made = Path(__file__).resolve().parents[4] / 'dist'
    return next((it / MANUAL for it in (beside, documents, made) if (it / MANUAL).is_file()), None)


def app_place() -> Path:
    """Where the app is. It raises Mistake where there is none."""
    for place in app_places():
        if place.is_file():
            return place
    raise Mistake("%s wasn't found: name it with $DGNEDIT_APP, or make it with `make web`" % NAME)


def page_of(title: str, parts: List[Part]) -> str:
    """The app with these files in it. It raises Mistake where there is no app, or where it is none."""
    text = read_file(app_place()).decode('utf-8')
    if not all(text.count(it) == 1 for it in (APP_MARK, APP_TITLE, SLOT)):
        raise Mistake("%s isn't the app that belongs to this dgnkit" % NAME)
    text = text.replace(APP_MARK, PAGE_MARK).replace(APP_TITLE, '<title>%s</title>' % html.escape(title))
    return text.replace(SLOT, ''.join(part_of(*it) for it in parts))


def part_of(use: str, name: str, content: bytes) -> str:
    """A file as a part of the page that is no program for the browser: base64 of its gzip, in lines."""
    packed = base64.b64encode(gzip.compress(content, 6, mtime=0)).decode('ascii')
    lines = '\n'.join(packed[at : at + LONGEST_LINE] for at in range(0, len(packed), LONGEST_LINE))
    return '<script type="text/plain" id="%s-part" data-name="%s">%s</script>\n' % (use, html.escape(name), lines)
