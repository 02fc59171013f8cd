#!/usr/bin/env python3
"""Makes the two pictures of the page that the documents show.

    dgnkit/tests/page_pictures.py FOLDER

Into FOLDER, docs for instance, it writes page-plan.png, the example plan while it is edited, and page-compare.png,
what examples/plan.txt makes of it beside what it was. It wants dist/dgnedit.wasm, and a browser, as the tests of the
page do."""

from __future__ import annotations

import contextlib
import io
import os
import subprocess
import sys
import tempfile
from pathlib import Path
from typing import List, Tuple

from app import FORGET, made_app
from browser import MISSING, Browser, browser
from samples import EXAMPLES, PROGRAM, cli

SIZE = (1280, 960)
FENCE = [(700, 800), (2700, 800), (2700, 2300), (700, 2300)]


def make_page(folder: str, *words: str) -> str:
    """A page of the example plan, whose names are those of a user who works in its folder."""
    page, here = os.path.join(folder, 'page.html'), os.getcwd()
    os.chdir(EXAMPLES)
    try:
        with contextlib.redirect_stdout(io.StringIO()):
            cli.main(['page', 'plan.dgn', *words, '-o', page])
    finally:
        os.chdir(here)
    return page


def screen(seen: Browser, x: float, y: float) -> Tuple[float, float]:
    """Where a place of the drawing is seen."""
    left, top = seen.run(
        'const box = document.getElementById("marks").getBoundingClientRect();'
        'return [box.left + page.view.toScreenX(arguments[0]), box.top + page.view.toScreenY(arguments[1])];',
        x,
        y,
    )
    return left, top


def open_on(seen: Browser, page: str, ground: str) -> None:
    seen.run_slowly(FORGET)
    seen.open(page)
    if seen.run('return page.stage.ground') != ground:
        seen.click('#ground')
    seen.settle()


def plan_picture(seen: Browser, folder: str) -> bytes:
    """The plan: a valve is moved by a line of the script, a fence is drawn around the house, the pipe is pointed at."""
    open_on(seen, make_page(folder), 'light')
    seen.drag(screen(seen, 980, 520))
    seen.type('#by-x', '1000')
    seen.type('#by-y', '75')
    seen.click('#edit-move')
    seen.settle()
    seen.click('#tools [data-tool=fence]')
    for corner in FENCE:
        seen.drag(screen(seen, *corner))
    seen.key('Enter')
    seen.settle()
    seen.run('document.activeElement.blur()')
    seen.hover(screen(seen, 3500, 525))
    seen.settle()
    return seen.screenshot()


def compare_picture(seen: Browser, folder: str) -> bytes:
    """What examples/plan.txt makes of the plan: the change of the valve is chosen."""
    after = os.path.join(folder, 'plan-out.dgn')
    words = [str(PROGRAM), 'edit', str(EXAMPLES / 'plan.dgn'), str(EXAMPLES / 'plan.txt'), after]
    subprocess.run(words, stdout=subprocess.DEVNULL, check=True)
    open_on(seen, make_page(folder, '--after', after), 'dark')
    seen.click('#changes li:last-child .entry')
    seen.run('document.activeElement.blur(); page.stage.fit()')
    seen.settle()
    return seen.screenshot()


PICTURES = {'page-plan.png': plan_picture, 'page-compare.png': compare_picture}


def main(words: List[str]) -> int:
    if len(words) != 1 or MISSING:
        print(MISSING or __doc__, file=sys.stderr)
        return 2
    with tempfile.TemporaryDirectory(prefix='dgnkit-pictures-') as folder, browser(folder, *SIZE) as seen:
        os.environ['DGNEDIT_APP'] = str(made_app(folder))
        for name, picture in PICTURES.items():
            Path(words[0], name).write_bytes(picture(seen, folder))
    return 0


if __name__ == '__main__':
    sys.exit(main(sys.argv[1:]))
