"""The app for the tests: it is made of web/ once, with the program in it where its module is there."""

from __future__ import annotations

import contextlib
import json
import os
import shutil
import subprocess
import sys
import tempfile
import time
import unittest
from pathlib import Path
from typing import ClassVar, List, Tuple

import browser as browsers
from browser import Browser, browser
from samples import PROGRAM, TOP, WithProgram

MODULE = TOP / 'dist' / 'dgnedit.wasm'

# Forgets what is open and what the browser keeps, so that the next page is the first one.
FORGET = '''
const done = arguments[arguments.length - 1];
if (window.page && page.work) {
    Object.defineProperty(page.work, 'losesByLeaving', { value: false });
    const { store } = page.work.around;
    store.all().then((all) => Promise.all(all.map(({ id }) => store.remove(id)))).then(done, done);
} else {
    done();
}
'''
HOSTILE = '</script><script>document.title = "taken"</script><img src=x onerror=alert(1)>'
IS_ASKED = "document.getElementById('asking') !== null"
MISSING = browsers.MISSING
HAS_PROGRAM = MODULE.is_file()
NO_PROGRAM = 'dist/dgnedit.wasm is not made'


def made_app(folder: str, manual: str = 'none.html') -> Path:
    """The app, made anew in a folder, with the manual of that name in it where it is there."""
    place = Path(folder) / 'dgnedit.html'
    words = ['--manual', str(Path(folder) / manual), *([] if HAS_PROGRAM else ['--without-program'])]
    subprocess.run([sys.executable, str(TOP / 'tools' / 'make_app'), '-o', str(place), *words], check=True)
    return place


@unittest.skipIf(MISSING, MISSING or '')
class WithBrowser(WithProgram):
    """A test with a browser, which all tests of a class share."""

    seen: ClassVar[Browser]
    saved: ClassVar[str]
    app: ClassVar[Path]
    scripts: ClassVar[int] = 6 if HAS_PROGRAM else 4  # scripts of a page with a drawing, its data among them

    @classmethod
    def setUpClass(cls) -> None:
        cls.saved = tempfile.mkdtemp(prefix='dgnkit-saved-')
        cls.addClassCleanup(shutil.rmtree, cls.saved)
        cls.app = made_app(cls.saved)
        os.environ['DGNEDIT_APP'] = str(cls.app)
        if PROGRAM:
            held = contextlib.ExitStack()
            cls.seen = held.enter_context(browser(cls.saved))
            cls.addClassCleanup(held.close)

    def page(self, drawing: str, *words: str) -> str:
        """Makes a page, opens it, and gives its path."""
        made = self.path('page.html')
        self.said('page', drawing, *words, '-o', made)
        self.leave()
        self.seen.open(made)
        self.seen.settle()
        self.assertEqual(self.seen.complaints(), [])
        return made

    def open(self, drawing: str) -> None:
        """Opens the app, and a drawing in it as a user does by its button."""
        self.leave()
        self.seen.open(str(self.app))
        self.choose(drawing)

    def choose(self, drawing: str) -> None:
        self.seen.choose_file('#open-file', drawing)
        self.seen.wait('page.drawing !== null && page.drawing.name === %s' % json.dumps(os.path.basename(drawing)))
        self.seen.settle()

    def leave(self) -> None:
        """Leaves a page whatever isn't saved, and forgets what the browser keeps."""
        self.seen.run_slowly(FORGET)

    def tearDown(self) -> None:
        self.assertEqual(self.seen.complaints(), [])

    def screen(self, x: float, y: float) -> Tuple[float, float]:
        """Where a place of the drawing is seen."""
        left, top, right, down = self.seen.run(
            "const box = document.getElementById('marks').getBoundingClientRect();"
            'return [box.left, box.top, page.view.toScreenX(arguments[0]), page.view.toScreenY(arguments[1])];',
            x,
            y,
        )
        return left + right, top + down

    def click_at(self, x: float, y: float) -> None:
        self.seen.drag(self.screen(x, y))
        self.seen.settle()

    def dot(self, x: float, y: float, canvas: str = 'drawing') -> List[int]:
        """The strongest dot of a canvas within two pixels of a place of the drawing: red, green, blue, alpha."""
        self.seen.settle()
        return list(
            self.seen.run(
                'const context = document.getElementById(arguments[0]).getContext("2d");'
                'const left = Math.round(page.view.toScreenX(arguments[1])) - 2;'
                'const top = Math.round(page.view.toScreenY(arguments[2])) - 2;'
                'const dots = context.getImageData(left, top, 5, 5).data; let best = [0, 0, 0, 0];'
                'for (let at = 0; at < dots.length; at += 4)'
                '  if (dots[at + 3] > best[3]) best = [...dots.slice(at, at + 4)];'
                'return best;',
                canvas,
                x,
                y,
            )
        )

    def number(self) -> str:
        """The number of the chosen element, as its panel has it."""
        return self.seen.text('#element-title').lower()

    def script_lines(self) -> List[str]:
        return list(self.seen.run("return [...document.querySelectorAll('#script code')].map((it) => it.textContent)"))

    def answers(self) -> List[str]:
        return list(
            self.seen.run("return [...document.querySelectorAll('#script .answer')].map((it) => it.textContent)")
        )

    def do(self, css: str) -> None:
        """Clicks, and waits until what it does is done."""
        self.seen.click(css)
        self.seen.settle()

    def more(self, name: str) -> None:
        """Does what stands in the menu."""
        self.seen.run("document.getElementById('more').open = true")
        self.do('#' + name)

    def dialog(self, name: str) -> str:
        """Presses a button of the dialog, and gives what was said there."""
        said = self.asked()
        self.seen.run(
            "[...document.querySelectorAll('#asking-buttons button')]"
            '.find((it) => it.textContent === arguments[0]).click()',
            name,
        )
        self.seen.settle()
        return said

    def asked(self) -> str:
        """The question that is open."""
        self.seen.wait(IS_ASKED)
        return self.seen.text('#asking')

    def is_asked(self) -> bool:
        return bool(self.seen.run('return ' + IS_ASKED))

    def confirm(self) -> None:
        """Says that what was saved last is there."""
        self.seen.wait("document.querySelector('#confirms button') !== null")
        self.do('#confirms button')

    def notice(self) -> str:
        self.seen.wait("!document.getElementById('notice').hidden")
        return self.seen.text('#notice')

    def saved_file(self, name: str) -> str:
        """A file that the browser has saved, once it is there."""
        path = os.path.join(self.saved, name)
        end = time.monotonic() + 10
        while not os.path.exists(path) and time.monotonic() < end:
            time.sleep(0.05)
        return str(shutil.move(path, self.path(name)))
