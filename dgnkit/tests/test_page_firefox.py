"""The app in Firefox, opened from disk: it edits, and what it makes is the program's file. Skipped where there is no
Firefox."""

from __future__ import annotations

import base64
import os
import subprocess
import sys
import time
import unittest
from pathlib import Path
from unittest import mock

import firefox
from app import HAS_PROGRAM, NO_PROGRAM, made_app
from samples import EXAMPLES, PROGRAM, WithProgram

# Waits until the page's script has run, and gives its answers and the bytes that it made.
MADE = '''
const done = arguments[arguments.length - 1];
const look = () => {
    const { page } = window.wrappedJSObject || window, work = page && page.work;
    if (!work || work.isDoing || work.document === null || work.document.answers.length < 5) {
        setTimeout(look, 50);
        return;
    }
    let text = '';
    for (const byte of work.document.made.bytes) {
        text += String.fromCharCode(byte);
    }
    done([document.title, work.document.answers.filter((it) => it !== null && it.cause !== null).length, btoa(text)]);
};
look();
'''


def setUpModule() -> None:
    if not firefox.COMMAND:
        print('the page is not tested in Firefox: there is no firefox-esr', file=sys.stderr)


@unittest.skipUnless(firefox.COMMAND, 'no firefox-esr')
@unittest.skipUnless(HAS_PROGRAM, NO_PROGRAM)
class InFirefox(WithProgram):
    def test_a_script_makes_what_the_program_makes(self) -> None:
        assert PROGRAM
        drawing, script, made = str(EXAMPLES / 'plan.dgn'), str(EXAMPLES / 'plan.txt'), self.path('made.dgn')
        with mock.patch.dict(os.environ, {'DGNEDIT_APP': str(made_app(self.path('')))}):
            self.said('page', drawing, '--script', script, '-o', self.path('page.html'))
        subprocess.run([str(PROGRAM), 'edit', drawing, script, made], check=True, stdout=subprocess.DEVNULL)
        with firefox.firefox() as seen:
            seen.open(self.path('page.html'))
            title, refused, content = seen.run(MADE)
        self.assertEqual((title, refused), ('plan.dgn – 12 elements', 0))
        self.assertEqual(base64.b64decode(content), Path(made).read_bytes())

    def test_a_drawing_is_opened_edited_kept_and_saved(self) -> None:
        assert PROGRAM
        drawing, made = self.example('plan.dgn'), self.path('made.dgn')
        app, lines = made_app(self.path('')), ['color 5 1', 'move 6 10 10']
        script = self.put('script.txt', ''.join(line + '\n' for line in lines))
        subprocess.run([PROGRAM, 'edit', drawing, script, made], check=True, stdout=subprocess.DEVNULL)
        with firefox.firefox(self.path('')) as seen:
            seen.open(str(app))
            seen.wait('document.documentElement.dataset.started')
            seen.type('#open-file', drawing)
            seen.wait("page.drawing !== null && page.drawing.name === 'plan.dgn' && !page.work.isDoing")
            seen.click('#tab-script')
            for count, line in enumerate(lines, 1):
                seen.type('#typed', line)
                seen.click('#typed-add')
                seen.wait('page.work.document.lines.length === %d && !page.work.isDoing' % count)
            seen.run("Object.defineProperty(page.work, 'losesByLeaving', { value: false }); arguments[0]()")
            seen.open(str(app))
            seen.wait('document.documentElement.dataset.started')
            seen.type('#open-file', drawing)
            seen.wait("document.getElementById('asking') !== null")
            seen.click('#asking-buttons button')
            seen.wait('page.work.document.lines.length === 2 && !page.work.isDoing')
            seen.click('#undo')
            seen.wait('page.work.document.lines.length === 1 && !page.work.isDoing')
            seen.click('#redo')
            seen.wait('page.work.document.lines.length === 2 && !page.work.isDoing')
            seen.click('#save')
            seen.wait("document.querySelector('#confirms button') !== null")
            saved = Path(self.path('plan-new.dgn'))
            until = time.monotonic() + 20
            while not (saved.exists() and saved.stat().st_size) and time.monotonic() < until:
                time.sleep(0.05)
            seen.click('#confirms button')
            seen.wait('!page.work.losesByLeaving && !page.work.isDoing')
        self.assertEqual(saved.read_bytes(), Path(made).read_bytes())


if __name__ == '__main__':
    unittest.main()
