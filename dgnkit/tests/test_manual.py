"""The manual as a reader has it: its links, its search by keyboard alone, both grounds, paper, and out of the app."""

from __future__ import annotations

import base64
import contextlib
import re
import shutil
import subprocess
import sys
import tempfile
import unittest
from pathlib import Path
from typing import ClassVar, List

from app import FORGET, made_app
from browser import MISSING, Browser, browser
from samples import TOP
from test_page_access import CONTRASTS

CONVERTER = shutil.which('pandoc')
LEAST_CONTRAST = 4.5
# What is of another width than its place has, or reaches beyond the page, once it is laid out for paper.
CUT = """
const cut = [];
for (const it of document.querySelectorAll('main *')) {
    const box = it.getBoundingClientRect();
    if (box.width > 0 && box.right > document.documentElement.clientWidth + 1) cut.push(it.textContent.slice(0, 60));
    const isBox = ['PRE', 'TABLE'].includes(it.tagName);
    if (isBox && it.scrollWidth > it.clientWidth + 1) cut.push(it.textContent.slice(0, 60));
}
return cut;
"""
# The links that lead nowhere, and how many there are.
LINKS = """
const links = [...document.querySelectorAll('a[href^="#"]')].map((it) => it.getAttribute('href').slice(1));
return [links.length, links.filter((it) => document.getElementById(decodeURIComponent(it)) === null)];
"""
LINES = "return [...document.querySelectorAll('pre code')].flatMap((it) => it.textContent.split('\\n'))"
PAPER = {'paperWidth': 8.27, 'paperHeight': 11.69, 'preferCSSPageSize': True, 'printBackground': True}


@unittest.skipIf(MISSING, MISSING or '')
@unittest.skipUnless(CONVERTER, 'no manual: pandoc is not installed')
class Manual(unittest.TestCase):
    folder: ClassVar[str]
    seen: ClassVar[Browser]

    @classmethod
    def setUpClass(cls) -> None:
        cls.folder = tempfile.mkdtemp(prefix='dgnkit-manual-')
        cls.addClassCleanup(shutil.rmtree, cls.folder)
        subprocess.run([sys.executable, str(TOP / 'tools' / 'make_manual'), cls.folder + '/manual.html'], check=True)
        held = contextlib.ExitStack()
        cls.seen = held.enter_context(browser(cls.folder))
        cls.addClassCleanup(held.close)

    def setUp(self) -> None:
        self.seen.open(self.folder + '/manual.html')

    def tearDown(self) -> None:
        self.assertEqual(self.seen.complaints(), [])

    def focused(self) -> str:
        return str(self.seen.run('return document.activeElement.id'))

    def results(self) -> List[str]:
        return list(self.seen.run("return [...document.querySelectorAll('#found a')].map((it) => it.textContent)"))

    def test_every_link_leads_somewhere(self) -> None:
        count, lost = self.seen.run(LINKS)
        self.assertGreater(count, 300)
        self.assertEqual(lost, [])
        ids = self.seen.run("return [...document.querySelectorAll('[id]')].map((it) => it.id)")
        self.assertEqual(len(set(ids)), len(ids))
        self.seen.run("document.querySelector('main a[href=\"#EDITING.md#refusals\"]').click()")
        self.seen.wait("Math.abs(document.getElementById('EDITING.md#refusals').getBoundingClientRect().top) < 60")

    def test_nothing_is_loaded(self) -> None:
        text = Path(self.folder, 'manual.html').read_text(encoding='utf-8')
        self.assertEqual(re.findall(r'(?:src|srcset)="(?!data:)[^"]*"', text), [])
        self.assertIn("default-src 'none'", text)

    def test_search_by_keyboard_alone(self) -> None:
        self.seen.key('/', *'refused broken')
        self.assertEqual(self.focused(), 'field')
        self.assertIn('Editing a design file: Refusals', self.results()[0])
        self.seen.key('ArrowDown', 'ArrowDown', 'ArrowUp', 'Enter')
        self.assertEqual(self.focused(), 'EDITING.md#refusals')
        self.assertEqual(self.seen.run('return location.hash'), '#EDITING.md#refusals')
        told = "return [...CSS.highlights.get('found')].map((it) => [it.toString(), it.getBoundingClientRect().top])"
        [[words, top]] = self.seen.run(told)
        self.assertEqual(words.lower(), 'refused broken')
        self.assertTrue(0 < top < self.seen.run('return innerHeight'))
        self.seen.key('/', 'Escape')
        self.assertEqual(self.results(), [])
        self.seen.key(*'zzzz')
        self.assertEqual(self.seen.text('#count'), 'Nothing was found.')

    def test_both_grounds_can_be_read(self) -> None:
        grounds = set()
        for _ in range(2):
            self.seen.click('#ground')
            grounds.add(self.seen.run('return getComputedStyle(document.body).backgroundColor'))
            poor = [it for it in self.seen.run(CONTRASTS) if it[0] < LEAST_CONTRAST]
            self.assertEqual(poor, [])
        self.assertEqual(len(grounds), 2)

    def test_nothing_is_cut_on_paper(self) -> None:
        self.seen.command('Emulation.setEmulatedMedia', media='print')
        self.seen.command(
            'Emulation.setDeviceMetricsOverride', width=680, height=1000, deviceScaleFactor=1, mobile=False
        )
        self.assertEqual(self.seen.run(CUT), [])
        self.seen.command('Emulation.clearDeviceMetricsOverride')
        self.seen.command('Emulation.setEmulatedMedia', media='')
        paper = base64.b64decode(self.seen.command('Page.printToPDF', **PAPER)['data'])
        self.assertTrue(paper.startswith(b'%PDF'))
        if shutil.which('pdftotext') is None:
            self.skipTest('no pdftotext (poppler-utils), so the lines on paper are not read')
        ran = subprocess.run(['pdftotext', '-raw', '-', '-'], input=paper, capture_output=True, check=True)
        told = re.sub(r'\s|\f', '', ran.stdout.decode('utf-8'))
        lost = [it for it in self.seen.run(LINES) if re.sub(r'\s', '', it) not in told]
        self.assertEqual(lost, [])

    def test_out_of_the_app(self) -> None:
        self.seen.run_slowly(FORGET)
        self.seen.open(str(made_app(self.folder, 'manual.html')))
        [first] = self.seen.windows()
        self.seen.key('F1')
        self.seen.wait("document.getElementById('help-dialog').open")
        self.seen.key('Enter')
        self.seen.wait("performance.now() > 0")
        [other] = set(self.waited_windows()) - {first}
        self.seen.go_to(other)
        self.seen.wait('document.documentElement.dataset.started')
        self.seen.key('/', *'refused broken')
        self.assertIn('Refusals', self.results()[0])
        self.assertEqual(self.seen.complaints(), [])
        self.seen.run('window.close()')
        self.seen.go_to(first)
        self.seen.click('#help-example')
        self.seen.wait("page.drawing !== null && page.drawing.name === 'town.dgn'")

    def waited_windows(self) -> List[str]:
        for _ in range(500):
            found = self.seen.windows()
            if len(found) > 1:
                return found
        raise AssertionError('no second window was opened')


if __name__ == '__main__':
    unittest.main()
