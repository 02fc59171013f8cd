"""A text that is typed into the app is written as the drawing's own texts are, as `dgnkit` does it."""

from __future__ import annotations

import sys
import unittest
from typing import Dict, List, Optional, Tuple

from app import HAS_PROGRAM, MISSING, NO_PROGRAM
from samples import drawings, plan
from test_page_editing import WithEditor

from dgnkit.propose.field_edits import encoding_of

LATIN, UTF8 = 'Brücke'.encode('latin-1'), 'Brücke'.encode('utf-8')


def setUpModule() -> None:
    if not MISSING and not HAS_PROGRAM:
        print('new texts in the page are not tested: ' + NO_PROGRAM, file=sys.stderr)


def texts(*characters: bytes) -> bytes:
    """A drawing with these texts, and a line that gives it a size."""
    made = [plan.text(1, (2000 * it, 1000), words) for it, words in enumerate(characters)]
    return drawings.drawing(plan.line(1, (0, 0), (4000, 3000)), *made)


# The texts of a drawing, and the encoding of the first one with signs beyond ASCII.
DRAWINGS: Dict[str, Tuple[bytes, Optional[str]]] = {
    'Latin-1': (texts(b'bridge', LATIN), 'latin-1'),
    'UTF-8': (texts(b'bridge', UTF8), 'utf-8'),
    'Latin-1 before UTF-8': (texts(LATIN, UTF8), 'latin-1'),
    'UTF-8 before Latin-1': (texts(UTF8, LATIN), 'utf-8'),
    'none': (texts(b'bridge'), None),
}


class Umlauts(WithEditor):
    def write(self, words: str) -> List[str]:
        """Types a text at a place, and gives the lines of the script."""
        self.tool('text')
        self.seen.type('#make-words', words)
        self.seen.type('#make-height', '100')
        self.click_at(1000, 2000)
        self.seen.settle()
        return list(self.seen.run('return page.work.document.lines'))

    def test_a_new_text_is_spelled_as_the_others_are(self) -> None:
        for name, (file, encoding) in DRAWINGS.items():
            with self.subTest(name):
                self.assertEqual(encoding_of(self.opened(file).elements), encoding, 'dgnkit has the same')
                made = self.put('umlauts.dgn', file)
                self.open(made)
                (line,) = self.write('Größe 7')
                spelled = 'Größe 7'.encode(encoding or 'latin-1')
                self.assertEqual(line.encode('latin-1').split(b' ', 10)[-1], spelled)
                self.assertIn(spelled, self.saved_drawing(made))
                self.assertIn('Größe 7', self.seen.run("return document.querySelector('#script code').textContent"))

    def test_what_latin_1_does_not_have_is_told(self) -> None:
        for name in ('Latin-1', 'none'):
            self.open(self.put('umlauts.dgn', DRAWINGS[name][0]))
            self.assertEqual(self.write('5 € für Ω'), [])
            said = self.notice()
            self.assertIn('‘€’, ‘Ω’', said)
            self.assertIn('Latin-1', said)
            self.assertEqual(len(self.write('5 für O')), 1)

    def test_utf_8_has_every_sign(self) -> None:
        self.open(self.put('umlauts.dgn', DRAWINGS['UTF-8'][0]))
        (line,) = self.write('5 € für Ω')
        self.assertTrue(line.encode('latin-1').endswith('5 € für Ω'.encode('utf-8')))


if __name__ == '__main__':
    unittest.main()
