"""Messages in plain English: none of dgnkit or of the page in a browser has words that only the proofs use, or that
read as a translation."""

from __future__ import annotations

import ast
import re
import unittest
from pathlib import Path
from typing import Iterator, Tuple

from samples import TOP

NOT_PLAIN = re.compile(
    r'\b(desk|stands?|behind|signs?|can not|could not|does not|is no|are no|none takes|go(es)? along|takes in|put on|'
    r'one behind|in the midst|asks for|wants?)\b'
)
PLAIN = re.compile(r'(there is no|there are no|<!-- a drawing stands here -->|end_mark behind deleted)')
IN_SCRIPT = re.compile(r"'((?:[^'\\\n]|\\.)*)'")


def texts_of(path: Path) -> Iterator[Tuple[int, str]]:
    """The texts of a module, but those that say what it is for, each with its line."""
    tree = ast.parse(path.read_text(encoding='utf-8'))
    comments = {id(it.value) for it in ast.walk(tree) if isinstance(it, ast.Expr)}
    for it in ast.walk(tree):
        if isinstance(it, ast.Constant) and isinstance(it.value, str) and id(it) not in comments:
            yield it.lineno, it.value


def texts_in_script(path: Path) -> Iterator[Tuple[int, str]]:
    """The same of a module of the page."""
    text = re.sub(r'/\*.*?\*/', lambda it: '\n' * it[0].count('\n'), path.read_text(encoding='utf-8'), flags=re.DOTALL)
    for number, line in enumerate(text.split('\n'), 1):
        for found in IN_SCRIPT.finditer(line.split(' // ')[0]):
            yield number, found[1]


class Words(unittest.TestCase):
    def texts(self) -> Iterator[Tuple[str, str]]:
        for path in sorted((TOP / 'dgnkit' / 'src').rglob('*.py')):
            for line, text in texts_of(path):
                yield '%s:%d' % (path.relative_to(TOP), line), text
        for path in sorted((TOP / 'web').glob('*.js')):
            for line, text in texts_in_script(path):
                yield '%s:%d' % (path.relative_to(TOP), line), text

    def test_no_message_reads_as_a_translation(self) -> None:
        said = [(place, text) for place, text in self.texts() if ' ' in text]
        found = [(place, text) for place, text in said if NOT_PLAIN.search(PLAIN.sub('', text))]
        self.assertEqual(found, [])

    def test_messages_are_found(self) -> None:
        said = [text for _, text in self.texts()]
        for message in ("%r isn't a command", 'No differences.'):
            self.assertIn(message, said)


if __name__ == '__main__':
    unittest.main()
