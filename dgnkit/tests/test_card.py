"""The quick card of tools/make_card: each command is on it with an example that runs, and it prints on two pages."""

from __future__ import annotations

import html
import re
import shutil
import subprocess
import unittest

from samples import EXAMPLES, WithProgram

import card
from dgnkit.program.grammar import FORMS, OWN_FORMS, fault_of

CHROMIUM = shutil.which('chromium') or shutil.which('chromium-browser')
PAGE = re.compile(rb'/Type /Page\b')


class Card(WithProgram):
    def setUp(self) -> None:
        super().setUp()
        self.text = card.card('1.2.3')

    def rows(self) -> list[list[str]]:
        """The rows of the table of commands, without marks: forms, what it does, an example."""
        table = self.text.partition('Commands of a script')[2].partition('</table>')[0]
        rows = [re.findall(r'<td>(.*?)</td>', row) for row in re.findall(r'<tr>(.*?)</tr>', table)]
        return [[html.unescape(re.sub(r'<[^>]*>', ' ', it)).strip() for it in row] for row in rows]

    def test_each_command_is_there_once(self) -> None:
        self.assertEqual(sorted(row[0].split()[0] for row in self.rows()), sorted([*FORMS, *OWN_FORMS]))

    def test_each_example_is_of_its_command(self) -> None:
        for form, does, example in self.rows():
            with self.subTest(form):
                self.assertEqual(example.split()[0], form.split()[0])
                self.assertTrue(does)
                self.assertIsNone(fault_of(example.encode('ascii')))

    def test_the_program_takes_all_examples(self) -> None:
        lines = [row[2].replace('examples/valve.dgn', str(EXAMPLES / 'valve.dgn')) for row in self.rows()]
        script = self.put('card.txt', ''.join(line + '\n' for line in lines))
        ran = self.program.run('edit', str(EXAMPLES / 'valve.dgn'), script, '/dev/null')
        self.assertIn(ran.status, (0, 1), ran.said)

    def test_it_names_the_version(self) -> None:
        self.assertIn('version 1.2.3', self.text)

    def test_endings_and_refusals(self) -> None:
        for said in (
            'refused no-fence',
            'refused broken m',
            'bad script line K',
            'pack IN SCRIPT PATCH',
            '-2147483648',
        ):
            self.assertIn(said, self.text)

    @unittest.skipIf(CHROMIUM is None, 'chromium is not installed')
    def test_it_prints_on_two_pages(self) -> None:
        page, made = self.put('card.html', self.text), self.path('card.pdf')
        flags = ['--headless', '--no-sandbox', '--disable-gpu', '--no-pdf-header-footer']
        folder = '--user-data-dir=' + self.path('profile')
        words = [str(CHROMIUM), *flags, folder, '--print-to-pdf=' + made, page]
        subprocess.run(words, stdout=subprocess.DEVNULL, stderr=subprocess.DEVNULL, check=True, timeout=120)
        with open(made, 'rb') as file:
            self.assertEqual(len(PAGE.findall(file.read())), 2)


if __name__ == '__main__':
    unittest.main()
