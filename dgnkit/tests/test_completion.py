"""`dgnkit completion` and `dgnkit help`: what a shell completes, and what is explained."""

import contextlib
import io
import shutil
import subprocess
import unittest
from pathlib import Path
from typing import List, Tuple
from unittest import mock

from samples import cli

BASH, ZSH = shutil.which('bash'), shutil.which('zsh')


def said(*words: str) -> Tuple[int, str, str]:
    """How a command ends, and what it says."""
    out, err = io.StringIO(), io.StringIO()
    with contextlib.redirect_stdout(out), contextlib.redirect_stderr(err):
        status = cli.main(words)
    return status, out.getvalue(), err.getvalue()


class Completion(unittest.TestCase):
    def completed(self, *words: str) -> List[str]:
        """What bash proposes for the last of these words."""
        script = said('completion', 'bash')[1]
        script += 'COMP_WORDS=("$@"); COMP_CWORD=$(($# - 1)); _dgnkit; printf "%s\\n" "${COMPREPLY[@]}"'
        ran = subprocess.run([str(BASH), '-c', script, 'bash', *words], stdout=subprocess.PIPE, text=True, check=True)
        return ran.stdout.split()

    @unittest.skipIf(BASH is None, 'bash is not installed')
    def test_commands_options_and_values(self) -> None:
        self.assertEqual(self.completed('dgnkit', 'un'), ['unlock', 'undelete'])
        self.assertEqual(self.completed('dgnkit', 'diff', 'a.dgn', '--s'), ['--script'])
        self.assertEqual(self.completed('dgnkit', 'find', 'a.dgn', '--units', 'm'), ['master'])
        self.assertEqual(self.completed('dgnkit', 'help', 'wh'), ['why'])
        self.assertEqual(self.completed('dgnkit', 'find', 'a'), [])  # which leaves it to bash, that proposes files

    @unittest.skipIf(ZSH is None, 'zsh is not installed')
    def test_zsh_reads_its_script(self) -> None:
        script = said('completion', 'zsh')[1]
        subprocess.run([str(ZSH), '-n'], input=script, text=True, check=True)

    def test_each_command_is_in_both(self) -> None:
        for shell, form in (('bash', '        %s) options='), ('zsh', '        %s) _arguments ')):
            script = said('completion', shell)[1]
            for name in cli.module_names():
                self.assertIn(form % name, script)

    def test_help(self) -> None:
        self.assertEqual(said('help', 'why'), said('why', '--help'))
        self.assertTrue(said('help')[1].startswith(said('--help')[1]))
        status, out, err = said('help', 'wy')
        self.assertEqual((status, out, err), (2, '', "dgnkit: there is no command 'wy': `dgnkit help` lists all\n"))

    def test_the_manual(self) -> None:
        with mock.patch('webbrowser.open', return_value=True) as opened:
            with mock.patch('dgnkit.commands.help.manual_place', return_value=Path('/doc/dgnedit-manual.html')):
                self.assertIn('manual: /doc/dgnedit-manual.html;', said('help')[1])
                self.assertEqual(said('help', '--manual'), (0, '/doc/dgnedit-manual.html: opened in a browser\n', ''))
            with mock.patch('dgnkit.commands.help.manual_place', return_value=None):
                status, out, err = said('help', '--manual')
                self.assertEqual((status, out), (2, ''))
                self.assertIn("dgnedit-manual.html isn't here", err)
        opened.assert_called_once_with('file:///doc/dgnedit-manual.html')


if __name__ == '__main__':
    unittest.main()
