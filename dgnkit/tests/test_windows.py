"""Each command does on Windows what it does elsewhere, as far as this can be tried without Windows (as_windows.py): by
the program of the other tests, or by the one that $DGNEDIT_EXE names."""

from __future__ import annotations

import os
import shutil
import subprocess
import sys
import unittest
from pathlib import Path
from typing import Dict, Tuple

import samples
from samples import drawings, plan

Ran = Tuple[int, bytes, str, Dict[str, bytes]]  # status, what is said, the errors, and the files that there are

COMMANDS = """
info a.dgn --lengths
info a.dgn --fonts
health a.dgn broken.dgn --frame 0,0 9,9
find a.dgn --numbers n.csv --csv
find a.dgn --text ROAD|HOUSE
find b.dgn --deleted --inside -5,-5 500,500 --json
find a.dgn --level 10 --script 'color {n} 3'
find u.dgn --text Straße
diff a.dgn b.dgn
diff a.dgn b.dgn --script -o new.txt
why a.dgn s.txt
why a.dgn s.txt new.dgn
script --numbers n.csv 'color {n} 3' --drawing a.dgn -o new.txt
place a.dgn VLV p.csv -o new.txt
place b.dgn VLV p.csv --from a.dgn -o new.txt
merge a.dgn b.dgn -o old.txt --force
draw a.dgn p.csv
text a.dgn 5,5 AB --height 60 -o new.txt
mend broken.dgn new.patch
relevel a.dgn p.patch --to 7 --level 10 --force
retext a.dgn new.patch HOUSE ROOMS
retext a.dgn new.patch 'H(O+)USE' 'R\\1M' --regex
undelete b.dgn new.patch --number 2
lock a.dgn new.patch --level 10
unlock a.dgn new.patch --level 10
rename a.dgn new.patch VLV PUMP
run a.dgn s.txt new.dgn
run a.dgn p.patch s.txt old.txt --force
run a.dgn s.txt b.dgn
each s.txt a.dgn b.dgn --into new
each s.txt a.dgn b.dgn --into new --jobs 1
split a.dgn --by cell new
purge b.dgn new.dgn
clip a.dgn --inside 0,0 1000,1000
geojson a.dgn
page a.dgn --script s.txt -o page.html
help refused
completion bash
--version
"""


JOURNAL = '.dgnkit-journal.jsonl'


@unittest.skipUnless(samples.PROGRAM, 'dgnedit is not built')
class OnWindows(samples.WithProgram):
    def setUp(self) -> None:
        super().setUp()
        self.programs = self.folder / 'programs'
        self.programs.mkdir()
        beside = self.programs / 'dgnedit.exe'
        beside.write_text('#!/bin/sh\nexec "%s" "$@"\n' % os.environ.get('DGNEDIT_EXE', samples.PROGRAM))
        beside.chmod(0o755)
        self.temporary = self.folder / 'tmp'
        self.temporary.mkdir()
        gone = drawings.deleted(drawings.line())
        self.before: Dict[str, bytes] = {
            'a.dgn': (samples.EXAMPLES / 'plan.dgn').read_bytes(),
            'b.dgn': drawings.drawing(plan.line(1, (0, 0), (9, 9)), gone),
            'b c.dgn': (samples.EXAMPLES / 'valve.dgn').read_bytes(),
            'u.dgn': drawings.drawing(plan.text(5, (0, 0), 'Straße'.encode('latin-1'))),
            'broken.dgn': drawings.DRAWINGS['a complex chain of the line 2, with bit C'],
            's.txt': b'color 5 3\nmove 6 1 1\ncolor 99 1\n',
            'n.csv': b'number\n5\n6\n',
            'p.csv': b'x,y,text,height\n1,2,AB,60\n3,4,CD,60\n',
            'old.txt': b'an older script\n',
        }

    def ran(self, command: str, *words: str) -> Ran:
        """Runs a command in a folder of its own, and takes the folder away."""
        work = self.folder / 'work'
        work.mkdir()
        for name, content in self.before.items():
            (work / name).write_bytes(content)
        self.program.run('pack', str(work / 'a.dgn'), str(work / 's.txt'), str(work / 'p.patch'))
        more = {
            'TMPDIR': str(self.temporary),
            'DGNKIT_FOLDER': str(self.programs),
            'PYTHONPATH': str(samples.TOP / 'dgnkit/src'),
        }
        environment = {name: it for name, it in os.environ.items() if name != 'DGNEDIT'}
        if words[0] == '-m':
            environment['DGNEDIT'] = samples.PROGRAM or ''
        shell = '%s %s %s' % (sys.executable, ' '.join(words), command)
        ended = subprocess.run(['sh', '-c', shell], cwd=work, env={**environment, **more}, capture_output=True)
        there = (it for it in work.rglob('*') if it.is_file() and it.name != JOURNAL)  # that has times
        made = {str(it.relative_to(work)): it.read_bytes() for it in there}
        shutil.rmtree(work)
        return ended.returncode, ended.stdout, samples.without_progress(ended.stderr.decode()), made

    def test_commands(self) -> None:
        for command in COMMANDS.split('\n')[1:-1]:
            with self.subTest(command=command):
                here = self.ran(command, '-m', 'dgnkit')
                there = self.ran(command, str(Path(__file__).with_name('as_windows.py')))
                self.assertNotIn('Traceback', there[2])
                self.assertEqual(there, here)
                left = [it for it in self.temporary.iterdir() if not it.name.startswith('wine-')]
                self.assertEqual(left, [])

    def test_names_with_blanks(self) -> None:
        ran = self.ran("merge a.dgn 'b c.dgn'", str(Path(__file__).with_name('as_windows.py')))
        self.assertEqual(ran[:2], (2, b''))
        self.assertIn('as from copy "b c.dgn" b_c.dgn\n', ran[2])


if __name__ == '__main__':
    unittest.main()
