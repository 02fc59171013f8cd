"""`each`: one script or patch file over many drawings, and nothing half written left."""

import json
import os
import signal
import subprocess
import sys
import time
from typing import List

import samples


JOURNAL = '.dgnkit-journal.jsonl'


class Each(samples.WithProgram):
    def setUp(self) -> None:
        super().setUp()
        (self.folder / 'in').mkdir()
        self.names = [self.gen(it, 20, 'in/%d.dgn' % it) for it in range(6)]
        self.script = self.put('s', 'color 1 3\nmove 2 5 5\n')
        self.into = self.path('out')

    def written(self) -> List[str]:
        return sorted(it.name for it in (self.folder / 'out').iterdir() if it.name != JOURNAL)

    def test_each_drawing_is_what_the_program_makes_of_it(self) -> None:
        for jobs in (1, 3):
            said = self.said('each', self.script, *self.names, '--into', self.into, '--jobs', jobs, '--force')
            self.assertEqual(self.written(), ['%d.dgn' % it for it in range(6)])
            for name in self.names:
                self.program.edit(name, samples.Script.read(self.script), self.path('by-hand.dgn'))
                made = self.folder / 'out' / os.path.basename(name)
                self.assertEqual(made.read_bytes(), (self.folder / 'by-hand.dgn').read_bytes())
            self.assertEqual(said.count('done'), 6)

    def test_endings_and_refusals_are_told(self) -> None:
        cut = self.put('cut.dgn', (samples.EXAMPLES / 'valve.dgn').read_bytes()[:1600])
        status, said, _ = self.kit(
            'each', self.script, self.names[0], cut, self.example('plan.dgn'), '--into', self.into, '--json'
        )
        told = json.loads(said)
        self.assertEqual((status, [it['status'] for it in told]), (1, [0, 4, 1]))
        self.assertEqual([it['refused'] for it in told], [0, 0, 1])
        self.assertIn('at byte 1588 reaches past the end of the file', told[1]['ending'])
        self.assertEqual(self.written(), ['0.dgn', 'plan.dgn'])

    def test_a_patch_file(self) -> None:
        valve, plan_file = self.example('valve.dgn'), self.example('plan.dgn')
        self.program.run('pack', valve, self.script, self.path('p'))
        status, said, _ = self.kit('each', self.path('p'), valve, plan_file, '--into', self.into, '--json')
        self.assertEqual((status, [it['status'] for it in json.loads(said)]), (1, [0, 11]))
        self.assertEqual(self.written(), ['valve.dgn'])

    def test_a_bad_script_writes_nothing(self) -> None:
        status, said, _ = self.kit('each', self.put('bad', 'colour 1\n'), *self.names, '--into', self.into)
        self.assertEqual((status, said.count('line 1 of the script is bad')), (1, 6))
        self.assertEqual(self.written(), [])

    def test_progress_stands_on_standard_error(self) -> None:
        _, _, err = self.kit('each', self.script, *self.names, '--into', self.into)
        self.assertIn('6 of 6', err)

    def test_what_can_not_be_done_is_one_line_and_2(self) -> None:
        other = self.gen(1, 3, '0.dgn')
        wrong: List[List[object]] = [
            [self.path('none'), *self.names],
            [self.script, self.names[0], other],
            [self.script, *self.names, '--jobs', 0],
        ]
        for words in wrong:
            status, out, err = self.kit('each', *words, '--into', self.into)
            self.assertEqual((status, out, err.count('\n')), (2, '', 1), words)
        status, _, err = self.kit('each', self.script, self.names[0], '--into', self.path('in'), '--force')
        self.assertEqual((status, 'name another folder' in err), (2, True))
        (self.folder / 'other').mkdir()
        self.put('other/0.dgn', 'of somebody else')
        status, _, err = self.kit('each', self.script, self.names[0], '--into', self.path('other'))
        self.assertEqual((status, '--force' in err), (2, True))

    def test_the_script_is_not_written_over(self) -> None:
        (self.folder / 'out').mkdir()
        script = self.put('out/0.dgn', 'color 1 3\n')
        status, _, err = self.kit('each', script, self.names[0], '--into', self.into, '--force')
        self.assertEqual((status, "is an input, and isn't overwritten" in err), (2, True))
        self.assertEqual((self.folder / 'out/0.dgn').read_text(), 'color 1 3\n')

    def test_nothing_is_left_where_it_is_stopped(self) -> None:
        # a program that writes half a drawing and then sleeps stands for one that is at work
        slow = self.put('slow', '#!/bin/sh\nprintf half > "$4"\nexec sleep 60\n')
        os.chmod(slow, 0o755)
        command = [sys.executable, '-m', 'dgnkit', 'each', self.script, *self.names, '--into', self.into, '--jobs', '3']
        place = {**os.environ, 'DGNEDIT': slow, 'PYTHONPATH': str(samples.TOP / 'dgnkit' / 'src')}
        child = subprocess.Popen(command, env=place, stdout=subprocess.DEVNULL, stderr=subprocess.DEVNULL)
        for _ in range(1200):
            time.sleep(0.05)
            if len(list((self.folder).glob('out/.dgnkit-*/*'))) == 3:
                break
        child.send_signal(signal.SIGTERM)
        self.assertEqual(child.wait(timeout=60), 130)
        self.assertEqual(self.written(), [])
