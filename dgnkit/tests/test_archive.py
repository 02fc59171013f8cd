"""`each` over folders, with its journal: what fails is one drawing's matter, and what was stopped goes on."""

from __future__ import annotations

import json
import os
import shutil
import signal
import socket
import subprocess
import sys
import time
import unittest
from pathlib import Path
from typing import Any, Dict, List, Optional

import samples
from samples import drawings, plan

JOURNAL = '.dgnkit-journal.jsonl'
SOURCES = str(samples.TOP / 'dgnkit' / 'src')
V8 = bytes.fromhex('D0CF11E0A1B11AE1') + bytes(600)
LIBRARY = bytes.fromhex('08051700') + bytes(600)
COUNT = 300  # drawings with nothing wrong, beside those that fail
KILLS = b'KILL'  # a text in a drawing, at which the program of these tests is killed


class OverFolders(samples.WithProgram):
    def setUp(self) -> None:
        super().setUp()
        self.tree = self.folder / 'in'
        self.into = self.folder / 'out'
        self.script = self.put('s', 'color 1 3\nmove 2 5 5\n')

    def sheet(self, place: str, seed: int = 7, count: int = 20) -> Path:
        """A drawing in the tree."""
        path = self.tree / place
        path.parent.mkdir(parents=True, exist_ok=True)
        self.gen(seed, count, str(path.relative_to(self.folder)))
        return path

    def each(self, *words: object, status: int = 0) -> str:
        return self.said('each', *words, '--into', self.into, status=status)

    def new(self) -> Dict[str, bytes]:
        """The new drawings."""
        found = (it for it in self.into.rglob('*') if it.is_file() and it.name != JOURNAL)
        return {str(it.relative_to(self.into)): it.read_bytes() for it in found}

    def lines(self, into: Optional[Path] = None) -> List[Dict[str, Any]]:
        """The journal."""
        return [json.loads(it) for it in ((into or self.into) / JOURNAL).read_text().splitlines()]

    def by_hand(self, path: Path) -> bytes:
        """What the program makes of a drawing."""
        self.program.edit(str(path), samples.Script.read(self.script), self.path('by-hand.dgn'))
        return (self.folder / 'by-hand.dgn').read_bytes()

    python = sys.executable

    def begun(self, *words: object, program: str = '') -> subprocess.Popen[bytes]:
        """dgnkit as a process of its own."""
        place = {**os.environ, 'PYTHONPATH': SOURCES, 'DGNEDIT': program or str(samples.PROGRAM)}
        command = [self.python, '-m', 'dgnkit', *map(str, words)]
        return subprocess.Popen(
            command, env=place, stdout=subprocess.PIPE, stderr=subprocess.PIPE, start_new_session=True
        )

    def wrapped(self, code: str) -> str:
        """A program that does something else for some drawings."""
        name = self.put('program', '#!/bin/sh\n%s\nexec "%s" "$@"\n' % (code, samples.PROGRAM))
        os.chmod(name, 0o755)
        return name


class Walks(OverFolders):
    def test_the_same_tree(self) -> None:
        paths = [self.sheet(it, seed) for seed, it in enumerate(['a.dgn', 'b/a.dgn', 'b/c/d', 'z/Straße 1.DGN'])]
        odd = os.fsdecode(os.fsencode(str(self.tree)) + b'/b/\xff.dgn')
        shutil.copy(paths[0], odd)
        (self.tree / 'notes.dgn').write_text('no drawing')
        (self.tree / 'b/v8.dgn').write_bytes(V8)
        (self.tree / 'b/cells.cel').write_bytes(LIBRARY)
        (self.tree / 'empty.dgn').write_bytes(b'')
        (self.tree / 'link.dgn').symlink_to(paths[0])
        (self.tree / 'up').symlink_to(self.folder)
        status, said, err = self.kit('each', self.script, self.tree, '--into', self.into)
        self.assertEqual((status, said), (0, '5 drawings, 0 not written, 0 with refused commands\n'))
        self.assertIn('2 links left out\n', err)
        self.assertIn('4 files left out, no drawings of version 7 (1 cell libraries, 1 of version 8)\n', err)
        wanted = {str(it.relative_to(self.tree)): self.by_hand(it) for it in paths}
        wanted[str(Path(odd).relative_to(self.tree))] = wanted['a.dgn']
        self.assertEqual(self.new(), wanted)
        self.assertEqual([it['drawing'] for it in self.lines()], sorted(wanted))

    def test_the_folder_that_is_written_to(self) -> None:
        self.sheet('a.dgn')
        self.into = self.tree / 'new'
        self.each(self.script, self.tree)
        self.each(self.script, self.tree)
        self.assertEqual(list(self.new()), ['a.dgn'])
        status, _, err = self.kit('each', self.script, self.tree, '--into', self.tree)
        self.assertEqual((status, 'is the folder that is written to' in err), (2, True))

    def test_lists(self) -> None:
        paths = [self.sheet(it, seed) for seed, it in enumerate(['a.dgn', 'b/a.dgn', 'b/new\nline.dgn'])]
        self.addCleanup(os.chdir, os.getcwd())
        os.chdir(self.tree)
        listed = self.put('names', 'a.dgn\nb/a.dgn\r\n')
        self.each(self.script, '--from', listed)
        self.assertEqual(sorted(self.new()), ['a.dgn', 'b/a.dgn'])
        zeros = self.put('zeros', '\0'.join(map(str, paths)) + '\0')
        self.into = self.folder / 'other'
        self.each(self.script, '--from', zeros, '-0')
        self.assertEqual(sorted(self.new()), sorted(str(it)[1:] for it in paths))
        status, _, err = self.kit('each', self.script, '--from', zeros, '--into', self.path('third'))
        self.assertEqual((status, 'read it with -0' in err), (2, True))
        status, _, err = self.kit('each', self.script, 'a.dgn', '--from', listed, '--into', self.path('third'))
        self.assertEqual((status, 'would both be written to a.dgn' in err), (2, True))


class Changes(OverFolders):
    def setUp(self) -> None:
        super().setUp()
        self.tree.mkdir()
        for name in ('plan.dgn', 'street.dgn'):
            shutil.copy(samples.EXAMPLES / name, self.tree / name)

    def test_a_line_for_each_that_is_found(self) -> None:
        self.each(self.tree, '--find=--level 10', '--edit', 'color {n} 3')
        for name in ('plan.dgn', 'street.dgn'):
            script = self.path('made')
            self.kit('find', self.tree / name, '--level', '10', '--script', 'color {n} 3', '-o', script, '--force')
            self.program.edit(str(self.tree / name), samples.Script.read(script), self.path('out.dgn'))
            self.assertEqual((self.into / name).read_bytes(), (self.folder / 'out.dgn').read_bytes())

    def test_proposals_one_after_the_other(self) -> None:
        words = ['--propose', 'relevel --level 10 --to 21', '--propose', 'rename VLV PUMP']
        self.each(self.tree, *words)
        plan_out = samples.Drawing(str(self.into / 'plan.dgn'))
        self.assertEqual({it.cell_name for it in plan_out.elements if it.cell_name}, {'PUMP'} | self.other_cells())
        self.assertNotIn(10, {it.level for it in plan_out.elements})

    def other_cells(self) -> set[str]:
        found = {it.cell_name for it in samples.Drawing(str(self.tree / 'plan.dgn')).elements if it.cell_name}
        return {str(it) for it in found} - {'VLV'}

    def test_what_is_left_out_is_told(self) -> None:
        (self.tree / 'broken.dgn').write_bytes(drawings.DRAWINGS['a complex chain of the line 2, with bit C'])
        self.each(self.tree, '--find=--type 12', '--edit', 'color {n} 3', status=1)
        entry = {it['drawing']: it for it in self.lines()}['broken.dgn']
        self.assertEqual((entry['status'], entry['refused']), (1, 1))
        self.assertIn('left out: 1 element (in a broken tree', entry['answers'][0]['cause'])

    def test_words_that_are_none(self) -> None:
        for words, said in (
            (['--find=--level 10'], '--find needs --edit'),
            (['--edit', 'color {n} 3'], '--edit needs --find'),
            (['--propose', 'page'], '--propose takes'),
            (['--find', '"', '--edit', 'color {n} 3'], 'no closing quotation'),
        ):
            status, out, err = self.kit('each', self.tree, *words, '--into', self.into)
            self.assertEqual((status, out, said in err), (2, '', True), err)
        said = self.each(self.tree, '--find=--no-such', '--edit', 'color {n} 3', status=1)
        self.assertIn('unrecognized arguments: --no-such', said)


class Failures(OverFolders):
    """A folder in which each kind of failure is, and how it is told."""

    def setUp(self) -> None:
        super().setUp()
        self.good = [self.sheet('%d/%d.dgn' % (it % 5, it), it) for it in range(COUNT)]

    def text(self, place: str, characters: bytes) -> Path:
        path = self.tree / place
        path.write_bytes(drawings.drawing(plan.text(1, (0, 0), characters), plan.line(1, (0, 0), (9, 9))))
        return path

    def test_each_kind(self) -> None:
        good = self.good[0].read_bytes()
        (self.tree / 'cut.dgn').write_bytes((samples.EXAMPLES / 'valve.dgn').read_bytes()[:1600])
        self.text('killed.dgn', KILLS)
        (self.tree / 'grows.dgn').write_bytes(good)
        (self.into / 'placed.dgn').mkdir(parents=True)
        (self.tree / 'placed.dgn').write_bytes(good)
        os.mkfifo(self.tree / 'pipe.dgn')
        grow = 'case $2 in *grows.dgn) printf x >>"$2";; esac\n'
        program = self.wrapped(grow + 'if grep -aq %s "$2" 2>/dev/null; then kill -9 $$; fi' % KILLS.decode())
        listed = self.put('names', '%s\n' % self.path('in/nowhere.dgn'))
        words = ['each', self.script, self.tree, '--from', listed, '--into', self.into, '--jobs', '3', '--force']
        shutil.rmtree(self.into / 'placed.dgn')
        (self.into / 'placed.dgn' / 'x').mkdir(parents=True)
        ran = self.begun(*words, program=program)
        out, err = ran.communicate(timeout=300)
        self.assertEqual(ran.returncode, 2, err)
        self.assertIn("placed.dgn can't be written: it is a folder", err.decode())
        shutil.rmtree(self.into / 'placed.dgn')
        ran = self.begun(*words, program=program)
        out, err = ran.communicate(timeout=300)
        self.assertEqual(ran.returncode, 1, err)
        told = {it['drawing']: (it['status'], it['ending']) for it in self.lines()}
        nowhere = self.path('in/nowhere.dgn')[1:]
        self.assertEqual(told.pop(nowhere), (5, 'no such file or directory'))
        self.assertEqual(told.pop('killed.dgn'), (-1, 'dgnedit was stopped by signal 9 (killed)'))
        self.assertEqual(told.pop('grows.dgn'), (-1, 'it was changed while it was read'))
        self.assertEqual(told.pop('placed.dgn')[0], 0)
        status, ending = told.pop('cut.dgn')
        self.assertEqual((status, 'reaches past the end of the file' in ending), (4, True))
        self.assertEqual(set(told.values()), {(0, 'done')})
        self.assertEqual(len(told), COUNT)
        self.assertEqual(sorted(it for it in os.listdir(self.into) if it.startswith('.dgnkit')), [JOURNAL])
        summary = self.said('journal', self.into, status=1)
        self.assertIn('cut.dgn', summary)
        self.assertIn('%d drawings' % (COUNT + 5), summary)

    @unittest.skipUnless(hasattr(os, 'geteuid') and os.geteuid() == 0 and shutil.which('mount'), 'no disk can be made')
    def test_a_full_disk_stops_the_run(self) -> None:
        self.into.mkdir()
        if subprocess.run(['mount', '-t', 'tmpfs', '-o', 'size=64k', 'tmpfs', str(self.into)]).returncode != 0:
            self.skipTest('no disk can be made')
        self.addCleanup(lambda: subprocess.run(['umount', str(self.into)]))
        status, _, err = self.kit('each', self.script, self.tree, '--into', self.into)
        self.assertEqual((status, 'is full: ' in err), (2, True), err)
        entries = [it for it in self.lines() if it['written']]
        self.assertGreater(len(entries), 2)
        self.assertLessEqual({it['drawing'] for it in entries}, {*self.new()})
        for name, content in self.new().items():
            self.assertEqual(content, self.by_hand(self.tree / name))


class Continued(OverFolders):
    def setUp(self) -> None:
        super().setUp()
        for it in range(40):
            self.sheet('%d/%d.dgn' % (it % 4, it), it, 10)
        (self.tree / 'cut.dgn').write_bytes((samples.EXAMPLES / 'valve.dgn').read_bytes()[:1600])

    def without_times(self, into: Path) -> List[Dict[str, Any]]:
        return [{**it, 'seconds': 0} for it in self.lines(into)]

    def test_killed_after_each_tenth(self) -> None:
        whole = self.folder / 'whole'
        self.kit('each', self.script, self.tree, '--into', whole)
        slow = self.wrapped('sleep 0.05')
        for tenth in range(1, 10):
            ran = self.begun('each', self.script, self.tree, '--into', self.into, '--jobs', '2', program=slow)
            until = time.monotonic() + 60
            while time.monotonic() < until and ran.poll() is None and self.count() < tenth * 4:
                time.sleep(0.01)
            os.kill(ran.pid, signal.SIGKILL)
            ran.communicate()
        with open(self.into / JOURNAL, 'ab') as file:
            file.write(b'{"drawing": "3/3')
        self.each(self.script, self.tree, status=1)
        self.assertEqual(self.without_times(self.into), self.without_times(whole))
        trees = [{str(it.relative_to(at)): it.read_bytes() for it in at.rglob('*.dgn')} for at in (self.into, whole)]
        self.assertEqual(*trees)
        self.assertEqual([it for it in os.listdir(self.into) if it.startswith('.dgnkit')], [JOURNAL])

    def count(self) -> int:
        return len((self.into / JOURNAL).read_bytes().splitlines()) if (self.into / JOURNAL).exists() else 0

    def test_a_process_that_is_killed(self) -> None:
        killing = [str(self.sheet(it).relative_to(self.tree)) for it in ('0/kills.dgn', '2/kills.dgn', '3/kills.dgn')]
        program = self.wrapped('case $2 in *kills.dgn) kill -9 $PPID;; esac')
        for jobs in ('1', '3'):
            into = self.folder / jobs
            ran = self.begun('each', self.script, self.tree, '--into', into, '--jobs', jobs, program=program)
            _, err = ran.communicate(timeout=300)
            self.assertEqual((ran.returncode, b'Traceback' in err), (1, False), err)
            told = {it['drawing']: (it['status'], it['ending']) for it in self.lines(into)}
            for place in killing:
                self.assertEqual(told.pop(place), (-1, 'the process that did it was stopped by signal 9'))
            self.assertEqual(told.pop('cut.dgn')[0], 4)
            self.assertEqual((set(told.values()), len(told)), ({(0, 'done')}, 40))

    def test_only_what_changed_is_done_again(self) -> None:
        self.each(self.script, self.tree, status=1)
        before = {it: (self.into / it).stat().st_mtime_ns for it in self.new()}
        self.sheet('0/0.dgn', 99, 11)
        (self.into / '1/1.dgn').unlink()
        status, _, err = self.kit('each', self.script, self.tree, '--into', self.into)
        self.assertIn('39 drawings of an earlier run', err)
        after = {it: (self.into / it).stat().st_mtime_ns for it in self.new()}
        self.assertEqual({it for it in after if after[it] != before.get(it)}, {'0/0.dgn', '1/1.dgn'})
        self.assertEqual((self.into / '0/0.dgn').read_bytes(), self.by_hand(self.tree / '0/0.dgn'))

    def test_what_somebody_has_changed_stays(self) -> None:
        self.each(self.script, self.tree, status=1)
        (self.into / '0/0.dgn').write_bytes(b'edited since')
        self.sheet('0/0.dgn', 99, 11)
        said = self.each(self.script, self.tree, status=1)
        self.assertIn('already exists', said)
        self.assertEqual((self.into / '0/0.dgn').read_bytes(), b'edited since')

    def test_another_script(self) -> None:
        self.each(self.script, self.tree, status=1)
        other = self.put('other', 'color 1 4\n')
        status, _, err = self.kit('each', other, self.tree, '--into', self.into)
        self.assertEqual((status, 'was made by another script' in err), (2, True))
        self.each(other, self.tree, '--anew', status=1)
        self.script = other
        self.assertEqual((self.into / '0/0.dgn').read_bytes(), self.by_hand(self.tree / '0/0.dgn'))

    def test_two_runs_at_once(self) -> None:
        slow = self.wrapped('sleep 1')
        first = self.begun('each', self.script, self.tree, '--into', self.into, '--jobs', '2', program=slow)
        until = time.monotonic() + 60
        while time.monotonic() < until and not (self.into / JOURNAL).exists():
            time.sleep(0.05)
        status, _, err = self.kit('each', self.script, self.tree, '--into', self.into)
        self.assertEqual((status, 'another run of dgnkit writes to' in err), (2, True), err)
        first.send_signal(signal.SIGTERM)
        first.communicate(timeout=60)
        self.assertEqual(first.returncode, 130)
        self.assertEqual([it for it in os.listdir(self.into) if it.startswith('.dgnkit')], [JOURNAL])
        self.each(self.script, self.tree, status=1)

    def test_a_journal_that_is_none(self) -> None:
        self.into.mkdir()
        (self.into / JOURNAL).write_text('{"drawing": "a"}\nnothing\n')
        status, _, err = self.kit('each', self.script, self.tree, '--into', self.into)
        self.assertEqual((status, 'line 2 of' in err), (2, True))
        self.each(self.script, self.tree, '--anew', status=1)
        status, _, err = self.kit('journal', self.folder)
        self.assertEqual((status, 'no such file' in err), (2, True))


def with_engine() -> str:
    """A Python that has the engine; nothing where there is none."""
    for python in (sys.executable, '/usr/bin/python3'):
        asked = [python, '-c', 'import distributed']
        if os.path.exists(python) and subprocess.run(asked, stderr=subprocess.DEVNULL).returncode == 0:
            return python
    return ''


ENGINE = with_engine()


@unittest.skipUnless(ENGINE, 'distributed is not installed')
class OnACluster(OverFolders):
    python = ENGINE

    def setUp(self) -> None:
        super().setUp()
        for it in range(40):
            self.sheet('%d/%d.dgn' % (it % 4, it), it, 10)

    def start(self, *words: str, **more: str) -> subprocess.Popen[bytes]:
        environment = {**os.environ, 'PYTHONPATH': SOURCES, **more}
        process = subprocess.Popen(
            [self.python, '-m', *words],
            env=environment,
            stdout=subprocess.DEVNULL,
            stderr=subprocess.DEVNULL,
            cwd=self.folder,
        )
        self.addCleanup(process.wait)
        self.addCleanup(process.kill)
        return process

    def test_a_worker_that_goes(self) -> None:
        with socket.socket() as free:
            free.bind(('127.0.0.1', 0))
            port = free.getsockname()[1]
        address = 'tcp://127.0.0.1:%d' % port
        self.start('distributed.cli.dask_scheduler', '--host', '127.0.0.1', '--port', str(port), '--no-dashboard')
        slow = self.wrapped('sleep 0.1')
        workers = [
            self.start('distributed.cli.dask_worker', address, '--nthreads', '1', '--no-nanny', '--no-dashboard')
            for _ in range(2)
        ]
        time.sleep(5)
        run = self.begun('each', self.script, self.tree, '--into', self.into, '--scheduler', address, program=slow)
        time.sleep(3)
        workers[0].kill()
        out, err = run.communicate(timeout=120)
        self.assertEqual((run.returncode, out), (0, b'40 drawings, 0 not written, 0 with refused commands\n'), err)
        for name, content in self.new().items():
            self.assertEqual(content, self.by_hand(self.tree / name))

    def test_workers_without_dgnkit(self) -> None:
        with socket.socket() as free:
            free.bind(('127.0.0.1', 0))
            port = free.getsockname()[1]
        address = 'tcp://127.0.0.1:%d' % port
        self.start('distributed.cli.dask_scheduler', '--host', '127.0.0.1', '--port', str(port), '--no-dashboard')
        front = ['distributed.cli.dask_worker', address, '--nthreads', '1', '--no-nanny', '--no-dashboard']
        self.start(*front, PYTHONPATH='')
        time.sleep(5)
        run = self.begun('each', self.script, self.tree, '--into', self.into, '--scheduler', address)
        out, err = run.communicate(timeout=120)
        said = err.decode().splitlines()[-1]
        self.assertEqual((run.returncode, out, b'Traceback' in err), (2, b'', False), err)
        self.assertIn("the scheduler's workers can't do it", said)

    def test_no_scheduler(self) -> None:
        run = self.begun('each', self.script, self.tree, '--into', self.into, '--scheduler', 'tcp://127.0.0.1:1')
        out, err = run.communicate(timeout=120)
        self.assertEqual((run.returncode, out, b"can't be reached" in err, err.count(b'\n')), (2, b'', True, 1), err)


if __name__ == '__main__':
    unittest.main()
