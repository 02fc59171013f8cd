"""Each call that opens, reads, writes, replaces or starts something fails in turn, in each command: then the command
ends with one line and the status 2, or as if nothing had failed, and no file is half written or left behind."""

from __future__ import annotations

import builtins
import errno
import io
import json
import os
import subprocess
import tempfile
import unittest
from typing import Any, Callable, Dict, List, Tuple
from unittest import mock

import samples
from samples import drawings, plan

Ran = Tuple[int, str, str]
JOURNAL = '.dgnkit-journal.jsonl'


class Calls:
    """Counts calls, of which one fails."""

    def __init__(self, failing: int) -> None:
        self.failing, self.count = failing, 0

    def call(self) -> None:
        """A call."""
        self.count += 1
        if self.count == self.failing:
            raise OSError(errno.EIO, 'Input/output error')

    def counted(self, function: Callable[..., Any]) -> Callable[..., Any]:
        """The same function, whose calls are counted."""

        def call(*words: Any, **more: Any) -> Any:
            self.call()
            return function(*words, **more)

        return call

    def opener(self, function: Callable[..., Any]) -> Callable[..., Any]:
        """What opens files whose reads and writes are counted too."""

        def call(*words: Any, **more: Any) -> Any:
            self.call()
            return File(function(*words, **more), self)

        return call


class File:
    """An open file, whose reads and writes are counted."""

    def __init__(self, file: Any, calls: Calls) -> None:
        self.file, self.calls = file, calls

    def __getattr__(self, name: str) -> Any:
        found = getattr(self.file, name)
        return self.calls.counted(found) if name in ('read', 'write', 'writelines') else found

    def __enter__(self) -> File:
        self.file.__enter__()
        return self

    def __exit__(self, *words: Any) -> Any:
        return self.file.__exit__(*words)

    def __iter__(self) -> Any:
        return iter(self.file)


class FailingCalls(samples.WithProgram):
    def setUp(self) -> None:
        super().setUp()
        self.work = self.folder / 'work'
        self.work.mkdir()
        self.temporary = self.folder / 'tmp'
        self.temporary.mkdir()
        self.addCleanup(os.chdir, os.getcwd())
        os.chdir(self.work)
        self.addCleanup(setattr, tempfile, 'tempdir', tempfile.tempdir)
        tempfile.tempdir = str(self.temporary)
        broken = drawings.DRAWINGS['a complex chain of the line 2, with bit C']
        gone = drawings.deleted(drawings.line())
        self.before: Dict[str, bytes] = {
            'a.dgn': (samples.EXAMPLES / 'plan.dgn').read_bytes(),
            'b.dgn': drawings.drawing(plan.line(1, (0, 0), (9, 9)), gone),
            'broken.dgn': broken,
            's.txt': b'color 5 3\nmove 6 1 1\ncolor 99 1\n',
            'n.csv': b'number\n5\n6\n',
            'p.csv': b'x,y,text,height\n1,2,AB,60\n3,4,CD,60\n',
            'old.txt': b'an older script\n',
        }
        self.put_back()
        self.program.run('pack', 'a.dgn', 's.txt', 'p.patch')
        self.before['p.patch'] = (self.work / 'p.patch').read_bytes()

    def put_back(self) -> None:
        """Makes the folder what it was."""
        for place in sorted(self.work.rglob('*'), reverse=True):
            place.rmdir() if place.is_dir() else place.unlink()
        for name, content in self.before.items():
            (self.work / name).write_bytes(content)

    def files(self) -> Dict[str, bytes]:
        found = {it: it.read_bytes() for it in self.work.rglob('*') if it.is_file()}
        for it in found:
            if it.name == JOURNAL:  # that has times, and says what is done so far
                self.assertTrue(all(map(json.loads, found[it].splitlines())))
        return {str(it.relative_to(self.work)): content for it, content in found.items() if it.name != JOURNAL}

    def run_with(self, calls: Calls, words: List[str]) -> Ran:
        """Runs a command, of whose calls one fails."""
        patches = [
            mock.patch.object(os, name, calls.counted(getattr(os, name)))
            for name in ('replace', 'link', 'mkdir', 'fsync')
        ]
        patches += [mock.patch.object(os, 'open', self.making(calls, os.open))]
        patches += [mock.patch.object(subprocess, 'Popen', self.popen(calls))]
        patches += [mock.patch.object(it, 'open', calls.opener(io.open)) for it in (builtins, io)]
        for it in patches:
            it.start()
        try:
            return self.kit(*words)
        finally:
            for it in patches:
                it.stop()

    def making(self, calls: Calls, function: Callable[..., Any]) -> Callable[..., Any]:
        """What opens a file of the system's, which is a call where it makes one; a folder is opened to be removed."""
        counted = calls.counted(function)
        return lambda *words, **more: (counted if words[1] & os.O_CREAT else function)(*words, **more)

    def popen(self, calls: Calls) -> Any:
        """What starts a program, which is a call too."""
        kind = subprocess.Popen

        class Popen(kind):  # type: ignore[valid-type, misc]
            def __init__(self, *words: Any, **more: Any) -> None:
                calls.call()
                with mock.patch.object(io, 'open', open_of_python):
                    super().__init__(*words, **more)

        return Popen

    def fail_each(self, *words: str) -> None:
        """Runs a command as often as it has calls."""
        calls = Calls(0)
        good, made = self.run_with(calls, list(words)), self.files()
        self.put_back()
        self.assertGreater(calls.count, 2)
        for failing in range(1, calls.count + 1):
            with self.subTest(words=words, failing=failing):
                ran, there = self.run_with(Calls(failing), list(words)), self.files()
                self.put_back()
                self.judge(ran, good)
                self.assertEqual(list(self.temporary.iterdir()), [])
                for name in {*there, *self.before}:
                    self.assertIn(there.get(name), (self.before.get(name), made.get(name)), name)

    def judge(self, ran: Ran, good: Ran) -> None:
        """How a run has to end."""
        self.assertNotIn('Traceback', ran[2])
        self.assertNotIn('fault of dgnkit', ran[2])
        if ran[0] != good[0] or ran[1] != good[1]:
            self.assertIn(ran[0], (1, 2), ran)
            self.assertTrue(ran[2] or ran[0] == 1, ran)

    def test_looking(self) -> None:
        self.fail_each('info', 'a.dgn', '--lengths')
        self.fail_each('health', 'a.dgn', 'broken.dgn', '--frame', '0,0', '9,9')
        self.fail_each('find', 'a.dgn', '--numbers', 'n.csv', '--csv')
        self.fail_each('find', 'b.dgn', '--deleted', '--inside', '-5,-5', '500,500', '--json')
        self.fail_each('diff', 'a.dgn', 'b.dgn')
        self.fail_each('why', 'a.dgn', 's.txt')

    def test_scripts(self) -> None:
        self.fail_each('find', 'a.dgn', '--level', '10', '--script', 'color {n} 3', '-o', 'old.txt', '--force')
        self.fail_each('script', '--numbers', 'n.csv', 'color {n} 3', '--drawing', 'a.dgn', '-o', 'new.txt')
        self.fail_each('place', 'a.dgn', 'VLV', 'p.csv', '-o', 'new.txt')
        self.fail_each('place', 'b.dgn', 'VLV', 'p.csv', '--from', 'a.dgn', '-o', 'new.txt')
        self.fail_each('merge', 'a.dgn', 'b.dgn', '-o', 'old.txt', '--force')
        self.fail_each('diff', 'a.dgn', 'b.dgn', '--script', '-o', 'new.txt')
        self.fail_each('draw', 'a.dgn', 'p.csv', '-o', 'old.txt', '--force')
        self.fail_each('text', 'a.dgn', '5,5', 'AB', '--height', '60', '-o', 'new.txt')

    def test_patch_files(self) -> None:
        self.fail_each('mend', 'broken.dgn', 'new.patch')
        self.fail_each('relevel', 'a.dgn', 'p.patch', '--to', '7', '--level', '10', '--force')
        self.fail_each('retext', 'a.dgn', 'new.patch', 'HOUSE', 'ROOMS')
        self.fail_each('undelete', 'b.dgn', 'new.patch', '--number', '2')
        self.fail_each('rename', 'a.dgn', 'new.patch', 'VLV', 'PUMP')

    def test_drawings_and_pages(self) -> None:
        self.fail_each('run', 'a.dgn', 's.txt', 'new.dgn')
        self.fail_each('run', 'a.dgn', 'p.patch', 's.txt', 'old.txt', '--force')
        self.fail_each('why', 'a.dgn', 's.txt', 'new.dgn')
        self.fail_each('why', 'a.dgn', 's.txt', 'old.txt', '--force')
        self.fail_each('each', 's.txt', 'a.dgn', 'b.dgn', '--into', 'new')
        self.fail_each('split', 'a.dgn', '--by', 'cell', 'new')
        self.fail_each('purge', 'b.dgn', 'new.dgn')
        self.fail_each('geojson', 'a.dgn', '-o', 'old.txt', '--force')
        self.fail_each('page', 'a.dgn', '--script', 's.txt', '-o', 'page.html')


open_of_python = io.open

if __name__ == '__main__':
    unittest.main()
