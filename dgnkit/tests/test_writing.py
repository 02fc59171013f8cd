"""What is written: never over a file that is there unless that is asked for, never over what is read, and whole or not
at all, however the command ends."""

import os
import resource
import signal
import stat
import subprocess
import sys
import time
from functools import partial
from pathlib import Path
from typing import Callable, Dict, Iterator, List, Optional, Tuple
from unittest import mock

import samples
from samples import drawings, plan

SOURCES = str(samples.TOP / 'dgnkit' / 'src')
SIGNALS = (signal.SIGTERM, signal.SIGINT, signal.SIGHUP)
NOBODY = 65534
HALF = '#!/bin/sh\nprintf half > "$4"\ntouch "$0.begun"\n'  # a program that has written half of OUT


def heed_signals() -> None:
    """Has a command heed signals as on a terminal, also where the tests run in the background, which ignores some."""
    for number in SIGNALS:
        signal.signal(number, signal.SIG_DFL)


class Commands(samples.WithProgram):
    """The commands that write, and a folder for them."""

    def setUp(self) -> None:
        super().setUp()
        self.plan = self.example('plan.dgn')
        self.script = self.put('s.txt', 'color 5 3\n')
        self.numbers = self.put('n.csv', 'number\n5\n')
        self.places = self.put('p.csv', 'x,y,text,height\n1,2,AB,60\n')
        gone = drawings.deleted(drawings.line())
        self.other = self.put('b.dgn', drawings.drawing(plan.line(1, (0, 0), (9, 9)), gone))
        self.broken = self.put('broken.dgn', drawings.DRAWINGS['a complex chain of the line 2, with bit C'])

    def drawings_made(self, out: str) -> Iterator[List[str]]:
        """The commands that have a drawing made."""
        yield ['run', self.plan, self.script, out]
        yield ['why', self.plan, self.script, out]

    def commands(self, out: str) -> Iterator[List[str]]:
        """All commands that write a file, but for the two above and `each`."""
        yield ['find', self.plan, '--level', '10', '--script', 'color {n} 3', '-o', out]
        yield ['script', '--numbers', self.numbers, 'color {n} 3', '--drawing', self.plan, '-o', out]
        yield ['place', self.plan, 'VLV', self.places, '-o', out]
        yield ['merge', self.plan, self.other, '-o', out]
        yield ['diff', self.plan, self.other, '--script', '-o', out]
        yield ['draw', self.plan, self.places, '-o', out]
        yield ['text', self.plan, '5,5', 'AB', '--height', '60', '-o', out]
        yield ['mend', self.broken, out]
        yield ['relevel', self.plan, out, '--to', '7', '--level', '10']
        yield ['retext', self.plan, out, 'HOUSE', 'ROOMS']
        yield ['rename', self.plan, out, 'VLV', 'PUMP']
        yield ['lock', self.plan, out, '--number', '5']
        yield ['unlock', self.plan, out, '--number', '1']
        yield ['undelete', self.other, out, '--number', '2']
        yield ['geojson', self.plan, '-o', out]

    def all_commands(self, out: str) -> Iterator[List[str]]:
        """All of these, and the one that has a drawing made without a script."""
        yield from self.drawings_made(out)
        yield ['purge', self.other, out]
        yield from self.commands(out)

    def files(self) -> Dict[str, bytes]:
        return {str(it.relative_to(self.folder)): it.read_bytes() for it in self.folder.rglob('*') if it.is_file()}

    def shell(
        self, line: str, *words: str, limit: Optional[Callable[[], None]] = None, **more: str
    ) -> Tuple[int, str, str]:
        """Runs a line of a shell, in which "$@" is the command with these words."""
        ran = subprocess.run(
            ['sh', '-c', line, 'sh', sys.executable, '-m', 'dgnkit', *words],
            stdin=subprocess.DEVNULL,
            stdout=subprocess.PIPE,
            stderr=subprocess.PIPE,
            env={**os.environ, 'PYTHONPATH': SOURCES, **more},
            cwd=self.folder,
            preexec_fn=limit,
        )
        said = samples.without_progress(ran.stderr.decode('utf-8', 'replace'))
        return ran.returncode, ran.stdout.decode('utf-8', 'replace'), said


class Writing(Commands):
    def test_what_is_there_is_replaced_only_if_that_is_asked_for(self) -> None:
        out = self.path('old')
        for words in self.all_commands(out):
            with self.subTest(word=words[0]):
                Path(out).write_text('kept')
                os.chmod(out, 0o640)
                before = self.files()
                status, said, err = self.kit(*words)
                self.assertEqual((status, 'old already exists: --force overwrites it' in err), (2, True), said + err)
                self.assertEqual(self.files(), before)
                self.said(*words, '--force')
                self.assertNotEqual(Path(out).read_bytes(), b'kept')
                self.assertEqual(stat.S_IMODE(os.stat(out).st_mode), 0o640)
                self.assertEqual([it for it in os.listdir(self.folder) if it.startswith('.')], [])
                self.put_back(before)

    def put_back(self, before: Dict[str, bytes]) -> None:
        for name in {*self.files(), 'old'}.difference(before):
            (self.folder / name).unlink()
        (self.folder / 'old').unlink()

    def test_a_new_file_has_the_usual_mode(self) -> None:
        kept = os.umask(0o027)
        self.addCleanup(os.umask, kept)
        for words in self.all_commands(self.path('new')):
            self.said(*words)
            self.assertEqual(stat.S_IMODE(os.stat(self.path('new')).st_mode), 0o640, words[0])
            for name in ('new', 'new.patch'):
                (self.folder / name).unlink(missing_ok=True)

    def test_a_file_that_may_not_be_written_is_kept(self) -> None:
        out = self.put('safe.dgn', 'kept')
        os.chmod(out, 0o444)
        for words in self.drawings_made(out):
            self.assertEqual(self.kit(*words)[0], 2)
            self.assertEqual(Path(out).read_text(), 'kept')

    def test_a_script_and_the_patch_file_with_it_are_both_kept(self) -> None:
        patch = self.put('new.patch', 'kept')
        status, _, err = self.kit('draw', self.plan, self.places, '-o', self.path('new.txt'))
        self.assertEqual((status, 'new.patch already exists' in err), (2, True))
        self.assertEqual((os.path.exists(self.path('new.txt')), Path(patch).read_text()), (False, 'kept'))

    def test_no_drawing_is_overwritten_by_a_script_or_a_patch_file(self) -> None:
        drawing = self.put('c.dgn', drawings.drawing(drawings.line()))
        before = self.files()
        for words in self.commands(drawing):
            for more in (words, [*words, '--force']):
                status, _, err = self.kit(*more)
                self.assertEqual((status, err.count("is a drawing, and isn't overwritten")), (2, 1), (words, err))
        self.assertEqual(self.files(), before)

    def test_nothing_that_is_read_is_overwritten(self) -> None:
        script = self.put('i.txt', 'import %s\n' % self.other)
        os.symlink(self.plan, self.path('link.dgn'))
        os.link(script, self.path('hard.txt'))
        before = self.files()
        status, _, err = self.kit('purge', self.plan, self.path('link.dgn'), '--force')
        self.assertEqual((status, "is an input, and isn't overwritten" in err), (2, True), err)
        for out in (self.plan, self.path('link.dgn'), script, self.path('hard.txt'), self.other):
            for word in ('run', 'why'):
                status, _, err = self.kit(word, self.plan, script, out, '--force')
                self.assertEqual((status, "is an input, and isn't overwritten" in err), (2, True), (word, out, err))
        for words in (
            ['find', self.plan, '--numbers', self.numbers, '--script', 'color {n} 3', '-o', self.numbers],
            ['script', '--numbers', self.numbers, 'color {n} 3', '-o', self.numbers],
            ['lock', self.plan, self.numbers, '--numbers', self.numbers],
            ['draw', self.plan, self.places, '-o', self.places],
        ):
            status, _, err = self.kit(*words, '--force')
            self.assertEqual((status, "is an input, and isn't overwritten" in err), (2, True), (words, err))
        self.assertEqual(self.files(), before)

    def test_each_does_not_overwrite_what_its_script_imports(self) -> None:
        into = self.folder / 'into'
        into.mkdir()
        library = self.put('into/plan.dgn', (samples.EXAMPLES / 'valve.dgn').read_bytes())
        script = self.put('i.txt', 'import %s\n' % library)
        before = self.files()
        status, _, err = self.kit('each', script, self.plan, '--into', into, '--force')
        self.assertEqual((status, "is an input, and isn't overwritten" in err), (2, True), err)
        self.assertEqual(self.files(), before)

    def test_a_link_is_written_behind(self) -> None:
        (self.folder / 'far').mkdir()
        link = self.path('link')
        for words in self.all_commands(link):
            os.symlink(self.path('far/made'), link)
            self.said(*words)
            self.assertTrue(os.path.islink(link), words[0])
            self.assertGreater(os.path.getsize(self.path('far/made')), 0)
            os.unlink(link)
            os.unlink(self.path('far/made'))
            (self.folder / 'link.patch').unlink(missing_ok=True)

    def test_the_disk_has_the_file_before_it_gets_its_name(self) -> None:
        for words in self.all_commands(self.path('new')):
            done: List[str] = []

            def sync(handle: int, done: List[str] = done) -> None:
                is_folder = stat.S_ISDIR(os.fstat(handle).st_mode)
                done.append('folder' if is_folder else 'file')

            def name(call: Callable[[str, str], None], made: str, place: str, done: List[str] = done) -> None:
                done.append('name')
                call(made, place)

            with mock.patch('os.fsync', sync), mock.patch('os.link', partial(name, os.link)):
                with mock.patch('os.replace', partial(name, os.replace)):
                    self.said(*words)
                    self.said(*words, '--force')
            count = len(done) // 6
            self.assertEqual(done, ['file', 'name', 'folder'] * 2 * count, words[0])
            for made in ('new', 'new.patch'):
                (self.folder / made).unlink(missing_ok=True)

    def test_standard_output_and_devices(self) -> None:
        wanted = self.said('find', self.plan, '--level', 10, '--script', 'color {n} 3')
        words = ['find', self.plan, '--level', '10', '--script', 'color {n} 3', '-o', '/dev/stdout']
        for line in ('"$@" > said', '"$@" | cat > said'):
            self.assertEqual(self.shell(line, *words)[0], 0)
            self.assertTrue(
                (self.folder / 'said').read_text().startswith(wanted + '3 commands: /dev/stdout written'), line
            )
        self.assertTrue(os.path.islink('/dev/stdout'))
        self.program.edit(self.plan, samples.Script.read(self.script), self.path('wanted.dgn'))
        for word in ('run', 'why'):
            for line in ('"$@" > said', '"$@" | cat > said'):
                status, _, err = self.shell(line, word, self.plan, self.script, '/dev/stdout')
                self.assertEqual((status, '1 command, 0 refused' in err), (0, True), err)
                made = (self.folder / 'said').read_bytes()
                self.assertEqual(made, (self.folder / 'wanted.dgn').read_bytes(), (word, line))
            self.assertIn('1 command, 0 refused', self.said(word, self.plan, self.script, '/dev/null'))

    def test_a_pipe_as_out(self) -> None:
        os.mkfifo(self.path('pipe'))
        self.program.edit(self.plan, samples.Script.read(self.script), self.path('wanted.dgn'))
        for word in ('run', 'why'):
            line = 'timeout 20 cat pipe > said & timeout 20 "$@"; status=$?; wait; exit $status'
            self.assertEqual(self.shell(line, word, self.plan, self.script, self.path('pipe'))[0], 0)
            self.assertEqual((self.folder / 'said').read_bytes(), (self.folder / 'wanted.dgn').read_bytes())
            self.assertTrue(stat.S_ISFIFO(os.stat(self.path('pipe')).st_mode))

    def test_a_page_replaces_a_page(self) -> None:
        app = self.put(
            'app.html',
            '<meta name="generator" content="dgnedit"><title>dgnedit</title>' '<!-- a drawing stands here -->',
        )
        page = self.path('page.html')
        with mock.patch.dict(os.environ, {'DGNEDIT_APP': app}):
            self.said('page', self.plan, '-o', page)
            self.said('page', self.other, '-o', page)
            self.assertIn('b.dgn', Path(page).read_text())
            for kept in (self.put('mine.html', 'mine'), app):
                before = Path(kept).read_bytes()
                self.assertEqual(self.kit('page', self.plan, '-o', kept)[0], 2)
                self.assertEqual(Path(kept).read_bytes(), before)
            self.assertEqual(self.kit('page', self.plan, '-o', app, '--force')[0], 2)
            self.said('page', self.plan, '-o', self.path('mine.html'), '--force')


class Failing(Commands):
    """Where the disk is full, a folder may not be written to, or a signal comes, OUT stays as it was."""

    def stub(self, text: str) -> str:
        path = self.put('stub', HALF + text)
        os.chmod(path, 0o755)
        return path

    def kept(self, words: List[str], out: str, **more: object) -> Tuple[int, str, str]:
        """Runs a command that can't write OUT, which stays, with nothing beside it."""
        Path(out).write_text('kept')
        before = self.files()
        ran = self.shell('exec "$@"', *words, **more)  # type: ignore[arg-type]
        self.assertEqual(self.files(), before, words[0])
        self.assertEqual([it for it in os.listdir(self.folder) if it.startswith('.')], [])
        self.assertNotIn('Traceback', ran[2])
        return ran

    def test_a_full_disk_for_the_program(self) -> None:
        stub, out = self.stub('exit 6\n'), self.path('old')
        Path(stub + '.begun').touch()
        for words in self.drawings_made(out):
            status, said, err = self.kept([*words, '--force'], out, DGNEDIT=stub)
            self.assertEqual((status, said, err.count('\n')), (2, '', 1), words[0])
            self.assertIn('perhaps because the disk is full: nothing is written', err)

    def test_a_limit_for_files(self) -> None:
        size = os.path.getsize(self.plan)

        def limit() -> None:
            resource.setrlimit(resource.RLIMIT_FSIZE, (size // 2, size // 2))

        for words in self.drawings_made(self.path('old')):
            status, _, err = self.kept([*words, '--force'], self.path('old'), limit=limit)
            self.assertEqual((status, err.count('\n')), (2, 1), err)
            self.assertIn('stopped by signal 25 (file size limit exceeded)', err)

        def none() -> None:
            resource.setrlimit(resource.RLIMIT_FSIZE, (1, 1))

        words = ['geojson', self.plan, '-o', self.path('old')]
        status, _, err = self.kept([*words, '--force'], self.path('old'), limit=none)
        self.assertEqual((status, 'file too large' in err), (2, True), err)

    def test_a_folder_that_may_not_be_written_to(self) -> None:
        out, commands = self.path('old'), list(self.all_commands(self.path('old')))
        for words in commands:  # which loads what they need, also where another user may not read it
            self.said(*words)
            for name in ('old', 'old.patch'):
                (self.folder / name).unlink(missing_ok=True)
        Path(out).write_text('kept')
        os.chmod(self.folder, 0o555)
        before = self.files()
        self.addCleanup(os.chmod, self.folder, 0o755)
        if os.getuid() == 0:
            self.addCleanup(os.seteuid, 0)
            os.seteuid(NOBODY)
        for words in commands:
            status, _, err = self.kit(*words, '--force')
            self.assertEqual((status, '%s: permission denied' % self.folder in err), (2, True), (words[0], err))
            self.assertEqual(self.files(), before)

    def test_signals(self) -> None:
        stub, out = self.stub('exec sleep 60\n'), self.path('old')
        Path(out).write_text('kept')
        for number in SIGNALS:
            for words in self.drawings_made(out):
                (self.folder / 'stub.begun').unlink(missing_ok=True)
                before = self.files()
                child = subprocess.Popen(
                    [sys.executable, '-m', 'dgnkit', *words, '--force'],
                    env={**os.environ, 'PYTHONPATH': SOURCES, 'DGNEDIT': stub},
                    stdout=subprocess.PIPE,
                    stderr=subprocess.PIPE,
                    preexec_fn=heed_signals,
                )
                end = time.monotonic() + 60
                while not os.path.exists(stub + '.begun') and time.monotonic() < end:
                    time.sleep(0.02)
                child.send_signal(number)
                child.send_signal(number)
                said, err = child.communicate(timeout=60)
                (self.folder / 'stub.begun').unlink(missing_ok=True)
                self.assertEqual((child.returncode, said), (130, b''), (words[0], number))
                self.assertEqual(samples.without_progress(err.decode()), '')
                self.assertEqual(self.files(), before)
                self.assertEqual([it for it in os.listdir(self.folder) if it.startswith('.')], [])
