"""The command as a process: closed and full streams, no memory, signals, and what a shell hands on."""

import os
import resource
import signal
import subprocess
import sys
import time
import unittest
from typing import Callable, Dict, List, Optional, Tuple, Union

import samples

SOURCES = str(samples.TOP / 'dgnkit' / 'src')
Ran = Tuple[int, str, str]


def heed_signals() -> None:
    """Has a command heed signals as on a terminal, also where the tests run in the background, which ignores some."""
    for number in (signal.SIGINT, signal.SIGHUP):
        signal.signal(number, signal.SIG_DFL)


class AsAProcess(samples.WithProgram):
    def words(self, *words: object) -> List[str]:
        return [sys.executable, '-m', 'dgnkit', *map(str, words)]

    def place(self, **more: str) -> Dict[str, str]:
        return {**os.environ, 'PYTHONPATH': SOURCES, **more}

    def shell(self, line: str, *words: object, given: bytes = b'', limit: Optional[Callable[[], None]] = None) -> Ran:
        """Runs a line of a shell, in which "$@" is the command with these words."""
        ran = subprocess.run(
            ['sh', '-c', line, 'sh', *self.words(*words)],
            input=given,
            stdout=subprocess.PIPE,
            stderr=subprocess.PIPE,
            env=self.place(),
            cwd=self.folder,
            preexec_fn=limit,
        )
        said = samples.without_progress(ran.stderr.decode('utf-8', 'replace'))
        return ran.returncode, ran.stdout.decode('utf-8', 'replace'), said

    def one_line(self, ran: Ran, word: str) -> None:
        """The command couldn't be done: one line says why, and the status is 2."""
        status, out, err = ran
        self.assertEqual((status, err.count('\n')), (2, 1), err)
        self.assertIn(word, err)
        self.assertNotIn('Traceback', err)

    def test_a_full_or_closed_standard_output(self) -> None:
        valve = self.example('valve.dgn')
        self.one_line(self.shell('"$@" > /dev/full', 'info', valve), 'no space left')
        self.one_line(self.shell('"$@" >&-', 'info', valve), 'standard output is closed')
        for words in (['--help'], ['find', '--help'], ['--version']):
            self.assertEqual(self.shell('"$@"', *words)[::2], (0, ''))
            self.one_line(self.shell('"$@" > /dev/full', *words), 'no space left')
        self.assertEqual(self.shell('"$@" 2>&-', 'find', valve, '--level')[:2], (2, ''))
        self.one_line(self.shell('"$@" >&-', 'geojson', valve), 'standard output is closed')

    def test_what_is_noted_does_not_come_into_a_script(self) -> None:
        valve = self.example('valve.dgn')
        words = ['find', valve, '--level', '10', '--script', 'color {n} 3']
        status, out, _ = self.shell('"$@" 2>&-', *words)
        self.assertEqual((status, out), (0, 'color 1 3\ncolor 2 3\n'))
        self.assertEqual(self.shell('"$@" >&- 2>&-', *words)[0], 2)

    def test_a_reader_that_goes_away(self) -> None:
        status, out, err = self.shell('"$@" | head -n 1; true', 'find', self.gen(1, 5000))
        self.assertEqual((status, out.count('\n')), (0, 1))
        self.assertNotIn('Traceback', err)
        self.assertNotIn('BrokenPipe', err)

    def test_no_memory(self) -> None:
        path = self.gen(1, 200000)

        def limit() -> None:
            resource.setrlimit(resource.RLIMIT_AS, (72 << 20, 72 << 20))

        status, _, err = self.shell('exec "$@"', 'find', path, '--level', '1-63', '--json', limit=limit)
        self.assertEqual((status, err.rstrip().split('\n')[-1]), (2, 'dgnkit: there is not enough memory for it'))
        self.assertEqual(sorted(it.name for it in self.folder.iterdir()), ['gen.dgn'])

    def test_a_word_that_is_not_in_utf_8(self) -> None:
        valve = self.example('valve.dgn')
        wrong: List[List[Union[str, bytes]]] = [
            ['info', b'\xff.dgn'],
            ['find', valve, b'--level', b'\xff'],
            ['retext', valve, 'p', 'VLV', b'\xff'],
        ]
        for words in wrong:
            command = [os.fsencode(it) for it in self.words()] + [os.fsencode(it) for it in words]
            ran = subprocess.run(
                command, env=self.place(), stdout=subprocess.PIPE, stderr=subprocess.PIPE, cwd=self.folder
            )
            self.assertNotIn(b'Traceback', ran.stderr)
            self.assertIn(ran.returncode, (0, 2))

    def test_a_folder_for_temporary_files_that_is_not_there(self) -> None:
        broken = self.put('b.dgn', samples.drawings.DRAWINGS['a complex chain of the line 2, with bit C'])
        command = self.words('mend', broken, self.path('p'))
        # (a folder is looked for where TMPDIR is no such; so this one is there, and may hold nothing)
        script = "import tempfile, sys; tempfile.tempdir = %r; from dgnkit.cli import main; sys.exit(main())"
        command[1:3] = ['-c', script % self.path('none')]
        ran = subprocess.run(command, env=self.place(), stdout=subprocess.PIPE, stderr=subprocess.PIPE)
        self.one_line((ran.returncode, '', ran.stderr.decode()), 'no such file or directory')
        self.assertFalse((self.folder / 'p').exists())

    def test_a_piped_script_is_run(self) -> None:
        valve, into = self.example('valve.dgn'), self.path('out')
        status, _, _ = self.shell('exec "$@"', 'each', '/dev/stdin', valve, '--into', into, given=b'color 1 3\n')
        self.assertEqual(status, 0)
        self.assertEqual(samples.Drawing(self.path('out/valve.dgn'), self.program).elements[1].colour, 3)
        status, out, _ = self.shell('exec "$@"', 'why', valve, '/dev/stdin', given=b'color 9 3\n')
        self.assertEqual((status, 'there is no element 9' in out), (1, True))
        status, out, _ = self.shell('exec "$@"', 'run', valve, '/dev/stdin', self.path('o.dgn'), given=b'color 1 5\n')
        self.assertEqual((status, '1 command, 0 refused' in out), (0, True))
        self.assertEqual(samples.Drawing(self.path('o.dgn'), self.program).elements[1].colour, 5)

    def takes(self, line: str, *words: str) -> None:
        """The script or the patch file is run."""
        status, out, err = self.shell(line, *words)
        self.assertEqual(status, 0, (line, words, out, err))
        made = self.folder / 'out' / 'valve.dgn'
        self.assertEqual(samples.Drawing(str(made), self.program).elements[1].colour, 3, (line, words))
        made.unlink()

    def test_a_script_that_the_shell_opens_is_run(self) -> None:
        valve, script, patch = self.example('valve.dgn'), self.put('s.txt', 'color 1 3\n'), self.path('p')
        self.program.run('pack', valve, script, patch)
        os.mkfifo(self.path('pipe'))
        opened = [('"$@" < %s', '/dev/stdin'), ('"$@" 3< %s', '/dev/fd/3'), ('"$@" < %s', '/proc/self/fd/0')]
        opened += [('"$@" < %s', '-'), ('cat %s | "$@"', '-'), ('cat %s > pipe & timeout 20 "$@"', 'pipe')]
        for line, name in opened:
            for file in (script, patch):
                self.takes(line % file, 'each', name, valve, '--into', 'out')
                self.takes(line % file, 'run', valve, name, 'out/valve.dgn')
                self.takes(line % file, 'why', valve, name, 'out/valve.dgn')

    def test_a_script_is_named_as_it_was(self) -> None:
        valve = self.example('valve.dgn')
        for name, said, made in (('-', 'standard input', 'a'), ('/dev/stdin', '/dev/stdin', 'b')):
            _, out, _ = self.shell('exec "$@"', 'why', valve, name, given=b'colour 1 3\n')
            self.assertTrue(out.startswith('line 1 of %s is bad, so nothing has run' % said), out)
            _, out, _ = self.shell('exec "$@"', 'run', valve, name, made, given=b'color 1 3\n')
            self.assertTrue(out.startswith('%s: 1 command, 0 refused' % said), out)

    def test_tables_on_standard_input(self) -> None:
        valve, feature = self.example('valve.dgn'), '{"features": [{"properties": {"number": 1}}]}'
        for words, given, wanted in [
            (['find', valve, '--numbers', '-', '--script', 'color {n} 3'], 'number\n1\n', 'color 1 3\n'),
            (['script', '--numbers', '-', 'color {n} 3'], feature, 'color 1 3\n'),
            (['place', valve, 'VLV', '-'], 'x,y\n500,9\n', 'copy 2 0 9\n'),
            (['draw', valve, '-', '--as', 'line'], 'x,y\n1,2\n3,4\n', 'line 1 0 0 0 1,2 3,4\n'),
            (['lock', valve, 'lock.patch', '--numbers', '-', '--dry-run'], '1\n', '1 element would change\n'),
        ]:
            status, out, err = self.shell('exec "$@"', *words, given=given.encode('ascii'))
            self.assertEqual((status, out.startswith(wanted)), (0, True), (words, out, err))
        self.one_line(self.shell('"$@"', 'place', valve, 'VLV', '-', given=b'x,y\n1,z\n'), 'standard input, row 2')
        self.one_line(self.shell('"$@" <&-', 'place', valve, 'VLV', '-'), 'standard input: it is closed')
        twice = ['run', valve, '-', '-', self.path('o.dgn')]
        self.one_line(self.shell('"$@"', *twice, given=b'color 1 3\n'), 'standard input: it is named more than once')
        self.assertFalse((self.folder / 'o.dgn').exists())

    def test_a_piped_drawing_is_refused(self) -> None:
        valve = (samples.EXAMPLES / 'valve.dgn').read_bytes()
        self.one_line(self.shell('cat | "$@"', 'info', '/dev/stdin', given=valve), "isn't a file on disk")

    def test_only_files_on_disk_are_drawings(self) -> None:
        valve, script = self.example('valve.dgn'), self.put('s', 'color 1 3\n')
        os.mkfifo(self.path('pipe'))
        line = 'timeout 20 "$@" < ' + valve
        for name, said in [
            (self.path('pipe'), "pipe isn't a file on disk (it is a pipe)"),
            ('/dev/zero', "/dev/zero isn't a file on disk (it is a device)"),
            ('/dev/stdin', "/dev/stdin isn't a file on disk"),
            ('-', "standard input isn't a file on disk"),
        ]:
            for words in (['run', name, script, 'o.dgn'], ['why', name, script], ['info', name], ['diff', valve, name]):
                self.one_line(self.shell(line, *words), said)
            status, out, _ = self.shell(line, 'each', script, name, valve, '--into', 'out', '--force', '--csv')
            self.assertEqual((status, "isn't a file on disk" in out, ',0,done,' in out), (1, True, True), out)
        self.assertFalse((self.folder / 'o.dgn').exists())

    def test_only_files_on_disk_are_imported(self) -> None:
        valve = self.example('valve.dgn')
        os.mkfifo(self.path('pipe'))
        line = 'timeout 20 "$@" < ' + valve
        for name in (self.path('pipe'), '/dev/zero', '/dev/stdin'):
            script = self.put('i', 'color 1 3\nimport %s\n' % name)
            said = "%s isn't a file on disk" % name
            for words in (
                ['run', valve, script, 'o.dgn'],
                ['why', valve, script],
                ['each', script, valve, '--into', 'o'],
            ):
                self.one_line(self.shell(line, *words), said)
        self.assertEqual(sorted(it.name for it in self.folder.iterdir()), ['i', 'pipe', 'valve.dgn'])

    def stopped(self, number: int, wait: float) -> int:
        """The status of a command that is stopped by a signal once its program is at work, or after so many seconds."""
        slow = self.put('slow-%d' % number, '#!/bin/sh\ntouch "$0.begun"\nexec sleep 60\n')
        os.chmod(slow, 0o755)
        broken = self.put('b.dgn', samples.drawings.DRAWINGS['a complex chain of the line 2, with bit C'])
        temporary = self.folder / 'tmp'
        temporary.mkdir(exist_ok=True)
        place = self.place(DGNEDIT=slow, TMPDIR=str(temporary))
        command = self.words('run', broken, self.put('s', 'color 1 3\n'), self.path('o.dgn'))
        child = subprocess.Popen(
            command, env=place, stdout=subprocess.PIPE, stderr=subprocess.PIPE, preexec_fn=heed_signals
        )
        end = time.monotonic() + 60
        while wait == 0 and not os.path.exists(slow + '.begun') and time.monotonic() < end:
            time.sleep(0.02)
        time.sleep(wait)
        child.send_signal(number)
        out, err = child.communicate(timeout=60)
        self.assertNotIn(b'Traceback', err)
        self.assertEqual((out, list(temporary.iterdir())), (b'', []))
        self.assertEqual(sorted(it.name for it in self.folder.iterdir() if it.name.startswith('.')), [])
        return child.returncode

    def test_what_takes_long_says_so(self) -> None:
        slow = self.put('slow', '#!/bin/sh\nsleep 3\nexec %s "$@"\n' % samples.PROGRAM)
        os.chmod(slow, 0o755)
        valve = self.example('valve.dgn')
        ran = subprocess.run(
            self.words('find', valve, '--numbers', '--level', '10'),
            env=self.place(DGNEDIT=slow),
            stdout=subprocess.PIPE,
            stderr=subprocess.PIPE,
        )
        self.assertEqual((ran.returncode, ran.stdout), (0, b'1\n2\n'))
        self.assertIn('dgnedit is working on %s (2 seconds so far)' % valve, ran.stderr.decode())

    def test_a_signal_that_is_ignored_stays_ignored(self) -> None:
        slow = self.put('slow', '#!/bin/sh\ntouch "$0.begun"\nsleep 1\nexec %s "$@"\n' % samples.PROGRAM)
        os.chmod(slow, 0o755)
        numbers = (signal.SIGHUP, signal.SIGINT, signal.SIGTERM)

        def ignore() -> None:
            for number in numbers:
                signal.signal(number, signal.SIG_IGN)

        child = subprocess.Popen(
            self.words('run', self.example('valve.dgn'), self.put('s', 'color 1 3\n'), self.path('o.dgn')),
            env=self.place(DGNEDIT=slow),
            stdout=subprocess.PIPE,
            stderr=subprocess.PIPE,
            preexec_fn=ignore,
        )
        end = time.monotonic() + 60
        while not os.path.exists(slow + '.begun') and time.monotonic() < end:
            time.sleep(0.02)
        for number in numbers:
            child.send_signal(number)
        _, err = child.communicate(timeout=60)
        self.assertEqual((child.returncode, samples.without_progress(err.decode())), (0, ''))
        self.assertTrue((self.folder / 'o.dgn').exists())

    def begun_with(self, lines: str, *words: object) -> Ran:
        """Runs a command behind these lines of Python."""
        begin = 'import sys; sys.argv = ["dgnkit", *sys.argv[1:]]\n%s\nfrom dgnkit.entry import command; command()'
        command = [sys.executable, '-c', begin % lines, *map(str, words)]
        ran = subprocess.run(command, env=self.place(), stdout=subprocess.PIPE, stderr=subprocess.PIPE)
        return ran.returncode, ran.stdout.decode(), samples.without_progress(ran.stderr.decode())

    def test_a_signal_while_the_program_is_begun(self) -> None:
        slow = self.put('slow', '#!/bin/sh\nexec sleep 60\n')
        os.chmod(slow, 0o755)
        lines = (
            'import os, signal, subprocess\n'
            'class Popen(subprocess.Popen):\n'
            '    def __init__(self, *words, **more):\n'
            '        super().__init__(*words, **more)\n'
            '        os.kill(os.getpid(), signal.SIGTERM)\n'
            'subprocess.Popen = Popen\n'
            'os.environ["DGNEDIT"] = %r' % slow
        )
        valve, script = self.example('valve.dgn'), self.put('s', 'color 1 3\n')
        for words in (['run', valve, script, self.path('o.dgn')], ['each', script, valve, '--into', self.path('out')]):
            start = time.monotonic()
            # what still runs would keep standard error open
            self.assertEqual(self.begun_with(lines, *words)[0], 130)
            self.assertLess(time.monotonic() - start, 50)

    def test_no_thread_can_be_started(self) -> None:
        lines = 'import threading\ndef start(self): raise RuntimeError("can\'t start new thread")\n'
        lines += 'threading.Thread.start = start'
        ran = self.begun_with(lines, 'find', self.example('valve.dgn'), '--level', '10', '--numbers')
        self.assertEqual(ran, (0, '1\n2\n', 'found 2 of 5 elements\n'))

    def test_no_memory_and_too_deep_at_the_beginning(self) -> None:
        finder = (
            'import importlib.abc\nclass Stop(importlib.abc.MetaPathFinder):\n'
            '    def find_spec(self, name, path, target=None):\n        if name == %r: raise %s\n'
            'sys.meta_path.insert(0, Stop())'
        )
        for name in ('dgnkit.cli', 'dgnkit.waiting', 'dgnkit.commands.info', 'dgnkit.format.walking'):
            ran = self.begun_with(finder % (name, 'MemoryError'), 'info', self.example('valve.dgn'))
            self.assertEqual(ran, (2, '', 'dgnkit: there is not enough memory for it\n'), name)
            ran = self.begun_with(finder % (name, 'RecursionError'), 'info', self.example('valve.dgn'))
            self.one_line(ran, 'dgnkit: ')

    def test_help_on_a_closed_standard_output(self) -> None:
        for words in (['--help'], ['find', '--help'], ['--version']):
            self.one_line(self.shell('"$@" >&-', *words), 'standard output is closed')

    def test_an_interrupt_before_the_beginning(self) -> None:
        made, stop = self.path('dgnkit'), self.folder / 'stop'
        subprocess.run([sys.executable, str(samples.TOP / 'tools' / 'make_dgnkit'), made], check=True)
        stop.mkdir()
        (stop / 'sitecustomize.py').write_text(
            'import importlib.abc, os, signal, sys\n'
            'class Stop(importlib.abc.MetaPathFinder):\n'
            '    def find_spec(self, name, path, target=None):\n'
            '        if name == os.environ["AT"]: os.kill(os.getpid(), signal.SIGINT)\n'
            'sys.meta_path.insert(0, Stop())\n'
        )
        for at in ('dgnkit', 'dgnkit.entry', 'dgnkit.cli', 'dgnkit.waiting'):
            ran = subprocess.run(
                [sys.executable, made, 'info', self.example('valve.dgn')],
                env={**os.environ, 'PYTHONPATH': str(stop), 'AT': at},
                stdout=subprocess.PIPE,
                stderr=subprocess.PIPE,
                preexec_fn=heed_signals,
            )
            self.assertEqual((ran.returncode, ran.stdout, ran.stderr), (130, b'', b''), at)

    def test_signals_leave_nothing(self) -> None:
        for number in (signal.SIGINT, signal.SIGTERM, signal.SIGHUP):
            self.assertEqual(self.stopped(number, 0), 130, number)

    def test_an_interrupt_at_the_beginning(self) -> None:
        # whenever it comes once the command has begun, it ends with 130 or by the signal, and never with 1
        begin = "import sys; sys.argv = ['dgnkit', 'info', %r]; import dgnkit.entry as it, os, signal; " % self.example(
            'valve.dgn'
        )
        for at in ('dgnkit.cli', 'dgnkit.commands.info', 'dgnkit.drawing.drawing'):
            stop = (
                'import importlib.abc\n'
                'class Stop(importlib.abc.MetaPathFinder):\n'
                '    def find_spec(self, name, path, target=None):\n'
                '        if name == %r: os.kill(os.getpid(), signal.SIGINT)\n'
                'sys.meta_path.insert(0, Stop())\n'
                'it.command()' % at
            )
            ran = subprocess.run(
                [sys.executable, '-c', begin + '\n' + stop],
                env=self.place(),
                stderr=subprocess.PIPE,
                preexec_fn=heed_signals,
            )
            self.assertEqual((ran.returncode, ran.stderr), (130, b''), at)


if __name__ == '__main__':
    unittest.main()
