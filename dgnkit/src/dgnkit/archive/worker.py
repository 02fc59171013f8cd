"""A process that changes drawings, one after the other, as another process asks it to: a line of JSON for each task on
its standard input, and one for what became of it on its standard output. It ends where its input does."""

from __future__ import annotations

import json
import os
import queue
import signal
import subprocess
import sys
import threading
from dataclasses import asdict
from pathlib import Path
from typing import IO, Any, Dict, Iterator, List, Optional

from ..program.runs import Program
from ..stopping import catch_signals, held
from ..system import IS_WINDOWS
from .changing import Change
from .doing import Doer, Done, Task
from .journal import Entry

Told = Dict[str, Any]
CODE = 'import sys; sys.path[:0] = [%r]; from dgnkit.archive.worker import main; main()'


def main() -> None:
    """Does the tasks that come, and ends where the other process does, also within one."""
    catch_signals()
    tasks: queue.SimpleQueue[Optional[Told]] = queue.SimpleQueue()
    said = os.fdopen(os.dup(1), 'wb')
    os.dup2(2, 1)  # what else is printed is no answer
    doer = Doer(Change(**json.loads(sys.stdin.buffer.readline())))
    threading.Thread(target=_listen, args=(tasks,), daemon=True).start()
    try:
        for told in iter(tasks.get, None):
            done = doer.do(Task(**told))
            said.write(json.dumps(asdict(done)).encode('ascii') + b'\n')
            said.flush()
    except KeyboardInterrupt:
        pass
    except BrokenPipeError:
        pass
    os._exit(0)


def _listen(tasks: queue.SimpleQueue[Optional[Told]]) -> None:
    """Hears tasks. At the end of the input what is being done is stopped."""
    for line in sys.stdin.buffer:
        tasks.put(json.loads(line))
    tasks.put(None)
    os.kill(os.getpid(), signal.SIGTERM)


class Worker:
    """Such a process, as the one that asks has it."""

    def __init__(self, change: Change, inherited: Optional[IO[bytes]] = None, folder: str = '') -> None:
        """`inherited` is an open file whose lock it holds with this process; `folder` is where it runs."""
        place = str(Path(__file__).resolve().parents[2])
        handles = [] if inherited is None or IS_WINDOWS else [inherited.fileno()]
        with held():
            self.process = subprocess.Popen(
                [sys.executable, '-c', CODE % place],
                stdin=subprocess.PIPE,
                stdout=subprocess.PIPE,
                pass_fds=handles,
                cwd=folder or None,
            )
        self._say(vars(change))

    def _say(self, told: Told) -> None:
        assert self.process.stdin is not None
        try:
            self.process.stdin.write(json.dumps(told).encode('ascii') + b'\n')
            self.process.stdin.flush()
        except (BrokenPipeError, ValueError):
            pass  # it has ended, or is being ended, which is heard where its answer is

    def do(self, task: Task) -> Done:
        """Has it do a task, and waits for that. It raises Gone where it has ended."""
        self._say(vars(task))
        assert self.process.stdout is not None
        try:
            line = self.process.stdout.readline()
        except ValueError:  # it was ended meanwhile
            line = b''
        if not line.endswith(b'\n'):
            raise Gone(self.process.wait())
        told = json.loads(line)
        return Done(Entry(**told['entry']), told['is_full'])

    def end(self, is_stopped: bool = False) -> None:
        """Ends it; where it is stopped, without waiting for what it is at."""
        assert self.process.stdin is not None and self.process.stdout is not None
        if is_stopped:
            self.process.terminate()
        try:
            self.process.stdin.close()
        except OSError:
            pass
        self.process.wait()
        self.process.stdout.close()


class Gone(Exception):
    """A worker has ended before its task was done."""

    def __init__(self, status: int) -> None:
        super().__init__('stopped by signal %d' % -status if status < 0 else 'ended with %d' % status)


def run_batch(change: Told, tasks: List[Told], folder: str) -> Iterator[Told]:
    """Does a batch of tasks in a process of its own, in this folder, by the program of this machine where the one that
    is named isn't here, and gives what became of each."""
    if not os.path.exists(change['program']):
        change = {**change, 'program': Program.find().path}
    worker = Worker(Change(**change), None, folder if os.path.isdir(folder) else '')
    try:
        for told in tasks:
            yield asdict(worker.do(Task(**told)))
    finally:
        worker.end()
