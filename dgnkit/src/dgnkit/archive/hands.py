"""Who does the tasks: processes on this machine, or a cluster's workers, which see the same files."""

from __future__ import annotations

import contextlib
import importlib
import os
import queue
import threading
from itertools import islice
from typing import IO, Any, Dict, Iterable, Iterator, List, Optional, Tuple

from ..errors import MissingProgram, Mistake
from .changing import Change
from .doing import Done, Task
from .journal import Entry
from .worker import Gone, Worker, run_batch

LOOK = 0.2  # so many seconds the main thread waits before it heeds an interrupt, where a system lets it wait on
BATCH = 64 << 20  # bytes of drawings that a cluster's worker is handed at once
BATCH_MOST = 256  # drawings
HANDED = 2  # so many drawings for each process on this machine are handed out at a time
AHEAD = 3  # so many batches for each worker are handed to a cluster at a time


class Local:
    """So many processes on this machine. What they take is handed out ahead, so that none of them waits while what has
    become of another drawing is written to the journal."""

    def __init__(self, change: Change, jobs: int, inherited: IO[bytes]) -> None:
        self.change, self.jobs, self.inherited = change, jobs, inherited
        self.ready: queue.SimpleQueue[Optional[Task]] = queue.SimpleQueue()
        # what became of a task, or none; and the process that has ended, where one has
        self.ended: queue.SimpleQueue[Tuple[Optional[Done], Optional[Worker]]] = queue.SimpleQueue()

    def done(self, tasks: Iterable[Task]) -> Iterator[Done]:
        """What becomes of each task, as they end. All processes have ended when this has."""
        waiting = iter(tasks)
        workers: List[Worker] = []
        handed = 0
        is_whole = False
        try:
            while True:
                for task in islice(waiting, HANDED * self.jobs - handed):
                    self.ready.put(task)
                    handed += 1
                if not handed:
                    break
                while len(workers) < min(self.jobs, handed):
                    self._begin(workers)
                done, gone = self._next()
                if gone is not None:
                    workers.remove(gone)
                if done is not None:
                    handed -= 1
                    yield done
            is_whole = True
        finally:
            self._end(workers, not is_whole)

    def _next(self) -> Tuple[Optional[Done], Optional[Worker]]:
        with contextlib.suppress(queue.Empty):
            return self.ended.get(timeout=LOOK)
        return None, None

    def _begin(self, workers: List[Worker]) -> None:
        """Begins a process, and a thread that hands it tasks until it ends."""
        workers.append(Worker(self.change, self.inherited))
        try:
            threading.Thread(target=self._attend, args=(workers[-1],), daemon=True).start()
        except RuntimeError:
            raise MissingProgram('no thread can be started to wait for what does it')

    def _attend(self, worker: Worker) -> None:
        """Hands a process one task after the other, until it has ended or there are no more."""
        done, gone = None, None
        while gone is None:
            task = self.ready.get()
            if task is None:
                return
            if worker.process.poll() is not None:  # before it was handed this
                self.ready.put(task)
                done, gone = None, worker
            else:
                try:
                    done = worker.do(task)
                except Gone as why:
                    done, gone = Done(Entry(task.place, ending='the process that did it was %s' % why)), worker
            self.ended.put((done, gone))

    def _end(self, workers: List[Worker], is_stopped: bool) -> None:
        """Ends all processes, and the threads that hand them tasks."""
        with contextlib.suppress(queue.Empty):
            while True:
                self.ready.get_nowait()
        for worker in workers:
            self.ready.put(None)
        for worker in workers:
            worker.end(is_stopped)


class Cluster:
    """The workers of a Dask scheduler, which see the same files and have dgnkit and dgnedit. A worker that goes is the
    scheduler's matter: its batch is done again."""

    def __init__(self, change: Change, address: str) -> None:
        """It raises Mistake where there is no such scheduler, or nothing to ask it by."""
        try:
            self.kit: Any = importlib.import_module('distributed')
        except ImportError:
            raise Mistake("--scheduler needs the package distributed: pip install 'dgnkit[cluster]'")
        self.change = change
        try:
            self.client: Any = self.kit.Client(address, timeout='20s')
        except (OSError, ValueError) as why:
            raise Mistake("the scheduler %s can't be reached: %s" % (address, str(why).split('\n')[0]))

    def done(self, tasks: Iterable[Task]) -> Iterator[Done]:
        """What becomes of each task, batch by batch, as these end."""
        waiting = batches(tasks)
        folder = os.getcwd()
        try:
            futures = self.kit.as_completed()
            for _ in range(AHEAD * max(1, len(self.client.scheduler_info()['workers']))):
                self._hand(next(waiting, None), folder, futures)
            for future in futures:
                told = self._result(future)
                self._hand(next(waiting, None), folder, futures)
                yield from (Done(Entry(**it['entry']), it['is_full']) for it in told)
        finally:
            self.client.close()

    def _result(self, future: Any) -> List[Dict[str, Any]]:
        """What became of a batch. It raises Mistake where the workers can't do one."""
        try:
            made: List[Dict[str, Any]] = future.result()
        except Exception as why:
            said = str(why).split('\n')[0]
            raise Mistake("the scheduler's workers can't do it: %s: %s" % (type(why).__name__, said))
        return made

    def _hand(self, batch: Optional[List[Task]], folder: str, futures: Any) -> None:
        if batch:
            futures.add(self.client.submit(do_batch, vars(self.change), [vars(it) for it in batch], folder, pure=False))


def do_batch(change: Dict[str, Any], tasks: List[Dict[str, Any]], folder: str) -> List[Dict[str, Any]]:
    """What a worker of a cluster does with a batch."""
    return list(run_batch(change, tasks, folder))


def batches(tasks: Iterable[Task]) -> Iterator[List[Task]]:
    """Tasks in batches of about so many bytes."""
    batch: List[Task] = []
    size = 0
    for task in tasks:
        batch.append(task)
        with contextlib.suppress(OSError):
            size += os.path.getsize(task.source)
        if size >= BATCH or len(batch) == BATCH_MOST:
            yield batch
            batch, size = [], 0
    if batch:
        yield batch
