"""Work shared out among processes, since one Python does one thing at a time."""
import os
import pickle
import select
import selectors
import signal
import time
from collections import deque
from contextlib import suppress
from typing import NamedTuple

from explanation.running import is_stopping, stop_all

PROCESSORS = os.cpu_count() or 1
DEAF = 2  # seconds until a process that is told to end is taken not to hear, as within a call of the library


class Lost(NamedTuple):
    """In place of what should have come of a task: the process that was at it has ended, or was ended after too long."""

    status: int  # the number of a signal that ended it is below 0
    waited: float  # how long it was waited for, if that was too long; else 0


class Sharing(NamedTuple):
    """How work is shared out."""

    processes: int
    lot: int = 1  # tasks that are handed out at once
    patience: float = None  # seconds that a lot may take before its tasks are tried one by one, and then a task


def shared_out(work, tasks, sharing):
    """Yields each task with what `work` makes of it, as they are done. Closing this ends the processes, whatever they are at."""
    waiting, workers = _lots(tasks, sharing), []
    try:
        while waiting or workers:
            while waiting and len(workers) < sharing.processes:
                workers.append(Worker(work, workers))
                workers[-1].give(waiting.popleft())
            for worker in _with_a_result(workers, sharing.patience):
                lot, made = worker.lot, worker.result(sharing.patience)
                is_lost = isinstance(made, Lost)
                if waiting and not is_lost:
                    worker.give(waiting.popleft())
                else:
                    workers.remove(worker)
                    worker.end()
                if is_lost and len(lot) > 1:  # one of them ended it: each by itself, then
                    waiting.extendleft([task] for task in reversed(lot))
                else:
                    yield from zip(lot, [made] if is_lost else made)
    finally:
        for worker in workers:
            worker.end()


def _lots(tasks, sharing):
    """Lots of tasks, smaller ones if there would be too few for all processes."""
    size = max(1, min(sharing.lot, len(tasks) // (4 * sharing.processes)))
    return deque(tasks[first:first + size] for first in range(0, len(tasks), size))


def _with_a_result(workers, patience):
    """The processes that have something to tell or have been waited for too long; at least one."""
    with selectors.DefaultSelector() as selector:
        for worker in workers:
            selector.register(worker.results, selectors.EVENT_READ, worker)
        while True:
            told = [key.data for key, _ in selector.select(None if patience is None else 1)]
            told += [worker for worker in workers if worker not in told and worker.is_late(patience)]
            if told:
                return told


class Worker:
    """A process that does one lot of tasks after another. It begins as a copy of this one, so that all it needs is there."""

    def __init__(self, work, others):
        its_tasks, tasks = os.pipe()
        results, its_results = os.pipe()
        self.tasks, self.results = open(tasks, "wb", buffering=0), open(results, "rb")
        self.lot, self.since, self.status = [], 0.0, None
        self.process = os.fork()
        if self.process == 0:
            try:
                for worker in [self, *others]:
                    worker.hang_up()  # held open here too, a pipe would not close with the tool
                _serve(work, open(its_tasks, "rb"), open(its_results, "wb"))
            finally:
                os._exit(1)
        os.close(its_tasks)
        os.close(its_results)

    def give(self, lot):
        self.lot, self.since = lot, time.monotonic()
        with suppress(BrokenPipeError):  # if it has ended, its result is lost
            self.tasks.write(pickle.dumps(lot))

    def is_late(self, patience):
        return patience is not None and time.monotonic() - self.since > patience

    def result(self, patience):
        """What has come of its lot, or that it is lost. A process that is late is ended."""
        if self.is_late(patience) and not select.select([self.results], [], [], 0)[0]:
            os.kill(self.process, signal.SIGKILL)
            return Lost(self.end(), patience)
        try:
            return pickle.load(self.results)
        except (EOFError, pickle.UnpicklingError):
            return Lost(self.end(), 0)

    def end(self):
        """Ends the process, with the run that it has under way, and returns its status."""
        if self.status is None:
            self.hang_up()
            os.kill(self.process, signal.SIGTERM)
            until = time.monotonic() + DEAF
            while not (ended := os.waitpid(self.process, os.WNOHANG))[0]:
                if time.monotonic() > until:
                    os.kill(self.process, signal.SIGKILL)
                time.sleep(0.001)
            self.status = os.waitstatus_to_exitcode(ended[1])
        return self.status

    def hang_up(self):
        self.tasks.close()
        self.results.close()


def _serve(work, tasks, results):
    """Does the lots that come, until there are no more or the process is told to end."""
    when_told_to_end(lambda *_: stop_all())
    while not is_stopping():
        pickle.dump([work(task) for task in pickle.load(tasks)], results)
        results.flush()


def when_told_to_end(handler):
    """What is done at a signal that ends a tool. One that is ignored stays so, as under nohup."""
    for number in (signal.SIGHUP, signal.SIGINT, signal.SIGTERM):
        if signal.getsignal(number) != signal.SIG_IGN:
            signal.signal(number, handler)
