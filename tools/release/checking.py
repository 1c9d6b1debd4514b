"""The runs of a release: every pair judged, then the refused ones decided on, shared out among processes, with how far it is."""
import sys
import time
from contextlib import closing
from functools import partial

from common.command import say

from .entries import entry, failed
from .workers import PROCESSORS, Lost, Sharing, shared_out

SECONDS = 10  # that a pair may take; the program is held to as many by itself
LOT = 64
EVERY = 0.1  # seconds between two words on a terminal
# By what judges: where a process only waits for the one that it has started, another goes on.
SHARING = {"library": Sharing(PROCESSORS, LOT, SECONDS), "program": Sharing(2 * PROCESSORS)}


def checked(judge, release, names, recheck):
    """Each pair's entry, in the order of the names. `release` is a real path."""
    work = partial(entry, judge_by=judge, release=release, recheck=recheck)
    made = _made(work, names, SHARING[judge.kind], "checked")
    return [_failed(name, one) if isinstance(one, Lost) else one for name, one in zip(names, made)]


def decided(deciding, entries):
    """The entries with decisions and pages on those whose answer is a refusal."""
    tasks = [(place, one) for place, one in enumerate(entries) if one.answer.startswith("REFUSE")]
    made = _made(deciding.decided, tasks, Sharing(PROCESSORS), "decided on")
    for (place, one), told in zip(tasks, made):
        lost = one._replace(details=(*one.details, "no decision: the process that was at it ended"))
        entries[place] = lost if isinstance(told, Lost) else told
    return entries


def _failed(name, lost):
    if lost.waited:
        return failed(name, f"no answer within {lost.waited:g} seconds")
    return failed(name, f"the process that was at it ended with status {lost.status}")


def _made(work, tasks, sharing, what):
    """What comes of each task, in their order."""
    places = {id(task): place for place, task in enumerate(tasks)}
    made, progress = [None] * len(tasks), Progress(what, len(tasks))
    with closing(shared_out(work, tasks, sharing)) as results:
        for task, one in results:
            made[places[id(task)]] = one
            progress.count()
    return made


class Progress:
    """How far it is: on a terminal in one line, elsewhere a line now and then."""

    def __init__(self, what, total):
        self.what, self.total, self.done, self.said = what, total, 0, 0.0

    def count(self):
        self.done += 1
        is_last, now = self.done == self.total, time.monotonic()
        if sys.stderr.isatty():
            if is_last or now - self.said >= EVERY:
                self.said = now
                say(f"\r{self.what} {self.done} of {self.total}", end="\n" if is_last else "")
        elif is_last or self.done % max(50, self.total // 20) == 0:
            say(f"{self.what} {self.done} of {self.total}")
