"""Finding racecheck, racefill and racereplay and running them in a folder, for a bounded time."""
import os
import re
import selectors
import shutil
import subprocess
import time
from pathlib import Path
from typing import NamedTuple

from common.command import Failure
from common.files import PROGRAM, SPLIT, TRACE

from .forms import SPLIT_BYTES
from .sheets import is_as_read, read_sheets

CHECKING, FILLING, REPLAYING = "racecheck", "racefill", "racereplay"
# The files that each program reads.
READS = {CHECKING: (PROGRAM, SPLIT), FILLING: (PROGRAM, SPLIT), REPLAYING: (PROGRAM, TRACE)}
SECONDS = 10
MOST_BYTES = 4096
# The lines that each program answers with; racefill writes a sheet too.
ANSWERS = {
    CHECKING: re.compile(rb"(ACCEPT|UNREAD|REFUSE(,[0-9]{1,10}){4})\n"),
    FILLING: re.compile(rb"(UNREAD|REFUSE(,[0-9]{1,10}){4})\n"),
    REPLAYING: re.compile(rb"(RAN,[0-9]+|RACE(,[0-9]+){4}|UNREAD|REFUSE(,[0-9]+){5}(,RACE(,[0-9]+){3})?)\n"),
}

# The runs under way, and whether they are being ended: a run that is just starting then has to end too.
_under_way = set()
_stopping = False


class Run(NamedTuple):
    answer: str  # one of the program's lines; FILLED for a sheet that racefill wrote; or FAILED
    failure: str  # why it is FAILED
    program: str = CHECKING
    sheets: dict = None  # the files that it reads, as they were before the run
    changed: tuple = ()  # those that were written or replaced since
    written: bytes = b""  # what racefill wrote

    def numbers(self):
        """The four numbers of a refusal."""
        return tuple(map(int, self.answer.split(",")[1:5]))


def find_program(name):
    """The file that the variable of that name in capitals names, else the repository's own, else the one on the PATH."""
    repository, variable = Path(__file__).resolve().parents[2], name.upper()
    own = [path for path in (repository / "target" / "bin" / name, repository / "bin" / name) if os.access(path, os.X_OK)]
    chosen = os.environ.get(variable) or (own[0] if own else shutil.which(name))
    if chosen is None:
        raise Failure(f"{name} is not built (./build {name}) and not on the PATH; set {variable} to its path")
    if not (os.path.isfile(chosen) and os.access(chosen, os.X_OK)):
        raise Failure(f"no {name} that can be run at: {chosen}")
    return os.path.abspath(chosen)


def run_in(binary, folder, program=CHECKING):
    """A program's answer in a folder, with the files it had. What is no answer is FAILED, with the reason."""
    why = unreachable(folder)
    if why:
        return Run("FAILED", why, program)
    sheets = read_sheets(folder, READS[program])
    run = _started(binary, folder, program)
    changed = tuple(name for name, sheet in sheets.items() if sheet and not is_as_read(folder, sheet))
    return run._replace(sheets=sheets, changed=changed)


def unreachable(folder):
    """Why nothing can be run in a folder; empty if it can."""
    if not os.path.isdir(folder):
        return "a link that leads nowhere" if os.path.islink(folder) else "no such folder"
    return "" if os.access(folder, os.X_OK) else "the folder cannot be entered"


def _started(binary, folder, program):
    try:
        process = subprocess.Popen(
            [binary], cwd=folder, stdin=subprocess.DEVNULL, stdout=subprocess.PIPE, stderr=subprocess.DEVNULL, bufsize=0)
    except OSError as error:
        return Run("FAILED", f"{program} could not be started: {error.strerror}", program)
    _under_way.add(process)
    if _stopping:
        process.kill()
    try:
        return _answer(process, program)
    finally:
        process.kill()
        process.wait()
        process.stdout.close()
        _under_way.discard(process)


def _answer(process, program):
    until = time.monotonic() + SECONDS
    most = MOST_BYTES + SPLIT_BYTES if program == FILLING else MOST_BYTES
    try:
        written = _written(process, until, most)
        status = process.wait(max(0, until - time.monotonic())) if len(written) <= most else None
    except (TimeoutError, subprocess.TimeoutExpired):
        return Run("FAILED", f"no answer within {SECONDS} seconds", program)
    if status == 0 and ANSWERS[program].fullmatch(written):
        return Run(written[:-1].decode("ascii"), None, program)
    if status == 0 and program == FILLING and written.startswith((b"C2,", b"C3,")):
        return Run("FILLED", None, program, written=written)
    first = written.decode("latin-1").split("\n")[0][:60]
    return Run("FAILED", f"exit status {'none' if status is None else status}, first line {first!r}", program)


def _written(process, until, most):
    """What a process writes until it closes its output, or until that is too much to be an answer."""
    written = b""
    with selectors.DefaultSelector() as selector:
        selector.register(process.stdout, selectors.EVENT_READ)
        while len(written) <= most:
            if not selector.select(max(0, until - time.monotonic())):
                raise TimeoutError
            piece = os.read(process.stdout.fileno(), MOST_BYTES)
            if not piece:
                break
            written += piece
    return written


def stop_all():
    """Ends the runs under way, for a tool that is stopped. It takes no lock, so that a signal may call it at any time."""
    global _stopping
    _stopping = True
    for process in list(_under_way):
        process.kill()


def is_stopping():
    return _stopping
