"""What the tests of tools/show-race share: jobs in folders, and the tool on one of them."""
import resource
import subprocess
from typing import NamedTuple

from checks import ROOT, user_environment

TOOL = ROOT / "tools" / "show-race"


class Done(NamedTuple):
    status: int
    said: str
    error: str
    seconds: float  # of processor time, racereplay's included


def run(*arguments, racereplay=None):
    """The tool, with the racereplay that the tests were given or another."""
    environment = user_environment(**({} if racereplay is None else {"RACEREPLAY": racereplay}))
    before = _processor_time()
    done = subprocess.run(
        [TOOL, *map(str, arguments)], env=environment, cwd=ROOT, stdin=subprocess.DEVNULL, capture_output=True, text=True)
    return Done(done.returncode, done.stdout, done.stderr, _processor_time() - before)


def _processor_time():
    used = resource.getrusage(resource.RUSAGE_CHILDREN)
    return used.ru_utime + used.ru_stime


def sheet_of(lines):
    """The program sheet with these lines behind its first: a P2 sheet if there are procedures."""
    procedures = sum(line.startswith("proc,") for line in lines)
    return "\n".join([f"P2,{len(lines) - procedures},{procedures}" if procedures else f"P,{len(lines)}", *lines, ""])


def make_job(folder, lines):
    """A folder with a program sheet of these lines and nothing else."""
    folder.mkdir(parents=True)
    (folder / "program.txt").write_text(sheet_of(lines))
    return folder


def steps_in(folder):
    """The lines of a folder's program sheet behind the first."""
    return (folder / "program.txt").read_text().split("\n")[1:-1]


def order_in(file):
    return [tuple(map(int, line.split(","))) for line in file.read_text().split("\n")[:-1]]
