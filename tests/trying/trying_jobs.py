"""The tool as the tests start it."""
import os
import subprocess
from typing import NamedTuple

from checks import ROOT, user_environment


class Done(NamedTuple):
    status: int
    said: str
    error: str


def run(*arguments, tool="try-orders", **environment):
    done = subprocess.run(
        [ROOT / "tools" / tool, *map(str, arguments)], env=user_environment(**environment), cwd=ROOT,
        stdin=subprocess.DEVNULL, capture_output=True, text=True)
    return Done(done.returncode, done.stdout, done.stderr)


def racereplay():
    return os.environ["RACEREPLAY"]
