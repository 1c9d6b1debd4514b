"""What bench/process and bench/spin share: the programs, and how long one takes."""
import os
import subprocess
import sys
import time
from pathlib import Path

ROOT = Path(__file__).resolve().parents[1]
PROGRAMS = Path(sys.argv[1] if len(sys.argv) > 1 else ROOT / "target" / "bin").resolve()


def program(name, *words):
    return [str(PROGRAMS / name), *words]


def written(command, folder):
    """What a program writes."""
    return subprocess.run(command, cwd=folder, stdout=subprocess.PIPE, text=True, check=True).stdout.strip()


def seconds(command, folder):
    """How long a program takes in a folder, from its start to its end."""
    os.chdir(folder)
    nowhere = [(os.POSIX_SPAWN_OPEN, 1, os.devnull, os.O_WRONLY, 0)]
    began = time.perf_counter()
    os.waitpid(os.posix_spawn(command[0], command, os.environ, file_actions=nowhere), 0)
    return time.perf_counter() - began
