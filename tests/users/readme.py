"""The commands that README.md and docs/RELEASES.md show, as they are written there: they run, and write what is shown below them."""
import re
import subprocess
import tempfile
from pathlib import Path

from checks import ROOT, check, user_environment
from install import make_repository


def shown():
    """Each command of the page with the lines that it shows below it."""
    for block in re.findall(r"(?:^    [^\n]*\n)+", (ROOT / "README.md").read_text(), re.M):
        for command in re.split(r"^    \$ ", block, flags=re.M)[1:]:
            first, *rest = command.rstrip("\n").split("\n")
            yield first, [line[4:] for line in rest]


# The programs that a tool runs.
RUNS = {
    "explain": ["racecheck"], "show-race": ["racereplay"], "triage": ["racecheck", "racefill", "racereplay"],
    "try-orders": ["racecheck", "racereplay"], "draw-faults": ["racecheck", "racereplay"], "fill": ["racefill", "racecheck"],
    "check-release": ["racecheck", "racefill", "racereplay"],
    "install": ["racecheck", "racefill", "racedrill", "racereplay", "entries"]}


def check_order():
    """No command stands before the one that builds what it runs."""
    built, early = set(), []
    for line in (ROOT / "README.md").read_text().splitlines():
        if line.startswith("    $ "):
            wanted = set(re.findall(r"target/bin/(\w+)", line))
            wanted.update(one for tool in re.findall(r"tools/([\w-]+)", line) for one in RUNS[tool])
            early += [line] * (not wanted <= built)
        for words in re.findall(r"\./build ([a-z ]+)", line):
            built |= set(words.split())
    check("README.md: commands that come too early", early, [])


def check_readme(programs):
    check_order()
    commands = list(shown())
    check("README.md shows commands", len(commands) >= 8, True)
    with tempfile.TemporaryDirectory() as scratch:
        repository = Path(scratch) / "repository"
        make_repository(repository, programs)
        for command, lines in commands:
            environment = user_environment(HOME=scratch, RACECHECK="", RACEFILL="", RACEREPLAY="")
            done = subprocess.run(
                ["bash", "-c", command], cwd=repository, env=environment, stdin=subprocess.DEVNULL, capture_output=True, text=True)
            check(f"README.md, {command}: status", done.returncode in (0, 1), True)
            if lines:
                check(f"README.md, {command}", done.stdout.splitlines(), lines)
        check_releases(repository)


def check_releases(repository):
    """Those of docs/RELEASES.md, one after the other: some examples race, and nothing is worse than the time before."""
    commands = re.findall(r"^    (tools/.*)$", (ROOT / "docs" / "RELEASES.md").read_text(), re.M)
    ended = [subprocess.run(
        ["bash", "-c", command], cwd=repository, env=user_environment(RACECHECK="", RACEFILL="", RACEREPLAY=""), stdin=subprocess.DEVNULL,
        capture_output=True).returncode for command in commands]
    check("RELEASES.md, its commands", ended, [1, 0])
