"""What all tools share: help, version, a Python that is too old, and a dash as a file's name."""
import ast
import io
import re
import subprocess
import sys
import tempfile
import tokenize
from pathlib import Path

from checks import ROOT, check, contents, user_environment
from common.version import version

TOOLS = ["check-release", "draw-faults", "explain", "fill", "install", "show-race", "triage", "try-orders"]
OLD = "import runpy, sys; sys.version_info = (3, 8, 19, 'final', 0); runpy.run_path(sys.argv[1], run_name='__main__')"


def run(tool, *arguments, cwd=ROOT, **environment):
    return subprocess.run(
        [ROOT / "tools" / tool, *map(str, arguments)], cwd=cwd, env=user_environment(**environment), stdin=subprocess.DEVNULL,
        capture_output=True, text=True)


def check_help():
    for tool in TOOLS:
        done = run(tool, "--help")
        check(f"{tool} --help", (done.returncode, f"usage: {tool}" in done.stdout, done.stderr), (0, True, ""))
        done = run(tool, "--version")
        check(f"{tool} --version", (done.returncode, done.stdout), (0, f"{tool}, racecheck's tools {version()}\n"))
        done = run(tool, "--nonsense")
        check(f"{tool} with an unknown option", (done.returncode, f"usage: {tool}" in done.stderr), (2, True))


def check_old_python():
    """A Python that is too old is told in words that it can read."""
    for tool in TOOLS:
        path = ROOT / "tools" / tool
        done = subprocess.run(
            [sys.executable, "-B", "-c", OLD, path], env=user_environment(PYTHONPATH=ROOT / "tools"), capture_output=True,
            text=True)
        told = (done.returncode, done.stderr)
        check(f"{tool} under an old Python", told, (2, "Python 3.9 or later is needed; this is 3.8\n"))
    for path in [*(ROOT / "tools" / tool for tool in TOOLS), ROOT / "tools" / "common" / "__init__.py"]:
        text = path.read_text()
        ast.parse(text, feature_version=(3, 4))
        tokens = [token.string for token in tokenize.generate_tokens(io.StringIO(text).readline)]
        check(f"{path.name}, which an old Python reads", [token for token in tokens if re.match("[fF]['\"]", token)], [])


def check_dash(binary):
    """A dash is no file's name: nothing of that name is made."""
    join = ROOT / "examples" / "join"
    with tempfile.TemporaryDirectory() as scratch:
        for tool, arguments in [
            ("explain", ["--page", "-", join]), ("explain", ["-"]), ("check-release", [ROOT / "examples", "-"]),
            ("check-release", ["--json", "-", ROOT / "examples"]), ("check-release", ["--manifest", "-", ROOT / "examples"]),
            ("show-race", ["--page", "-", join]), ("show-race", ["--trace", "-", join]), ("triage", ["--mended", "-", join]),
            ("try-orders", ["--page", "-", join]), ("try-orders", ["--trace", "-", join]),
        ]:
            done = run(tool, *arguments, cwd=scratch, RACECHECK=binary)
            check(f"{tool} {arguments[0]} and a dash", (done.returncode, "- is not taken" in done.stderr), (2, True))
        check("no file is made of a dash", contents(Path(scratch)), {})


def check_tools(binary):
    check_help()
    check_old_python()
    check_dash(binary)
