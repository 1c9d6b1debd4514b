"""What is said of the commands: docs/COMMANDS.md, --help and completion have one source; and the limits that the page names."""
import re
import resource
import shutil
import subprocess
import tempfile
from pathlib import Path

from checks import ROOT, check, user_environment
from installation.completing import completion
from installation.helping import options_of, tools, words_of
from installation.manual import commands_page, manual_pages
from tools import run

PAGE = ROOT / "docs" / "COMMANDS.md"
ALONE = {"--help", "--version"}
STARTED = {
    "racecheck": ("refill", []), "racefill": ("top-up-to-fill", []), "racereplay": ("refill", []), "racedrill": (None, ["0"])}


def check_sections():
    """The page has every command; what it says of a tool is what the tool says of itself."""
    check("COMMANDS.md: the tools' own words (python3 -m installation.manual, in tools, writes them)",
          PAGE.read_text() == commands_page(PAGE.read_text()), True)
    check("COMMANDS.md: every command", set(manual_pages()), {*tools(), *STARTED, "racecheck-install"} - {"install"})
    for tool in tools():
        check(f"{tool} --help: its own words", run(tool, "--help").stdout.strip(), words_of(tool).strip())


def check_options():
    """Every option that a tool names is one of its own, and completion knows it."""
    with tempfile.TemporaryDirectory() as scratch:
        script = Path(scratch) / "completion"
        script.write_text(completion())
        for tool in tools():
            told = options_of(tool)
            tried = {option: [option] if told[option] else [option, "nowhere"] for option in told if option not in ALONE}
            unknown = [option for option, words in tried.items() if "there is no option" in run(tool, *words).stderr]
            check(f"{tool}: the options that it names", unknown, [])
            check(f"{tool}: --help and --version are told", ALONE <= set(told), True)
        for words, wanted in [
            (["explain", "--w"], "--walk"), (["explain", "--page", "p"], "page.html"), (["show-race", "fo"], "folder"),
            (["check-release", "--js"], "--json"), (["tools/explain", "--rep"], "--replay"),
        ]:
            check(f"completion of {words}", _completed(script, words), wanted)


def _completed(script, words):
    """What bash makes of the last of some words, in a folder with a file and a folder."""
    (script.parent / "page.html").write_text("")
    (script.parent / "folder").mkdir(exist_ok=True)
    given = " ".join(words)
    told = f"source ./completion; COMP_WORDS=({given}); COMP_CWORD={len(words) - 1}; _racecheck_tools; echo ${{COMPREPLY[@]}}"
    return subprocess.run([shutil.which("bash"), "-c", told], cwd=script.parent, capture_output=True, text=True).stdout.strip()


def check_called(programs):
    """A tool names the others as they are started: by their place in the repository, and by their names once installed."""
    join = ROOT / "examples" / "join-race"
    done = run("explain", join, RACECHECK=programs[0])
    check("explain in the repository names tools/triage", "tools/triage tells" in done.stdout, True)
    with tempfile.TemporaryDirectory() as scratch:
        shutil.copytree(ROOT / "tools", Path(scratch) / "tools", ignore=shutil.ignore_patterns("__pycache__"))
        (Path(scratch) / "bin").mkdir()
        shutil.copy(programs[0], Path(scratch) / "bin" / "racecheck")
        command, environment = [Path(scratch) / "tools" / "explain", join], user_environment(RACECHECK="")
        done = subprocess.run(command, env=environment, capture_output=True, text=True)
        check("explain, installed, names triage", (": triage tells" in done.stdout, "tools/" in done.stdout), (True, False))


def check_limits(programs):
    """Each program does its work with the stack that the page names, and under a limit of files' sizes leaves no whole line."""
    sections = dict(re.findall(r"^## (\w+): [^\n]*\n(.*?)(?=^## )", PAGE.read_text(), re.M | re.S))
    for path in programs:
        name = Path(path).name
        example, arguments = STARTED[name]
        kilobytes = int(re.search(r"`ulimit -s (\d+)`", sections[name])[1])
        with tempfile.TemporaryDirectory() as scratch:
            folder = ROOT / "examples" / example if example else scratch
            small = _run([path, *arguments], folder, resource.RLIMIT_STACK, 1024 * kilobytes)
            check(f"{name} with {kilobytes} kilobytes of stack", small.stdout.endswith(b"\n"), True)
            if example and name != "racefill":
                with open(Path(scratch) / "cut", "wb") as cut:
                    _run([path], folder, resource.RLIMIT_FSIZE, 3, stdout=cut)
                check(f"{name} under a limit of 3 bytes", b"\n" in (Path(scratch) / "cut").read_bytes(), False)


def _run(command, folder, kind, most, **how):
    how = {"stdout": subprocess.PIPE, **how}
    return subprocess.run(
        command, cwd=folder, stdin=subprocess.DEVNULL, stderr=subprocess.DEVNULL, env=user_environment(),
        preexec_fn=lambda: resource.setrlimit(kind, (most, most)), **how)


def check_commands(programs):
    check_sections()
    check_options()
    check_called(programs)
    check_limits(programs)
