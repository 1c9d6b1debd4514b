"""The rule for what the tools may write where: no sheet's name, no input, no name twice, and nothing over what is not their own."""
import os
import shutil
import subprocess
import tempfile
from pathlib import Path

from checks import ROOT, check, contents, user_environment
from common.command import Failure
from common.writing import Output, approve

EXAMPLES = ROOT / "examples"
SHEETS = ("program.txt", "split.txt", "names.txt", "pair/program.txt", "release/one/split.txt", "link")
SHEET = "a sheet of that name is never written over"
READ = "which is read here"
TWICE = "give each a name of its own"
OWN = "may be somebody's own"
# The options of each tool behind which a file to write stands.
PAGES = {"explain": ["--page"], "show-race": ["--page"], "try-orders": ["--page"]}
ORDERS = {"show-race": ["--trace"], "triage": ["--trace"]}
REPORTS = {"check-release": ["--json", "--junit"]}


class Desk:
    """A folder with a pair, a release of two pairs, and files of somebody else; the tools are started in it."""

    def __init__(self, scratch, programs):
        names = ("RACECHECK", "RACEDRILL", "RACEFILL", "RACEREPLAY")
        self.scratch, self.programs = Path(scratch), dict(zip(names, programs))
        for name in ("pair", "release/one", "release/two"):
            shutil.copytree(EXAMPLES / "join-race", self.scratch / name)
        (self.scratch / "pair" / "names.txt").write_text("thread,1,pump\n")
        (self.scratch / "pair" / "trace.txt").write_text("0,0\n")
        (self.scratch / "manifest").write_text("one\ntwo\n")
        (self.scratch / "mine").write_text("the only copy\n")
        (self.scratch / "empty").write_text("")
        (self.scratch / "link").symlink_to("pair/split.txt")
        os.link(self.scratch / "pair" / "program.txt", self.scratch / "second name")

    def path(self, name):
        return os.path.join(self.scratch, name)

    def run(self, tool, *arguments):
        return subprocess.run(
            [ROOT / "tools" / tool, *map(str, arguments)], cwd=self.scratch, env=user_environment(**self.programs),
            stdin=subprocess.DEVNULL, capture_output=True, text=True)

    def check_refused(self, words, tool, *arguments):
        """Refused before anything is done, with the reason, and all is as it was."""
        before, done = contents(self.scratch), self.run(tool, *arguments)
        what = " ".join([tool, *map(str, arguments)])
        check(f"{what}: refused", (done.returncode, done.stdout, words in done.stderr), (2, "", True))
        check(f"{what}: all is as it was", contents(self.scratch) == before, True)


def writers():
    """Every tool with every option behind which a file to write stands, and the folder that it is started on."""
    for table in (PAGES, ORDERS, REPORTS, {"triage": ["--mended"]}):
        for tool, options in table.items():
            for option in options:
                yield tool, option, "release" if tool == "check-release" else "pair"


def check_rule(desk):
    """The rule by itself, in the folder of the desk: by the name, by a link, by what is read, by what is there."""
    inputs, dangling = [desk.scratch / "pair" / "program.txt", desk.scratch / "pair" / "trace.txt"], desk.scratch / "dangling"
    dangling.symlink_to("not there yet")
    for name, words in [
        *((name, SHEET) for name in SHEETS), ("second name", READ), ("pair/trace.txt", READ), ("./pair/../pair/trace.txt", READ),
        ("mine", "is no page of this tool"), ("nowhere/file", "no folder to write the page in"), ("release", "that of a folder"),
        ("new", None), ("empty", None), ("dangling", None), ("/dev/null", None),
    ]:
        check(f"a page named {name}", _refusal([Output("page", desk.path(name), b"<")], inputs, words), words)
    dangling.unlink()
    check("an order where something is", _refusal([Output("order", desk.path("mine"))], inputs, OWN), OWN)
    check("an older page", _refusal([Output("page", desk.path("mine"), b"the ")], inputs, None), None)
    check("one name twice", _refusal([Output("a", desk.path("new")), Output("b", desk.path("./new"))], inputs, TWICE), TWICE)


def _refusal(outputs, inputs, words):
    """The words, if they are in the reason why these may not be written; None if they may."""
    try:
        approve(outputs, inputs)
    except Failure as why:
        return words if words and words in str(why) else str(why)
    return None


def check_names(desk):
    """Every tool keeps to it: no sheet's name, and nothing of others."""
    for tool, option, folder in writers():
        desk.check_refused(SHEET, tool, option, "pair/split.txt", folder)
        words = OWN if option in ("--trace", "--mended") else "of this tool, so it is left as it is"
        desk.check_refused(words, tool, option, "mine", folder)
    desk.check_refused(READ, "explain", "--page", "second name", "pair")
    for name, words in [("split.txt", SHEET), ("mine", "is no report of this tool"), ("release/one/report", "into a pair's folder")]:
        desk.check_refused(words, "check-release", "release", name)


def check_twice(desk):
    """No name twice, and none that is read by another option."""
    for tool, options in [("show-race", ["--trace", "--page"]), ("triage", ["--trace", "--mended"])]:
        desk.check_refused(TWICE, tool, options[0], "new", options[1], "./new", "pair")
    desk.check_refused(TWICE, "check-release", "--json", "new", "--junit", "new", "release", "report")
    desk.check_refused(TWICE, "check-release", "--json", "new", "release", "new")
    for option in ("--json", "--junit"):
        desk.check_refused(READ, "check-release", "--manifest", "manifest", option, "manifest", "release")
    desk.check_refused(READ, "check-release", "--manifest", "manifest", "release", "manifest")
    desk.check_refused(READ, "try-orders", "--trace", "mine", "--page", "mine", "pair")


def check_replaced(desk):
    """A page or a report takes the place of an older one of the same tool, by a rename, and of nothing else."""
    for number, (tool, option, folder) in enumerate(one for one in writers() if one[1] not in ("--trace", "--mended")):
        file = desk.scratch / f"file-{number}"
        shutil.copy(desk.scratch / "empty", file)
        first = desk.run(tool, option, file, folder)
        old = os.stat(file).st_ino
        again = desk.run(tool, option, file, folder)
        check(f"{tool} {option}: over an empty file, then over its own", (first.stderr.count("left as"), again.returncode),
              (0, first.returncode))
        check(f"{tool} {option}: renamed into place", (os.stat(file).st_size > 0, os.stat(file).st_ino != old), (True, True))
    for tool in PAGES:
        for number, other in enumerate(PAGES):
            if tool != other:
                desk.check_refused("is no page of this tool", tool, "--page", f"file-{number}", "pair")
    done = desk.run("explain", "--page", "/dev/stdout", "pair")
    check("explain --page to a device", (done.returncode, done.stdout.count("</html>")), (1, 1))
    check("nothing is left beside", [name for name in os.listdir(desk.scratch) if name.startswith(".")], [])


def check_writing(programs):
    with tempfile.TemporaryDirectory() as scratch:
        desk = Desk(scratch, programs)
        check_rule(desk)
        check_names(desk)
        check_twice(desk)
        check_replaced(desk)
