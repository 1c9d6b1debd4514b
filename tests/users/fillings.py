"""Sheets for filling, in the pages and in examples/: what racefill writes, byte for byte, and that racecheck accepts it."""
import subprocess

from checks import ROOT, answer_in, check, check_pair, check_written, contents, sheet_of
from explanation.refusals import OF_FILLING
from pages import PAGES, fenced

TO_FILL = "-to-fill"
USAGE = b"usage: racefill, with no argument, in a folder with program.txt and split.txt\n"


def fillings_of(page):
    """Every sheet for filling in a page: its line there and its fields, with the filled sheet or the answer."""
    for line, block in fenced(page, "fill"):
        yield line, dict(row.split(": ", 1) for row in block)


def check_filling(racefill, racecheck, what, fields):
    program, split = fields["program"], fields["split"]
    if "answer" in fields:
        check_written(racefill, what, program, split, fields["answer"].encode() + b"\n")
        return
    check_written(racefill, what, program, split, sheet_of(fields["filled"]))
    check_pair(racecheck, what + ", as filled", program, fields["filled"], "ACCEPT")


def check_pages(racefill, racecheck):
    """Every example of the pages. There is one that is filled, and one for each number that only filling gives."""
    met = set()
    for name in PAGES:
        for line, fields in fillings_of((ROOT / "docs" / name).read_text()):
            check_filling(racefill, racecheck, f"docs/{name} line {line}", fields)
            met.add(int(fields["answer"].split(",")[1]) if "answer" in fields else 0)
    check("the pages have an example for each answer of filling", ({0} | OF_FILLING) - met, set())


def check_examples(racefill):
    """The folder examples/NAME has what racefill writes in examples/NAME-to-fill; that it is accepted is told there."""
    folders = sorted((ROOT / "examples").glob("*" + TO_FILL))
    check("there are examples to fill", len(folders) >= 1, True)
    for folder in folders:
        filled = folder.with_name(folder.name.removesuffix(TO_FILL))
        before = contents(folder)
        check(f"examples/{folder.name}", answer_in(racefill, folder), (filled / "split.txt").read_bytes())
        check(f"examples/{folder.name}, its folder afterwards", contents(folder) == before, True)
        sheets = [(one / "program.txt").read_bytes() for one in (folder, filled)]
        check(f"examples/{folder.name}, the job is the same", sheets[0] == sheets[1], True)
        check(f"examples/{filled.name} is accepted", (filled / "expected").read_text(), "ACCEPT\n")


def check_argument(racefill):
    folder = ROOT / "examples" / f"top-up{TO_FILL}"
    done = subprocess.run([racefill, "."], cwd=folder, stdin=subprocess.DEVNULL, capture_output=True)
    check("racefill with an argument", (done.stdout, done.stderr), (b"UNREAD\n", USAGE))


def check_fillings(racefill, racecheck):
    check_pages(racefill, racecheck)
    check_examples(racefill)
    check_argument(racefill)
