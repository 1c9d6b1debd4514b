"""The examples in docs/DRILLS.md: pairs that racedrill makes, changed line by line, and what racecheck answers."""
import re
import subprocess
import tempfile
from pathlib import Path

from checks import ROOT, answer_in, check, contents
from pages import fenced

SHEETS = ["program.txt", "split.txt"]


def changed(what, sheet, name, changes):
    """A sheet with lines replaced by lines (parted by bars) or by nothing, all counted in the sheet as it was made."""
    lines = [[line] for line in sheet.splitlines()]
    for number, old, new in changes:
        check(f"{what}, line {number} of {name}", lines[number - 1], [old])
        lines[number - 1] = [] if new == "nothing" else new.split("|")
    return "".join(line + "\n" for part in lines for line in part)


def check_drill(racedrill, racecheck, what, block):
    fields = dict(row.split(": ", 1) for row in block)
    with tempfile.TemporaryDirectory() as scratch:
        folder = Path(scratch)
        made = subprocess.run([racedrill, fields["seed"]], cwd=folder, stdin=subprocess.DEVNULL, stdout=subprocess.PIPE).stdout
        if "line" in fields:
            check(what + ", its line", made, fields["line"].encode() + b"\n")
        if "answer" not in fields:
            check(what + ", nothing left behind", contents(folder), {})
            return
        for name in SHEETS:
            changes = [
                (int(place.split()[1]), *change.split(" -> "))
                for place, change in fields.items()
                if re.fullmatch(rf"{name} \d+", place)
            ]
            sheet = (folder / name).read_text()
            (folder / name).write_text(changed(what, sheet, name, changes))
        check(what, answer_in(racecheck, folder), fields["answer"].encode() + b"\n")


def check_drills(racedrill, racecheck):
    page = (ROOT / "docs" / "DRILLS.md").read_text()
    blocks = list(fenced(page, "drill"))
    check("DRILLS.md has examples", len(blocks) >= 8, True)
    for line, block in blocks:
        check_drill(racedrill, racecheck, f"docs/DRILLS.md line {line}", block)
    shown = re.findall(r"^    \$ racedrill (\d+)\n    (\S+)$", page, re.M)
    drilled = [(block[0].removeprefix("seed: "), block[1].removeprefix("line: ")) for _, block in blocks]
    check("DRILLS.md, what it shows is run", [pair for pair in shown if pair not in drilled], [])
