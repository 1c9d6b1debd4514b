"""What must be believed, as the table "What to read" of PROMISES.md lists it: its files are there, its lines are counted as it says, and
no name among them has two meanings."""
import re

from checks import ROOT, check

# The same notion twice, of the sheets and of the calculus, read and written, or of two calls: one meaning, so one name.
TWICE = {
    "Env": "the types of the variables in scope, by number and as trees",
    "Every": "that it is so of each of a list, of conditions and of states",
    "Procedure": "as the sheet lists it, and as the calculus runs it",
    "Program": "as the sheet lists it, and as the calculus runs it",
    "◌>>=◌": "going on, after an outcome and after an option",
    "post": "the table's word for a step's post, and what it is",
    "row": "what a split says of a step, read and written",
    "type_line": "the line of a type, read and written",
    "type_lines": "the lines of the types, read and written",
    "split_lines": "the lines of a split, of any and of a practice pair",
    "output_line": "the line of a program, of racecheck and of racereplay",
    "returned_by": "the numbers of the code's answer, of a practice pair and of a filling",
    "returned_for": "the numbers of an outcome, of a replay and of a filling",
    "roomy": "whether buffers are long enough, of a drill and of a replay in pieces",
}
# How far a number of the page may be from the count.
NEAR = 0.03
# Lines that define nothing: imports, comments, empty ones.
ASIDE = re.compile(r"^\s*(?:$|--|//|(?:unfoldable )?(?:pub )?use |ghost use )")
DEFINED = re.compile(r"^\s*(?:(?:unfoldable|abbrev) pub|pub data|pub record) (\S+)", re.M)


def rows():
    """Each row of the table: what it is for, its files, its lines, and those that define something."""
    page = (ROOT / "docs" / "PROMISES.md").read_text().split("\n## What to read\n")[1].split("\n## ")[0]
    told = ""
    for cells in (row.split(" | ") for row in re.findall(r"^\| (.*\d) \|$", page, re.M)):
        told = cells[0].strip() or told
        yield told, files_of(cells[1]), *(int(cell.replace(",", "")) for cell in cells[2:])


def files_of(cell):
    """`folder`, `folder` without `names`, `folder`: `names`, or `file`; names are those of files without their ending."""
    first, *names = re.findall(r"`([^`]+)`", cell)
    path = ROOT / first
    if not path.is_dir():
        return [path]
    among = sorted(file for file in path.glob("*.antt") if file.stem != "Lib")
    return [file for file in among if not names or (file.stem in names) != ("without" in cell)]


def lines_of(files):
    every = [line for file in files for line in file.read_text().splitlines()]
    return len(every), sum(not ASIDE.match(line) for line in every)


def near(told, count):
    return abs(told - count) <= max(NEAR * count, 2)


def check_believed():
    table = list(rows())
    check("PROMISES.md lists what to read", len(table) >= 10, True)
    lost = [str(file) for _, files, _, _ in table for file in files if not file.is_file()]
    check("PROMISES.md, each file to read is there", lost, [])
    for what, files, lines, defining in table:
        counts = lines_of(files)
        wanted = (lines, defining) if near(lines, counts[0]) and near(defining, counts[1]) else counts
        check(f"PROMISES.md, lines to read for {what}, {files[0].relative_to(ROOT)}", (lines, defining), wanted)
    check_readme_counts(table)
    check_one_meaning([file for _, files, _, _ in table for file in files if file.suffix == ".antt"])


def check_readme_counts(table):
    of_check = lines_of([file for what, files, _, _ in table if "every call" in what or "a check" in what for file in files])
    told = re.search(r"for a check ([\d,]+) lines of definitions, ([\d,]+) with", (ROOT / "README.md").read_text())
    numbers = [int(number.replace(",", "")) for number in told.groups()] if told else None
    fits = numbers is not None and near(numbers[0], of_check[1]) and near(numbers[1], of_check[0])
    check("README.md, lines to read for a check", numbers, numbers if fits else [of_check[1], of_check[0]])


def check_one_meaning(files):
    places = {}
    for file in files:
        for name in DEFINED.findall(file.read_text()):
            places.setdefault(name, set()).add(str(file.relative_to(ROOT)))
    twice = {name for name, found in places.items() if len(found) > 1}
    check("among what must be believed, names with two meanings", sorted(f"{n}: {sorted(places[n])}" for n in twice - set(TWICE)), [])
    check("among what must be believed, names that no longer stand twice", sorted(set(TWICE) - twice), [])
