"""tools/draw-faults: the same lesson for a seed on every bench, and each answer of its sheet held to racecheck and racereplay."""
import hashlib
import os
import re
import subprocess
import tempfile
from html import unescape
from pathlib import Path

from checks import ROOT, answer_in, check, contents, user_environment
from faults.draw import Draw
from faults.kinds import FAULTS
from looking import LOOKS, WELL
from pages import fenced

SEEDS = [0, 1, 2, 7, 1013904223, 4294967295]
# Of the sheets of seed 1, by their names and bytes: another bench has the same.
SAME = "a2dce8591bfdaa3fa947274686059cb3f2a796f141eeff343b09d955c076b277"
# By fault: which refusal it is, and whether the job races.
REFUSED = {
    "a join forgotten": (r"REFUSE,33,\d+,5,0", True), "a lock not taken": (r"REFUSE,33,\d+,5,0", True),
    "one canister too few": (r"REFUSE,33,\d+,5,0", True), "a reader too many": (r"REFUSE,32,\d+,2,0", False),
    "a purge that keeps nothing back": (r"REFUSE,32,\d+,3,1", False), "a wrong row": (r"REFUSE,32,\d+,[34],[01]", False),
    "a wrong load": (r"REFUSE,32,\d+,[23],[01]", False)}


def draw(*arguments, **environment):
    return subprocess.run(
        [ROOT / "tools" / "draw-faults", *map(str, arguments)], env=user_environment(**environment), cwd=ROOT,
        stdin=subprocess.DEVNULL, capture_output=True, text=True)


def said_of(folder, seed):
    return [f"{folder}: 7 pairs with a fault each, drawn from seed {seed}.",
            "To hand out: questions.html and the folders 1 to 7. To keep: answers.html and the folder answers."]


def lesson(scratch, seed):
    folder = Path(scratch) / f"lesson {seed}"
    done, said = draw(seed, folder), said_of(folder, seed)
    check(f"lesson of seed {seed}", (done.returncode, done.stdout.splitlines(), done.stderr), (0, said, ""))
    return folder


# ---- The answers


def told(folder):
    """What the sheet of answers says of each pair: its fault, racecheck's line, and racereplay's on the order, or empty."""
    sheet = (folder / "answers.html").read_text()
    for block in re.findall(r'<section class="drill ">(.*?)</section>', sheet, re.S):
        fault = unescape(re.search(r"<h3>[A-G]: (.*?)</h3>", block)[1])
        race = re.search(r"<dt>it can race</dt>.*?says <code>(RACE,[\d,]*)</code>", block)
        yield fault, re.search(r"<dt>racecheck</dt><dd><code>(.*?)</code>", block)[1], race[1] if race else ""


def replayed(program, order):
    with tempfile.TemporaryDirectory() as scratch:
        (Path(scratch) / "program.txt").write_bytes(program.read_bytes())
        (Path(scratch) / "trace.txt").write_bytes(order.read_bytes())
        return answer_in(os.environ["RACEREPLAY"], scratch).decode().strip()


def check_answers(folder, seed):
    """Every answer is that of a proved program; without a race, the same job is accepted."""
    answers = list(told(folder))
    check(f"seed {seed}: each fault once", sorted(fault for fault, _, _ in answers), sorted(FAULTS))
    for number, (fault, line, race) in enumerate(answers, 1):
        what, pair, mended = f"seed {seed}, pair {number}, {fault}", folder / str(number), folder / "answers" / str(number)
        check(f"{what}: racecheck", answer_in(os.environ["RACECHECK"], pair).decode().strip(), line)
        refused, races = REFUSED[fault]
        check(f"{what}: its refusal", (bool(re.fullmatch(refused, line)), bool(race)), (True, races))
        check(f"{what}: mended", answer_in(os.environ["RACECHECK"], mended), b"ACCEPT\n")
        if races:
            check(f"{what}: racereplay", replayed(pair / "program.txt", mended / "race.txt"), race)
            steps, state = race.split(",")[1:3]
            check(f"{what}: the order ends with its race", steps, state)
        else:
            check(f"{what}: the same job", (pair / "program.txt").read_bytes(), (mended / "program.txt").read_bytes())
    return answers


def check_drawn():
    with tempfile.TemporaryDirectory() as scratch:
        orders = []
        for seed in SEEDS:
            folder = lesson(scratch, seed)
            orders.append([fault for fault, _, _ in check_answers(folder, seed)])
            asked = (folder / "questions.html").read_text()
            check(f"seed {seed}: the questions do not give it away", re.findall(r"REFUSE|RACE|<h3>", asked), [])
        check("the order of the faults is drawn", len(set(map(tuple, orders))) > 3, True)
        sheets = [(name, text) for name, text in contents(Path(scratch) / "lesson 1").items() if text and name.endswith(".txt")]
        check("the same on every bench", hashlib.sha256(repr(sheets).encode()).hexdigest(), SAME)
        check_page(Path(scratch) / "lesson 1")
    numbers = Draw(0)
    drawn = [numbers.below(1 << 16) for _ in range(2)]  # docs/DRILLS.md has what racedrill draws from these seeds
    check("the draw is racedrill's", drawn, [1013904223 >> 16, 1196435762 >> 16])


def check_page(folder):
    """docs/DRILLS.md shows what is said of seed 1, and its answers."""
    page = (ROOT / "docs" / "DRILLS.md").read_text()
    shown = "".join(f"    {line}\n" for line in ["$ tools/draw-faults 1 lesson", *said_of("lesson", 1)])
    check("docs/DRILLS.md: what is said", shown in page, True)
    blocks = [block for _, block in fenced(page, "faults")]
    wanted = ["seed: 1"] + [f"{number}: {fault}: {line}{', ' * bool(race)}{race}" for number, (fault, line, race) in enumerate(told(folder), 1)]
    check("docs/DRILLS.md: the answers of a lesson", blocks, [wanted])


# ---- The command


def check_refused():
    """Nothing that is there is ever touched."""
    with tempfile.TemporaryDirectory() as scratch:
        there, file, link = Path(scratch) / "there", Path(scratch) / "file", Path(scratch) / "link"
        there.mkdir()
        file.write_text("mine")
        before = contents(Path(scratch))
        link.symlink_to("nowhere")
        for what, arguments, words in [
            ("no arguments", [], "usage: draw-faults"), ("a seed alone", [1], "usage: draw-faults"),
            ("an option", ["-x", 1, there], "usage: draw-faults"), ("no seed", ["one", there], "a seed is a number"),
            ("a leading zero", ["01", there], "a seed is a number"), ("too large", [1 << 32, there], "a seed is a number"),
            ("a folder that is there", [1, there], "is there already"), ("a file that is there", [1, file], "is there already"),
            ("a link that is there", [1, link], "is there already"), ("below a file", [1, file / "below"], "cannot make"),
        ]:
            done = draw(*arguments)
            check(f"draw-faults, {what}", (done.returncode, words in done.stderr), (2, True))
        check("draw-faults: the link is as it was", os.readlink(link), "nowhere")
        link.unlink()
        check("draw-faults: all as it was", contents(Path(scratch)), before)
        for name, lie in (("RACECHECK", "echo ACCEPT"), ("RACEREPLAY", "echo RAN,9")):
            liar, folder = Path(scratch) / name, Path(scratch) / f"lesson of {name}"
            liar.write_text(f"#!/bin/sh\n{lie}\n")
            liar.chmod(0o755)
            done = draw(1, folder, **{name: liar})
            told = done.returncode, "DISAGREEMENT" in done.stdout, folder.exists()
            check(f"draw-faults, a {name.lower()} that lies", told, (3, True, False))


def check_faults():
    check_drawn()
    check_refused()


# ---- Its sheets in a browser


def check_sheets(browser, scratch):
    folder = lesson(scratch, 1)
    for name in ("questions", "answers"):
        tab = browser.open((folder / f"{name}.html").as_uri(), 1300)
        for width in (1300, 400):
            tab.size(width, 900)
            check(f"sheet of {name}, {width} wide", tab.value(LOOKS), WELL)
        paper = Path(scratch) / f"{name}.pdf"
        tab.paper(paper)
        check(f"sheet of {name}: two sheets of paper", len(re.findall(rb"/Type\s*/Page\b", paper.read_bytes())), 2)
        check(f"sheet of {name}: nothing went wrong", tab.complaints(), [])
