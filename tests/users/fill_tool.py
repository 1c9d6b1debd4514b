"""Sheets for filling explained, on every example and on drawn sheets; tools/fill, which puts filled sheets into place."""
import os
import subprocess
import tempfile
from collections import Counter
from pathlib import Path

import browser
from checks import ROOT, check, contents, make_pair, user_environment
from explain_tool import draw, walked
from explanation import report
from explanation.drawing import page
from explanation.findings import explain
from explanation.refusals import OF_FILLING, REFUSALS
from explanation.running import FILLING, Run, run_in
from fillings import TO_FILL, fillings_of
from pages import PAGES

DRAWN = 2000
# The examples that race, with their maps taken out: the line at which filling fails, that of the race or of what leads to it.
RACES = {
    "canisters-race": 29, "colour-book-race": 36, "either-lock-race": 17, "join-race": 13, "lock-race": 10, "loop-race": 46,
    "purge-race": 30, "refill-race": 70, "two-locks-race": 8}
LARGE = "after line 2 there would be 1,000,000,001 of location 0; a number in a map is at most 1,000,000,000"


def run(tool, racefill, racecheck, *arguments):
    return subprocess.run(
        [ROOT / "tools" / tool, *map(str, arguments)], env=user_environment(RACEFILL=racefill, RACECHECK=racecheck), cwd=ROOT,
        stdin=subprocess.DEVNULL, capture_output=True, text=True)


def emptied(program, split):
    """A split with its after-maps taken out, under a heading that is filled."""
    lines = [line.split(",") for line in split.splitlines()]
    head = lines[0] if lines[0][0] != "C" else ["C2", *lines[0][1:], "0"]
    first_row = 1 + int(head[3]) + int(head[4]) + program.count("proc,")
    rows = [[kind, "", start] for kind, _, start in lines[first_row:]]
    return "".join(",".join(line) + "\n" for line in [head, *lines[1:first_row], *rows])


# ---- What is said of a sheet for filling


def lacks(explanation, run_there):
    """What the explanation of a filling lacks."""
    text = "\n".join(report.told(explanation))
    faults = [explanation.disagrees] if explanation.disagrees else []
    if run_there.answer == "UNREAD":
        return faults
    if run_there.answer == "FILLED":
        return faults + ([] if walked(explanation) else ["the walk"])
    number = run_there.numbers()[0]
    # A sheet that is not for filling is told so, in the place of what usually helps.
    usual = REFUSALS[number].helps
    wanted = [usual if usual in explanation.helps else explanation.helps[0], *explanation.numbers[:1]]
    if number == 41:
        wanted += [f"program.txt line {explanation.site.line}", f"Condition {explanation.condition_number} of ", "at location "]
        faults += [] if len(explanation.numbers) > 1 else ["what is there"]
    return faults + [words for words in wanted if words not in text] + ([] if explanation.numbers else ["the numbers"])


def check_explained(racefill, what, folder):
    run_there = run_in(racefill, folder, FILLING)
    explanation = explain(run_there, folder)
    check(f"{what}, explained", lacks(explanation, run_there), [])
    browser.check_markup(f"{what}, its page", page.text("sheet", explain(run_there, folder)))
    return explanation


def check_pages(racefill):
    """Every sheet for filling in the pages, and each number that only filling gives."""
    told = {}
    for name in PAGES:
        for line, fields in fillings_of((ROOT / "docs" / name).read_text()):
            with tempfile.TemporaryDirectory() as scratch:
                make_pair(Path(scratch) / "pair", fields["program"], fields["split"])
                explanation = check_explained(racefill, f"docs/{name} line {line}", Path(scratch) / "pair")
                told.setdefault(explanation.number, []).append(explanation)
    check("41 to 43 are explained", sorted(OF_FILLING & set(told)), sorted(OF_FILLING))
    check("43, its number", ["257 maps are given" in one.numbers[0] for one in told[43]], [True] * len(told[43]))
    check("42, its numbers", [LARGE in one.numbers or "bytes; at most 65,536" in one.numbers[0] for one in told[42]],
          [True] * len(told[42]))


def check_filled(racefill, racecheck):
    """A sheet that can be filled: the walk and the page show it filled."""
    with tempfile.TemporaryDirectory() as scratch:
        file = Path(scratch) / "page.html"
        done = run("explain", racefill, racecheck, "--walk", "--page", file, ROOT / "examples" / f"top-up{TO_FILL}")
        check("a sheet that can be filled", (done.returncode, ": FILLED\n" in done.stdout, done.stderr), (0, True, ""))
        rows = (ROOT / "examples" / "top-up" / "split.txt").read_text().splitlines()[50:]
        check("a sheet that can be filled: the walk has its rows", [row for row in rows if f" {row} " not in done.stdout], [])
        check("a sheet that can be filled: its page", ">FILLED</div>" in file.read_text(), True)


def check_races(racefill, racecheck):
    """The examples that race fail at the line that is at fault, with the sheet's own numbers and names."""
    for name, line in RACES.items():
        with tempfile.TemporaryDirectory() as scratch:
            for file in ("program.txt", "names.txt"):
                if (ROOT / "examples" / name / file).exists():
                    (Path(scratch) / file).write_bytes((ROOT / "examples" / name / file).read_bytes())
            sheets = ((ROOT / "examples" / name / sheet).read_text() for sheet in ("program.txt", "split.txt"))
            (Path(scratch) / "split.txt").write_text(emptied(*sheets))
            explanation = check_explained(racefill, f"{name} to be filled", Path(scratch))
            check(f"{name} to be filled, the line", explanation.site.line, line)
            done = run("explain", racefill, racecheck, "--walk", scratch)
            marked = [row.split()[0] for row in done.stdout.splitlines() if row.lstrip().startswith(">")]
            check(f"{name} to be filled, by the command", (done.returncode, marked, done.stderr), (1, [f">{line}"], ""))
            if name == "refill-race":
                check(f"{name} to be filled, its numbers", "at location 0 (level): the whole, 2/2, is needed, and there is 1/2"
                      in done.stdout, True)
    check("every example that races is filled", sorted(RACES), sorted(path.name for path in (ROOT / "examples").glob("*-race")))


def check_drawn(racefill):
    """Drawn sheets: what is worked out here is racefill's answer, and the filled sheet is the one that it wrote."""
    met = Counter()
    with tempfile.TemporaryDirectory() as scratch:
        for number, folder in draw(scratch, DRAWN, "--to-fill"):
            run_there = run_in(racefill, folder, FILLING)
            explanation = explain(run_there, folder)
            met[explanation.number] += 1
            check(f"drawn sheet {number}, {run_there.answer[:20]}", lacks(explanation, run_there), [])
    check("drawn sheets are filled, and fail", [number for number in (0, 41, 42, 43) if not met[number]], [])


def check_lies():
    """An answer about a sheet for filling that the numbers do not bear out."""
    folder = ROOT / "examples" / f"top-up{TO_FILL}"
    filled = (ROOT / "examples" / "top-up" / "split.txt").read_bytes()
    lies = [Run(f"REFUSE,{number},0,0,0", None, FILLING) for number in (41, 42, 43)]
    lies += [Run("FILLED", None, FILLING, written=sheet) for sheet in (filled[:-1], filled.replace(b"44,", b"45,", 1))]
    for lie in lies:
        wanted = "not the one found here" if lie.written else "the answer is FILLED"
        check(f"a lying racefill, {lie.answer}", wanted in explain(lie, folder).disagrees, True)


# ---- tools/fill


def check_in_place(racefill, racecheck):
    given = (ROOT / "examples" / f"top-up{TO_FILL}" / "split.txt").read_bytes()
    filled = (ROOT / "examples" / "top-up" / "split.txt").read_bytes()
    with tempfile.TemporaryDirectory() as scratch:
        folder = Path(scratch) / "pair"
        folder.mkdir()
        for round_number, kept in [(1, "split-to-fill.txt"), (2, "split-to-fill-2.txt")]:
            (folder / "program.txt").write_bytes((ROOT / "examples" / "top-up" / "program.txt").read_bytes())
            (folder / "split.txt").write_bytes(given)
            done = run("fill", racefill, racecheck, folder)
            said = f"{folder}: racefill: filled, 41 maps\nracecheck: ACCEPT\nthe given sheet is kept as {kept}\n"
            check(f"fill in place, {round_number}", (done.returncode, done.stdout, done.stderr), (0, said, ""))
            check(f"fill in place, {round_number}, sheets",
                  ((folder / "split.txt").read_bytes(), (folder / kept).read_bytes()), (filled, given))
        names = ["program.txt", "split-to-fill-2.txt", "split-to-fill.txt", "split.txt"]
        check("fill in place, nothing else", sorted(os.listdir(folder)), names)


def check_new_folder(racefill, racecheck):
    given, filled = ROOT / "examples" / f"top-up{TO_FILL}", ROOT / "examples" / "top-up"
    with tempfile.TemporaryDirectory() as scratch:
        folder, before = Path(scratch) / "new", contents(given)
        done = run("fill", racefill, racecheck, given, folder)
        check("fill into a new folder", (done.returncode, "racecheck: ACCEPT\n" in done.stdout), (0, True))
        wanted = {name: (filled / name).read_bytes() for name in ("program.txt", "split.txt")}
        check("fill into a new folder, its sheets", contents(folder), wanted)
        check("fill into a new folder, the given one", contents(given) == before, True)
        done = run("fill", racefill, racecheck, given, folder)
        check("fill into a folder that is there", (done.returncode, "there already" in done.stderr), (2, True))
        check("fill, nothing left beside", os.listdir(scratch), ["new"])


def check_unfilled(racefill, racecheck):
    """A refusal is explained; it, a racefill that lies and a racecheck that does not accept leave all as it was."""
    race = "P,3|while,0|post,0|newsem,0|", "C2,2,1,2,2,0|int,0,0|sem,1,0|2|1|0,,|0,,|1,,|"
    good = "P,1|int,0|", "C2,1,1,1,1,0|int,0,0|1|0,,|"
    with tempfile.TemporaryDirectory() as scratch:
        liar, no = Path(scratch) / "liar", Path(scratch) / "no"
        for path, says in [(liar, "C2,1,1,1,2,0"), (no, "REFUSE,32,2,2,0")]:
            path.write_text(f"#!/bin/sh\necho {says}\n")
            path.chmod(0o755)
        make_pair(Path(scratch) / "race", *race)
        make_pair(Path(scratch) / "good", *good)
        make_pair(Path(scratch) / "empty", "absent", "absent")
        before = contents(Path(scratch))
        for what, programs, folder, status, words in [
            ("a job that fails", (racefill, racecheck), "race", 1, "racefill: REFUSE,41,0,0,0"),
            ("no pair", (racefill, racecheck), "empty", 2, "program.txt is missing"),
            ("a racefill that lies", (liar, racecheck), "good", 3, "*** DISAGREEMENT"),
            ("a racecheck that does not accept", (racefill, no), "good", 3, "racecheck: REFUSE,32,2,2,0"),
        ]:
            done = run("fill", *programs, Path(scratch) / folder)
            check(f"fill, {what}", (done.returncode, words in done.stdout), (status, True))
        check("fill, what is not filled is as it was", contents(Path(scratch)) == before, True)


def check_fill_tool(racefill, racecheck):
    check_pages(racefill)
    check_filled(racefill, racecheck)
    check_races(racefill, racecheck)
    check_lies()
    check_in_place(racefill, racecheck)
    check_new_folder(racefill, racecheck)
    check_unfilled(racefill, racecheck)
    check_drawn(racefill)
