"""The command tools/try-orders: what it says and writes, with files in its way and with programs that lie."""
import json
import re
import shutil
import tempfile
from pathlib import Path

from checks import ROOT, check, contents
from jobs import make_job
from trying_jobs import racereplay, run

RACE = ROOT / "examples" / "refill-race"
PAGE = "step.html"
LONG = 12_000  # lines of an order


def copied(scratch, name, *files):
    folder = Path(scratch) / name
    folder.mkdir()
    for file in files:
        shutil.copy(RACE / file, folder)
    return folder


def check_said():
    """What is told of a pair that is refused, of one that is accepted, and without a split."""
    with tempfile.TemporaryDirectory() as scratch:
        page = Path(scratch) / "page"
        done = run("--page", page, RACE)
        wanted = [f"{RACE}: the page is {page}; open it in a browser.", "Its recorded order: racereplay says RACE,34,34,2,4.",
                  "racecheck refuses this pair (REFUSE,33,70,5,0), and the job can race."]
        shown = "\n    ".join(["    $ tools/try-orders --page refill-race.html examples/refill-race", *wanted])
        shown = shown.replace(str(RACE), "examples/refill-race").replace(str(page), "refill-race.html")
        check("docs/TRYING.md: what is said", shown in (ROOT / "docs" / "TRYING.md").read_text(), True)
        check("try-orders of refill-race", (done.status, done.said.splitlines(), done.error), (0, wanted, ""))
        check("refill-race: the page in its folder", (RACE / PAGE).read_text() == page.read_text(), True)
        bare = copied(scratch, "bare", "program.txt")
        done = run(bare)
        check("without split, trace and names", (done.status, sorted(contents(bare))), (0, ["program.txt", PAGE]))
        wanted = [
            f"{bare}: the page is {bare / PAGE}; open it in a browser.",
            "No split of this job was judged here, and the job can race."]
        check("without split: what is told", done.said.splitlines(), wanted)
        check("once more, over its own page", run(bare).status, 0)
        searched = run("--page", page, make_job(Path(scratch) / "quiet", ["int,0"]))
        check("a job that cannot race", "all orders were searched, and none races" in searched.said, True)


def check_traces():
    """Any trace is taken: one that is refused, one of bytes, an empty one, a long one."""
    with tempfile.TemporaryDirectory() as scratch:
        folder, order, page = copied(scratch, "job", "program.txt"), Path(scratch) / "order", Path(scratch) / "page"
        for what, text, line in [
            ("empty", b"", "RAN,0"), ("refused", b"0,0\n7,0\n", "REFUSE,47,2,0,0,1"),
            ("bytes", b"0,0\n\xff\x00<\n", "REFUSE,46,2,0,0,1"), ("not closed", b"0,0", "REFUSE,46,1,0,0,0"),
        ]:
            order.write_bytes(text)
            done = run("--trace", order, "--page", page, folder)
            check(f"a trace, {what}", (done.status, f"racereplay says {line}." in done.said), (0, True))
        loop = make_job(Path(scratch) / "loop", ["while,0", "int,0"])
        order.write_text("0,0\n" * LONG)
        done = run("--trace", order, "--page", page, loop)
        whole = page.read_text().count(r"0,0\n")
        check("a long trace is in the page whole", (f"RAN,{LONG}" in done.said, whole), (True, LONG))
        check("no such trace", run("--trace", Path(scratch) / "nowhere", "--page", page, folder).status, 2)


def check_files():
    """Nothing of a pair is written over, nor a file that is no such page."""
    with tempfile.TemporaryDirectory() as scratch:
        folder = copied(scratch, "job", "program.txt", "split.txt", "names.txt", "trace.txt")
        before = contents(folder)
        for name in before:
            done = run("--page", folder / name, folder)
            check(f"a page over {name}", (done.status, "written over" in done.error), (2, True))
        (folder / PAGE).write_text("mine")
        done = run(folder)
        check("a step.html that is no such page", (done.status, "is no page of this tool" in done.error), (2, True))
        check("the folder afterwards", contents(folder), {**before, PAGE: b"mine"})


def check_errors():
    with tempfile.TemporaryDirectory() as scratch:
        bad, empty = make_job(Path(scratch) / "bad", ["var,0"]), Path(scratch) / "empty"
        empty.mkdir()
        for what, arguments, words in [
            ("no arguments, and no job here", [], "no program.txt that can be read in ."),
            ("two folders", [RACE, RACE], "usage: try-orders"),
            ("an unknown option", ["-x", RACE], "usage: try-orders"), ("no such folder", ["nowhere"], "no such folder"),
            ("no program", [empty], "no program.txt"),
            ("a page in no folder", ["--page", "nowhere/page", RACE], "no folder to write the page in"),
        ]:
            done = run(*arguments)
            check(f"try-orders, {what}", (done.status, words in done.error), (2, True))
        done = run(bad)
        told = done.status, "REFUSE,14,2,0,0,0" in done.said, (bad / PAGE).exists()
        check("a program that is not well formed", told, (2, True, False))
        page = Path(scratch) / "page"
        check("no racereplay", run("--page", page, RACE, RACEREPLAY="nowhere").status, 2)
        done = run("--page", page, RACE, RACECHECK="nowhere")
        check("no racecheck", (done.status, "No split of this job was judged here" in done.said), (0, True))


def check_lies():
    """A racereplay that lies about the recorded order or about the order that was found: no page."""
    with tempfile.TemporaryDirectory() as scratch:
        lie, page = Path(scratch) / "lie", Path(scratch) / "page"
        lie.write_text(f"#!/bin/sh\nif [ -s trace.txt ]; then echo RAN,34; else {racereplay()}; fi\n")
        lie.chmod(0o755)
        for what, files in [("the recorded order", ["program.txt", "trace.txt"]), ("the order that was found", ["program.txt"])]:
            done = run("--page", page, copied(scratch, what, *files), RACEREPLAY=lie)
            told = done.status, "*** DISAGREEMENT" in done.said, "DISAGREEMENT" in done.error, page.exists()
            check(f"a racereplay that lies about {what}", told, (3, True, True, False))


def check_replayed():
    """tools/explain --replay --page writes the same page; without an order to play none."""
    with tempfile.TemporaryDirectory() as scratch:
        page = Path(scratch) / "page"
        done = run("--replay", "--page", page, RACE, tool="explain")
        check("explain --replay --page", (done.status, done.said.splitlines()[0], done.error), (1, f"{RACE}: RACE,34,34,2,4", ""))
        check("explain --replay --page: the page of try-orders", page.read_text() == (RACE / PAGE).read_text(), True)
        bad = make_job(Path(scratch) / "bad", ["var,0"])
        (bad / "trace.txt").write_text("0,0\n")
        for what, folder, status in [("not well formed", bad, 1), ("no order", copied(scratch, "bare", "program.txt"), 2)]:
            done = run("--replay", "--page", Path(scratch) / "none", folder, tool="explain")
            told = done.status, "no page is written" in done.error, (Path(scratch) / "none").exists()
            check(f"explain --replay --page, {what}", told, (status, True, False))


def check_veiled():
    """The quiz's answer is not to be read in the page's source."""
    handed = json.loads(re.search(r'id="job">(.*?)</script>', (RACE / PAGE).read_text())[1])
    check("the quiz: what is handed over", sorted(handed["quiz"]), ["fewest", "switches", "veiled"])
    moves = [tuple(map(int, line.split(","))) for line in (RACE / "trace.txt").read_text().split()]
    shown, plain = handed["quiz"]["veiled"], bytes(2 * thread + choice for thread, choice in moves).hex()
    like = sum(one == other for one, other in zip(re.findall("..", shown), re.findall("..", plain)))
    check("the quiz: moves that stand there as they are", (len(shown), like < len(moves) // 4), (len(plain), True))


def check_command():
    check_said()
    check_traces()
    check_files()
    check_errors()
    check_lies()
    check_replayed()
    check_veiled()
