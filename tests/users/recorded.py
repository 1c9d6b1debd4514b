"""Recorded orders, in the pages and in examples/: what racereplay writes, and what tools/explain --replay says of it."""
import re
import subprocess
import tempfile
from collections import Counter
from pathlib import Path

from checks import ROOT, answer_in, check, contents, place, user_environment
from explanation import replays, report
from explanation.names import read_names
from explanation.refusals import OF_REPLAYING, PROGRAM, REFUSALS, TRACE
from explanation.running import REPLAYING, Run, run_in
from explanation.sheets import read_sheet
from pages import PAGES, fenced, tables

TOOL = ROOT / "tools" / "explain"
WITH_ORDERS = ["docs/REPLAY.md", *(f"docs/{name}" for name in PAGES), "README.md"]
DRAWN = 600


def examples():
    return sorted(path.parent for path in (ROOT / "examples").glob("*/replayed"))


def run(binary, *arguments):
    return subprocess.run(
        [TOOL, "--replay", *map(str, arguments)], env=user_environment(RACEREPLAY=binary), cwd=ROOT, stdin=subprocess.DEVNULL,
        stdout=subprocess.PIPE, stderr=subprocess.PIPE, text=True)


def faults(explanation, answer):
    """What the explanation of a replay lacks."""
    text = "\n".join(report.told(explanation))
    wanted = [answer, *explanation.numbers]
    if explanation.number in OF_REPLAYING:
        wanted += [REFUSALS[explanation.number].helps, f"{TRACE} line ", "done"]
    elif explanation.number:
        wanted += [REFUSALS[explanation.number].helps, f"{PROGRAM} "]
    if "RACE" in answer:
        wanted += ["the first state with a race is state ", " is about to "]
    lacks = [explanation.disagrees] if explanation.disagrees else []
    return lacks + [words for words in wanted if words not in text] + ["the reason"] * (not explanation.numbers)


# ---- The examples that are files


def check_examples(binary):
    check("there are recorded orders", len(examples()) >= 2, True)
    for folder in examples():
        answer, before = (folder / "replayed").read_text(), contents(folder)
        check(f"examples/{folder.name}, its order", answer_in(binary, folder).decode(), answer)
        check(f"examples/{folder.name}, its folder afterwards", contents(folder) == before, True)
        if (folder / "expected").read_text() == "ACCEPT\n":
            check(f"examples/{folder.name}, accepted: no race", "RACE" in answer, False)
        done = run(binary, "--walk", folder)
        lines = done.stdout.splitlines()
        check(f"explain --replay {folder.name}: status", done.returncode, 0 if answer.startswith("RAN") else 1)
        check(f"explain --replay {folder.name}: the answer comes first", lines[0] + "\n", f"{folder}: {answer}")
        check(f"explain --replay {folder.name}: nothing on standard error", done.stderr, "")
        numbers = [line.split()[0] for line in lines if re.match(r" *\d+  \d+,\d+  ", line)]
        steps = (folder / TRACE).read_text().count("\n")
        check(f"explain --replay {folder.name}: the walk has every line", numbers, [str(k) for k in range(1, steps + 1)])


# ---- The pages


def orders_of(page):
    """Every recorded order of a page: its line there, program, trace, answer."""
    for line, block in fenced(page, "replay"):
        fields = dict(row.split(": ", 1) for row in block)
        yield line, fields["program"], fields["trace"], fields["answer"]


def make_order(folder, program, trace):
    folder.mkdir(parents=True)
    place(folder / PROGRAM, program)
    place(folder / TRACE, trace)


def check_order(binary, what, program, trace, answer):
    """racereplay writes the answer and leaves the folder as it was, and tools/explain finds the same."""
    with tempfile.TemporaryDirectory() as scratch:
        folder = Path(scratch) / "order"
        make_order(folder, program, trace)
        before = contents(folder)
        check(what, answer_in(binary, folder).decode(), answer + "\n")
        check(what + ", its folder afterwards", contents(folder) == before, True)
        if answer != "UNREAD":
            check(what + ", explained", faults(replays.explain(Run(answer, None, REPLAYING), folder), answer), [])


def check_pages(binary):
    """Every order of the pages. There is one for each kind of line and for each number of a replay, with and without a race."""
    met = set()
    for name in WITH_ORDERS:
        page = (ROOT / name).read_text()
        for line, program, trace, answer in orders_of(page):
            check_order(binary, f"{name} line {line}", program, trace, answer)
            met.add((re.match("[A-Z]+(,4[678])?", answer)[0], "RACE," in answer))
        for folder, line in re.findall(r"cd (examples/[\w-]+) && \.\./\.\./target/bin/racereplay\)\n    (\S+)\n", page):
            check(f"{name}, the line of {folder}", line + "\n", (ROOT / folder / "replayed").read_text())
        check_tables(name, page)
    wanted = {("RAN", False), ("RACE", True), *((f"REFUSE,{number}", race) for number in OF_REPLAYING for race in (False, True))}
    check("the pages have an example for each answer of a replay", wanted - met, set())


def check_tables(name, page):
    """A table under `<!-- order: folder -->` has the cells that the walk of that order has."""
    for folder, cells, _ in tables(page, "order"):
        folder = ROOT / folder
        told = replays.order_of(read_sheet(folder, PROGRAM), read_sheet(folder, TRACE), read_names(folder), True).told
        for row in cells:
            check(f"{name}, {folder.name} line {row[0]}", tuple(row[:5]), told[int(row[0]) - 1][:5])


# ---- Drawn orders, racereplays that lie, and what explain cannot do


def check_drawn(binary):
    """Drawn orders: the steps taken here come to what racereplay writes."""
    met = Counter()
    with tempfile.TemporaryDirectory() as scratch:
        command = ["cargo", "run", "--release", "--offline", "--quiet", "--bin", "traces", "--", scratch, str(DRAWN)]
        check("orders are drawn", subprocess.run(command, cwd=ROOT / "tests").returncode, 0)
        for number in range(DRAWN):
            folder = Path(scratch) / str(number)
            run_there = run_in(binary, folder, REPLAYING)
            explanation = replays.explain(run_there, folder, walks=number % 10 == 0)
            met[re.match("[A-Z]+(,4[678])?", run_there.answer)[0]] += 1
            check(f"drawn order {number}, {run_there.answer}", faults(explanation, run_there.answer), [])
            if explanation.order and number % 10 == 0:
                check(f"drawn order {number}, its walk", len(replays.told(explanation)) > explanation.order.steps, True)
    check("drawn orders meet every answer", {"RAN", "RACE", *(f"REFUSE,{n}" for n in OF_REPLAYING)} - set(met), set())


def check_lies():
    """A line that the steps do not bear out is told loudly, with a status of its own."""
    race = ROOT / "examples" / "refill-race"
    lies = [
        "RAN,34", "RACE,34,34,2,3", "RACE,34,33,2,4", "RACE,35,34,2,4", "REFUSE,46,35,0,0,34,RACE,34,2,4", "REFUSE,47,3,0,0,2",
        "REFUSE,48,1,0,0,0", "REFUSE,14,2,0,0,0", "REFUSE,33,70,5,0,0", "REFUSE,1,0,0,0,0"]
    with tempfile.TemporaryDirectory() as scratch:
        liar = Path(scratch) / "liar"
        for answer in lies:
            liar.write_text(f"#!/bin/sh\necho {answer}\n")
            liar.chmod(0o755)
            done = run(liar, "--page", Path(scratch) / "page", race)
            said = ["DISAGREEMENT" in output for output in (done.stdout, done.stderr)]
            check(f"a lying racereplay, {answer}", (done.returncode, said), (3, [True, True]))
        check("a lying racereplay: no page is written", (Path(scratch) / "page").exists(), False)
        liar.write_text("#!/bin/sh\necho RAN,x\n")
        check("a racereplay that writes something else", run(liar, race).returncode, 2)


def check_errors(binary):
    race = ROOT / "examples" / "refill-race"
    for what, arguments in [("a page without a name", [race, "--page"]), ("two folders", [race, race])]:
        done = run(binary, *arguments)
        check(f"explain --replay, {what}", (done.returncode, "usage: explain" in done.stderr), (2, True))
    check("explain --replay, no racereplay", run("nowhere", race).returncode, 2)
    with tempfile.TemporaryDirectory() as scratch:
        done = run(binary, scratch)
        missing = [f"{name} is missing" in done.stdout for name in (PROGRAM, TRACE)]
        check("explain --replay in an empty folder", (done.returncode, missing), (2, [True, True]))
        make_order(Path(scratch) / "long", "P,1|int,0|", "4000001 bytes of 0")
        done = run(binary, Path(scratch) / "long")
        check("explain --replay, a trace that is too long", (done.returncode, "4,000,001 bytes" in done.stdout), (2, True))


def check_orders(binary):
    check_examples(binary)
    check_pages(binary)
    check_lies()
    check_errors(binary)
    check_drawn(binary)
