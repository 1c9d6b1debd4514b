"""tools/explain on every example, on every pair of the pages and on drawn pairs, and with racechecks that lie."""
import re
import shutil
import subprocess
import tempfile
from collections import Counter
from pathlib import Path

import browser
from checks import ROOT, check, make_pair, user_environment
from explanation import report, walk
from explanation.drawing import page
from explanation.drawing.holders import SILENT, Telling
from explanation.findings import explain
from explanation.refusals import OF_CHECKING, REFUSALS
from explanation.running import Run, run_in
from pages import PAGES, examples, pairs_of

TOOL = ROOT / "tools" / "explain"
DRAWN = 4000
# The examples whose pages are opened in a browser: with names and without, accepted and refused.
SHOWN = {"refill", "refill-race", "loop-race", "canisters-race", "colour-book", "purge", "purge-race"}
GOOD = ("P,1|int,0|", "C,1,1,1,1|int,0,0|0|0,0,|")


def run(binary, *arguments, **how):
    how = {"stdout": subprocess.PIPE, "cwd": ROOT, **how}
    return subprocess.run(
        [TOOL, *map(str, arguments)], env=user_environment(RACECHECK=binary), stdin=subprocess.DEVNULL,
        stderr=subprocess.PIPE, text=True, **how)


def check_examples(binary):
    """The command itself, with each of its options."""
    found = browser.say_which()
    with tempfile.TemporaryDirectory() as scratch:
        for folder in examples():
            answer = (folder / "expected").read_text().strip()
            file = Path(scratch) / f"{folder.name}.html"
            done = run(binary, "--walk", "--page", file, folder)
            lines = done.stdout.splitlines()
            steps = len((folder / "program.txt").read_text().splitlines()) - 1
            check(f"explain {folder.name}: status", done.returncode, 0 if answer == "ACCEPT" else 1)
            check(f"explain {folder.name}: the answer comes first", lines[0], f"{folder}: {answer}")
            check(f"explain {folder.name}: nothing on standard error", done.stderr, "")
            walked_lines = steps_told(lines)
            numbers = [int(line.lstrip(" >").split()[0]) for line in walked_lines]
            check(f"explain {folder.name}: the walk has every line", numbers, list(range(2, steps + 2)))
            marked = [line.split()[0] for line in walked_lines if line.lstrip().startswith(">")]
            wanted = [] if answer == "ACCEPT" else [f">{answer.split(',')[2]}"]
            check(f"explain {folder.name}: the refused step is marked", marked, wanted)
            kept = folder / "page.html"
            if kept.exists():
                run(binary, "--page", Path(scratch) / "kept.html", folder)
                pages = [browser.without_foot(page.read_text()) for page in (kept, Path(scratch) / "kept.html")]
                check(f"explain {folder.name}: the page in its folder", pages[0] == pages[1], True)
            browser.check_page(f"page of {folder.name}", file, steps, found if folder.name in SHOWN else None)


def check_tellings(binary):
    """The picture tells every step that moves something, and of an accepted example a run in which nobody has too much."""
    for folder in examples():
        explanation = explain(run_in(binary, folder), folder)
        moments, split = Telling(explanation).moments, explanation.sites.split
        told = {moment.site.line for moment in moments}
        wanted = {site.line for site in explanation.sites.all if site.word not in SILENT}
        check(f"picture of {folder.name}: every step is told", wanted - told, set())
        most = max(max(map(sum, zip(*moment.held.values())), default=0) for moment in moments)
        if explanation.answer == "ACCEPT":
            check(f"picture of {folder.name}: nobody past the whole", most <= split.denominator, True)
        if folder.name == "canisters-race":
            check(f"picture of {folder.name}: the post past the whole", (most, split.denominator), (3, 2))


def check_sources(binary):
    """Where a line of the program comes from is told wherever the line is: by each tool, and on each page."""
    with tempfile.TemporaryDirectory() as scratch:
        folder = Path(scratch) / "job"
        shutil.copytree(ROOT / "examples" / "refill-race", folder)
        long = "/".join(["a"] * 30) + "/pump.c:12"
        with open(folder / "names.txt", "a") as names:
            names.write(f"line,70,refill.c:88\nline,37,{long}\nline,3,main.c:5\n")
        refill, pump = "line 70 [refill.c:88]", f"line 37 [{long[-40:]}]"
        for tool, arguments, wanted in [
            ("explain", ["--walk", "--touches"], [refill, pump, "write level [refill.c:88]"]),
            ("explain", ["--replay"], [refill, pump]),
            ("show-race", [], [refill, pump, "made on line 3 [main.c:5]"]), ("triage", [], [refill, pump]),
        ]:
            done = subprocess.run([ROOT / "tools" / tool, *arguments, folder], env=user_environment(RACECHECK=binary),
                                  capture_output=True, text=True)
            check(f"{tool} {arguments}: where lines come from", [words for words in wanted if words not in done.stdout], [])
        for tool, wanted in [("explain", f"reads, {pump}"), ("show-race", refill), ("try-orders", '"70": "refill.c:88"')]:
            page_file = Path(scratch) / f"{tool}.html"
            command = [ROOT / "tools" / tool, "--page", page_file, folder]
            subprocess.run(command, env=user_environment(RACECHECK=binary), capture_output=True)
            check(f"page of {tool}: where lines come from", wanted in page_file.read_text(), True)


# ---- What is said of each refusal


def faults(explanation, run_there):
    """What an explanation lacks."""
    lacks = [explanation.disagrees] if explanation.disagrees else []
    text = "\n".join(report.told(explanation))
    if not text.startswith(run_there.answer):
        lacks.append("the answer")
    if run_there.answer == "ACCEPT":
        return lacks + ([] if walked(explanation) else ["the walk"])
    if run_there.answer == "UNREAD":
        return lacks + ([] if "Likely cause" in text else ["the file at fault"])
    number, line, condition, _ = run_there.numbers()
    wanted = [REFUSALS[number].helps, *explanation.numbers[:1]]
    wanted += [f"line {line}"] if REFUSALS[number].sheet else []
    if condition:
        wanted += [f"Condition {condition} of ", explanation.condition.wording, explanation.condition.plain]
    lacks += [words for words in wanted if words not in text]
    return lacks + ([] if explanation.numbers else ["the numbers"])


def walked(explanation):
    """Whether the walk of a pair comes to its last line."""
    return len(steps_told(walk.text(explanation))) == len(explanation.sites.all) == len(explanation.sites.steps)


def steps_told(lines):
    """Those of a walk's lines that begin a step: others go on with one, or part the procedures."""
    return [line for line in lines if re.match(r" *>?\d+  ", line)]


def check_pages(binary):
    """Every pair of the two pages, which have an example for each number and each condition."""
    for name in PAGES:
        for line, program, split, answer in pairs_of((ROOT / "docs" / name).read_text()):
            with tempfile.TemporaryDirectory() as scratch:
                folder = Path(scratch) / "pair"
                make_pair(folder, program, split)
                run_there = run_in(binary, folder)
                explanation = explain(run_there, folder)
                check(f"docs/{name} line {line}, explained", (run_there.answer, faults(explanation, run_there)), (answer, []))


def draw(scratch, count, *options):
    """Drawn pairs as folders, each with its number."""
    command = ["cargo", "run", "--release", "--offline", "--quiet", "--bin", "pairs", "--", *options, scratch, str(count)]
    check("pairs are drawn", subprocess.run(command, cwd=ROOT / "tests").returncode, 0)
    return [(number, Path(scratch) / str(number)) for number in range(count)]


def check_drawn(binary):
    """Drawn pairs: each refused condition is the first that the arithmetic finds false, each accepted pair has none."""
    met, wide, found = Counter(), None, browser.find_browser()
    with tempfile.TemporaryDirectory() as scratch:
        for number, folder in draw(scratch, DRAWN):
            run_there = run_in(binary, folder)
            explanation = explain(run_there, folder)
            met[explanation.number] += 1
            check(f"drawn pair {number}, {run_there.answer}", faults(explanation, run_there), [])
            if number % 20 == 0:
                browser.check_markup(f"drawn pair {number}, its page", page.text("drawn", explanation))
            if wide is None and explanation.sites and explanation.sites.split.locations > 12 and len(explanation.sites.all) > 100:
                wide = number, len(explanation.sites.all), page.text("wide", explanation, walks=True)
    check("some drawn pair has many locations and many steps", wide is not None, True)
    if wide and found:
        number, steps, text = wide
        browser.check_in_browser(f"drawn pair {number}, wide and long", found, text, steps)
    check("drawn pairs meet every number", sorted(OF_CHECKING - set(met)), [])


# ---- Racechecks that lie, and what explain cannot do


def check_lies():
    """An answer that the numbers do not bear out is told loudly, with a status of its own."""
    join, join_race = ROOT / "examples" / "join", ROOT / "examples" / "join-race"
    lies = [(join, f"REFUSE,{rest}") for rest in [
        "10,0,0,0", "11,2,0,0", "12,2,0,0", "13,3,0,0", "14,9,0,0", "15,5,0,0", "20,0,0,0", "21,2,0,0", "22,2,0,0", "23,5,0,0",
        "30,2,0,0", "31,2,1,0", "32,2,2,0", "33,15,5,0", "33,99,5,0", "32,8,9,0", "11,99,0,0", "1,0,0,0", "38,0,0,0",
        "0,0,0,0", "40,13,0,0", "40,12,0,0", "41,0,0,0", "42,0,0,0", "43,0,0,0", "44,4,0,0", "45,2,0,0",
        "46,1,0,0", "47,1,0,0", "48,1,0,0", "49,2,0,0", "50,13,0,0"]]
    lies += [(join_race, "REFUSE,33,13,5,1"), (join_race, "REFUSE,32,13,4,0")]
    for folder, answer in lies:
        explanation = explain(Run(answer, None), folder)
        text = "\n".join(report.told(explanation))
        check(f"a lie about {folder.name}, {answer}", (text.startswith(answer), "*** DISAGREEMENT" in text), (True, True))
        browser.check_markup(f"a lie about {folder.name}, {answer}: its page", page.text("lie", explanation))
        badge = '"badge refused">DISAGREEMENT<' in page.text("lie", explanation)
        check(f"a lie about {folder.name}, {answer}: its badge", badge, True)
    with tempfile.TemporaryDirectory() as scratch:
        liar, folder = Path(scratch) / "liar", Path(scratch) / "pair"
        lies = [(*GOOD, "REFUSE,32,2,2,0"), ("P,1|int|", GOOD[1], "ACCEPT"), ("P,9|int,0|", GOOD[1], "ACCEPT")]
        for program, split, answer in lies:
            liar.write_text(f"#!/bin/sh\necho {answer}\n")
            liar.chmod(0o755)
            make_pair(folder / answer / program, program, split)
            done = run(liar, folder / answer / program)
            check(f"a lying racecheck, {answer}: status", done.returncode, 3)
            said = ["DISAGREEMENT" in output for output in (done.stdout, done.stderr)]
            check(f"a lying racecheck, {answer}: both outputs say so", said, [True, True])
            check(f"a lying racecheck, {answer}: it comes first", f": DISAGREEMENT, racecheck says {answer}\n" in done.stdout, True)


def check_errors(binary):
    join = ROOT / "examples" / "join"
    for what, arguments, message in [
        ("an unknown option", ["-x", join], "there is no option -x\nusage: explain"),
        ("two folders", [join, join], f"one argument too many: {join}\nusage: explain"),
        ("a page without a file", [join, "--page"], "--page wants a value behind it\nusage: explain"),
        ("the touches of an order", ["--replay", "--touches", join], "--replay and --touches do not go together\nusage: explain"),
        ("no such folder", ["nowhere"], "no such folder"),
        ("a page in no folder", ["--page", "nowhere/page.html", join], "nowhere"),
    ]:
        done = run(binary, *arguments)
        check(f"explain, {what}", (done.returncode, message in done.stderr), (2, True))
        check(f"explain, {what}: not the whole help", len(done.stderr.splitlines()) < 8, True)
    done = run(binary, cwd=join)
    check("explain in the current folder", (done.returncode, done.stdout.startswith(".: ACCEPT")), (0, True))
    piped = subprocess.run(
        f"'{TOOL}' --walk '{ROOT}/examples/refill' | head -n 1", shell=True, env=user_environment(RACECHECK=binary),
        capture_output=True, text=True)
    check("explain, its reader goes away", (piped.stdout.count("\n"), piped.stderr), (1, ""))
    check("explain, no racecheck", run("nowhere", join).returncode, 2)
    with open("/dev/full", "w") as full:
        check("explain to a full device", run(binary, join, stdout=full).returncode, 2)
    check("explain --help", run(binary, "--help").stdout.count("usage: explain"), 1)
    with tempfile.TemporaryDirectory() as scratch:
        done = run(binary, scratch)
        missing = [f"{name} is missing" in done.stdout for name in ("program.txt", "split.txt")]
        check("explain in an empty folder", (done.returncode, missing), (2, [True, True]))


def check_alone():
    """Every number and every answer is told without a pair, in the words of REFUSALS.md."""
    page_text = (ROOT / "docs" / "REFUSALS.md").read_text()
    for number, refusal in REFUSALS.items():
        for given in (str(number), f"REFUSE,{number},70,5,0"):
            done = run("nowhere", given)
            section = page_text[page_text.index(f"\n### {number}: "):].split("\n")[2]
            wanted = [given, refusal.helps, refusal.owner, section.split(". ")[0]]
            check(f"explain {given}", (done.returncode, [words for words in wanted if words not in done.stdout]), (0, []))
    done = run("nowhere", "REFUSE,33,70,5,0")
    wanted = ["program.txt line 70", "if line 70 has `write`: after has at least D", "location 0"]
    check("explain REFUSE,33,70,5,0, its numbers", [words for words in wanted if words not in done.stdout], [])
    race = "threads 2 and 4 race in state 34"
    for given, words in [
        ("ACCEPT", "the split shows the job safe"), ("UNREAD", "Nothing was judged"), ("99", "not known here"),
        ("RAN,69", "69 steps"), ("RACE,34,34,2,4", race), ("REFUSE,46,36,0,0,35", "trace.txt line 36"),
        ("REFUSE,46,36,0,0,35,RACE,34,2,4", race)]:
        done = run("nowhere", given)
        check(f"explain {given}", (done.returncode, words in done.stdout), (0, True))
    for given in ("RAN", "RAN,1,2,3,4", "RACE,34", "REFUSE,46,36,0", "nothing"):
        check(f"explain {given}", (run("nowhere", given).returncode), 2)
    done = run("nowhere", "--walk", "33")
    check("explain --walk 33", (done.returncode, "has no walk" in done.stderr), (2, True))


def check_hints(binary):
    """A looser lock that is given back takes more than it gave."""
    with tempfile.TemporaryDirectory() as scratch:
        make_pair(Path(scratch) / "pair", "P,7|let,0|newlock,0|let,1|lock,0|var,0|unlock,0|var,0|", (
            "C3,2,1,3,3,0|int,0,0|lock,1,1|lock,2,0|2|1|0|0,2,|1,1,|0,2,|0,1,|2,1,|0,2,|2,1,|"))
        done = run(binary, Path(scratch) / "pair")
        hint = "or the lock is shown as a looser one, which takes more than it gave"
        check("a looser lock given back", hint in done.stdout, True)


def check_names(binary):
    """Names are used where they are given; lines of another form are told and passed over."""
    with tempfile.TemporaryDirectory() as scratch:
        folder = Path(scratch) / "pair"
        shutil.copytree(ROOT / "examples" / "join-race", folder)
        names = ["location,0,Füllstand", "thread,1,pump", "variable,0,<level>", "thread,x,y", "nothing", "variable,1,", "\x07", ""]
        (folder / "names.txt").write_bytes("\n".join(names).encode() + b"\xff")
        done = run(binary, "--walk", "--page", folder / "page.html", folder)
        wanted = [
            "at location 0 (Füllstand), that of the cell: 1/2 ≥ 2/2 is false", "start pump with 1/2 of Füllstand",
            "write <level>, of Füllstand", "wait for a thread of v1"]
        check("explain with names", [words for words in wanted if words not in done.stdout], [])
        passed_over = [line for line in done.stderr.splitlines() if "is not understood and is passed over" in line]
        check("explain with names: what is not understood", [line.split(": ")[-1] for line in passed_over], [
            "thread,x,y", "nothing", "variable,1,"])
        check("explain with names: the others in one line", "2 more lines of names.txt are not understood" in done.stderr, True)
        text = (folder / "page.html").read_text()
        browser.check_markup("explain with names: its page", text)
        wanted = [">pump<", "&lt;level&gt;", ">thread 0<"]
        check("explain with names: its page has them", [words for words in wanted if words not in text], [])


# A procedure that is handed a cell and writes it; the split's last lines are the procedure's, then the rows.
WRITER = "P2,8,1|proc,0|write,0|var,0|int,1|let,1|ref,0|int,0|call,0|var,1|"
WRITER_HEAD = "C2,2,1,2,3,0|int,0,0|ref,0,0|2|1|0|"
WRITER_ROWS = "0,0,|1,0,|0,0,|0,0,|1,0,|0,0,|0,0,2|1,0,|"


def check_procedures(binary):
    """What is told of procedures: bodies apart in the walk, calls and lines of procedures by name, refused lines on the page."""
    with tempfile.TemporaryDirectory() as scratch:
        for number, (what, signature, rows, answer, wanted) in enumerate([
            ("accepted", "0,1,0,0", WRITER_ROWS, "ACCEPT", ["\n\n", "call squirt with v1; keep back nothing", "squirt, of v0: it starts"]),
            ("a body that leaves less", "1,1,0,0", WRITER_ROWS.replace("0,0,|1,0,|0,0,|", "0,1,|1,1,|0,1,|", 1), "REFUSE,32,2,2,0",
             ["1/2 ≥ 2/2 is false", "the body leaves", ">2  the caller"]),
            ("a result of another type", "0,1,0,1", WRITER_ROWS, "REFUSE,31,2,1,0", ["the result of squirt is type 1"]),
            ("an argument of another type", "0,0,0,0", WRITER_ROWS, "REFUSE,31,4,1,0",
             ["the argument of the procedure on line 2", "taken by the caller"]),
            ("too much kept back", "0,1,0,0", WRITER_ROWS.replace("0,0,2|", "0,0,0|"), "REFUSE,32,9,3,0",
             ["2/2 = 2/2 + 2/2 is false", "the procedure starts with (before)", "kept back (s)"]),
            ("nothing said to be kept", "0,1,0,0", WRITER_ROWS.replace("0,0,2|", "0,0,|"), "REFUSE,50,14,0,0",
             ["a call has to say which map is kept back"]),
            ("no such type", "0,9,0,0", WRITER_ROWS, "REFUSE,22,7,0,0", ["split.txt line 7: 0,9,0,0", "a type (there are 2)"]),
            ("three numbers", "0,1,0", WRITER_ROWS, "REFUSE,21,7,0,0", ["it has 3 fields, not 4"]),
            ("a line too few", "0,1,0,0", WRITER_ROWS.removesuffix("1,0,|"), "REFUSE,23,14,0,0", ["9 steps and procedures make 15"]),
        ]):
            folder = Path(scratch) / str(number)
            make_pair(folder, WRITER, f"{WRITER_HEAD}{signature}|{rows}")
            (folder / "names.txt").write_text("procedure,0,squirt\n")
            done = run(binary, "--walk", "--page", folder / "page.html", folder)
            check(f"procedures, {what}: the answer", done.stdout.splitlines()[0], f"{folder}: {answer}")
            check(f"procedures, {what}: told", [words for words in wanted if words not in done.stdout], [])
            text = (folder / "page.html").read_text()
            browser.check_markup(f"procedures, {what}: its page", text)
            if answer.startswith("REFUSE,3"):
                check(f"procedures, {what}: drawn", 'class="band refused"' in text, True)
    for given, words in [("REFUSE,49,2,0,0", "count the `proc` lines"), ("REFUSE,32,9,3,0", "if line 9 has `call`: its part leaves")]:
        check(f"explain {given}", words in run("nowhere", given).stdout, True)


def check_explain_tool(binary):
    check_examples(binary)
    check_tellings(binary)
    check_pages(binary)
    check_lies()
    check_errors(binary)
    check_alone()
    check_hints(binary)
    check_names(binary)
    check_sources(binary)
    check_procedures(binary)
    check_drawn(binary)
    check("the tools leave nothing beside themselves", list((ROOT / "tools").rglob("__pycache__")), [])
