"""The command tools/show-race: on every example, on jobs past its bounds, with replays that lie, and with files in its way."""
import os
import pty
import shutil
import subprocess
import tempfile
import time
from collections import Counter
from pathlib import Path

import known
import plain
from checks import ROOT, check
from interpreter.machine import ROOM
from jobs import TOOL, make_job, order_in, run, steps_in
from races.budget import Budget, Limits
from races.report import searched
from races.search import Search
from searching import machine_of

CONFIRMED = "racereplay, which is proved, runs this order and reports this race: "
SEARCHED = "all of them were searched"
SECONDS = 2
CLOCK = 20  # seconds by the clock that are soon, on a machine with other work
# A procedure that calls itself twice: a search of it comes to no end.
ENDLESS = ["proc,0", "if,0", "let,1", "call,0", "var,0", "let,2", "call,0", "var,0", "int,0", "int,1", "call,0", "int,0"]


def examples():
    return sorted(folder for folder in (ROOT / "examples").iterdir() if (folder / "program.txt").exists())


def check_examples():
    """Every race is found and confirmed in two seconds; every accepted job shows none, with all orders searched."""
    met = Counter()
    with tempfile.TemporaryDirectory() as scratch:
        for folder in examples():
            trace = Path(scratch) / f"{folder.name}.trace"
            done, answer = run("--trace", trace, folder), written_in("RACECHECK", folder)
            check(f"{folder.name}: nothing on standard error", done.error, "")
            check(f"{folder.name}: within {SECONDS} seconds, not {done.seconds:.1f}", done.seconds < SECONDS, True)
            races = folder.name.endswith("-race")
            met[answer == "ACCEPT", races] += 1
            if races:
                check_race(folder, trace, done)
            else:
                check(f"{folder.name}, {answer}: no race, all searched", (done.status, SEARCHED in done.said), (0, True))
    numbers = met[True, False] > 9, met[False, True] > 7, met[True, True]
    check("some examples are accepted, some race, none does both", numbers, (True, True, 0))


def check_race(folder, trace, done):
    """The order that was written, run once more by racereplay and by the second interpreter."""
    check(f"{folder.name}: a race is shown", (done.status, "This job can race." in done.said), (1, True))
    order = order_in(trace)
    replayed = plain.replay(steps_in(folder), order)
    check(f"{folder.name}: the order ends where a race shows first", replayed and replayed[:1] + replayed[1][:1], (len(order),) * 2)
    line = replayed_line(folder, trace)
    check(f"{folder.name}: racereplay's line", line, f"RACE,{len(order)},{len(order)},{replayed[1][1][0]},{replayed[1][1][1]}")
    check(f"{folder.name}: racereplay's line is told", CONFIRMED + line in done.said, True)


def replayed_line(folder, trace):
    with tempfile.TemporaryDirectory() as scratch:
        shutil.copy(folder / "program.txt", scratch)
        shutil.copy(trace, Path(scratch) / "trace.txt")
        return written_in("RACEREPLAY", scratch)


def written_in(program, folder):
    """The line that one of the given programs writes in a folder."""
    done = subprocess.run([os.environ[program]], cwd=folder, stdin=subprocess.DEVNULL, capture_output=True, text=True)
    return done.stdout.rstrip("\n")


def check_refill():
    """The order of the counter school's job: who meets where, after how much."""
    with tempfile.TemporaryDirectory() as scratch:
        done = run("--trace", Path(scratch) / "trace", ROOT / "examples" / "refill-race")
        check("refill-race: its order is written", f"The order is in {scratch}/trace, as racereplay reads it." in done.said, True)
    for words in [
        "Pump is about to read level (line 37) while refill is about to write 100 into level (line 70).",
        "level, made on line 3; it holds 100 at that moment", "34 steps, 3 switches of thread"]:
        check(f"refill-race: {words}", words in done.said, True)


# ---- Replays that lie


def check_lies():
    """What racereplay does not report is not told, but loudly called a disagreement."""
    race, waiting = ROOT / "examples" / "join-race", known.programs_of("WAITING")[0]
    with tempfile.TemporaryDirectory() as scratch:
        waits = make_job(Path(scratch) / "job", waiting)
        honest = run(race).said.split(CONFIRMED)[1].split(".")[0]
        other = ",".join([*honest.split(",")[:-1], "9"])
        lies = ["RAN,5", "RACE,1,1,0,1", other, "UNREAD", f"{honest},0", "nothing", "REFUSE,47,1,0,0,0",
                "REFUSE,46,9,0,0,8,RACE,8,0,1"]
        for number, (folder, lie) in enumerate([(race, lie) for lie in lies] + [(waits, "RAN,9"), (waits, "RACE,1,1,0,1")]):
            liar, page = Path(scratch) / f"liar-{number}", Path(scratch) / f"page-{number}"
            # It judges the program sheet rightly, which has an empty trace beside it.
            liar.write_text(f"#!/bin/sh\nif test -s trace.txt; then echo '{lie}'; else echo RAN,0; fi\n")
            liar.chmod(0o755)
            done = run("--page", page, folder, racereplay=liar)
            loud = ["DISAGREEMENT" in words for words in (done.said, done.error)]
            check(f"a lying racereplay, {lie}: status, loudly", (done.status, loud), (3, [True, True]))
            told = ["This job can race" in done.said, "line 13" in done.said, "waits" in done.said, page.exists()]
            check(f"a lying racereplay, {lie}: nothing is told", told, [False] * 4)


# ---- Bounds


def readers(count, joins):
    """So many threads read a cell, so many are joined, then the cell is written."""
    steps = ["let,0", "ref,0", "int,0", "let,1", "newtid,0"]
    for number in range(count):
        steps += [f"let,{2 + number}", "spawn,0", "var,1", "read,0", "var,0"]
    for number in range(joins):
        steps += [f"let,{2 + count + number}", "join,0", "var,1"]
    return [*steps, "write,0", "var,0", "int,1"]


def check_bounds():
    """What was not searched is told, and what racereplay has no room for is not."""
    with tempfile.TemporaryDirectory() as scratch:
        scratch = Path(scratch)
        for option in ("--states", "--seconds"):
            done = run(option, 0, ROOT / "examples" / "refill")
            check(f"{option} 0", (done.status, "that proves nothing" in done.said, SEARCHED in done.said), (4, True, False))
        done = run("--states", 20, ROOT / "examples" / "refill")
        check("--states 20: the bound is told", (done.status, "20 states" in done.said), (4, True))
        found = Search(machine_of(steps_in(ROOT / "examples" / "refill")), Budget(Limits(60, 60)), ROOM).run()
        check("60 states of the search for the fewest switches", "Every order with fewer than" in searched(found)[-1], True)
        done = run(make_job(scratch / "all joined", readers(20, 20)))
        check("20 readers, all joined", (done.status, SEARCHED in done.said), (0, True))
        done = run(make_job(scratch / "none joined", readers(15, 0)))
        check("15 readers, none joined: within the room", (done.status, CONFIRMED in done.said), (1, True))
        folder = make_job(scratch / "one not joined", readers(20, 19))
        done = run("--trace", folder / "trace.txt", folder)
        check("20 readers, one not joined: past the room", (done.status, "it is not told" in done.said), (4, True))
        replayed = plain.replay(steps_in(folder), order_in(folder / "trace.txt"))
        check("20 readers, one not joined: its order races all the same", replayed[1] is not None, True)


def check_clock():
    """The seconds are those of the clock; how far the search is stands on a terminal and nowhere else."""
    with tempfile.TemporaryDirectory() as scratch:
        folder = make_job(Path(scratch) / "job", ENDLESS)
        begun = time.monotonic()
        done = run("--seconds", 1, folder)
        took = time.monotonic() - begun
        check(f"--seconds 1: soon over, not after {took:.1f} s", (done.status, took < CLOCK), (4, True))
        check("--seconds 1: nothing else is said", done.error, "")
        check("on a terminal: how far it is", "s left" in _said_on_terminal("--seconds", "2", folder), True)


def _said_on_terminal(*arguments):
    """What the tool says on standard error if that is a terminal."""
    ours, its = pty.openpty()
    done = subprocess.Popen([TOOL, *arguments], cwd=ROOT, stdin=subprocess.DEVNULL, stdout=subprocess.DEVNULL, stderr=its)
    os.close(its)
    said = b""
    while True:
        try:
            piece = os.read(ours, 4096)
        except OSError:  # the other side is closed
            break
        if not piece:
            break
        said += piece
    os.close(ours)
    done.wait()
    return said.decode()


# ---- Calls


def nested(posts):
    """A procedure that calls itself and posts when it is back, or ends; a thread calls it. Who has waited so often meets a writer."""
    steps = ["proc,0", "if,0", "let,1", "call,0", "var,0", "post,0", "var,0", "int,0"]
    steps += ["let,2", "ref,0", "int,0", "let,3", "newsem,0", "let,4", "spawn,0", "newtid,0", "call,0", "var,3"]
    steps += ["let,5", "spawn,0", "newtid,0", "write,0", "var,2", "int,1"]
    for number in range(posts):
        steps += [f"let,{6 + number}", "wait,0", "var,3"]
    return [*steps, "write,0", "var,2", "int,2"]


def check_calls():
    """Procedures that call themselves: to the end of the room and past it, for ever, and in the last place."""
    with tempfile.TemporaryDirectory() as scratch:
        scratch = Path(scratch)
        done = run(make_job(scratch / "64 open", nested(63)))
        check("a race behind 64 open calls is confirmed", (done.status, CONFIRMED in done.said), (1, True))
        folder = make_job(scratch / "65 open", nested(64))
        done = run("--trace", folder / "trace.txt", folder)
        check("a race behind 65 open calls: past the room", (done.status, "64 open calls of one thread" in done.said), (4, True))
        replayed = plain.replay(steps_in(folder), order_in(folder / "trace.txt"))
        check("a race behind 65 open calls: its order races all the same", replayed[1] is not None, True)
        check("a race behind 65 open calls: racereplay's line", replayed_line(folder, folder / "trace.txt").split(",")[:2], ["REFUSE", "48"])
        for what, steps, status, words in [
            ("for ever, nothing to see", ["proc,0", "call,0", "var,0", "call,0", "int,0"], 0, SEARCHED),
            ("in the last place", ["proc,0", "if,0", "let,1", "read,0", "var,0", "call,0", "var,0", "int,0",
                                   "call,0", "ref,0", "int,0"], 0, SEARCHED),
            ("with something left behind", ["proc,0", "if,0", "let,1", "call,0", "var,0", "int,0", "int,1", "call,0", "int,0"],
             4, "256 open calls of one thread"),
        ]:
            done = run(make_job(scratch / what, steps))
            check(f"a procedure that calls itself {what}", (done.status, words in done.said), (status, True))
        done = run("--seconds", 1, make_job(scratch / "twice", ENDLESS))
        check("a procedure that calls itself twice: the limits are kept", (done.status, "its limits" in done.said), (4, True))


def check_purge():
    """Calls are told by their procedures' names, in words and on the page."""
    with tempfile.TemporaryDirectory() as scratch:
        page = Path(scratch) / "page.html"
        done = run("--trace", Path(scratch) / "trace", "--page", page, ROOT / "examples" / "purge-race")
        same = (Path(scratch) / "trace").read_bytes() == (ROOT / "examples" / "purge-race" / "trace.txt").read_bytes()
        check("purge-race: the order in its folder", same, True)
        for text in (done.said, page.read_text()):
            check("purge-race: calls are told by name", "calls purge with valve" in text, True)
    wanted = "Thread 0 is about to write 1 into valve (line 4) while screen is about to write 1 into valve (line 4)."
    check("purge-race: both in the body", wanted in done.said, True)


# ---- Halts


def check_halts():
    """A thread stuck at a word of the wrong kind and a wait of all are told, each with its order."""
    with tempfile.TemporaryDirectory() as scratch:
        for section, status, words in [("ODD", 1, "can get stuck"), ("WAITING", 0, "can wait for ever")]:
            for number, steps in enumerate(known.programs_of(section)[:3]):
                folder = make_job(Path(scratch) / f"{section}{number}", steps)
                done = run("--trace", folder / "trace.txt", folder)
                told = [words in done.said, "refuses a step behind it: REFUSE,47," in done.said, "can race" in done.said]
                check(f"{section} {number}", (done.status, told), (status, [True, True, False]))
                check(f"{section} {number}: its order runs", plain.replay(steps, order_in(folder / "trace.txt")) is not None, True)


# ---- Files


def check_files():
    """Nothing is written unasked, nothing written over; a folder that cannot be written to loses nothing."""
    with tempfile.TemporaryDirectory() as scratch:
        folder = Path(scratch) / "job"
        folder.mkdir()
        shutil.copy(ROOT / "examples" / "join-race" / "program.txt", folder)
        trace = folder / "trace.txt"
        check("the split is not needed", run(folder).status, 1)
        check("the folder afterwards", [file.name for file in folder.iterdir()], ["program.txt"])
        trace.write_text("0,0\n")
        done = run("--trace", trace, folder)
        left = done.status, "may be somebody's own" in done.error, trace.read_text()
        check("a trace.txt that is there is left", left, (2, True, "0,0\n"))
        (folder / "names.txt").write_text("variable,0,<level>\nthread,1,pump\n")
        done = run(folder)
        wanted = ["<level>, made on line 3", "pump is about to read <level>"]
        check("names are used", [words for words in wanted if words not in done.said], [])
        done = run("--trace", "/dev/full", folder)
        check("an order that cannot be written is told all the same",
              (done.status, CONFIRMED in done.said, "The order is in no file: cannot write" in done.said), (1, True, True))
        trace.unlink()
        folder.chmod(0o555)
        if not os.access(folder, os.W_OK):  # who may do everything may write there too
            done = run(folder)
            check("a folder that cannot be written to", (done.status, CONFIRMED in done.said), (1, True))
        folder.chmod(0o755)


def check_errors():
    join = ROOT / "examples" / "join"
    with tempfile.TemporaryDirectory() as scratch:
        empty, bad = Path(scratch) / "empty", Path(scratch) / "bad"
        empty.mkdir()
        bad.mkdir()
        (bad / "program.txt").write_text("P,1\nvar,0\n")
        for what, arguments, message in [
            ("no arguments, and no job here", [], "no program.txt that can be read in ."),
            ("an unknown option", ["-x", join], "usage: show-race"),
            ("two folders", [join, join], "usage: show-race"), ("a page without a file", [join, "--page"], "usage: show-race"),
            ("no number", ["--states", "many", join], "usage: show-race"), ("no such folder", ["nowhere"], "no such folder"),
            ("no program", [empty], "no program.txt"),
        ]:
            done = run(*arguments)
            check(f"show-race, {what}", (done.status, message in done.error), (2, True))
        done = run(bad)
        check("a program that is not well formed", (done.status, "REFUSE,14,2,0,0,0" in done.said), (2, True))
        check("no racereplay", run(join, racereplay="nowhere").status, 2)
        for number, dead in enumerate(["exit 3", "echo RAN", "sleep 0; kill $$"]):
            program = Path(scratch) / f"dead-{number}"
            program.write_text(f"#!/bin/sh\n{dead}\n")
            program.chmod(0o755)
            check(f"a racereplay that fails, {dead}", run(join, racereplay=program).status, 2)
    done = run("--trace", ROOT / "examples" / "join-race" / "program.txt", ROOT / "examples" / "join-race")
    check("a trace over the program", (done.status, "a sheet of that name is never written over" in done.error), (2, True))
    check("show-race --help", run("--help").said.count("usage: show-race"), 1)


def check_explain():
    """tools/explain names the tool where a well-formed pair is refused, and nowhere else."""
    for name, wanted in [("join-race", True), ("join", False)]:
        done = subprocess.run([ROOT / "tools" / "explain", ROOT / "examples" / name], capture_output=True, text=True)
        check(f"explain of {name}: names tools/show-race", "tools/show-race" in done.stdout, wanted)


def check_tool():
    check_examples()
    check_refill()
    check_lies()
    check_bounds()
    check_clock()
    check_calls()
    check_purge()
    check_halts()
    check_files()
    check_errors()
    check_explain()
