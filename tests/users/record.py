"""A release on record: what check-release says was judged by what, its second look, odd entries, links and manifests."""
import hashlib
import os
import shutil
import subprocess
import tempfile
import time
from pathlib import Path

from checks import ROOT, check, make_pair
from common.version import version
from desk import TOOLS, Desk, body_of, digests_of, make_release, record_of, wanted_body
from explanation.formatting import visible
from release_tool import GOOD, KINDS, judges

ESCAPE = "red \x1b[31m"
MANY = 48  # pairs, so that most processes that share them have several


def report_text(desk):
    return (desk.scratch / "report").read_text()


def check_record(desk, binary):
    """The date, the folder, the checker and the tools; and sha256sum finds the sheets unchanged."""
    make_release(desk.scratch / "four", 4, [GOOD, KINDS[3]])
    desk.run("four", "report", RACECHECK=binary)
    record = record_of(report_text(desk))
    wanted = {
        "folder": str(desk.scratch / "four"), "checker": binary, "tools": version(),
        "checker SHA-256": hashlib.sha256(Path(binary).read_bytes()).hexdigest()}
    check("the record", {what: record.get(what) for what in wanted}, wanted)
    age = time.time() - time.mktime(time.strptime(record["date"][:19], "%Y-%m-%dT%H:%M:%S"))
    check("the record's date", abs(age) < 600, True)
    check("the record's second look", record["second look"].startswith("2 accepted pairs, all found the same, 0."), True)
    check("the entry of a refused pair", body_of(report_text(desk)).count("who looks first: owner of the program"), 2)
    check_sums(desk, "four", 8)


def check_sums(desk, release, count):
    """sha256sum finds the sheets of a report unchanged."""
    lines = digests_of(report_text(desk))
    check(f"digests of {release}", len(lines), count)
    if shutil.which("sha256sum"):
        command, sums = ["sha256sum", "--check", "--quiet", "--strict"], "".join(f"{line}\n" for line in lines)
        done = subprocess.run(command, input=sums.encode(), cwd=desk.scratch / release, capture_output=True)
        check(f"sha256sum on the digests of {release}", (done.returncode, done.stdout, done.stderr), (0, b"", b""))


def check_second_look(desk, binary):
    """A racecheck that accepts everything is not believed."""
    make_pair(desk.scratch / "false" / "race", *(
        (ROOT / "examples" / "join-race" / name).read_text().replace("\n", "|") for name in ("program.txt", "split.txt")))
    make_pair(desk.scratch / "false" / "good", *GOOD[:2])
    make_pair(desk.scratch / "false" / "unbound", *KINDS[3][:2])
    yes = desk.binary("yes", "echo ACCEPT")
    done = desk.run("false", "report", RACECHECK=yes)
    check("a racecheck that accepts all: status", done.returncode, 2)
    check("a racecheck that accepts all: report", report_text(desk).count("*** DISAGREEMENT"), 2)
    check("a racecheck that accepts all: what is found", "the answer is REFUSE,33,13,5,0" in report_text(desk), True)
    look = record_of(report_text(desk))["second look"]
    check("a racecheck that accepts all: record", look.startswith("3 accepted pairs, DISAGREEMENT on 2, "), True)
    done = desk.run("--no-recheck", "false", "report", RACECHECK=yes)
    check("without the second look", (done.returncode, record_of(report_text(desk))["second look"]), (0, "none"))
    entries = make_release(desk.scratch / "many false", MANY, [GOOD, KINDS[3], KINDS[2]])
    done = desk.run("many false", "report", RACECHECK=yes)
    parts = [name for name, answer, _ in entries if answer != "ACCEPT"]
    counts = f"count\tDISAGREEMENT\t{len(parts)}\ncount\tACCEPT\t{MANY - len(parts)}\n"
    body = body_of(report_text(desk))
    check("disagreements are counted first", (done.stdout.startswith(counts), body.startswith(counts)), (True, True))
    first = body.partition(f"\n\nDisagreements: {len(parts)}\n")[2].partition("\n\n")[0].replace("\n    ", " ")
    told = [line.partition("\t")[0] for line in first.splitlines() if "*** DISAGREEMENT" in line]
    check("disagreements stand first", told, [visible(name) for name in parts])


def check_odd_entries(desk, binary):
    """One odd entry stops nothing."""
    release = desk.scratch / "odd"
    entries = [("good", "ACCEPT", []), (ESCAPE, "ACCEPT", []), ("back\\slash", "ACCEPT", []), ("\udcff", "ACCEPT", [])]
    for name, _, _ in entries:
        make_pair(release / name, *GOOD[:2])
    for name in ["tab\there", "line\nend"]:
        (release / name).mkdir()
        entries.append((name, "FAILED", ["There is no answer: there is a tab or a line end in its name."]))
    (release / "loop").symlink_to("loop")
    entries.append(("loop", "FAILED", ["There is no answer: a link that leads nowhere."]))
    make_pair(release / "unnamed", *KINDS[3][:2])
    (release / "unnamed" / "names.txt").symlink_to("names.txt")
    entries.append(("unnamed", KINDS[3][2], KINDS[3][3]))
    done = desk.run("odd", "report", RACECHECK=binary)
    entries.sort(key=lambda entry: os.fsencode(entry[0]))
    check("odd entries: report", body_of(report_text(desk)), wanted_body(entries))
    check("odd entries: status", done.returncode, 2)
    check_sums(desk, "odd", 6)
    unprintable = report_text(desk).partition("not for sha256sum: 4\n")[2].splitlines()
    check("odd entries: names that do not print", [line[66:] for line in unprintable], [
        f"{visible(name)}/{sheet}" for name in (ESCAPE, "\udcff") for sheet in ("program.txt", "split.txt")])
    written = report_text(desk) + done.stdout + done.stderr
    check("odd entries: no control byte is written", [c for c in written if not c.isprintable() and c not in "\n\t"], [])


def check_unsteady(desk):
    """A sheet that changes under racecheck is told as such, and is no disagreement."""
    make_pair(desk.scratch / "unsteady" / "changed", *GOOD[:2])
    done = desk.run("unsteady", "report", RACECHECK=desk.binary("writer", "echo >> program.txt; echo ACCEPT"))
    text = report_text(desk)
    told = done.returncode, "count\tFAILED\t1" in done.stdout, "*** DISAGREEMENT" in text
    check("an unsteady sheet: status", told, (2, True, False))
    check("a sheet that changed", "program.txt has changed since racecheck read it" in text, True)


def check_links(desk, judged):
    """A sheet that is a link is followed within the release and within its own folder; what is outside is not quoted."""
    release, outside = desk.scratch / "linked", desk.scratch / "elsewhere"
    for folder in (release / "own", release / "shared", release / "outside", outside):
        make_pair(folder, *KINDS[3][:2])
    (outside / "program.txt").write_text("secret,0\n")
    (release / "shared" / "program.txt").unlink()
    (release / "shared" / "program.txt").symlink_to("../own/program.txt")
    (release / "outside" / "program.txt").unlink()
    (release / "outside" / "program.txt").symlink_to(outside / "program.txt")
    (release / "nowhere").mkdir()
    (release / "nowhere" / "program.txt").symlink_to("nothing")
    (release / "whole").symlink_to(outside)
    desk.run("linked", "report", **judged)
    answers = dict(line.split("\t") for line in body_of(report_text(desk)).splitlines() if line.count("\t") == 1)
    wanted = {"own": KINDS[3][2], "shared": KINDS[3][2], "outside": "FAILED", "nowhere": "UNREAD", "whole": "REFUSE,11,1,0,0"}
    check("links: answers", answers, wanted)
    told = body_of(report_text(desk)).partition("\noutside\tFAILED\n")[2].partition("\n")[0]
    check("links: what is said", "program.txt is a link that leads out of the release" in told, True)
    shutil.rmtree(release)
    shutil.rmtree(outside)


def check_long(desk, judged):
    """A sheet that is far too long is not read to its end: it has an answer at once and no digest."""
    release = desk.scratch / "long sheet"
    make_pair(release / "long", *GOOD[:2])
    with open(release / "long" / "program.txt", "r+b") as file:
        file.truncate(1 << 36)
    begun = time.monotonic()
    desk.run("long sheet", "report", **judged)
    check("a sheet of 64 GiB", ("\nlong\tREFUSE,10,0,0,0\n" in report_text(desk), time.monotonic() - begun < 20), (True, True))
    check("a sheet of 64 GiB: digests", [line[66:] for line in digests_of(report_text(desk))], ["long/split.txt"])
    shutil.rmtree(release)


def tools_that(desk, what, line):
    """A copy of the tools whose second look at a pair begins with this line."""
    tools = desk.scratch / what / "tools"
    shutil.copytree(TOOLS, tools)
    judging = tools / "explanation" / "judging.py"
    head = "def judge(program, split, is_filling=False):\n"
    judging.write_text(judging.read_text().replace(head, f"{head}    {line}\n"))
    return tools


def check_own_fault(desk, binary):
    """A fault of the tools themselves is a pair's FAILED and status 2, never a disagreement."""
    tools = tools_that(desk, "break", "raise TypeError('broken')")
    done = desk.run("four", "report", tool=tools / "check-release", RACECHECK=binary)
    text = report_text(desk)
    check("a fault of check-release", (done.returncode, text.count("TypeError: broken"), "*** DISAGREEMENT" in text), (2, 4, False))
    done = desk.run(ROOT / "examples" / "join-race", tool=tools / "explain", RACECHECK=binary)
    said = ["TypeError: broken" in done.stderr, "DISAGREEMENT" in done.stderr]
    check("a fault of explain", (done.returncode, said), (2, [True, False]))


def check_lost(desk, judged):
    """A process of the tool's own that is ended, as one that takes too much memory is: its pair is FAILED, the others are done."""
    tools = tools_that(desk, "die", "b'65535' in program.text and __import__('os').kill(__import__('os').getpid(), 9)")
    entries = make_release(desk.scratch / "deadly", MANY, [GOOD, KINDS[1], KINDS[3]])
    lost = "FAILED", ["There is no answer: the process that was at it ended with status -9."]
    wanted = [(name, *(lost if (desk.scratch / "deadly" / name / "program.txt").read_text() == "P,1\nint,65535\n" else rest))
              for name, *rest in entries]
    done = desk.run("deadly", "report", tool=tools / "check-release", **judged)
    check("processes that are ended: report", body_of(report_text(desk)), wanted_body(wanted))
    check("processes that are ended: status", (done.returncode, f"count\tFAILED\t{MANY // 3}\n" in done.stdout), (2, True))
    shutil.rmtree(desk.scratch / "deadly")
    shutil.rmtree(desk.scratch / "die")


def check_manifest(desk, binary):
    """A pair that is missing is FAILED, one that is not named is told; a name is spelled as the report or sha256sum spells it."""
    release, slashed = desk.scratch / "listed", "back\\slash"
    for name in ["one", ESCAPE, slashed]:
        make_pair(release / name, *GOOD[:2])
    manifest = desk.scratch / "manifest"
    for spelled in (visible(slashed), "\\back\\\\slash"):
        manifest.write_text(f"one\n{visible(ESCAPE)}\n{spelled}\n")
        done = desk.run("--manifest", "manifest", "listed", "report", RACECHECK=binary)
        check(f"a manifest with {spelled}", (done.returncode, record_of(report_text(desk)).get("manifest")), (0, "manifest"))
    manifest.write_text("one\nmissing\n")
    done = desk.run("--manifest", "manifest", "listed", "report", RACECHECK=binary)
    told = "\nmissing\tFAILED\n    There is no answer: the manifest names it, and there is no such folder.\n"
    check("a pair that the manifest misses", (done.returncode, told in report_text(desk)), (2, True))
    lists = (f"\nIn the manifest and not in the release: 1\nmissing\n\nIn the release and not in the manifest: 2\n{visible(slashed)}\n"
             f"{visible(ESCAPE)}\n")
    check("what only one of them has", (lists in report_text(desk), lists in done.stdout), (True, True))
    for what, text, message in [
        ("a path in a manifest", b"../four\n", "no pair's name: ../four"), ("an empty manifest", b"\n\n", "names no pair"),
        ("a manifest with byte 13", b"one\r\nmissing\r\n", "byte 13 before the line's end, on 2 of 2 lines"),
        ("a manifest with a mark", b"\xef\xbb\xbfone\n", "byte order mark"), ("a manifest that is a folder", None, "manifest"),
    ]:
        manifest.unlink()
        manifest.mkdir() if text is None else manifest.write_bytes(text)
        done = desk.run("--manifest", "manifest", "listed", "unwritten", RACECHECK=binary)
        check(what, (done.returncode, message in done.stderr, (desk.scratch / "unwritten").exists()), (2, True, False))


def check_time(desk, judged):
    """400 pairs of ninety steps by the library: at most 0.4 s of processor, and 0.9 with the second look."""
    release = desk.scratch / "long"
    for number in range(400):
        shutil.copytree(ROOT / "examples" / "refill", release / f"job {number}")
    for option, most in (("--no-recheck", 0.4), ("--recheck", 0.9)):
        before = os.times()
        done = desk.run(option, "long", "report", **judged)
        after = os.times()
        work = sum(getattr(after, kind) - getattr(before, kind) for kind in ("children_user", "children_system"))
        print(f"users: 400 pairs of 92 steps, {option}: {work:.2f} s of processor")
        check(f"400 long pairs, {option}", (done.returncode, work < most * SLACK), (0, True))


SLACK = 4  # a machine that is busy or slow may take so many times as long


def check_records(binary):
    with tempfile.TemporaryDirectory() as scratch:
        desk = Desk(Path(scratch).resolve())
        check_record(desk, binary)
        check_second_look(desk, binary)
        check_odd_entries(desk, binary)
        check_unsteady(desk)
        check_own_fault(desk, binary)
        check_manifest(desk, binary)
        for judged in judges(desk, binary):
            check_links(desk, judged)
            check_long(desk, judged)
            check_lost(desk, judged)
        check_time(desk, judged)
