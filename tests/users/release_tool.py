"""tools/check-release on generated releases, with the given racecheck and with ones that do not keep their word."""
import os
import pty
import re
import shutil
import tempfile
from pathlib import Path

from checks import check, contents, make_pair
from desk import (
    GOOD, TOOLS, Desk, body_of, counts_in, digests_of, make_release, record_of, wanted_body, wanted_counts, wanted_digests)
from ended import check_ended, start_deaf
from header import shared_library

Z = "C,1,1,1,1|int,0,0|0|0,0,|"

# Programs and splits with their answers and what the report says below them.
KINDS = [
    GOOD,
    ("P,1|int,65535|", Z, "ACCEPT", []),
    ("P,1|int,65536|", Z, "REFUSE,12,2,0,0", [
        "A number of the program sheet is out of range.", "program.txt line 2: int,65536",
        "65,536 is out of range: a constant is 0 to 65,535", "who looks first: owner of the program"]),
    ("P,1|var,0|", Z, "REFUSE,14,2,0,0", [
        "A variable is used where it is not bound.", "program.txt line 2: var,0", "variable 0 is bound by no line above it",
        "who looks first: owner of the program"]),
    ("P,1|int,0|", "C,1,2,1,1|int,0,0|1,2|0,0,|", "REFUSE,30,2,0,1", [
        "The job starts with more than one whole of a location.", "program.txt line 2: int,0", "taken by thread 0",
        "at location 1: 2/1 is more than the whole", "who looks first: owner of the solver"]),
    GOOD,
    ("P,1|int,0|", "absent", "UNREAD", [
        "A file could not be read. Nothing was judged.", "likely cause: split.txt is missing"]),
    ("absent", "folder", "UNREAD", [
        "A file could not be read. Nothing was judged.", "likely cause: program.txt is missing",
        "likely cause: split.txt is a folder"]),
]
# What the bytes of a refused sheet show.
CAUSES = [
    ("P,1|int,0\r|", Z, "REFUSE,11,2,0,0", "byte 13 before the line's end, on 1 of 2 lines: save it with byte 10 alone"),
    ("\ufeffP,1|int,0|", Z, "REFUSE,11,1,0,0", "program.txt begins with a byte order mark (UTF-8): save it without one"),
    ("UTF-16", Z, "REFUSE,11,1,0,0", "program.txt is written in UTF-16: save it as plain text, one byte a letter"),
    ("P,1|int,0", Z, "REFUSE,11,2,0,0",
     "the last byte 10 is missing: the file may have been cut off, or its last line was not closed"),
    ("empty", Z, "REFUSE,11,1,0,0", "program.txt is empty"),
    ("P,1|int, 0|", Z, "REFUSE,11,2,0,0", "there is a space or a tab in the line"),
    ("P,1|int,0||", Z, "REFUSE,13,3,0,0", "the line is empty"),
    ("P,1|\0int,0|", Z, "REFUSE,11,2,0,0", "there are bytes 0 in the line: the file is not plain text"),
    ("P,1|int,0|", "empty", "REFUSE,21,1,0,0", "split.txt is empty"),
    ("P,1|int,0|", "C2,1,1,1,1,0|int,0,0|0|0,,|", "REFUSE,21,4,0,0",
     "the after-map is left empty: `racefill` fills in such a sheet"),
    ("P,1|int,0|", Z + "0,0,|", "REFUSE,23,5,0,0",
     "by its line 1 and the job's 1 step the split should have 4 lines and has 5: it may be that of another version of the job"),
]


def judges(desk, binary):
    """Each thing that can judge a release, as a variable of the environment."""
    shared = shared_library(desk.scratch)
    return [{"RACECHECK": binary}, *([{"RACECHECK": "", "RACECHECK_LIBRARY": shared}] if shared else [])]


def check_releases(desk, judged):
    """Reports, counts, order and status of whole releases. `judged` is by what, as variables of the environment."""
    release = desk.scratch / "a release"
    entries = make_release(release, 400, KINDS)
    before = contents(release)
    done = desk.run("a release", **judged)
    report = desk.scratch / "release-report.txt"
    check("400 pairs: report", body_of(report.read_text()), wanted_body(entries))
    check("400 pairs: digests", digests_of(report.read_text()), wanted_digests(release, entries))
    check("400 pairs: counts printed", counts_in(done.stdout), wanted_counts(entries))
    printed = ["\nNot accepted: 250\n", "\nand 230 more, in the report\n"]
    check("400 pairs: the others printed", [words for words in printed if words not in done.stdout], [])
    check("400 pairs: status", done.returncode, 2)
    check("400 pairs: progress", "checked 400 of 400" in done.stderr, True)
    check("400 pairs: the folders are as they were", contents(release) == before, True)
    by_what = "library" if "RACECHECK_LIBRARY" in judged else "program"
    check("400 pairs: by what", record_of(report.read_text())["judged by"].startswith(f"the {by_what}, "), True)
    shutil.rmtree(release)
    report.unlink()


def check_again(desk, binary):
    """A report without a name takes a free one: the last is never written over."""
    for number in range(3):
        desk.run("two", RACECHECK=binary)
    names = sorted(path.name for path in desk.scratch.glob("release-report*"))
    check("reports without a name", names, ["release-report-2.txt", "release-report-3.txt", "release-report.txt"])


def read_to_end(terminal):
    """All that was written to a terminal whose other end is closed. It may come in parts, and its end is an error."""
    said = b""
    try:
        while part := os.read(terminal, 4096):
            said += part
    except OSError:
        pass
    return said.decode()


def check_terminal(desk, binary):
    """How far it is, on a terminal: one line that is written again, and closed."""
    terminal, end = pty.openpty()
    process = desk.start("two", "report", error=end, RACECHECK=binary)
    os.close(end)
    process.wait()
    said = read_to_end(terminal)
    os.close(terminal)
    check("progress on a terminal", bool(re.match(r"(\rchecked \d of 2)*\rchecked 2 of 2\r\n", said)), True)


def check_small(desk, binary):
    for name, count, kinds, status in [("accepted", 9, [GOOD], 0), ("refused", 9, KINDS[:5], 1)]:
        entries = make_release(desk.scratch / name, count, kinds)
        report = desk.scratch / f"report of {name}"
        done = desk.run(desk.scratch / name, report, RACECHECK=os.path.relpath(binary, desk.scratch))
        check(f"{name}: status", done.returncode, status)
        check(f"{name}: report", body_of(report.read_text()), wanted_body(entries))

    (desk.scratch / "accepted" / "a note.txt").write_text("not a pair")
    (desk.scratch / "accepted" / "empty").mkdir()
    done = desk.run("accepted", "report", RACECHECK=binary)
    check("a subfolder without a pair: status", done.returncode, 2)
    check("a subfolder without a pair: its line", "\nempty\tUNREAD\n" in (desk.scratch / "report").read_text(), True)


def check_causes(desk, binary):
    """What the bytes of a sheet show is in the report, below the pair."""
    release = desk.scratch / "causes"
    for number, (program, split, _, _) in enumerate(CAUSES):
        make_pair(release / f"{number:02}", program, split)
    desk.run("causes", "report", RACECHECK=binary)
    entries = body_of((desk.scratch / "report").read_text()).split("\n\n")[1].split("\n    likely cause: ")
    for number, (_, _, answer, cause) in enumerate(CAUSES):
        check(f"cause {number}: answer", f"\n{number:02}\t{answer}\n" in entries[number], True)
        check(f"cause {number}", entries[number + 1].split("\n")[0], cause)


def check_hindrances(desk, binary):
    """A FIFO, a link that leads nowhere and a folder that cannot be entered are FAILED, and the rest goes on."""
    release = desk.scratch / "hindered"
    entries = [("after", "ACCEPT", []), ("before", "ACCEPT", [])]
    for name in ["before", "shut", "waits", "after"]:
        make_pair(release / name, *GOOD[:2])
    (release / "leads nowhere").symlink_to("nowhere")
    entries.append(("leads nowhere", "FAILED", ["There is no answer: a link that leads nowhere."]))
    (release / "shut").chmod(0)
    before = ()
    if os.geteuid() == 0:  # who may enter any folder, unless that is given up
        before = ["setpriv", "--bounding-set=-all", "--inh-caps=-all"]
        if shutil.which("setpriv") is None:
            print("users: no setpriv here, so that a folder cannot be entered is not tried")
            shutil.rmtree(release / "shut")
            before = ()
    if (release / "shut").exists():
        entries.append(("shut", "FAILED", ["There is no answer: the folder cannot be entered."]))
    make_pair(release / "pipe", *GOOD[:2])
    (release / "pipe" / "program.txt").unlink()
    os.mkfifo(release / "pipe" / "program.txt")
    entries.append(("pipe", "FAILED", ["There is no answer: program.txt is no plain file."]))
    entries.append(("waits", "FAILED", ["There is no answer: no answer within 10 seconds."]))
    entries.sort()
    slow = desk.binary("waiting", f"case $PWD in */waits) exec sleep 30;; esac; exec '{binary}'")
    process = desk.start("hindered", "hindered report", before=before, RACECHECK=slow)

    def finish():
        process.communicate()
        check("a hindered release: status", process.returncode, 2)
        check("a hindered release: report", body_of((desk.scratch / "hindered report").read_text()), wanted_body(entries))
        if (release / "shut").exists():
            (release / "shut").chmod(0o755)

    return finish


def check_outputs(desk, binary):
    """Counts or a report that cannot be written give status 2; what is no plain file is not replaced."""
    with open("/dev/full", "w") as full:
        done = desk.run("two", "report", output=full, RACECHECK=binary)
        unheard = desk.run("two", "unheard report", error=full, RACECHECK=binary)
    check("progress to a full device", (unheard.returncode, (desk.scratch / "unheard report").is_file()), (0, True))
    check("counts to a full device", (done.returncode, "cannot write to standard output" in done.stderr), (2, True))
    done = desk.run("two", "report", before=["sh", "-c", 'exec "$@" >&-', "sh"], RACECHECK=binary)
    check("counts to a closed output", (done.returncode, "there is no standard output" in done.stderr), (2, True))
    done = desk.run("two", "/dev/full", "--json", "json beside", RACECHECK=binary)
    check("a report to a full device", (done.returncode, "cannot write the report" in done.stderr), (2, True))
    check("the counts are told all the same", "count\tACCEPT\t2\n" in done.stdout, True)
    check("and what else can be written is", (desk.scratch / "json beside").is_file(), True)
    check("the device is still there", Path("/dev/full").is_char_device(), True)
    done = desk.run("two", "/dev/stdout", RACECHECK=binary)
    check("a report to standard output", (done.returncode, done.stdout.count("count\tACCEPT\t2")), (0, 2))
    (desk.scratch / "link").symlink_to("linked report")
    desk.run("two", "link", RACECHECK=binary)
    check("a report by a link", ((desk.scratch / "link").is_symlink(), (desk.scratch / "linked report").is_file()), (True, True))


def check_liar(desk):
    """A racecheck whose refusal the numbers do not bear out: the report says so, and the status is 2."""
    done = desk.run("two", "report", RACECHECK=desk.binary("liar", "echo REFUSE,32,2,2,0"))
    check("a lying binary: status", done.returncode, 2)
    check("a lying binary: report", (desk.scratch / "report").read_text().count("*** DISAGREEMENT"), 2)
    check("a lying binary: counts", done.stdout.startswith("count\tDISAGREEMENT\t2\ncount\tACCEPT\t0\ncount\tREFUSE\t0\n"), True)


def check_nonsense(desk):
    """A racecheck that does not keep its word: FAILED and status 2."""
    make_release(desk.scratch / "two", 2, [GOOD])
    scripts = {
        "nonsense": "echo maybe", "silent": ":", "unclosed": "printf ACCEPT", "chatty": "echo ACCEPT; echo ACCEPT",
        "short": "echo REFUSE,1,2,3", "long": "echo REFUSE,1,2,3,4,5", "worded": "echo REFUSE,1,2,3,x",
        "gapped": "echo REFUSE,1,,3,4", "crashing": "echo ACCEPT; exit 3", "endless": "yes ACCEPT", "lower": "echo accept",
    }
    for name, script in scripts.items():
        done = desk.run("two", "report", RACECHECK=desk.binary(name, script))
        check(f"{name} binary: status", done.returncode, 2)
        check(f"{name} binary: counts", counts_in(done.stdout), wanted_counts([("", "FAILED", [])] * 2))
        check(f"{name} binary: message", "no answer for 2 of 2 pairs" in done.stderr, True)
    make_pair(desk.scratch / "one" / "job", *KINDS[3][:2])
    done = desk.run("one", "report", RACECHECK=desk.binary("honest", "echo REFUSE,14,2,0,0"))
    check("a binary of the right form: status", done.returncode, 1)


def check_errors(desk, binary):
    """What check-release cannot do: a message, status 2, no report and nothing written to the pairs."""
    (desk.scratch / "none").mkdir()
    make_pair(desk.scratch / "alone", *GOOD[:2])
    wrong = [
        ("no arguments", [], "usage"),
        ("three arguments", ["two", "b", "c"], "usage"),
        ("no such folder", ["nowhere", "unwritten"], "no such folder"),
        ("an empty folder", ["none", "unwritten"], "no subfolder"),
        ("a pair's own folder", ["alone", "unwritten"], "the one above"),
        ("a report in a pair's folder", ["two", "two/job 000/unwritten"], "pair's folder"),
        ("a report that is a folder", ["two", "none"], "folder"),
        ("a report in no folder", ["two", "nowhere/unwritten"], "no folder"),
        ("a page in the release", ["--page", "two/pages", "two", "unwritten"], "pair's folder, or as one"),
        ("a page in no folder", ["--page", "nowhere/pages", "two", "unwritten"], "no folder to make the pages in"),
        ("a page that is a file", ["--page", "liar", "two", "unwritten"], "wants a folder"),
        ("a time that is no number", ["--decide", "soon", "two", "unwritten"], "usage"),
    ]
    before = contents(desk.scratch / "two")
    for what, arguments, message in wrong:
        done = desk.run(*arguments, RACECHECK=binary)
        check(f"{what}: status", done.returncode, 2)
        check(f"{what}: message", message in done.stderr, True)
    for what, missing in [("a missing binary", desk.scratch / "missing"), ("a folder as binary", desk.scratch / "two")]:
        done = desk.run("two", "unwritten", RACECHECK=missing)
        check(f"{what}: status", done.returncode, 2)
        check(f"{what}: message", "no racecheck that can be run" in done.stderr, True)
    done = desk.run("two", "unwritten", RACECHECK="", RACECHECK_LIBRARY=desk.scratch / "missing")
    check("a missing library", (done.returncode, "a library that cannot be used" in done.stderr), (2, True))
    check("no report after an error", [p for p in desk.scratch.rglob("unwritten")], [])
    check("the pairs are as they were", contents(desk.scratch / "two") == before, True)
    done = desk.run("--help", decide=None)
    check("--help", (done.returncode, "usage: check-release" in done.stdout), (0, True))


def check_which_binary(desk):
    """RACECHECK comes first, then the repository's own, then the PATH."""
    shutil.copytree(TOOLS, desk.scratch / "repository" / "tools")
    tool = desk.scratch / "repository" / "tools" / "check-release"
    environment = {"tool": tool, "RACECHECK": "", "PATH": f"{desk.scratch}/path:{os.environ['PATH']}"}
    desk.binary("path/racecheck", "echo REFUSE,14,2,0,0")
    check("racecheck on the PATH", desk.run("one", "report", **environment).returncode, 1)
    desk.binary("repository/target/bin/racecheck", "echo ACCEPT")
    check("racecheck of the repository", desk.run("--no-recheck", "one", "report", **environment).returncode, 0)
    environment["RACECHECK"] = desk.binary("named", "echo UNREAD")
    check("racecheck by RACECHECK", desk.run("one", "report", **environment).returncode, 2)


def check_release_tool(binary):
    """check-release on whole releases and on binaries that do not keep their word."""
    with tempfile.TemporaryDirectory() as scratch:
        desk = Desk(Path(scratch))
        finish_hindrances, finish_deaf = check_hindrances(desk, binary), start_deaf(desk)
        for judged in judges(desk, binary):
            check_releases(desk, judged)
        check_small(desk, binary)
        check_causes(desk, binary)
        check_nonsense(desk)
        check_again(desk, binary)
        check_terminal(desk, binary)
        check_liar(desk)
        check_ended(desk)
        check_outputs(desk, binary)
        check_which_binary(desk)
        check_errors(desk, binary)
        finish_hindrances()
        finish_deaf()
