"""tools/triage: whose fault a refusal is. Accepted examples with one thing made wrong, the races, and files in its way."""
import json
import os
import re
import shutil
import subprocess
import tempfile
from pathlib import Path

from checks import ROOT, check, user_environment
from diagnosis.decision import KINDS

ACCEPTED, RACES, FAILED, DISAGREES, UNDECIDED, ROWS, LOADS, PROGRAM_SHEET, SPLIT_SHEET = range(9)
MENDED = "split-mended.txt"


def check_triage(binary, racefill, racereplay):
    programs = {"RACECHECK": binary, "RACEFILL": racefill, "RACEREPLAY": racereplay}
    check_examples(programs)
    check_rows(programs)
    check_loads(programs)
    check_sheets(programs)
    check_files(programs)
    check_lies(programs)
    check_fields(programs)
    check_page(programs)
    check_hints(programs)


def run(programs, *arguments, tool="triage"):
    return subprocess.run(
        [ROOT / "tools" / tool, *map(str, arguments)], env=user_environment(**programs), cwd=ROOT, stdin=subprocess.DEVNULL,
        capture_output=True, text=True)


def examples():
    return sorted(folder for folder in (ROOT / "examples").iterdir() if (folder / "split.txt").exists())


def wrecked(example, scratch, *changes):
    """A copy of an example with texts of its split replaced, each once."""
    folder = Path(scratch) / f"{example}-{len(os.listdir(scratch))}"
    folder.mkdir()
    for name in ("program.txt", "names.txt"):
        if (ROOT / "examples" / example / name).exists():
            shutil.copy(ROOT / "examples" / example / name, folder)
    split = (ROOT / "examples" / example / "split.txt").read_text()
    for old, new in changes:
        check(f"{example}: its split has {old!r}", old in split, True)
        split = split.replace(old, new, 1)
    (folder / "split.txt").write_text(split)
    return folder


def check_examples(programs):
    """Every example: accepted, a race that is confirmed, or a sheet for filling that is filled."""
    with tempfile.TemporaryDirectory() as scratch:
        for folder in examples():
            files = ["--trace", Path(scratch) / f"{folder.name}.trace", "--mended", Path(scratch) / f"{folder.name}.split"]
            done = run(programs, *files, folder)
            wanted = RACES if folder.name.endswith("-race") else ROWS if folder.name.endswith("-to-fill") else ACCEPTED
            check(f"triage of {folder.name}", (done.returncode, done.stderr), (wanted, ""))
            verdict = re.match(r"\S+: (ACCEPT|REFUSE(,\d+){4})\. ", done.stdout)
            check(f"triage of {folder.name}: one line and the answer", verdict is not None, True)
            confirmed = "racereplay, which is proved, runs this order and reports this race" in done.stdout
            check(f"triage of {folder.name}: a race is confirmed", confirmed, wanted == RACES)


def check_rows(programs):
    """Every accepted example with one row's map made wrong: what is written is accepted."""
    with tempfile.TemporaryDirectory() as scratch:
        for folder in examples():
            if folder.name.endswith(("-race", "-to-fill")):
                continue
            lines = (folder / "split.txt").read_text().split("\n")
            kind, post, last = lines[-2].split(",")
            others = [number for number in range(int(lines[0].split(",")[4])) if str(number) != post]
            if not others:
                continue
            pair = wrecked(folder.name, scratch)
            (pair / "split.txt").write_text("\n".join([*lines[:-2], f"{kind},{others[0]},{last}", ""]))
            done = run(programs, pair)
            if done.returncode == ACCEPTED:  # the other map is as good
                continue
            check(f"{folder.name} with a wrong row", (done.returncode, "The rows of the split are wrong" in done.stdout), (ROWS, True))
            shutil.copy(pair / MENDED, pair / "split.txt")
            check(f"{folder.name}, mended", run(programs, pair).returncode, ACCEPTED)


def check_loads(programs):
    """A load that is too small, one that is rounded, a wrong type, and a lock with nothing: the step and where the rest is."""
    smaller = [("C,2,1,3,2\n", "C,2,1,3,3\n"), ("tid,1,0", "tid,2,0"), ("\n2\n1\n", "\n2\n1\n0\n")]
    rounded = [("C,2,1,3,2\n", "C,3000000,1,3,3\n"), ("tid,1,0", "tid,2,0"), ("\n2\n1\n", "\n3000000\n1500000\n1499999\n")]
    with tempfile.TemporaryDirectory() as scratch:
        for what, pair, words in [
            ("a smaller load", wrecked("join", scratch, *smaller), ["program.txt line 15: write,0", "ends with 1/2 of location 0",
             "leaves 0/2 for its join: its type is on line 4 of split.txt, with map 2 on line 7"]),
            ("a rounded load", wrecked("join", scratch, *rounded), ["only 1 in 3,000,000: they look rounded", "1/3000000 is lost there"]),
            ("a lock with nothing", wrecked("refill", scratch, ("lock,1,0", "lock,2,0")), ["main has 1/1 of colour"]),
            ("a wrong type", wrecked("join", scratch, ("\n1,0,\n", "\n0,0,\n")), ["The types of the split are wrong", "racefill: REFUSE,31,3,1,0"]),
        ]:
            done = run(programs, pair)
            check(f"triage, {what}", (done.returncode, [said for said in words if said not in done.stdout]), (LOADS, []))
            check(f"triage, {what}: nothing is written", (pair / MENDED).exists(), False)


def check_sheets(programs):
    with tempfile.TemporaryDirectory() as scratch:
        pair = wrecked("join", scratch, ("tid,1,0", "tid,01,0"))
        check("a malformed split", run(programs, pair).returncode, SPLIT_SHEET)
        (pair / "program.txt").write_text("P,1\nvar,0\n")
        check("a malformed program", run(programs, pair).returncode, PROGRAM_SHEET)
        (pair / "program.txt").unlink()
        check("no program", run(programs, pair).returncode, FAILED)
        check("no folder", run(programs, Path(scratch) / "nowhere").returncode, FAILED)


def check_files(programs):
    """Nothing is written over, and a file that cannot be written loses nothing."""
    with tempfile.TemporaryDirectory() as scratch:
        lines = (ROOT / "examples" / "join" / "split.txt").read_text().split("\n")
        pair = wrecked("join", scratch, (f"{lines[-2]}\n", "0,1,\n"))
        (pair / MENDED).write_text("mine\n")
        done = run(programs, pair)
        check("a mended split that is there", (done.returncode, (pair / MENDED).read_text(), "left as it is" in done.stdout),
              (ROWS, "mine\n", True))
        done = run(programs, "--mended", "/dev/full", pair)
        check("a mended split that cannot be written", (done.returncode, "is in no file: cannot" in done.stdout), (ROWS, True))
        done = run(programs, "--trace", "/dev/full", ROOT / "examples" / "join-race")
        check("an order that cannot be written", (done.returncode, "is in no file: cannot" in done.stdout), (RACES, True))


def check_lies(programs):
    """A racefill whose sheet racecheck does not accept, and a racereplay that does not report the race, are told."""
    with tempfile.TemporaryDirectory() as scratch:
        liar = Path(scratch) / "liar"
        liar.write_text("#!/bin/sh\nif test -s trace.txt; then echo RAN,5; else echo RAN,0; fi\n")
        liar.chmod(0o755)
        trace = Path(scratch) / "trace"
        done = run({**programs, "RACEREPLAY": liar}, "--trace", trace, ROOT / "examples" / "join-race")
        check("triage with a lying racereplay", (done.returncode, "can race" in done.stdout), (DISAGREES, False))
        liar.write_text("#!/bin/sh\necho REFUSE,41,0,0,0\n")
        lines = (ROOT / "examples" / "join" / "split.txt").read_text().split("\n")
        (Path(scratch) / "pairs").mkdir()
        pair = wrecked("join", Path(scratch) / "pairs", (f"{lines[-2]}\n", "0,1,\n"))
        done = run({**programs, "RACEFILL": liar}, pair)
        check("triage with a lying racefill", (done.returncode, "DISAGREEMENT" in done.stdout), (DISAGREES, True))


def check_fields(programs):
    """--json has the documented fields, and says what is said otherwise."""
    page = (ROOT / "docs" / "REFUSALS.md").read_text()
    rows = re.findall(r"^\| (`.*?) \|", page.split("With `--json`")[1].split("`tools/show-race FOLDER`")[0], re.M)
    documented = [name for row in rows for name in re.findall(r"`(\w+)`", row)]
    with tempfile.TemporaryDirectory() as scratch:
        lines = (ROOT / "examples" / "join" / "split.txt").read_text().split("\n")
        wrong = wrecked("join", scratch, (f"{lines[-2]}\n", "0,1,\n"))
        for folder in (ROOT / "examples" / "join-race", ROOT / "examples" / "join", wrong):
            plain, done = run(programs, folder), run(programs, "--json", folder)
            fields = json.loads(done.stdout)
            check(f"--json of {folder.name}: the documented fields", sorted(fields), sorted(documented))
            check(f"--json of {folder.name}: status", (done.returncode, fields["status"]), (plain.returncode,) * 2)
            check(f"--json of {folder.name}: the line", plain.stdout.split("\n")[0], f"{fields['folder']}: {fields['says']}")
            check(f"--json of {folder.name}: a race, a mended split", (bool(fields["race"]), bool(fields["mended"])),
                  (fields["kind"] == "races", fields["kind"] == "rows"))
            numbers = ",".join(map(str, fields["numbers"]))
            check(f"--json of {folder.name}: the numbers", fields["answer"], "ACCEPT" if numbers == "0,0,0,0" else f"REFUSE,{numbers}")


def check_page(programs):
    """docs/REFUSALS.md has every kind of decision with its status and who acts, and the example as it comes out."""
    page = (ROOT / "docs" / "REFUSALS.md").read_text()
    for kind, (status, who, _) in KINDS.items():
        rows = [row for row in page.split("\n") if row.startswith("| ") and f"`{kind}`" in row]
        check(f"docs/REFUSALS.md on {kind}", [str(status) in row.split("|")[1] and who.split()[-1] in row for row in rows], [True])
    shown = page.split("    $ tools/triage examples/join-race\n    ")[1].split("\n")[0]
    check("docs/REFUSALS.md: the example", run(programs, "examples/join-race").stdout.split("\n")[0], shown)


def check_hints(programs):
    """What explain says where the start has too little, and fill of sheets that are not for filling."""
    with tempfile.TemporaryDirectory() as scratch:
        pair = wrecked("join", scratch, ("C,2,", "C,3,"))
        done = run(programs, pair, tool="explain")
        told = ["nobody holds the rest" in done.stdout, "Who looks first: owner of the solver\n" in done.stdout]
        check("explain, a D that is too great", told, [True, True])
        for example, words in (("join", "a `C` sheet is not filled"), ("top-up", "the sheet is filled already")):
            folder = wrecked(example, scratch)
            done = run(programs, folder, tool="fill")
            check(f"fill of {example}", (done.returncode, words in done.stdout, "version of the job" in done.stdout), (1, True, False))
