"""What the tests share: the count of checks, and pairs of sheets in folders."""
import os
import re
import subprocess
import tempfile
from pathlib import Path

ROOT = Path(__file__).resolve().parents[2]

passed = 0
failures = []


def user_environment(**changes):
    """The environment of somebody who has set nothing for Python."""
    plain = {name: value for name, value in os.environ.items() if not name.startswith("PYTHON")}
    return {**plain, **{name: str(value) for name, value in changes.items()}}


def check(what, got, wanted):
    global passed
    if got == wanted:
        passed += 1
    else:
        failures.append(what)
        print(f"FAILED {what}\n  got    {got!r}\n  wanted {wanted!r}", flush=True)


def contents(folder):
    """Every path below a folder with its bytes, None for a folder."""
    return {str(p.relative_to(folder)): None if p.is_dir() else p.read_bytes() for p in sorted(folder.rglob("*"))}


def sheet_of(text):
    """A sheet as a page's example writes it: bars for byte 10, and "(3 lines of 0,,)" for a line that comes again."""
    repeated = re.sub(r"\((\d+) lines of ([^)]*)\)", lambda found: f"{found[2]}|" * int(found[1]), text)
    return repeated.replace("|", "\n").encode()


def place(path, text):
    """Puts a text where a page's example wants it: a sheet, or one of the described constructions."""
    repeated = re.fullmatch(r"(\d+) bytes of (.)", text)
    if text == "absent":
        return
    if text == "folder":
        path.mkdir()
    elif text == "empty":
        path.write_bytes(b"")
    elif text == "UTF-16":
        path.write_text("P,1\nint,0\n", encoding="utf-16")
    elif repeated:
        path.write_bytes(repeated[2].encode() * int(repeated[1]))
    else:
        path.write_bytes(sheet_of(text))


def make_pair(folder, program, split):
    folder.mkdir(parents=True)
    place(folder / "program.txt", program)
    place(folder / "split.txt", split)


def answer_in(binary, folder):
    return subprocess.run([binary], cwd=folder, stdin=subprocess.DEVNULL, stdout=subprocess.PIPE).stdout


def check_pair(binary, what, program, split, answer):
    check_written(binary, what, program, split, answer.encode() + b"\n")


def check_written(binary, what, program, split, written):
    """A program started in a pair's folder writes this, and leaves the folder as it was."""
    with tempfile.TemporaryDirectory() as scratch:
        folder = Path(scratch) / "pair"
        make_pair(folder, program, split)
        before = contents(folder)
        check(what, answer_in(binary, folder), written)
        check(what + ", its folder afterwards", contents(folder) == before, True)
