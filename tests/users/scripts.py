"""The module for scripts in Python: the examples of docs/PYTHON.md, the header that it follows, several threads, and no library."""
import ctypes
import inspect
import os
import re
import subprocess
import sys
import tempfile
import threading
import typing
from pathlib import Path

import racecheck
from checks import ROOT, answer_in, check, user_environment
from header import HEADER, declared, shared_library
from pages import examples, fenced
from racecheck import library

# What a parameter of the header is to ctypes.
C_TYPES = {
    "const uint8_t *": ctypes.c_char_p, "uint8_t *": ctypes.c_char_p, "size_t ": ctypes.c_size_t, "uint32_t ": ctypes.c_uint32,
    "uint32_t *": ctypes.POINTER(ctypes.c_uint32), "uint64_t *": ctypes.POINTER(ctypes.c_uint64),
    "const uint32_t *": ctypes.POINTER(ctypes.c_uint32), "const uint64_t *": ctypes.POINTER(ctypes.c_uint64)}
NUMBERS = {
    "RACECHECK_WORK": library.WORK, "RACECHECK_REPLAY_SPACE": library.REPLAY_SPACE, "RACECHECK_SPLIT_BYTES": library.SPLIT_BYTES,
    "RACECHECK_REPLAY_JOB": library.REPLAY_JOB, "RACECHECK_REPLAY_RUN": library.REPLAY_RUN,
    "RACECHECK_DRILL_PROGRAM_BYTES": library.DRILL_PROGRAM_BYTES, "RACECHECK_DRILL_SPLIT_BYTES": library.DRILL_SPLIT_BYTES}


def check_declared():
    """The entries have the arguments and the buffers that the header gives."""
    wanted = {name: [C_TYPES[re.sub(r"\w+$", "", one)] for one in parameters.split(", ")] for name, parameters in declared().items()}
    check("the module has the calls of the header", library.ENTRIES, wanted)
    defined = dict(re.findall(r"#define (RACECHECK_\w+) (\d+)", HEADER.read_text()))
    check("the module has the sizes of the header", {name: int(defined[name]) for name in NUMBERS}, NUMBERS)


def check_typed():
    """Every call says what it takes and gives."""
    calls = [racecheck.check, racecheck.drill, racecheck.fill, racecheck.replay, racecheck.replay_pieces, racecheck.find_library]
    calls += [getattr(library.Library, name) for name in ("__init__", "check", "drill", "fill", "replay", "replay_pieces")]
    for call in calls:
        taken = set(inspect.signature(call).parameters) - {"self"} | {"return"}
        check(f"{call.__qualname__} has its types", set(typing.get_type_hints(call)), taken)


def check_page(shared):
    """Each example of the page, as a script of its own."""
    page = (ROOT / "docs" / "PYTHON.md").read_text()
    scripts, outputs = ([lines for _, lines in fenced(page, kind)] for kind in ("python", "output"))
    check("PYTHON.md has examples", (len(scripts), len(outputs)), (3, 3))
    for number, (lines, output) in enumerate(zip(scripts, outputs)):
        done = run("\n".join(lines), RACECHECK_LIBRARY=shared)
        check(f"PYTHON.md, example {number}", (done.returncode, done.stdout.splitlines(), done.stderr), (0, output, ""))


def run(script, **environment):
    return subprocess.run(
        [sys.executable, "-B", "-c", script], cwd=ROOT, env=user_environment(PYTHONPATH=ROOT / "tools", **environment),
        stdin=subprocess.DEVNULL, capture_output=True, text=True)


def check_answers(shared, programs):
    """Every example: the answers are those of the programs."""
    binary, _, racefill, racereplay = programs
    calls = racecheck.Library(str(shared))
    for folder in [*examples(), ROOT / "examples" / "top-up-to-fill"]:
        program, split = ((folder / name).read_bytes() for name in ("program.txt", "split.txt"))
        check(f"module, check of {folder.name}", f"{calls.check(program, split)}\n".encode(), answer_in(binary, folder))
        filling = calls.fill(program, split)
        check(f"module, filling of {folder.name}", str(filling).rstrip("\n").encode(), answer_in(racefill, folder).rstrip(b"\n"))
        if (folder / "trace.txt").exists():
            trace, told = (folder / "trace.txt").read_bytes(), answer_in(racereplay, folder)
            check(f"module, replay of {folder.name}", f"{calls.replay(program, trace)}\n".encode(), told)
            for size in (1, 7, 4096):
                pieces = [trace[at:at + size] for at in range(0, len(trace), size)]
                check(f"module, replay of {folder.name} by {size}", f"{calls.replay_pieces(program, pieces)}\n".encode(), told)
    refused = calls.replay((ROOT / "examples" / "refill" / "program.txt").read_bytes(), b"0,0\n9,0\n")
    check("module, a line that cannot be done", str(refused), "REFUSE,47,2,0,0,1")
    check_pieces(calls)
    check("module, empty texts", str(calls.check(b"", b"")), "REFUSE,11,1,0,0")
    for what, call in [("a text that is none", lambda: calls.check("P,1", b"")), ("no text", lambda: calls.check(None, b"")),
                       ("a seed out of range", lambda: calls.drill(2**32))]:
        check(f"module, {what}", raised(call), True)


def check_pieces(calls):
    """Pieces that are cut within a line, that none follows, and that are not asked for."""
    program = (ROOT / "examples" / "refill" / "program.txt").read_bytes()
    for pieces, told in [([], "RAN,0"), ([b"0", b",0\n0,", b"0\n"], "RAN,2"), ([b"0,0\n0,0"], "REFUSE,46,2,0,0,1"),
                         ([b"0,0\n9,0\n", b"0,0\n"], "REFUSE,47,2,0,0,1")]:
        check(f"module, the pieces {pieces}", str(calls.replay_pieces(program, iter(pieces))), told)
    left = iter([b"9,0\n", b"0,0\n"])
    check("module, pieces behind a stop", (str(calls.replay_pieces(program, left)), list(left)), ("REFUSE,47,1,0,0,0", [b"0,0\n"]))
    check("module, pieces of a refused job", (str(calls.replay_pieces(b"", left)), calls.replay(b"", b"")), (
        "REFUSE,11,1,0,0,0", calls.replay_pieces(b"", [])))


def raised(call):
    try:
        call()
    except (TypeError, ValueError, ctypes.ArgumentError):
        return True
    return False


def check_threads(shared):
    """Threads that call at once get the answers that each by itself gets."""
    os.environ["RACECHECK_LIBRARY"] = str(shared)
    folders, wrong = examples(), []

    def work():
        for folder in folders * 20:
            answer = racecheck.check(*((folder / name).read_bytes() for name in ("program.txt", "split.txt")))
            if str(answer) != (folder / "expected").read_text().strip():
                wrong.append(folder.name)

    threads = [threading.Thread(target=work) for _ in range(4)]
    for thread in threads:
        thread.start()
    for thread in threads:
        thread.join()
    del os.environ["RACECHECK_LIBRARY"]
    check("module, four threads", wrong, [])


def check_none(scratch):
    """Without a library, and with something else in its place, it is said what to do."""
    (scratch / "not one.so").write_text("no library")
    done = run("import racecheck; racecheck.check(b'', b'')", RACECHECK_LIBRARY=scratch / "not one.so")
    check("module, no library", (done.returncode, "NoLibrary: not a library of racecheck" in done.stderr), (1, True))
    done = run("import racecheck.finding as f, racecheck; f.BUILT = f.INSTALLED = f.ROOT / 'none'; racecheck.check(b'', b'')",
               RACECHECK_LIBRARY="")
    check("module, nothing there", (done.returncode, "tools/install makes it" in done.stderr), (1, True))


def check_scripts(programs):
    check_declared()
    check_typed()
    with tempfile.TemporaryDirectory() as scratch:
        shared = shared_library(Path(scratch))
        if shared:
            check_page(shared)
            check_answers(shared, programs)
            check_threads(shared)
        check_none(Path(scratch))
