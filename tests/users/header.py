"""include/racecheck.h: its calls are those of crates/entries_c, and a program in C that is linked by it gets what it says."""
import os
import re
import shutil
import subprocess
import tempfile
from pathlib import Path

from checks import ROOT, check, user_environment
from installation.shared import COMPILERS, make_shared
from racecheck.finding import NAME

HEADER = ROOT / "include" / "racecheck.h"
ENTRIES = ROOT / "crates" / "entries_c" / "src" / "lib.rt"
C_TYPES = {
    "u32": "uint32_t {0}", "&mut u32": "uint32_t *{0}", "&mut u64": "uint64_t *{0}",
    "&[u8]": "const uint8_t *{0}, size_t {0}_len", "&mut [u8]": "uint8_t *{0}, size_t {0}_len",
    "&[u32]": "const uint32_t *{0}, size_t {0}_len", "&mut [u32]": "uint32_t *{0}, size_t {0}_len",
    "&[u64]": "const uint64_t *{0}, size_t {0}_len", "&mut [u64]": "uint64_t *{0}, size_t {0}_len"}
KILOBYTE = 1024


def offered():
    """The calls of the crate as C declares them."""
    calls = {}
    for name, parameters in re.findall(r'pub extern "C" fn (\w+)\((.*?)\) -> u32', ENTRIES.read_text(), re.S):
        pairs = [one.strip().split(": ") for one in parameters.split(",") if one.strip()]
        calls[name] = ", ".join(C_TYPES[kind].format(parameter) for parameter, kind in pairs)
    return calls


def declared():
    """The calls of the header."""
    text = re.sub(r"/\*.*?\*/", "", HEADER.read_text(), flags=re.S)
    calls = re.findall(r"uint32_t (\w+)\((.*?)\);", text, re.S)
    return {name: re.sub(r"\s+", " ", parameters).strip() for name, parameters in calls}


def library():
    return Path(os.environ.get("RACECHECK_LIB_DIR") or ROOT / "target" / "staticlib") / "libentries.a"


def shared_library(folder):
    """The shared library, made of the static one in a folder; None where it cannot be made."""
    if not library().exists() or not any(map(shutil.which, COMPILERS)):
        print(f"users: no {'C compiler' if library().exists() else library()}, so that the shared library is not tried")
        return None
    if not (folder / NAME).exists():
        make_shared(library(), folder / NAME)
    return folder / NAME


def compile_with(compiler, *arguments):
    command = [compiler, "-Wall", "-Wextra", "-Wpedantic", "-Werror", *map(str, arguments)]
    return subprocess.run(command, capture_output=True, text=True)


def check_linked(compiler, *flags, **environment):
    """A program in C, compiled with the header and linked with the library, as a caller does it."""
    with tempfile.TemporaryDirectory() as scratch:
        program = Path(scratch) / "calls"
        done = compile_with(compiler, "-std=c11", ROOT / "tests" / "users" / "calls.c", *flags, "-pthread", "-o", program)
        check("calls in C: compiled and linked", (done.returncode, done.stderr), (0, ""))
        if done.returncode == 0:
            ran = subprocess.run([program], env=user_environment(**environment), capture_output=True, text=True)
            stacks = [int(words.split()[1]) for words in ran.stdout.splitlines() if words.startswith("stack")]
            check("calls in C: what they return", (ran.returncode, len(stacks), "wrong" in ran.stdout), (0, 2, False))
            check("calls in C: stack", max(stacks, default=0) <= 81 * KILOBYTE + 8 * KILOBYTE, True)  # with the thread's own


def check_outside():
    """What the library needs from outside: the header and docs/BENCHMARKS.md name two functions of the C library."""
    if not shutil.which("nm") or not library().exists():
        print(f"users: no {'nm' if library().exists() else library()}, so that what the library needs is not looked at")
        return
    names = subprocess.run(["nm", "-u", library()], capture_output=True, text=True, check=True).stdout
    needed = sorted(re.findall(r"^ +U (\S+)$", names, re.M))
    check("the library needs memcpy and memset alone", needed, ["memcpy", "memset"])


def check_header():
    check("the header has the calls of the crate", declared(), offered())
    check_outside()
    compiler = next(filter(None, map(shutil.which, ["cc", "gcc", "clang"])), None)
    if compiler is None or not library().exists():
        print(f"users: no {'C compiler' if compiler is None else library()}, so that include/racecheck.h links is not tried")
        return
    for language in ("c", "c++"):
        done = compile_with(compiler, "-fsyntax-only", "-x", language, HEADER)
        check(f"the header as {language}", (done.returncode, done.stderr), (0, ""))
    check_linked(compiler, f"-I{ROOT / 'include'}", library())
