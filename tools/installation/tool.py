"""tools/install: what is copied where."""
import os
import shutil
import tempfile
from pathlib import Path

from common.command import Failure, Usage, options, tell
from common.writing import Output, approve, replace, write

from explanation.formatting import visible
from racecheck.finding import ARCHIVE, BUILT, NAME

from .archive import packed
from .completing import completion
from .manual import manual_pages
from .shared import make_shared

ROOT = Path(__file__).resolve().parents[2]
PROGRAMS = ("racecheck", "racefill", "racedrill", "racereplay")
TOOLS = ("check-release", "draw-faults", "explain", "fill", "show-race", "triage", "try-orders")
HEADER = ROOT / "include" / "racecheck.h"
# Where bash looks for what completes a command, below the prefix.
COMPLETIONS = Path("share") / "bash-completion" / "completions"
# Where everything lives that bin and share lead to, below the prefix.
HOME = Path("lib") / "racecheck"
LINKS = {
    **{Path("bin") / name: HOME / "bin" / name for name in PROGRAMS},
    **{Path("bin") / name: HOME / "tools" / name for name in TOOLS},
    Path("lib") / "python" / "racecheck": HOME / "tools" / "racecheck",
    Path("share") / "doc" / "racecheck": HOME / "docs",
}
# For pkg-config, wherever the prefix is moved to. The version is that of the calls.
PACKAGE = """prefix=${pcfiledir}/../..
libdir=${prefix}/lib
includedir=${prefix}/include

Name: racecheck
Description: a proved checker of race freedom, with practice pairs, the filling in of splits and the replay of orders
Version: 1.0
Libs: -L${libdir} -lracecheck
Cflags: -I${includedir}
"""


def main(arguments):
    given, others = options(arguments, flags=["--library"], valued=["--archive"])
    if len(given) + len(others) != 1:
        raise Usage("one of PREFIX, --archive FILE and --library is wanted")
    programs = {name: ROOT / "target" / "bin" / name for name in PROGRAMS}
    _find_all([] if "--library" in given else [*programs.values(), HEADER])
    if "--library" in given:
        make_shared(ARCHIVE, BUILT)
        tell([f"made {visible(str(BUILT))}"])
    elif "--archive" in given:
        _pack(given["--archive"], programs)
    else:
        prefix = Path(os.path.abspath(others[0]))
        _install(prefix, programs)
        tell([f"installed below {visible(str(prefix))}; the commands are in {visible(str(prefix / 'bin'))}"])
    return 0


def _pack(path, programs):
    """An installation in one file, which is written where nothing is."""
    output = Output("archive", path)
    approve([output])
    with tempfile.TemporaryDirectory() as scratch:
        prefix = Path(scratch) / "racecheck"
        _install(prefix, programs)
        write(output, packed(prefix))
    tell([f"packed in {visible(os.path.realpath(path))}: unpack it anywhere, the commands are in racecheck/bin"])


def _install(prefix, programs):
    _spare_others(prefix)
    (prefix / "lib").mkdir(parents=True, exist_ok=True)
    make_shared(ARCHIVE, prefix / "lib" / NAME)
    _put_home(prefix, programs)
    for link, target in LINKS.items():
        _put_link(prefix / link, prefix / target)
    _put_file(prefix / "lib" / "libracecheck.a", ARCHIVE.read_bytes())
    _put_file(prefix / "lib" / "pkgconfig" / "racecheck.pc", PACKAGE.encode())
    _put_file(prefix / "include" / "racecheck.h", HEADER.read_bytes())
    for name, page in manual_pages().items():
        _put_file(prefix / "share" / "man" / "man1" / f"{name}.1", page.encode())
    for name in TOOLS:
        _put_file(prefix / COMPLETIONS / name, completion().encode())


def _find_all(paths):
    missing = [str(path.relative_to(ROOT)) for path in (*paths, ARCHIVE) if not path.is_file()]
    if missing:
        raise Failure(f"not built: {', '.join(missing)} (./build {' '.join((*PROGRAMS, 'entries'))})")


def _spare_others(prefix):
    """Refuses where something stands that no installation has put there."""
    for link in LINKS:
        path = prefix / link
        if os.path.lexists(path) and not (path.is_symlink() and _leads_home(path, prefix / HOME)):
            raise Failure(f"something else is there, and is not written over: {visible(str(path))}")


def _leads_home(link, home):
    target = os.path.normpath(os.path.join(link.parent, os.readlink(link)))
    return target.startswith(os.path.join(home, ""))


def _put_home(prefix, programs):
    """The folder that all else leads to, made beside and renamed into the place of an older one."""
    home, beside = prefix / HOME, prefix / HOME.parent / f".racecheck.{os.getpid()}"
    older = beside.with_suffix(".older")
    try:
        (beside / "bin").mkdir(parents=True)
        for name, path in programs.items():
            shutil.copy(path, beside / "bin" / name)
        for folder in ("tools", "docs", "examples"):
            shutil.copytree(ROOT / folder, beside / folder, ignore=shutil.ignore_patterns("__pycache__", "changes"))
        if home.exists():
            home.rename(older)
        beside.rename(home)
    finally:
        shutil.rmtree(beside, ignore_errors=True)
        shutil.rmtree(older, ignore_errors=True)


def _put_link(path, target):
    path.parent.mkdir(parents=True, exist_ok=True)
    beside = path.with_name(f".{path.name}.{os.getpid()}")
    beside.symlink_to(os.path.relpath(target, path.parent))
    beside.replace(path)


def _put_file(path, text):
    path.parent.mkdir(parents=True, exist_ok=True)
    replace(str(path), text)
