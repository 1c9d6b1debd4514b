"""tools/install: what it puts in place works from there, and so does the archive elsewhere; the man pages come out without a warning."""
import os
import shlex
import shutil
import subprocess
import sys
import tempfile
from pathlib import Path

from checks import ROOT, check, contents, user_environment
from header import check_linked, declared, library
from installation.manual import manual_pages
from installation.tool import PROGRAMS

COMMANDS = ["check-release", "draw-faults", "explain", "fill", "racecheck", "racedrill", "racefill", "racereplay", "show-race", "triage", "try-orders"]


def make_repository(place, programs):
    """The repository as it is when all is built, with the given programs."""
    for folder in ("tools", "docs", "examples", "include"):
        shutil.copytree(ROOT / folder, place / folder, ignore=shutil.ignore_patterns("__pycache__"))
    (place / "target" / "bin").mkdir(parents=True)
    for path in programs:
        shutil.copy(path, place / "target" / "bin")
    (place / "target" / "staticlib").mkdir()
    shutil.copy(library(), place / "target" / "staticlib")


def install(repository, *arguments):
    return subprocess.run(
        [repository / "tools" / "install", *arguments], env=user_environment(), stdin=subprocess.DEVNULL, capture_output=True, text=True)


def run(prefix, command, *arguments, cwd):
    """A command as somebody has it with the prefix on the PATH and nothing else set."""
    environment = user_environment(PATH=f"{prefix}/bin:{os.environ['PATH']}", RACECHECK="", RACEFILL="", RACEREPLAY="")
    return subprocess.run(
        [command, *map(str, arguments)], env=environment, cwd=cwd, stdin=subprocess.DEVNULL, capture_output=True, text=True)


def check_commands(prefix, scratch):
    examples = prefix / "lib" / "racecheck" / "examples"
    check("installed: the commands", sorted(os.listdir(prefix / "bin")), COMMANDS)
    check("installed: racecheck", run(prefix, "racecheck", cwd=examples / "join").stdout, "ACCEPT\n")
    drill = scratch / "drill"
    drill.mkdir()
    check("installed: racedrill 0", run(prefix, "racedrill", "0", cwd=drill).stdout, "DRILL,1013904223,162,162\n")
    check("installed: racecheck on the drill", run(prefix, "racecheck", cwd=drill).stdout, "ACCEPT\n")
    done = run(prefix, "explain", examples / "join-race", cwd=scratch)
    check("installed: explain", (done.returncode, "REFUSE,33,13,5,0" in done.stdout), (1, True))
    done = run(prefix, "explain", "33", cwd=scratch)
    check("installed: explain 33", (done.returncode, "docs/REFUSALS.md says" in done.stdout), (0, True))
    done = run(prefix, "fill", examples / "top-up-to-fill", "filled", cwd=scratch)
    check("installed: fill", (done.returncode, "racecheck: ACCEPT" in done.stdout), (0, True))
    check("installed: racereplay", run(prefix, "racereplay", cwd=examples / "refill-race").stdout, "RACE,34,34,2,4\n")
    done = run(prefix, "explain", "--replay", examples / "refill", cwd=scratch)
    check("installed: explain --replay", (done.returncode, "RAN,69" in done.stdout), (0, True))
    done = run(prefix, "show-race", "--trace", "order.txt", examples / "join-race", cwd=scratch)
    check("installed: show-race", (done.returncode, "This job can race." in done.stdout), (1, True))
    done = run(prefix, "try-orders", "--page", "step.html", examples / "join-race", cwd=scratch)
    check("installed: try-orders", (done.returncode, "the job can race" in done.stdout), (0, True))
    done = run(prefix, "draw-faults", "1", "lesson", cwd=scratch)
    check("installed: draw-faults", (done.returncode, "7 pairs with a fault each" in done.stdout), (0, True))
    done = run(prefix, "check-release", examples, cwd=scratch)
    check("installed: check-release", (done.returncode, "count\tFAILED\t0" in done.stdout), (1, True))
    record = (scratch / "release-report.txt").read_text()
    check("installed: what judges", f"record\tchecker\t{prefix.resolve()}/lib/libracecheck.so\n" in record, True)
    done = subprocess.run([prefix / "bin" / "explain", "--version"], env=user_environment(), capture_output=True, text=True)
    check("installed: explain by its path", done.returncode, 0)
    pages = {path.name for path in (prefix / "share" / "doc" / "racecheck").glob("*.md")}
    check("installed: the pages", {path.name for path in (ROOT / "docs").glob("*.md")} - pages, set())


def check_libraries(prefix):
    """Both libraries for C, one by pkg-config, and the module for Python."""
    compiler = shutil.which("cc")
    check_linked(compiler, f"-I{prefix / 'include'}", prefix / "lib" / "libracecheck.a")
    if shutil.which("pkg-config"):
        environment = user_environment(PKG_CONFIG_PATH=prefix / "lib" / "pkgconfig")
        done = subprocess.run(["pkg-config", "--cflags", "--libs", "racecheck"], env=environment, capture_output=True, text=True)
        check("installed: pkg-config", (done.returncode, done.stderr), (0, ""))
        check_linked(compiler, *shlex.split(done.stdout), LD_LIBRARY_PATH=prefix / "lib")
    else:
        print("users: no pkg-config here, so that its file is read is not tried")
    seen = subprocess.run(["nm", "-D", "--defined-only", prefix / "lib" / "libracecheck.so"], capture_output=True, text=True).stdout
    check("installed: what the shared library shows", sorted(line.split()[-1] for line in seen.splitlines()), sorted(declared()))
    script = "import racecheck; print(racecheck.drill(0), racecheck.find_library())"
    done = subprocess.run([sys.executable, "-B", "-c", script], env=user_environment(PYTHONPATH=prefix / "lib" / "python"),
                          capture_output=True, text=True)
    check("installed: the module", done.stdout, f"DRILL,1013904223,162,162 {prefix.resolve()}/lib/libracecheck.so\n")


# ---- The archive


def check_archive(repository, scratch):
    """One file, the same each time, which somebody else unpacks elsewhere and uses with nothing of the kit."""
    files = [scratch / "one.tar.gz", scratch / "two.tar.gz"]
    for file in files:
        done = install(repository, "--archive", file)
        check(f"install --archive {file.name}", (done.returncode, done.stderr), (0, ""))
    check("archives of the same files are the same", files[0].read_bytes() == files[1].read_bytes(), True)
    done = install(repository, "--archive", files[0])
    check("an archive is not written over", (done.returncode, "is there already" in done.stderr), (2, True))
    place = scratch / "elsewhere"
    place.mkdir()
    scratch.chmod(0o755)
    who = another_user(place)
    repository.rename(scratch / "repository, put away")

    def used(*command, cwd=place):
        """A command of somebody who has the archive, and nothing else."""
        environment = ["env", "-i", f"PATH={place}/racecheck/bin:/usr/bin:/bin", f"HOME={place}"]
        return subprocess.run([*who, *environment, *command], cwd=cwd, stdin=subprocess.DEVNULL, capture_output=True, text=True)

    done = used("tar", "-xzf", str(files[0]))
    check("unpacked", (done.returncode, done.stderr, os.listdir(place)), (0, "", ["racecheck"]))
    examples = place / "racecheck" / "lib" / "racecheck" / "examples"
    check("unpacked: racecheck", used("racecheck", cwd=examples / "join-race").stdout, "REFUSE,33,13,5,0\n")
    done = used("check-release", "--page", "pages", str(examples), "report")
    check("unpacked: check-release", (done.returncode, "count\tFAILED\t0" in done.stdout), (1, True))
    check("unpacked: what judges", f"record\tchecker\t{place}/racecheck/lib/libracecheck.so\n" in (place / "report").read_text(), True)
    check("unpacked: its page", len(list((place / "pages").glob("release-*/pairs/*-race.html"))) >= 5, True)
    for command, said in [("explain", "REFUSE,33,13,5,0"), ("show-race", "This job can race."), ("triage", "The job races")]:
        done = used(command, str(examples / "join-race"))
        check(f"unpacked: {command}", (done.returncode, said in done.stdout), (1, True))
    done = used("env", f"PYTHONPATH={place}/racecheck/lib/python", "python3", "-B", "-c", "import racecheck; print(racecheck.drill(0))")
    check("unpacked: the module", done.stdout, "DRILL,1013904223,162,162\n")
    (scratch / "repository, put away").rename(repository)


def another_user(place):
    """In front of a command: what runs it as nobody, who gets the folder. Nothing, where that cannot be done."""
    who = ["setpriv", "--reuid=65534", "--regid=65534", "--clear-groups"]
    if os.geteuid() == 0 and shutil.which("setpriv"):
        os.chown(place, 65534, 65534)
        command = ["env", "-i", "PATH=/usr/bin:/bin", "python3", "-c", "import os; os.listdir('.')"]
        tried = subprocess.run([*who, *command], cwd=place, capture_output=True)
        if tried.returncode == 0:
            return who
        os.chown(place, 0, 0)
    print("users: nobody has no Python here, or cannot be asked, so that the archive is used by another user is not tried")
    return []


def check_manual(prefix):
    """Each man page comes out without a warning, where there is a `man` to do it."""
    pages = sorted(path.name for path in (prefix / "share" / "man" / "man1").iterdir())
    check("installed: the man pages", pages, sorted(f"{name}.1" for name in manual_pages()))
    lacks = [name for name in (*COMMANDS, "racecheck-install") if f"{name}.1" not in pages]
    check("there is a man page for each command", lacks, [])
    if shutil.which("man") is None or shutil.which("groff") is None:
        print("users: no man here, so that the man pages come out is not tried")
        return
    for page in pages:
        path = prefix / "share" / "man" / "man1" / page
        command = ["man", "--warnings", "-E", "UTF-8", "-l", path]
        done = subprocess.run(command, env=user_environment(MANWIDTH=80), capture_output=True, text=True)
        wanted = ["NAME", "SYNOPSIS", "DESCRIPTION", "EXIT STATUS", "SEE ALSO"] + ["FILES"] * (page[:-2] in PROGRAMS)
        lacks = [title for title in wanted if f"\n{title}\n" not in done.stdout]
        check(f"man -l {page}", (done.returncode, done.stderr, lacks), (0, "", []))


def check_shared(repository):
    """In the repository: the library is made where the tools find it, and is not used once the archive is newer."""
    check("no library in the repository", judged_by(repository)[0], "bin/racecheck")
    done = install(repository, "--library")
    check("install --library", (done.returncode, done.stderr), (0, ""))
    check("the library of the repository", judged_by(repository)[0], "staticlib/libracecheck.so")
    os.utime(repository / "target" / "staticlib" / "libentries.a", (4e9, 4e9))
    checker, said = judged_by(repository)
    check("a library that is too old", (checker, "older than the archive" in said), ("bin/racecheck", True))


def judged_by(repository):
    """What check-release of a repository judges by, below its target, and what it says beside."""
    environment = user_environment(RACECHECK="", RACECHECK_LIBRARY="")
    command = [repository / "tools" / "check-release", "--decide", "0", repository / "examples", "/dev/stdout"]
    done = subprocess.run(command, env=environment, stdin=subprocess.DEVNULL, capture_output=True, text=True)
    return done.stdout.partition("record\tchecker\t")[2].partition("\n")[0].partition("/target/")[2], done.stderr


def check_again(repository, prefix):
    """An installation replaces an older one, spares what is not its own, and says what is not built."""
    before = contents(prefix)
    (prefix / "lib" / "racecheck" / "left over").write_text("of an older version")
    check("installed again", (install(repository, prefix).returncode, contents(prefix) == before), (0, True))
    check("installed: nothing left beside", [str(path) for path in prefix.rglob(".*")], [])
    (prefix / "bin" / "fill").unlink()
    (prefix / "bin" / "fill").write_text("somebody else's")
    done = install(repository, prefix)
    check("something else is in the way", (done.returncode, "not written over" in done.stderr), (2, True))
    check("something else is spared", (prefix / "bin" / "fill").read_text(), "somebody else's")
    (repository / "target" / "bin" / "racefill").unlink()
    done = install(repository, prefix)
    check("a program that is not built", (done.returncode, "not built: target/bin/racefill (./build" in done.stderr), (2, True))


def check_install(programs):
    with tempfile.TemporaryDirectory() as scratch:
        repository, prefix = Path(scratch) / "repository", Path(scratch) / "a prefix"
        make_repository(repository, programs)
        done = install(repository, prefix)
        check("install", (done.returncode, done.stderr), (0, ""))
        work = Path(scratch) / "work"
        work.mkdir()
        check_commands(prefix, work)
        check_libraries(prefix)
        check_manual(prefix)
        check_archive(repository, Path(scratch))
        check_shared(repository)
        check_again(repository, prefix)
