"""Runs of check-release that come to no end of their own: stopped, killed, late, or with a library that does not come back."""
import os
import shutil
import signal
import subprocess
import sys
import time

from checks import check, make_pair, user_environment
from desk import GOOD, TOOLS, body_of, make_release, wanted_body

# A library that does not come back from one pair, and accepts all others.
DEAF = """#include <string.h>
#include <unistd.h>
unsigned racecheck_check(const char *program, size_t length) {
    while (length > 9 && memcmp(program + 8, "9", 1) == 0) sleep(60);
    return 0;
}
unsigned racecheck_drill(void) { return 0; }
unsigned racecheck_fill(void) { return 0; }
unsigned racecheck_replay(void) { return 0; }
unsigned racecheck_replay_begin(void) { return 0; }
unsigned racecheck_replay_more(void) { return 0; }
unsigned racecheck_replay_told(void) { return 0; }
"""


def check_ended(desk):
    check_stopped(desk)
    check_killed(desk)
    check_late(desk)


def start_deaf(desk):
    """The pair that a library does not come back from is FAILED after a while, and the others are judged. Returns what looks."""
    if shutil.which("cc") is None:
        print("users: no cc here, so that a library that does not come back is not tried")
        return lambda: None
    (desk.scratch / "deaf.c").write_text(DEAF)
    subprocess.run(["cc", "-shared", "-fPIC", "-o", "deaf.so", "deaf.c"], cwd=desk.scratch, check=True)
    entries = make_release(desk.scratch / "deaf", 40, [GOOD])
    make_pair(desk.scratch / "deaf" / "waits", "P,1|int,9|", GOOD[1])
    entries.append(("waits", "FAILED", ["There is no answer: no answer within 10 seconds."]))
    entries.sort(key=lambda entry: entry[0].encode())
    process = desk.start("deaf", "deaf report", RACECHECK="", RACECHECK_LIBRARY=desk.scratch / "deaf.so")

    def finish():
        process.communicate()
        check("a library that does not come back", process.returncode, 2)
        check("a library that does not come back: report", body_of((desk.scratch / "deaf report").read_text()), wanted_body(entries))

    return finish


def check_stopped(desk):
    """A run that is stopped leaves the old report and nothing else, and no racecheck goes on."""
    report = desk.scratch / "old report"
    under_way = desk.scratch / "under way"
    slow = desk.binary("slow", f"echo $$ >> '{under_way}'; exec sleep 30")
    for number in [signal.SIGTERM, signal.SIGINT, signal.SIGHUP]:
        report.write_text("record\told\n")
        under_way.unlink(missing_ok=True)
        signal.signal(number, signal.SIG_DFL)  # the tool leaves alone what is ignored, as under nohup; this test may run there
        process = desk.start("two", "old report", RACECHECK=slow)
        _await(under_way)
        begun = time.monotonic()
        process.send_signal(number)
        _, error = process.communicate()
        check(f"stopped by {number.name}: status", process.returncode, 2)
        check(f"stopped by {number.name}: at once", time.monotonic() - begun < 5, True)
        check(f"stopped by {number.name}: message", "stopped" in error, True)
        check(f"stopped by {number.name}: report", report.read_text(), "record\told\n")
        check(f"stopped by {number.name}: what goes on", [pid for pid in under_way.read_text().split() if _goes_on(int(pid))], [])
        desk.check_nothing_left(number.name)


def _await(path):
    begun = time.monotonic()
    while not path.exists() and time.monotonic() - begun < 60:
        time.sleep(0.05)


def _goes_on(process):
    try:
        os.kill(process, 0)
    except ProcessLookupError:
        return False
    return True


def check_killed(desk):
    """A tool that is killed leaves no process of its own behind, which would hold its standard error open."""
    workers = desk.scratch / "workers"
    make_release(desk.scratch / "many", 99, [GOOD])
    process = desk.start("many", "unwritten", RACECHECK=desk.binary("lasting", f"echo $PPID >> '{workers}'; sleep 1; echo ACCEPT"))
    _await(workers)
    process.kill()
    try:
        process.communicate(timeout=9)
        left = set()
    except subprocess.TimeoutExpired:
        left = set(workers.read_text().split())
    check("killed: what is left", left, set())
    for worker in left:
        os.kill(int(worker), signal.SIGKILL)


def check_late(desk):
    """A run that starts while the others are ended ends with them."""
    slow = desk.binary("late", "exec sleep 30")
    script = "import sys; from explanation.running import run_in, stop_all; stop_all(); print(run_in(*sys.argv[1:]).answer)"
    begun = time.monotonic()
    done = subprocess.run(
        [sys.executable, "-B", "-c", script, slow, desk.scratch], env=user_environment(PYTHONPATH=TOOLS), stdout=subprocess.PIPE)
    check("a late run", (done.stdout, time.monotonic() - begun < 5), (b"FAILED\n", True))
