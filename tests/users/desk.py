"""Where check-release is tried: releases made for it, the reports that it should write, and a scratch folder to run it in."""
import hashlib
import subprocess

from checks import ROOT, check, make_pair, user_environment
from explanation.formatting import visible

TOOLS = ROOT / "tools"
TOOL = TOOLS / "check-release"
# A pair that is accepted, with what the report says below it.
GOOD = ("P,1|int,0|", "C,1,1,1,1|int,0,0|0|0,0,|", "ACCEPT", [])
NAMES = [
    "job {:03}", "job {:03}-b", "job-{:03}", "{:03} pump  and stirrer ", "refill's \"{:03}\" $x *", "-{:03}", "screen\\n{:03}",
    "Füllstand {:03}",
]


def make_release(folder, count, kinds):
    """A folder of pairs, and its report's entries: name, answer and details."""
    folder.mkdir()
    entries = []
    for i in range(count):
        name = NAMES[i % len(NAMES)].format(i // 2)
        program, split, answer, details = kinds[i % len(kinds)]
        make_pair(folder / name, program, split)
        entries.append((name, answer, details))
    return sorted(entries, key=lambda entry: entry[0].encode())


def wanted_counts(entries):
    answers = [answer for _, answer, _ in entries]
    refusals = [int(a.split(",")[1]) for a in answers if a.startswith("REFUSE")]
    counts = [("DISAGREEMENT", 0), ("ACCEPT", answers.count("ACCEPT")), ("REFUSE", len(refusals))]
    counts += [(f"REFUSE,{n}", refusals.count(n)) for n in sorted(set(refusals))]
    counts += [("UNREAD", answers.count("UNREAD")), ("FAILED", answers.count("FAILED"))]
    return "".join(f"count\t{answer}\t{count}\n" for answer, count in counts)


def wanted_body(entries):
    """A report from its counts to its last pair."""
    text = wanted_counts(entries)
    for kind, title in [("REFUSE", "Refused"), ("UNREAD", "Not read"), ("FAILED", "No answer"), ("ACCEPT", "Accepted")]:
        chosen = [entry for entry in entries if entry[1].startswith(kind)]
        text += f"\n{title}: {len(chosen)}\n" if chosen else ""
        for name, answer, details in chosen:
            text += f"{visible(name)}\t{answer}\n" + "".join(f"    {line}\n" for line in details)
    return text


def counts_in(output):
    """The counts that were printed."""
    return "".join(line for line in output.splitlines(keepends=True) if line.startswith("count\t"))


def record_of(report):
    """What a report says was judged by what."""
    return dict(line.split("\t")[1:] for line in report.splitlines() if line.startswith("record\t"))


def body_of(report):
    """A report without what was judged by what, in front and behind."""
    kept = [line for line in report.splitlines(keepends=True) if not line.startswith("record\t")]
    return "".join(kept).partition("\nSHA-256 of the sheets")[0]


def digests_of(report):
    """The lines of a report that sha256sum would write."""
    return report.partition("\nSHA-256 of the sheets, ")[2].partition("\n\n")[0].splitlines()[1:]


def wanted_digests(release, entries):
    lines = []
    for name, _, _ in entries:
        for sheet in ("program.txt", "split.txt"):
            path = release / name / sheet
            lines += [sum_line(path, f"{name}/{sheet}")] if path.is_file() else []
    return lines


def sum_line(path, name):
    """As sha256sum writes it."""
    digest = hashlib.sha256(path.read_bytes()).hexdigest()
    return f"\\{digest}  {name}".replace(name, name.replace("\\", "\\\\")) if "\\" in name else f"{digest}  {name}"


class Desk:
    """A scratch folder to run check-release in."""

    def __init__(self, scratch):
        self.scratch = scratch
        self.temporary = scratch / "temporary"
        self.temporary.mkdir()

    def start(self, *arguments, tool=TOOL, before=(), output=subprocess.PIPE, error=subprocess.PIPE, decide="0", **environment):
        environment = user_environment(TMPDIR=self.temporary, **environment)
        decided = ["--decide", decide] if decide and tool.name == TOOL.name else []
        return subprocess.Popen(
            [*before, tool, *decided, *arguments], cwd=self.scratch, env=environment, stdin=subprocess.DEVNULL, stdout=output,
            stderr=error, text=True)

    def run(self, *arguments, **how):
        process = self.start(*arguments, **how)
        out, error = process.communicate()
        self.check_nothing_left(arguments)
        return subprocess.CompletedProcess(arguments, process.returncode, out, error)

    def check_nothing_left(self, what):
        left = list(self.temporary.iterdir()) + list(self.scratch.glob(".*"))
        check(f"check-release {what}: no temporary files left", left, [])

    def binary(self, name, script):
        path = self.scratch / name
        path.parent.mkdir(parents=True, exist_ok=True)
        path.write_text("#!/bin/sh\n" + script + "\n")
        path.chmod(0o755)
        return path
