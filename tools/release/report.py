"""The report of a release, for a person: what was judged by what, the counts, what has changed, the refused pairs with what is
wrong, the others. Nothing here is worked out: it tells what a Release holds."""
from collections import Counter
from typing import NamedTuple

from explanation.formatting import visible

from .entries import DISAGREEMENT

# Each kind of answer, in the order of the report.
SECTIONS = {
    DISAGREEMENT: "Disagreements", "REFUSE": "Refused", "UNREAD": "Not read", "FAILED": "No answer", "ACCEPT": "Accepted"}
SHEETS = "SHA-256 of the sheets, as sha256sum writes and checks them in the release's folder"
UNPRINTABLE = "SHA-256 of the sheets whose names have bytes that do not print, which are shown as \\xNN: not for sha256sum"
MOST_TOLD = 20  # pairs that are named on the terminal


class Release(NamedTuple):
    """What there is to tell of a release."""

    record: dict  # what was judged by what
    entries: list  # in the byte order of their names
    missing: list = []  # the names that the manifest has and the release has not
    unnamed: list = None  # those that the release has and the manifest has not; None without a manifest
    changes: object = None  # beside an older report


def counted(entries):
    """How many pairs got each kind of answer, and each refusal's number. Disagreements come first."""
    kinds = Counter(entry.kind() for entry in entries)
    numbers = Counter(entry.numbers()[0] for entry in entries if entry.kind() == "REFUSE")
    rows = [(kind, kinds[kind]) for kind in (DISAGREEMENT, "ACCEPT", "REFUSE")]
    rows += [(f"REFUSE,{number}", numbers[number]) for number in sorted(numbers)]
    return rows + [("UNREAD", kinds["UNREAD"]), ("FAILED", kinds["FAILED"])]


def counts(entries):
    """A line for each: `count`, what, how many, parted by tabs."""
    return [f"count\t{answer}\t{count}" for answer, count in counted(entries)]


def pair_line(entry):
    return f"{visible(entry.name)}\t{entry.answer}"


def in_a_line(entry):
    """What is to be said of a pair that was not accepted, in words behind its answer."""
    if entry.alarming:
        return DISAGREEMENT
    return entry.decision.line().removeprefix(f"{entry.answer}. ") if entry.decision else entry.details[0]


def told(entry):
    """What is to be said of a pair, line by line: the decision on it, what is wrong, and without a decision who looks first."""
    decision = [f"decision: {in_a_line(entry)}"] if entry.decision else []
    return [*decision, *entry.details, *([f"who looks first: {entry.owner}"] if entry.owner and not decision else [])]


def report(release):
    """The lines of the report."""
    lines = [f"record\t{what}\t{value}" for what, value in release.record.items()]
    lines += counts(release.entries)
    lines += ["", *release.changes.lines()] if release.changes else []
    for kind, title in SECTIONS.items():
        chosen = [entry for entry in release.entries if entry.kind() == kind]
        lines += ["", f"{title}: {len(chosen)}"] if chosen else []
        for entry in chosen:
            lines += [pair_line(entry), *(f"    {line}" for line in told(entry))]
    for title, names in manifest_lists(release):
        lines += ["", f"{title}: {len(names)}", *map(visible, names)]
    return lines + _digests(release.entries)


def manifest_lists(release):
    """The names that only the manifest has, and those that only the release has, each under its title."""
    lists = [("In the manifest and not in the release", release.missing)]
    lists += [("In the release and not in the manifest", release.unnamed or [])]
    return [(title, names) for title, names in lists if names]


def _digests(entries):
    plain, odd = [], []
    for entry in entries:
        for sheet, digest in entry.digests:
            (plain if entry.name.isprintable() else odd).append((entry.name, sheet, digest))
    lines = ["", f"{SHEETS}: {len(plain)}", *(_sum_line(*one) for one in plain)] if plain else []
    return lines + (["", f"{UNPRINTABLE}: {len(odd)}", *(f"{d}  {visible(n)}/{s}" for n, s, d in odd)] if odd else [])


def _sum_line(name, sheet, digest):
    """A line as sha256sum writes it: a backslash in front says that there are two for each of the name."""
    if "\\" in name:
        return f"\\{digest}  " + f"{name}/{sheet}".replace("\\", "\\\\")
    return f"{digest}  {name}/{sheet}"


# ---- On the terminal


def terminal_lines(release):
    """The counts, what has changed, and the first of the pairs that got worse and of those that were not accepted."""
    lines = counts(release.entries)
    if release.changes:
        lines += release.changes.counts() + _first("Worse than before", [one.line() for one in release.changes.worse()])
    others = [entry for kind in SECTIONS if kind != "ACCEPT" for entry in release.entries if entry.kind() == kind]
    lines += _first("Not accepted", [f"{pair_line(one)}\t{in_a_line(one)}" for one in others])
    for title, names in manifest_lists(release):
        lines += _first(title, list(map(visible, names)))
    return lines


def _first(title, lines):
    more = [f"and {len(lines) - MOST_TOLD} more, in the report"] if len(lines) > MOST_TOLD else []
    return ["", f"{title}: {len(lines)}", *lines[:MOST_TOLD], *more] if lines else []
