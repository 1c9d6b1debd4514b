"""A release beside an older one: what is new, gone, worse, better, or the same with other sheets. By names, answers and digests."""
import json
from typing import NamedTuple

from common.command import Failure

from explanation.formatting import visible

from .entries import DISAGREEMENT

# How bad an answer is. A pair gets worse if the rank of its answer rises; a new pair is held against an accepted one.
RANKS = {"ACCEPT": 0, "REFUSE": 1, "UNREAD": 2, "FAILED": 2, DISAGREEMENT: 3}
# Each kind of change, in the order of the report: what it is called there.
KINDS = {
    "newly_refused": "Newly refused",
    "newly_unanswered": "Newly without an answer that stands",
    "refused_otherwise": "Refused otherwise than before",
    "newly_accepted": "Newly accepted",
    "new": "New",
    "gone": "Gone",
    "other_sheets": "Other sheets, the same answer",
}


class Pair(NamedTuple):
    """A pair of a report, as far as it is compared."""

    answer: str
    kind: str
    sheets: frozenset


class Change(NamedTuple):
    name: str
    before: str  # the answer; empty for a new pair
    now: str  # the answer; empty for one that is gone
    worse: bool

    def line(self):
        answers = " -> ".join(filter(None, dict.fromkeys([self.before, self.now])))
        return f"{self.name}\t{answers}" + "\tworse" * self.worse


class Changes(NamedTuple):
    kinds: dict  # each kind of change with its pairs
    unchanged: int

    def worse(self):
        """The pairs that got worse."""
        return [change for changes in self.kinds.values() for change in changes if change.worse]

    def counts(self):
        rows = [("Worse", len(self.worse())), *((KINDS[kind], len(pairs)) for kind, pairs in self.kinds.items())]
        return [f"against\t{what}\t{count}" for what, count in [*rows, ("Unchanged", self.unchanged)]]

    def lines(self):
        """The counts, and the pairs of each kind."""
        lines = self.counts()
        for kind, pairs in self.kinds.items():
            lines += ["", f"{KINDS[kind]}: {len(pairs)}", *(change.line() for change in pairs)] if pairs else []
        return lines


def read_older(path):
    """The pairs of an older report, by their names as the report shows them."""
    try:
        with open(path, encoding="utf-8") as file:
            pairs = json.load(file)["pairs"]
        return {pair["name"]: _older(pair) for pair in pairs}
    except OSError as error:
        raise Failure(f"cannot read the older report: {visible(path)}: {error.strerror}") from error
    except (ValueError, KeyError, TypeError, AttributeError) as error:
        raise Failure(f"not a report that check-release --json has written: {visible(path)}") from error


def _older(pair):
    answer, kind = str(pair["answer"]), str(pair["answer"]).split(",")[0]
    if kind not in RANKS or not isinstance(pair["name"], str):
        raise ValueError
    return Pair(answer, DISAGREEMENT if pair.get("disagreement") else kind, frozenset(pair["sha256"].items()))


def changes(older, entries):
    """What has changed from the pairs of an older report to these entries."""
    kinds, unchanged = {kind: [] for kind in KINDS}, 0
    present = {visible(entry.name): Pair(entry.answer, entry.kind(), frozenset(entry.digests)) for entry in entries}
    for name, now in present.items():
        before = older.get(name)
        kind = _kind(before, now)
        if kind:
            worse = RANKS[now.kind] > (RANKS[before.kind] if before else 0)
            kinds[kind].append(Change(name, before.answer if before else "", now.answer, worse))
        unchanged += not kind
    kinds["gone"] = [Change(name, before.answer, "", False) for name, before in older.items() if name not in present]
    return Changes(kinds, unchanged)


def _kind(before, now):
    """The kind of a change; empty if there is none."""
    if before is None:
        return "new"
    if before.kind != now.kind:
        return {"ACCEPT": "newly_accepted", "REFUSE": "newly_refused"}.get(now.kind, "newly_unanswered")
    if now.kind == "REFUSE" and before.answer != now.answer:
        return "refused_otherwise"
    return "other_sheets" if before.sheets != now.sheets else ""
