"""The report of a release for programs, as JSON. docs/release.schema.json is its schema, docs/RELEASES.md tells its fields."""
import json

from explanation.formatting import visible

from .report import counted

FORMAT = 1  # of these fields: a program that reads them may ask


def as_json(release):
    """A line a pair, so that two reports can be compared line by line."""
    head = {
        "format": FORMAT,
        "record": {field_name(what): value for what, value in release.record.items()},
        "counts": dict(counted(release.entries)),
        "manifest": _manifest(release),
        "against": _against(release.changes),
    }
    lines = [f'"{name}": {_text(value)}' for name, value in head.items()]
    pairs = ",\n".join(_text(pair_fields(entry)) for entry in release.entries)
    return "{" + ",\n".join(lines) + ',\n"pairs": [\n' + pairs + "\n]}\n"


def _text(value):
    return json.dumps(value, separators=(",", ":"))


def field_name(what):
    """What the record's lines call `checker SHA-256` is the field checker_sha256."""
    return what.lower().replace("-", "").replace(" ", "_")


def _manifest(release):
    if release.unnamed is None:
        return None
    return {"missing": list(map(visible, release.missing)), "unnamed": list(map(visible, release.unnamed))}


def _against(changes):
    if changes is None:
        return None
    kinds = {kind: [change._asdict() for change in pairs] for kind, pairs in changes.kinds.items()}
    return {"worse": len(changes.worse()), **kinds, "unchanged": changes.unchanged}


def pair_fields(entry):
    """A pair's fields. Numbers that its answer does not have are null."""
    number, line, condition, location = entry.numbers() or (None,) * 4
    return {
        "name": visible(entry.name), "answer": entry.answer, "disagreement": entry.alarming, "number": number, "line": line,
        "condition": condition, "location": location, "details": entry.details, "looks_first": entry.owner,
        "decision": entry.decision.fields() if entry.decision else None, "pages": [file for _, file in entry.pages],
        "sha256": dict(entry.digests), "seconds": round(entry.seconds, 6),
    }
