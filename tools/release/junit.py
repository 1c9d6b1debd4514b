"""The report of a release as JUnit's XML, which build servers show."""
from html import escape

from explanation.formatting import visible

from .entries import DISAGREEMENT
from .report import in_a_line, told

# Of the pairs, wherever the release stands: a build server compares runs by it.
CLASS = "racecheck.release"


def as_junit(release):
    """A refused pair is a failure; one without an answer, or with one that is not borne out, an error."""
    record, entries = release.record, release.entries
    kinds = [_kind(entry) for entry in entries]
    counts = {"tests": len(entries), "failures": kinds.count("failure"), "errors": kinds.count("error"), "skipped": 0}
    counts.update(time=f"{sum(entry.seconds for entry in entries):.3f}", timestamp=record["date"])
    properties = [f"<property{_attributes(name=what, value=value)}/>" for what, value in record.items()]
    properties += [f"<property{_attributes(name=DISAGREEMENT, value=sum(entry.alarming for entry in entries))}/>"]
    return "\n".join([
        '<?xml version="1.0" encoding="UTF-8"?>', f'<testsuite{_attributes(name="racecheck", **counts)}>', "<properties>",
        *properties, "</properties>", *map(_case, entries, kinds), "</testsuite>", ""])


def _case(entry, kind):
    opened = f'<testcase{_attributes(classname=CLASS, name=visible(entry.name), time=f"{entry.seconds:.3f}")}'
    if not kind:
        return f"{opened}/>"
    message = f"{entry.answer}: {in_a_line(entry)}"
    lines = escape("\n".join(told(entry)), quote=False)
    return f"{opened}><{kind}{_attributes(type=entry.kind(), message=message)}>{lines}</{kind}></testcase>"


def _attributes(**given):
    return "".join(f' {name}="{escape(str(value))}"' for name, value in given.items())


def _kind(entry):
    if entry.alarming or entry.answer in ("UNREAD", "FAILED"):
        return "error"
    return "" if entry.answer == "ACCEPT" else "failure"
