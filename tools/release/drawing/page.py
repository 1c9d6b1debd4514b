"""One page that needs nothing else but the pairs' own pages beside it: the counts, what has changed, each pair that was not
accepted with what is decided on it, the accepted ones, and what was judged by what."""
import os
from html import escape
from pathlib import Path

from common.pages import opening
from common.writing import replace

from explanation.drawing.page import STYLE, marked
from explanation.findings import refusal_meaning
from explanation.formatting import visible

from ..against import KINDS
from ..entries import DISAGREEMENT
from ..report import SECTIONS, counted, in_a_line, manifest_lists

OWN_STYLE, SEARCH = (Path(__file__).with_name(name).read_text(encoding="utf-8") for name in ("style.css", "search.js"))
# How each kind of answer looks.
LOOKS = {DISAGREEMENT: "alarm", "REFUSE": "refused", "UNREAD": "none", "FAILED": "none", "ACCEPT": "accepted"}
ALARM = "racecheck and the arithmetic of the tools part. Trust neither; hand these pairs to the owners of racecheck."
FOOT = "The answers are racecheck's, which is proved. check-release tells them and judges nothing itself."


def write_page(folder, release):
    replace(os.path.join(folder, "index.html"), "\n".join(text(release)).encode("utf-8", "replace"))


def text(release):
    """The lines of the page."""
    name, kinds = os.path.basename(release.record["folder"]), _by_kind(release.entries)
    yield from opening("check-release")
    yield f"<title>Release {escape(name)}, {escape(release.record['date'])}</title>"
    yield f"<style>{STYLE}\n{OWN_STYLE}</style></head><body>"
    yield from _header(name, release, kinds)
    yield from _numbers(release)
    yield '<p class="search" hidden><label>Find <input id="find" type="search" placeholder="a name, or a number as 33"/></label>'
    yield '<output id="found"></output></p>'
    yield from _changes(release.changes)
    for kind in SECTIONS:
        yield from _section(kind, kinds[kind])
        if kind == "FAILED":
            yield from _lists(release)
    yield from _record(release.record)
    yield f"<footer>{FOOT}</footer><script>{SEARCH}</script></body></html>"


def _by_kind(entries):
    kinds = {kind: [] for kind in SECTIONS}
    for entry in entries:
        kinds[entry.kind()].append(entry)
    return kinds


# ---- The head


def _header(name, release, kinds):
    total, accepted = len(release.entries), len(kinds["ACCEPT"])
    badge = ("refused", DISAGREEMENT) if kinds[DISAGREEMENT] else ("accepted", "ALL ACCEPTED") if accepted == total else (
        "refused", f"{total - accepted:,} NOT ACCEPTED")
    worse = len(release.changes.worse()) if release.changes else None
    beside = "" if worse is None else f" Beside the older report {f'{worse:,} got worse' if worse else 'nothing got worse'}."
    yield f'<header><div><h1>Release {escape(name)}</h1><p class="meaning">{total:,} pairs, {accepted:,} accepted.{beside}</p>'
    yield f'<p class="when">checked {escape(release.record["date"].replace("T", " "))}</p></div>'
    yield f'<div><div class="badge {badge[0]}">{badge[1]}</div></div></header>'
    if kinds[DISAGREEMENT]:
        yield f'<p class="alarm">{ALARM}</p>'
    yield '<ul class="counts">'
    for kind, title in SECTIONS.items():
        look = LOOKS[kind] if kinds[kind] else "zero"
        count = f"<b>{len(kinds[kind]):,}</b><span>{title.lower()}</span>"
        yield f'<li class="{look}">' + (f'<a href="#{kind}">{count}</a>' if kinds[kind] else count) + "</li>"
    yield "</ul>"


def _numbers(release):
    """How often each refusal came, in words. A click on one finds its pairs."""
    rows = [(int(what.split(",")[1]), count) for what, count in counted(release.entries) if what.startswith("REFUSE,")]
    if rows:
        yield '<table class="numbers"><thead><tr><th>refusal</th><th>pairs</th><th>what was found wrong</th></tr></thead><tbody>'
        for number, count in rows:
            yield (f'<tr><td data-number="{number}"><button type="button" value="{number}">{number}</button></td><td>{count:,}</td>'
                   f"<td>{marked(refusal_meaning(number))}</td></tr>")
        yield "</tbody></table>"


def _changes(changes):
    if changes is None:
        return
    yield '<section id="changes"><h2>Beside the older report</h2><table class="changes"><tbody>'
    rows = [(KINDS[kind], len(pairs)) for kind, pairs in changes.kinds.items()]
    for what, count in [("Worse", len(changes.worse())), *rows, ("Unchanged", changes.unchanged)]:
        yield f"<tr><td>{what}</td><td>{count:,}</td></tr>"
    yield "</tbody></table>"
    for kind, pairs in changes.kinds.items():
        if pairs:
            yield f"<h3>{KINDS[kind]}: {len(pairs):,}</h3><ul>"
            for one in pairs:
                answers = " → ".join(filter(None, dict.fromkeys([one.before, one.now])))
                worse = " <b>worse</b>" if one.worse else ""
                yield f'<li{_found_by(one.name, one.now or one.before)}>{escape(one.name)} <code>{answers}</code>{worse}</li>'
            yield "</ul>"
    yield "</section>"


# ---- The pairs


def _found_by(name, answer):
    """By what the search finds it: the name, the whole answer, and the number of a refusal."""
    number = answer.split(",")[1] if answer.startswith("REFUSE,") else ""
    return f' data-name="{escape(name.lower())}" data-answer="{escape(answer.lower())}" data-number="{number}"'


def _section(kind, entries):
    if not entries:
        return
    yield f'<section id="{kind}"><h2>{SECTIONS[kind]}: {len(entries):,}</h2>'
    yield from (_accepted(entries) if kind == "ACCEPT" else (line for entry in entries for line in _card(entry)))
    yield "</section>"


def _card(entry):
    name = visible(entry.name)
    yield f'<article class="{LOOKS[entry.kind()]}"{_found_by(name, entry.answer)}>'
    yield f"<h3>{escape(name)} <code>{escape(entry.answer)}</code></h3>"
    if entry.decision:
        yield f'<p class="decision">{escape(in_a_line(entry))}</p>'
    yield f"<ul>{''.join(f'<li>{marked(line)}</li>' for line in entry.details)}</ul>"
    if entry.owner and not entry.decision:
        yield f"<p>Who looks first: {escape(entry.owner)}.</p>"
    if entry.decision and entry.decision.grounds:
        grounds = escape("\n".join(entry.decision.grounds))
        yield f"<details><summary>On what grounds</summary><pre>{grounds}</pre></details>"
    if entry.pages:
        links = (f'<a href="{escape(file)}">{escape(what)}</a>' for what, file in entry.pages)
        yield f'<p class="links">{" ".join(links)}</p>'
    yield f'<div class="digests">{_digests(entry)}</div></article>'


def _accepted(entries):
    yield '<table class="accepted"><thead><tr><th>pair</th><th>SHA-256 of its sheets</th></tr></thead><tbody>'
    for entry in entries:
        name = visible(entry.name)
        yield f'<tr{_found_by(name, entry.answer)}><td>{escape(name)}</td><td class="digests">{_digests(entry)}</td></tr>'
    yield "</tbody></table>"


def _digests(entry):
    return "".join(f"<div><span>{sheet}</span> {digest}</div>" for sheet, digest in entry.digests)


def _lists(release):
    for title, names in manifest_lists(release):
        yield f"<section><h2>{title}: {len(names):,}</h2><ul>"
        yield from (f"<li{_found_by(visible(name), '')}>{escape(visible(name))}</li>" for name in names)
        yield "</ul></section>"


def _record(record):
    yield '<section class="record"><h2>What was judged by what</h2><dl>'
    yield from (f"<dt>{escape(what)}</dt><dd>{escape(value)}</dd>" for what, value in record.items())
    yield "</dl></section>"
