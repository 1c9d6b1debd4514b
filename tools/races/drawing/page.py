"""One page that needs nothing else: what an order leads to in a sentence, its picture, and the order as a trace."""
from html import escape
from itertools import groupby
from pathlib import Path

from common.pages import begins, opening

from explanation.drawing.foot import made
from explanation.drawing.page import STYLE
from explanation.formatting import listed

from .picture import Picture

TOOL = "show-race"
BEGINS = begins(TOOL)
OWN_STYLE = Path(__file__).with_name("style.css").read_text(encoding="utf-8")


def text(title, shown, ending, borne_out, words_of_foot=""):
    picture = Picture(shown, ending)
    drawn = picture.svgs()
    return "\n".join([
        *opening(TOOL), f"<title>{escape(title)}: an order of its steps</title>",
        f"<style>{STYLE}\n{OWN_STYLE}\n{_paper(picture)}</style>", "</head>", "<body>",
        f'<main class="{"sheet" if len(drawn) == 1 else "sheets"}">', "<header>",
        f'<div><h1>{escape(title)}</h1><p class="meaning">{escape(ending.sentence())}</p></div>',
        f'<div><div class="badge {"refused" if ending.grave else "none"}">{ending.badge}</div></div>', "</header>",
        '<dl class="facts">', *_facts(shown, ending, picture), "</dl>",
        *_legend(ending), *(f"<figure>{svg}</figure>" for svg in drawn),
        *_trace(shown.order),
        f"<footer><p>{escape(borne_out)} The order was found by show-race, which judges nothing itself.</p>", *made(words_of_foot),
        "</footer>", "</main>", "</body>", "</html>", ""])


def _paper(picture):
    """Sheets of A4, whichever way round the picture comes out larger."""
    way, high = ("landscape", 188) if picture.width > 1.1 * picture.height else ("portrait", 275)
    return f"@page {{ size: A4 {way}; margin: 10mm; }}\n@media print {{ body {{ --sheet: {high}mm; }} }}"


def _facts(shown, ending, picture):
    facts = ending.facts()
    idle = shown.idle(ending.numbers)
    if idle:
        facts.append(("not shown", f"{idle} here"))
    if picture.layout.left_out:
        facts.append(("not drawn", f"what goes on at {listed(map(shown.naming.thing, picture.layout.left_out))}"))
    return [f"<dt>{escape(name)}</dt><dd>{escape(words)}</dd>" for name, words in facts]


def _legend(ending):
    marks = [
        ('<rect x="1" y="1" width="24" height="14" rx="4" fill="#2f6db3" fill-opacity="0.1" stroke="#2f6db3"/>',
         "steps of one thread, with their lines in program.txt; time goes down"),
        ('<path class="switch" d="M3 8H18"/><path class="tip" d="M16 2v12l8-6z"/>', "another thread goes on"),
        ('<rect class="waits" x="8" y="1" width="10" height="14" rx="5" stroke="#2f6db3"/>', "waits"),
        ('<circle cx="13" cy="8" r="5" fill="#fff" stroke="#1d2330" stroke-width="2"/>', "reads the cell"),
        ('<circle cx="13" cy="8" r="5" fill="#1d2330" stroke="#1d2330" stroke-width="2"/>', "writes the cell"),
        ('<rect class="about" x="2" y="2" width="22" height="12"/>', ending.mark),
    ]
    rows = (f'<li><svg viewBox="0 0 26 16" aria-hidden="true">{shape}</svg><span>{words}</span></li>' for shape, words in marks)
    return ['<ul class="legend">', *rows, "</ul>"]


def _trace(order):
    """The trace on a few lines: the same line again and again is told by its count."""
    pieces = []
    for move, again in groupby(order):
        count = len(list(again))
        pieces.append(f"{move[0]},{move[1]}" + (f" ({count} times)" if count > 1 else ""))
    return [f'<p class="trace">trace.txt, a line for each step (thread,choice): <code>{escape("; ".join(pieces))}</code></p>']
