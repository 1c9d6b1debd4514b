"""The two sheets of a lesson, to print: what is asked of each pair, and the answers."""
from html import escape
from pathlib import Path

from explanation.drawing.page import STYLE, marked

from .kinds import FAULTS, JOB

OWN_STYLE = Path(__file__).with_name("style.css").read_text(encoding="utf-8")
ASKED = (
    "Your guess: which line is refused?", "What does racecheck answer?", "Which fault is it (A to G)?",
    "Can the job race? If so, which two threads meet, and over which cell?", "Who mends it: the owner of the job, or of the split?")
HOW = ("In each folder, 1 to {count}, is a pair with one fault. Read its two sheets first and guess; then start racecheck in the"
       " folder, look the answer up with tools/explain, and try orders with tools/try-orders.")
NAME = "Name ........................................      Date ...................."
JUDGED = "racecheck and racereplay are proved, and are the ones to judge. Each pair has one fault, and one only."
HELD = ("Every answer here is one that the proved programs gave when the sheet was made: racecheck's line on the pair, racereplay's on"
        " the order that races, and racecheck's ACCEPT on the mended pair. The tool that drew them judges nothing.")


def questions(seed, count):
    faults = "".join(f"<li>{escape(fault)}</li>" for fault in FAULTS)
    lines = "".join(f"<dt>{escape(words)}</dt><dd></dd>" for words in ASKED)
    blocks = [_block(number, "asked", "", f"<dl>{lines}</dl>") for number in range(1, count + 1)]
    inside = [f'<p class="owner">{NAME}</p>', f'<ol class="faults">{faults}</ol>', *blocks]
    return _page(f"Which fault is it? Drills of seed {seed}", HOW.format(count=count), inside, JUDGED)


def answers(seed, judged):
    blocks = []
    for number, one in enumerate(judged, 1):
        told = "".join(f"<dt>{escape(name)}</dt><dd>{marked(words)}</dd>" for name, words in _told(number, one))
        blocks.append(_block(number, "", f"<h3>{_letter(one.drill.fault)}: {escape(one.drill.fault)}</h3>", f"<dl>{told}</dl>"))
    return _page(f"Answers to the drills of seed {seed}", "For who gives the lesson.", blocks, HELD)


def _letter(fault):
    return "ABCDEFG"[list(FAULTS).index(fault)]


def _told(number, one):
    """The answers to what is asked, each with its name."""
    drill, there = one.drill, f"answers/{number}"
    yield "racecheck", f"`{one.answer}` {one.meaning}"
    yield "refused", "; ".join(one.place)
    yield "what is wrong", drill.wrong
    if drill.at_fault == JOB:
        yield "it can race", f"{one.race} `racereplay` says `{one.replayed}` of the order in {there}/race.txt."
    else:
        yield "it cannot race", f"The same job is accepted with the split in {there}, so no order of it races: that is proved."
    owner = "job" if drill.at_fault == JOB else "split"
    yield "to mend it", f"The owner of the {owner}: {drill.mend} The pair in {there} is so mended; `racecheck` says `ACCEPT`."


def _block(number, look, head, inside):
    return f'<section class="drill {look}"><h2>{number}</h2><div>{head}{inside}</div></section>'


def _page(title, words, inside, foot):
    return "\n".join([
        "<!DOCTYPE html>", '<html lang="en">', "<head>", '<meta charset="utf-8"/>',
        '<meta name="viewport" content="width=device-width"/>', f"<title>{escape(title)}</title>",
        f"<style>{STYLE}\n{OWN_STYLE}</style>", "</head>", "<body>", "<header>",
        f'<div><h1>{escape(title)}</h1><p class="how">{escape(words)}</p></div>', "</header>", *inside,
        f"<footer>{escape(foot)}</footer>", "</body>", "</html>", ""])
