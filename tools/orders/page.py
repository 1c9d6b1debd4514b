"""The page: what stands still on it, its looks, its script, and the job that the script is handed."""
import json
from base64 import b64encode
from hashlib import sha256
from html import escape
from pathlib import Path

from common.pages import begins, opening

from explanation.drawing.fills import DARK, THREADS
from explanation.drawing.page import STYLE
from explanation.names import KINDS
from interpreter import wording
from interpreter.machine import CELL, LOCK, NOUNS, RWLOCK, SEM, TID
from races.drawing.page import OWN_STYLE

HERE = Path(__file__).with_name("page")
# In the order in which they need one another.
PURE = ["machine", "trace", "knowing", "naming", "wording", "order", "standing"]  # these need no page
SCRIPTS = [*PURE, "parts", "threads", "things", "lanes", "quiz", "showing", "start"]
# The kinds of values as the script calls them.
KIND_NAMES = {"int": 0, "cell": CELL, "lock": LOCK, "tid": TID, "sem": SEM, "rwlock": RWLOCK}
SAID = (
    "DOES", "MAKES_A_CELL", "MAKES_A_THING", "OF_A_LOOP", "ON_A_LOOP", "BINDS", "TO_LINE", "WAITING", "STUCK", "ABOUT", "GOES_ON")
TOOL = "try-orders"
BEGINS = begins(TOOL)


def script():
    """The whole script. Nothing of a job is in it."""
    return "\n".join(['"use strict";', *((HERE / f"{name}.js").read_text(encoding="utf-8") for name in SCRIPTS)])


def style():
    return "\n".join([STYLE, OWN_STYLE, (HERE / "style.css").read_text(encoding="utf-8")])


def handed(job):
    """What the script is handed, as JSON that no letter of a name can end."""
    names = {kind: {number: name for (sort, number), name in job.names.given.items() if sort == kind} for kind in KINDS}
    given = {
        "program": job.program.decode("ascii"), "trace": None if job.trace is None else job.trace.decode("latin-1"),
        "answer": job.answer, "verdict": job.verdict, "quiz": job.quiz, "names": names,
        "nouns": {name: NOUNS[number] for name, number in KIND_NAMES.items()}, "colours": THREADS, "dark": sorted(DARK),
        "say": {name: getattr(wording, name) for name in SAID},
    }
    return json.dumps(given).replace("<", "\\u003c").replace(">", "\\u003e").replace("&", "\\u0026")


def veiled(order):
    """An order that a look at the page's source does not show: each move by the generator of document 02 (ii). It is no secret."""
    x, told = len(order), bytearray()
    for thread, choice in order:
        x = (1_664_525 * x + 1_013_904_223) % (1 << 32)
        told.append((2 * thread + choice) ^ (x >> 24))
    return told.hex()


def text(title, job):
    look, does = style(), script()
    body = (HERE / "body.html").read_text(encoding="utf-8").format(title=escape(title), source=escape(job.source))
    return "\n".join([
        *opening(TOOL), f'<meta http-equiv="Content-Security-Policy" content="{_allowed(look, does)}"/>',
        f"<title>{escape(title)}: try orders</title>",
        f"<style>{look}</style>", "</head>", "<body>", body,
        f'<script type="application/json" id="job">{handed(job)}</script>', f"<script>{does}</script>", "</body>", "</html>", ""])


def _allowed(look, does):
    """This look and this script, and nothing else from anywhere."""
    return f"default-src 'none'; style-src '{_digest(look)}'; script-src '{_digest(does)}'; base-uri 'none'; form-action 'none'"


def _digest(inline):
    return f"sha256-{b64encode(sha256(inline.encode()).digest()).decode()}"
