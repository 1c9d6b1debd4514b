"""How the pages look in a real browser: names that mean harm, every ending, a wide screen, a telephone and paper."""
import json
import re
from pathlib import Path

from checks import ROOT, check
from desks import RACE, SCREEN, TELEPHONE, Desk, page_of
from jobs import make_job

EXAMPLES = sorted(folder for folder in (ROOT / "examples").iterdir() if (folder / "program.txt").exists())
LOOKS = Path(__file__).with_name("looks.js").read_text()
WELL = {"past": [], "small": [], "cut": [], "faint": [], "thin": [], "scrolls": False}


def check_looks(browser, scratch):
    check_names(browser, scratch)
    check_endings(browser, scratch)
    check_examples(browser, scratch)
    check_spoilt(browser, scratch)
    check_paper(browser, scratch)


# ---- Names that mean harm, and every ending


def check_names(browser, scratch):
    """A name is only ever a name."""
    folder = make_job(Path(scratch) / "harm <b>&amp;", [])
    (folder / "program.txt").write_bytes((RACE / "program.txt").read_bytes())
    (folder / "trace.txt").write_bytes((RACE / "trace.txt").read_bytes())
    names = {
        "variable,0": "<img src=x onerror=document.title=1>", "variable,2": "</script><script>document.title=2//",
        "thread,0": "{thing} $& $1 `${document.title=3}`", "thread,2": "\"'><svg onload=document.title=4>", "thread,4": "<!--",
        "variable,1": "javascript:document.title=5", "thread,3": "&lt;i&gt; \\u003cb"}
    (folder / "names.txt").write_text("".join(f"{what},{name}\n" for what, name in names.items()))
    file = page_of(folder, scratch)
    desk = Desk(browser, file)
    desk.slide(34)
    text = desk.tab.value("document.body.innerText")
    check("harmful names: shown as they stand", [name for name in names.values() if name not in text], [])
    check("harmful names: the title", desk.tab.value("document.title"), "harm <b>&amp;: try orders")
    made = desk.tab.value("document.querySelectorAll('img, svg, script[src], b b, h1 b').length")
    check("harmful names: nothing is made of them", made, 0)
    check("harmful names: scripts", desk.tab.value("document.scripts.length"), 2)
    check("harmful names: nothing went wrong", desk.tab.complaints(), [])
    check("the page asks for nothing", re.findall(r"https?:|@import|url\(|<link|<img", file.read_text()), [])


ENDS = {
    "done": (["let,0", "ref,0", "int,0", "read,0", "var,0"], "000", "Finished: all threads have finished."),
    "waits": (["let,0", "newlock,0", "let,1", "lock,0", "var,0", "lock,0", "var,0"], "00",
              "All wait: nobody can move: thread 0 waits for v0 (line 7)."),
    "stuck": (["read,0", "int,3"], "", "Stuck: thread 0 is stuck at `read`, which cannot go on with a number (line 2)."
              " The job is at fault."),
}


def check_endings(browser, scratch):
    for kind, (lines, keys, words) in ENDS.items():
        desk = Desk(browser, page_of(make_job(Path(scratch) / kind, lines), scratch))
        for key in keys:
            desk.tab.press(key, f"Digit{key}")
        check(f"a job that comes to {kind}", desk.shown("kind", "banner"), [kind, words])
    full = make_job(Path(scratch) / "full", ["while,0", "newlock,0"])
    (full / "trace.txt").write_text("0,0\n" * 258)
    desk = Desk(browser, page_of(full, scratch))
    desk.slide(258)
    greyed = desk.tab.value("document.querySelector('.move[aria-disabled]').textContent")
    check("past the room of racereplay", (desk.shown("answer"), greyed), ("RAN,258", "no room"))


# ---- Screens and paper


def check_examples(browser, scratch):
    """Every example: at the start, in the middle and at the end of its order nothing runs over, and nothing is too faint."""
    for folder in EXAMPLES:
        desk = Desk(browser, page_of(folder, scratch))
        alarm = desk.tab.value("document.getElementById('alarm').hidden")
        check(f"{folder.name}: no disagreement", alarm, True)
        if not (folder / "trace.txt").exists():
            for key in "qhhhp":  # an order that races, if there is one
                desk.tab.press(key)
        last = int(desk.shown("where").split()[-1])
        for width in (SCREEN, TELEPHONE):
            desk.tab.size(width, 900)
            for state in {0, last // 2, last}:
                desk.slide(state)
                check(f"{folder.name}, state {state}, {width} wide", desk.tab.value(LOOKS), WELL)
        if (folder / "replayed").exists():
            check(f"{folder.name}: its recorded order", desk.shown("answer"), (folder / "replayed").read_text().strip())
        check(f"{folder.name}: nothing went wrong", desk.tab.complaints(), [])
    used = [node for node in desk.tab.ask("Accessibility.getFullAXTree")["nodes"]
            if node.get("role", {}).get("value") in ("button", "slider", "checkbox", "textbox")]
    check("there is something to use", len(used) > 8, True)
    nameless = [node for node in used if not node.get("name", {}).get("value")]
    check("everything that can be used has a name", json.dumps(nameless), "[]")


# What makes each measure of looks.js tell something.
SPOILT = {
    "past": "document.querySelector('.badge').style.width = '3000px'",
    "small": "Object.assign(document.getElementById('copy').style, {padding: 0, lineHeight: '10px'})",
    "cut": "Object.assign(document.querySelector('.thread .name').style, {width: '9px', overflow: 'hidden', whiteSpace: 'nowrap', overflowWrap: 'normal'})",
    "faint": "document.querySelector('.lanes').style.opacity = 0.5",
    "thin": "document.querySelector('.stretch').style.borderColor = '#ccc'",
}


def check_spoilt(browser, scratch):
    """A page that is spoilt on purpose is told."""
    file = page_of(RACE, scratch)
    for what, spoil in SPOILT.items():
        desk = Desk(browser, file)
        desk.slide(34)
        desk.tab.value(spoil)
        check(f"spoilt: {what}", bool(desk.tab.value(LOOKS)[what]), True)


def check_paper(browser, scratch):
    desk, paper = Desk(browser, page_of(RACE, scratch)), Path(scratch) / "paper.pdf"
    desk.slide(34)
    desk.tab.paper(paper)
    check("on paper: one sheet", len(re.findall(rb"/Type\s*/Page\b", paper.read_bytes())), 1)
