"""The pages of tools/show-race: their markup, where a browser is installed how they come out there, and the stored ones."""
import tempfile
from pathlib import Path

import known
from browser import PHONE, check_markup, find_browser, seen_in, without_foot
from checks import ROOT, check
from jobs import make_job, run

# The pages that are opened in a browser.
SHOWN = {"refill-race", "canisters-race", "WAITING", "long"}
WINDOWS = {"screen": 1240, "telephone": PHONE}
# Put into a copy of a page: what the browser makes of it, as the body's last words. Texts must not run into one another.
MEASURE = """<script>
const boxes = [...document.querySelectorAll("figure text")].map(t => [t.textContent, t.getBoundingClientRect()]);
const run = boxes.filter(([a, p], i) => boxes.some(([b, q], j) => i < j && p.left < q.right - 1 && q.left < p.right - 1
  && p.top < q.bottom - 3 && q.top < p.bottom - 3)).map(([a]) => a);
const figure = document.querySelector("figure"), most = figure.scrollWidth + figure.getBoundingClientRect().left;
const seen = {run, past: boxes.filter(([a, p]) => p.right > most).map(([a]) => a),
  wide: document.documentElement.scrollWidth > innerWidth, small: boxes.some(([a, p]) => p.height < 8), some: boxes.length > 2};
document.body.append(Object.assign(document.createElement("pre"), {id: "seen", textContent: JSON.stringify(seen)}));
</script></body>"""


def page_of(folder, scratch, name):
    file = Path(scratch) / f"{name}.html"
    done = run("--page", file, folder)
    check(f"page of {name}: written", (done.error, file.exists()), ("", True))
    return file.read_text() if file.exists() else ""


def locked_writes(count):
    """A long order: each of two threads writes so many times under a lock, then one reads without it."""
    steps, variable = ["let,0", "ref,0", "int,0", "let,1", "newlock,0", "let,2", "spawn,0", "newtid,0"], 3
    for last in (["int,0"], ["read,0", "var,0"]):
        for _ in range(count):
            steps += [f"let,{variable}", "lock,0", "var,1", f"let,{variable + 1}", "write,0", "var,0", "int,1",
                      f"let,{variable + 2}", "unlock,0", "var,1"]
            variable += 3
        steps += last
    return steps


def check_pages():
    """Every race of the examples, one order for each kind of halt, and a long one."""
    browser = find_browser()
    if browser is None:
        print("racing: no Chromium here, so the pages of tools/show-race were checked by their markup alone")
    with tempfile.TemporaryDirectory() as scratch:
        jobs = {folder.name: folder for folder in sorted((ROOT / "examples").glob("*-race"))}
        for section in ("ODD", "WAITING"):
            jobs[section] = make_job(Path(scratch) / section, known.programs_of(section)[0])
        jobs["long"] = make_job(Path(scratch) / "long", locked_writes(12))
        for name, folder in jobs.items():
            text = page_of(folder, scratch, name)
            check_markup(f"page of {name}", text)
            marks = text.count(">RACE</text>"), text.count('<rect class="about"') - 1  # one is the legend's
            check(f"page of {name}: who meets is marked", marks == (1, 2), name not in ("ODD", "WAITING"))
            kept = folder / "race.html"
            if kept.exists():
                check(f"{name}: the page in its folder", without_foot(kept.read_text()) == without_foot(text), True)
            if browser is not None and name in SHOWN:
                check_in_browser(name, browser, text)
    check("refill-race keeps its page", (ROOT / "examples" / "refill-race" / "race.html").exists(), True)
    check("the long order is drawn in parts", text.count("<figure>") > 1, True)


def check_in_browser(name, browser, text):
    for window, width in WINDOWS.items():
        wanted = {"run": [], "past": [], "wide": False, "small": False, "some": True}
        check(f"page of {name} on a {window}", seen_in(browser, text, width, MEASURE), wanted)
