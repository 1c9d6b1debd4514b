"""The page of a release: what is in its folder, what it says, and how it comes out and is searched in a browser; and the decisions."""
import re
import shutil
import signal
import tempfile
import time
from pathlib import Path
from urllib.parse import unquote

import browser
from checks import ROOT, check, make_pair
from desk import TOOLS, Desk
from header import shared_library
from release_tool import GOOD, KINDS
from served import json_of

HOSTILE = "<b onclick=\"x\">&amp; 'it'"
# By example: what is decided on it, and which files it has.
DECIDED = {
    "join-race": ("races", ["order.txt", "pair.html", "race.html"]), "top-up-to-fill": ("unfilled", ["mended.txt", "pair.html"]),
    HOSTILE: ("program-malformed", ["pair.html"])}
# Put into a copy of the page: types into the box, and tells what is seen then.
MEASURE = """<script>
const box = document.getElementById("find"), seen = {};
const shown = () => [...document.querySelectorAll("article, table.accepted tbody tr")].filter(e => e.offsetParent !== null).length;
for (const words of ["", "JOIN", "33", "9", "refuse,33,13,5,0", "job 33", "nothing of the kind"]) {
  box.value = words;
  box.dispatchEvent(new Event("input"));
  seen[words] = [shown(), document.getElementById("found").textContent];
}
document.querySelector("table.numbers button").click();
seen.clicked = [box.value, shown()];
box.value = "";
box.dispatchEvent(new Event("input"));
const past = [...document.querySelectorAll("p, div, td, li, h1, h3, dd")].filter(e => e.getBoundingClientRect().right > innerWidth + 1);
Object.assign(seen, {past: past.length, scrolls: document.documentElement.scrollWidth > innerWidth + 1,
  box: box.offsetParent !== null, bold: document.querySelectorAll("article b").length});
document.body.append(Object.assign(document.createElement("pre"), {id: "seen", textContent: JSON.stringify(seen)}));
</script></body>"""


def make_examples(release):
    for name in ("join", "join-race", "top-up-to-fill"):
        shutil.copytree(ROOT / "examples" / name, release / name)
    make_pair(release / HOSTILE, *KINDS[3][:2])
    make_pair(release / "unread", *KINDS[6][:2])
    for number in range(40):
        make_pair(release / f"job {number}", *GOOD[:2])


def check_folder(desk, environment):
    """A folder by the date, with what the pairs need; a second run makes a second one."""
    make_examples(desk.scratch / "jobs")
    for _ in range(2):
        done = desk.run("--page", "pages", "--json", "out.json", "jobs", "report", decide="5", **environment)
    check("page: status", done.returncode, 2)
    folders = sorted((desk.scratch / "pages").iterdir())
    dated = [one.name for one in folders if re.fullmatch(r"release-\d{4}-\d\d-\d\d-\d{6}(-2)?", one.name)]
    check("page: a folder by the date for each run", (len(dated), len(folders)), (2, 2))
    given = json_of(desk, "out.json")
    check("page: where it is", given["record"]["page"], str(folders[1] / "index.html"))
    given = {pair["name"]: pair for pair in given["pairs"]}
    for name, (kind, files) in DECIDED.items():
        check(f"page: the decision on {name}", given[name]["decision"]["kind"], kind)
        check(f"page: the files of {name}", sorted(file.rpartition("-")[2] for file in given[name]["pages"]), files)
    check("page: no decision on other pairs", [name for name, pair in given.items() if pair["decision"] and name not in DECIDED], [])
    made = {str(path.relative_to(folders[1])) for path in folders[1].rglob("*") if path.is_file()}
    check("page: every file is named", made, {"index.html", *(file for pair in given.values() for file in pair["pages"])})
    says = given["join-race"]["decision"]["says"].partition(". ")[2]
    for where, text in [("report", (desk.scratch / "report").read_text()), ("terminal", done.stdout)]:
        check(f"page: the decision in the {where}", says in text, True)
    return (folders[1] / "index.html").read_text(), folders[1]


def check_text(text, folder):
    """Its markup, its links, and that a name is no markup."""
    markup = browser.Markup(text)
    own = ("reaches outside: script []", "reaches outside: a ['href']")
    check("page: markup", [fault for fault in markup.faults if fault not in own], [])
    check("page: needs nothing from elsewhere", re.findall(r"https?:|@import|url\((?!#)", text), [])
    links = re.findall(r'href="([^"]*)"', text)
    lost = [link for link in links if not (link[1:] in markup.ids if link.startswith("#") else (folder / unquote(link)).is_file())]
    check("page: its links", (len(links) > 8, lost), (True, []))
    order = [text.index(f'<section id="{kind}">') for kind in ("REFUSE", "UNREAD", "ACCEPT")]
    check("page: refused pairs stand first", order, sorted(order))
    check("page: the checker's digest", text.count("checker SHA-256"), 1)
    check("page: the sheets' digests", len(re.findall(r"(?:program|split)\.txt</span> [0-9a-f]{64}", text)), 89)


def check_looks(text):
    found = browser.find_browser()
    if found is None:
        print("users: no Chromium here, so that the page of a release is searched and looked at is not tried")
        return
    wanted = {
        "": [45, ""], "JOIN": [2, "2 found"], "33": [2, "2 found"], "9": [4, "4 found"], "refuse,33,13,5,0": [1, "1 found"],
        "job 33": [1, "1 found"], "nothing of the kind": [0, "0 found"], "clicked": ["14", 2], "past": 0, "scrolls": False, "box": True,
        "bold": 0}
    for width in (1300, browser.PHONE):
        check(f"page: as it comes out {width} wide", browser.seen_in(found, text, width, MEASURE), wanted)


def check_alarm(desk):
    """With a checker that lies, disagreements stand first and are loud, and have no decision."""
    yes = desk.binary("yes", "echo ACCEPT")
    desk.run("--page", "alarms", "jobs", "report", decide="5", RACECHECK=yes)
    text, = [path.read_text() for path in (desk.scratch / "alarms").glob("*/index.html")]
    order = [text.index(words) for words in ('>DISAGREEMENT</div>', 'class="alarm"', '<section id="DISAGREEMENT">', '<section id="ACCEPT">')]
    check("page: the alarm", order, sorted(order))


def check_program_parts(desk, shared):
    """A library and a program that do not answer alike: a disagreement, not a decision."""
    repository = desk.scratch / "repository"
    shutil.copytree(TOOLS, repository / "tools")
    desk.binary("repository/target/bin/racecheck", "echo REFUSE,11,1,0,0")
    for name in ("racefill", "racereplay"):
        desk.binary(f"repository/target/bin/{name}", "echo UNREAD")
    done = desk.run("jobs", "report", tool=repository / "tools" / "check-release", decide="5", RACECHECK="", RACECHECK_LIBRARY=shared)
    text = (desk.scratch / "report").read_text()
    told = done.returncode, "count\tDISAGREEMENT\t3\n" in text, "the library answered REFUSE,33,13,5,0" in text
    check("a library and a program that part", told, (2, True, True))


def check_fault(desk, environment):
    """A fault of what decides is told with the pair, and its answer stays."""
    deciding = desk.scratch / "repository" / "tools" / "diagnosis" / "deciding.py"
    kept = deciding.read_text()
    deciding.write_text(kept + "\n\ndef decide(*_):\n    raise TypeError('broken')\n")
    done = desk.run("jobs", "report", tool=desk.scratch / "repository" / "tools" / "check-release", decide="5", **environment)
    text = (desk.scratch / "report").read_text()
    told = done.returncode, text.count("by a fault of check-release: TypeError: broken"), "count\tREFUSE\t3\n" in text
    check("a fault of what decides", told, (2, 3, True))
    deciding.write_text(kept)


def check_no_programs(desk, shared):
    """Where the programs that decide are not there, the pairs are judged all the same."""
    shutil.rmtree(desk.scratch / "repository" / "target")
    environment = {"RACECHECK": "", "RACECHECK_LIBRARY": shared, "PATH": "/usr/bin:/bin"}
    done = desk.run("jobs", "report", tool=desk.scratch / "repository" / "tools" / "check-release", decide="5", **environment)
    text = (desk.scratch / "report").read_text()
    told = done.returncode, "no decisions: racecheck is not built" in done.stderr, "count\tREFUSE\t3\n" in text
    check("without the programs that decide", (*told, "record\tdecisions\tnone: racecheck is" in text), (2, True, True, True))


def check_stopped(desk):
    """A run that is stopped leaves no half of a folder."""
    under_way = desk.scratch / "under way"
    process = desk.start("--page", "stopped", "jobs", "report", RACECHECK=desk.binary("slow", f"touch '{under_way}'; exec sleep 30"))
    until = time.monotonic() + 60
    while not under_way.exists() and time.monotonic() < until:
        time.sleep(0.05)
    process.send_signal(signal.SIGTERM)
    process.communicate()
    check("page: stopped", (process.returncode, list((desk.scratch / "stopped").iterdir())), (2, []))


def check_release_page(programs):
    environment = dict(zip(("RACECHECK", "RACEFILL", "RACEREPLAY"), (programs[0], programs[2], programs[3])))
    with tempfile.TemporaryDirectory() as scratch:
        desk = Desk(Path(scratch).resolve())
        text, folder = check_folder(desk, environment)
        check_text(text, folder)
        check_looks(text)
        check_alarm(desk)
        shared = shared_library(desk.scratch)
        if shared:
            check_program_parts(desk, shared)
            check_fault(desk, environment)
            check_no_programs(desk, shared)
        signal.signal(signal.SIGTERM, signal.SIG_DFL)
        check_stopped(desk)
