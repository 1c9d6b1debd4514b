"""What the page of tools/explain shows: false sums whole, narrow shares named, threads apart, what nothing moves folded; who
touches what; and how it comes out on paper."""
import re
import subprocess
import tempfile
from html import unescape
from pathlib import Path
from types import SimpleNamespace

import browser
import large
from checks import ROOT, check, make_pair, user_environment
from explanation.drawing import page
from explanation.drawing.picture import ROWS_IN_A_PART
from explanation.findings import explain
from explanation.names import Names
from explanation.running import run_in
from explanation.sheets import Row, Split, Type, read_sheet, steps_of
from explanation.sites import Sites
from explanation.touching import Words, cells_of
from pages import examples, pairs_of

MANY = "1013904223"  # the seed of a practice pair with 29 readers


def drawn(binary, folder):
    """The explanation, and its page with the walk."""
    explanation = explain(run_in(binary, folder), folder)
    return explanation, page.text("page", explanation, walks=True)


def words_of(text, kind):
    return [unescape(words) for words in re.findall(rf'<text class="{kind}"[^>]*>([^<]*)</text>', text)]


def check_sums(binary):
    """The refused row has all that is false, uncut: on every example, and on every pair of REFUSALS.md that has a picture."""
    with tempfile.TemporaryDirectory() as scratch:
        folders = [folder for folder in examples() if (folder / "expected").read_text().startswith("REFUSE")]
        for line, program, split, answer in pairs_of((ROOT / "docs" / "REFUSALS.md").read_text()):
            if re.match("REFUSE,3[123],", answer):
                folders.append(Path(scratch) / str(line))
                make_pair(folders[-1], program, split)
        for folder in folders:
            explanation, text = drawn(binary, folder)
            row = " ".join(words_of(text, "step refused"))
            lacks = [words for words in explanation.numbers if words.replace("`", "") not in row]
            check(f"page of {folder.name}: the false sums stand whole", (lacks, "…" in row), ([], False))


def check_many(racedrill, binary):
    """A page of thirty threads, most with a thirtieth: each is named, and no two look alike."""
    with tempfile.TemporaryDirectory() as scratch:
        subprocess.run([racedrill, MANY], cwd=scratch, stdin=subprocess.DEVNULL, stdout=subprocess.DEVNULL)
        _, text = drawn(binary, Path(scratch))
    browser.check_markup("page of 30 threads", text)
    beside = " ".join(words_of(text, "beside"))
    check("narrow shares are named", [n for n in range(1, 30) if not re.search(rf"thread {n}\b", beside)], [])
    check("narrow shares have lines", text.count('<path class="leader"') >= 29, True)
    legend = text[text.index('<ul class="legend">'):text.index("</ul>", text.index('<ul class="legend">'))]
    fills = re.findall(r'fill="([^"]+)"[^<]*</svg><span>thread \d+<', legend)
    check("threads look apart", (len(fills), len(set(fills))), (30, 30))
    made = set(re.findall(r'<pattern id="([\w-]+)"', text))
    check("every pattern is made", set(re.findall(r"url\(#([\w-]+)\)", text)) - made, set())
    bodies = re.findall(r'<pattern id="thread-[\w-]+"[^>]*>(.*?)</pattern>', text)
    check("no two patterns are alike", len(bodies), len(set(bodies)))


def check_parts(binary, racefill):
    """A picture that fits on a sheet is drawn in one piece, for a desk and for a telephone. A larger one is cut into low parts
    below a head of its own, which every printed page repeats."""
    for folder in examples():
        _, text = drawn(binary, folder)
        parts = re.findall(r'aria-label="steps (\d+) to (\d+) of (\d+)', text)
        check(f"page of {folder.name}: in one piece", [first == "1" and last == whole for first, last, whole in parts], [True] * 2)
        check(f"page of {folder.name}: one order of many", "This is one order of many." in text, True)
    with tempfile.TemporaryDirectory() as scratch:
        folder = large.filled(large.pumps().put_into(Path(scratch) / "pumps"), racefill)
        _, text = drawn(binary, folder)
    parts = re.findall(r'aria-label="steps (\d+) to (\d+) of', text)
    check("page of 16 locations: low parts", all(int(b) - int(a) < ROWS_IN_A_PART for a, b in parts) and len(parts) > 9, True)
    check("page of 16 locations: its heads", text.count("<thead><tr><th><svg"), 3)
    told = "canister 15 1/1", "canister 3 1/1 → 0/1", "The job starts with the whole of every location."
    check("page of 16 locations: what changes", [words for words in told if words not in unescape(text)], [])


def check_paper(binary, racefill):
    """The stored pages are one sheet each; a walk has sheets of its own, and a job of 16 threads and locations not many."""
    found = browser.find_browser()
    if found is None:
        print("users: no Chromium here, so how the pages come out on paper is not tried")
        return
    for name in ("page.html", "race.html"):
        text = (ROOT / "examples" / "refill-race" / name).read_text()
        check(f"refill-race/{name}: one sheet", browser.sheets_of(found, text), 1)
        foot = re.search(r'<p class="made">Made on \d{4}-\d\d-\d\d at .*program.txt [0-9a-f]{16}', text)
        check(f"refill-race/{name}: its foot", foot is not None, True)
    with tempfile.TemporaryDirectory() as scratch:
        _, text = drawn(binary, large.filled(large.pumps().put_into(Path(scratch) / "pumps"), racefill))
    check("16 threads, 16 locations and 218 steps: sheets", browser.sheets_of(found, text) <= 11, True)


def check_touches(binary):
    """Each cell with who touches it where, and holding what; the one touch without the lock stands out."""
    for name, wanted in [
        ("refill-race", ["colour lock is held at every touch", "refill writes, line 70: <em>no lock"]),
        ("colour-book-race", ["book lock is held at 2 of 3 touches, and not where desk writes, line 36", 'class="of-cell bare"']),
        ("purge-race", ["screen writes, line 4: <em>no lock", "no lock is held at any of its touches"]),
    ]:
        explanation, text = drawn(binary, ROOT / "examples" / name)
        check(f"touches of {name}: on the page", [words for words in wanted if words not in unescape(text)], [])
    done = subprocess.run(
        [ROOT / "tools" / "explain", "--touches", ROOT / "examples" / "colour-book-race"], capture_output=True, text=True,
        env=user_environment(RACECHECK=binary))
    marked = re.findall("\n +> .*", done.stdout)
    check("explain --touches: the one that lacks it", marked, ["\n  >  desk    writes  line 36  book lock for reading"])
    with tempfile.TemporaryDirectory() as scratch:
        for number, (what, block, held) in enumerate([
            ("one way takes the lock", "if,0|lock,0|var,1|int,0|", "no lock"),
            ("both ways take it", "if,0|lock,0|var,1|lock,0|var,1|", "v1"),
            ("a round gives it back", "while,0|unlock,0|var,1|", "no lock"),
            ("a thread of its own", "spawn,0|newtid,0|lock,0|var,1|", "no lock"),
        ]):
            before = "lock,0|var,1|" if "while" in block else "int,0|"
            steps = f"let,0|ref,0|int,0|let,1|newlock,0|let,2|{before}let,3|{block}read,0|var,0|"
            program = f"P,{steps.count('|')}|{steps}"
            folder = Path(scratch) / str(number)
            make_pair(folder, program, "empty")
            check(f"touches, {what}", [touch for _, touch in touches_in(folder)], [held])


def touches_in(folder):
    """The cells and what is held at each touch, for a program whose split nobody looks at."""
    steps = steps_of(read_sheet(folder, "program.txt"))
    kinds = {"ref": 1, "newlock": 2, "newtid": 3}
    bound = {step.number: kinds.get(steps[at + 1].word, 0) for at, step in enumerate(steps) if step.word == "let"}
    rows = [Row(0, "", kinds.get(step.word, bound.get(step.number, 0) if step.word == "var" else 0), 0, None) for step in steps]
    split = Split(1, 1, 0, [Type("int", 0, 0), Type("ref", 0, 0), Type("lock", 0, 0), Type("tid", 0, 0)], [(1,)], [], rows)
    explanation = SimpleNamespace(sites=Sites(steps, split), names=Names())
    words = Words(explanation)
    return [(words.cell(cell), words.held(touch)) for cell in cells_of(explanation.sites) for touch in cell.touches]


def check_folded(binary):
    """A location that nothing moves or touches has no column; fractions are reduced where all of a location's can be."""
    read = "P,5|let,0|ref,0|int,0|read,0|var,0|"
    with tempfile.TemporaryDirectory() as scratch:
        folder = Path(scratch) / "pair"
        make_pair(folder, read, "C,6,3,2,1|int,0,0|ref,1,0|6,3,2|0,0,|1,0,|0,0,|0,0,|1,0,|")
        explanation, text = drawn(binary, folder)
        check("folded: the columns", set(words_of(text, "location")), {"location 1"})
        folded = "nothing moves or touches it: location 0 (thread 0 1/1), location 2 (thread 0 1/3)."
        check("folded: what is not drawn", folded in text, True)
        check("reduced: the share", "thread 0 1/2" in words_of(text, "share-label on-dark"), True)
        check("reduced: the walk", '<td class="map">1/1, 1/2, 1/3</td>' in text, True)


def check_looks(racedrill, binary, racefill):
    check_sums(binary)
    check_many(racedrill, binary)
    check_parts(binary, racefill)
    check_folded(binary)
    check_touches(binary)
    check_paper(binary, racefill)
