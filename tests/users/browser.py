"""The pages of tools/explain: their markup, and where a browser is installed how they come out there."""
import json
import re
import shutil
import subprocess
import tempfile
from html import unescape
from html.parser import HTMLParser
from pathlib import Path

from checks import check

BROWSERS = ["chromium", "chromium-browser", "google-chrome"]
VOID = {"meta"}
PHONE = 500  # the narrowest that the browser opens

# Put into a copy of a page: what it looks like to the browser, as the body's last words.
MEASURE = """<script>
const wide = [...document.querySelectorAll("text[data-room]")].filter(t => t.getComputedTextLength() > Number(t.dataset.room) + 1);
const past = [...document.querySelectorAll("svg, table, p, div")].filter(e => e.getBoundingClientRect().right > innerWidth + 1);
const figures = [...document.querySelectorAll("figure")].filter(f => f.getClientRects().length > 0);
const seen = {rows: document.querySelectorAll("table.walk tbody tr").length, shares: document.querySelectorAll("rect.share").length,
  refused: document.querySelectorAll("tr.refused").length, wide: wide.map(t => t.textContent), past: past.length,
  scrolls: document.documentElement.scrollWidth > innerWidth + 1,
  tall: figures.length > 0 && figures.every(f => f.getBoundingClientRect().height > 40),
  small: figures.some(f => [...f.querySelectorAll("text")].some(t => t.getBoundingClientRect().height < 8))};
document.body.append(Object.assign(document.createElement("pre"), {id: "seen", textContent: JSON.stringify(seen)}));
</script></body>"""


class Markup(HTMLParser):
    """Every tag closed in turn, nothing fetched from elsewhere, no script."""

    def __init__(self, text):
        super().__init__(convert_charrefs=True)
        self.open, self.faults, self.ids = [], [], set()
        self.counts = {}
        self.feed(text)
        self.close()
        if self.open:
            self.faults.append(f"not closed: {self.open}")

    def handle_starttag(self, tag, attributes):
        self.handle_startendtag(tag, attributes)
        if tag not in VOID:
            self.open.append(tag)

    def handle_startendtag(self, tag, attributes):
        self.counts[tag] = self.counts.get(tag, 0) + 1
        names = [name for name, _ in attributes]
        if tag in ("script", "link", "img", "iframe", "object") or {"src", "href", "onload"} & set(names):
            self.faults.append(f"reaches outside: {tag} {names}")
        if len(names) != len(set(names)):
            self.faults.append(f"an attribute twice: {tag} {names}")
        for identity in [value for name, value in attributes if name == "id"]:
            if identity in self.ids:
                self.faults.append(f"an id twice: {identity}")
            self.ids.add(identity)

    def handle_endtag(self, tag):
        if not self.open or self.open.pop() != tag:
            self.faults.append(f"closed out of turn: {tag} at {self.getpos()}")


def check_markup(what, text):
    markup = Markup(text)
    check(f"{what}: markup", markup.faults, [])
    outside = re.findall(r"https?:|@import|url\((?!#)", text)
    check(f"{what}: needs nothing from elsewhere", outside, [])
    return markup


def without_foot(text):
    """A page without the line that says when it was made and by what."""
    return re.sub(r'<p class="made">[^<]*</p>\n', "", text)


def sheets_of(browser, text):
    """On how many sheets of paper a page comes out."""
    with tempfile.TemporaryDirectory() as scratch:
        copy, paper = Path(scratch) / "page.html", Path(scratch) / "paper.pdf"
        copy.write_text(text)
        command = [
            browser, "--headless", "--no-sandbox", "--disable-gpu", f"--user-data-dir={scratch}/data", "--no-pdf-header-footer",
            f"--print-to-pdf={paper}", copy.as_uri()]
        subprocess.run(command, stdin=subprocess.DEVNULL, capture_output=True, timeout=60)
        return len(re.findall(rb"/Type /Page\b(?!s)", paper.read_bytes())) if paper.exists() else None


def find_browser():
    return next(filter(None, map(shutil.which, BROWSERS)), None)


def say_which():
    browser = find_browser()
    if browser is None:
        print("users: no Chromium here, so the pages of tools/explain were checked by their markup alone")
    return browser


def check_page(what, file, steps, browser):
    """A page of a well-formed pair."""
    text = file.read_text()
    markup = check_markup(what, text)
    check(f"{what}: a row for each step, and the head", markup.counts["tr"] >= steps + 1, True)
    if browser is not None:
        check_in_browser(what, browser, text, steps)


def seen_in(browser, text, width, measure=MEASURE):
    """What a page looks like to a browser of that width, measured in it; None if it does not come out."""
    with tempfile.TemporaryDirectory() as scratch:
        copy = Path(scratch) / "page.html"
        copy.write_text(text.replace("</body>", measure))
        command = [
            browser, "--headless", "--no-sandbox", "--disable-gpu", f"--window-size={width},900", f"--user-data-dir={scratch}/data",
            "--dump-dom", copy.as_uri()]
        done = subprocess.run(command, stdin=subprocess.DEVNULL, capture_output=True, text=True, timeout=60)
    found = re.search(r'<pre id="seen">(.*?)</pre>', done.stdout, re.S)
    return json.loads(unescape(found[1])) if found else None


def check_in_browser(what, browser, text, steps):
    refused = int('class="badge refused"' in text)
    shares = text.count('<rect class="share ')
    wanted = {"rows": steps, "shares": shares, "refused": refused, "wide": [], "past": 0, "scrolls": False, "tall": True,
              "small": False}
    check(f"{what}: as it comes out in the browser", seen_in(browser, text, 1240), wanted)
    phone = seen_in(browser, text, PHONE) or {}
    check(f"{what}: on a phone", [phone.get(what) for what in ("rows", "scrolls", "tall", "small")], [steps, False, True, False])
