"""The links of the pages lead somewhere, and the indexes of REFUSALS.md and FORMATS.md leave nothing out."""
import re

from checks import ROOT, check
from explanation.refusals import REFUSALS
from explanation.words import WORDS
from pages import PAGES


def pages():
    return [ROOT / "README.md", *sorted((ROOT / "docs").rglob("*.md"))]


def marks_of(page):
    """What a link can lead to in a page: its headings, as the usual renderers name them, and its own marks."""
    text = re.sub(r"^```.*?^```$", "", page.read_text(), flags=re.M | re.S)
    headings = re.findall(r"^#+ (.*)$", text, re.M)
    named = {re.sub(r"[^\w\- ]", "", one.lower()).replace(" ", "-") for one in headings}
    return named | set(re.findall(r'<a id="([\w-]+)">', text))


def check_links():
    for page in pages():
        lost = []
        for target in re.findall(r"\]\(([^)\s]+)\)", re.sub(r"^```.*?^```$", "", page.read_text(), flags=re.M | re.S)):
            file, _, mark = target.partition("#")
            path = (page.parent / file) if file else page
            if not path.exists() or (mark and mark not in marks_of(path)):
                lost.append(target)
        check(f"{page.relative_to(ROOT)}, its links", lost, [])
    for name in PAGES:
        index = (ROOT / "docs" / name).read_text().partition("\n## Index\n")[2].partition("\n## ")[0]
        check(f"{name}, its index has every word", [word for word in WORDS if f"[`{word}`](#" not in index], [])
        if name == "REFUSALS.md":
            numbers = [str(number) for number in REFUSALS if f"[{number}](#{number}-" not in index]
            check(f"{name}, its index has every number", numbers, [])
