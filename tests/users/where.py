"""PROMISES.md, PROOFS.md and WHERE.md name definitions and theorems with their files: each stands in the file that is named."""
import re

from checks import ROOT, check

PAGES = ["PROMISES.md", "PROOFS.md", "WHERE.md"]
# Names in backticks, and behind them their file in brackets.
NAMED = re.compile(r"((?:`[^`]+`[^`()]*)+)\(([\w./-]+)\)")
# What a file has besides its comments and the lines by which it names other files.
ASIDE = re.compile(r"^\s*(?:use|ghost use|pub use|unfolding|--|//).*$|--.*$", re.M)


def named_in(page):
    """Each name that a table of the page gives a file, with the file."""
    part = None
    for row in re.findall(r"^\| (.*) \|$", page, re.M):
        cells = row.split(" | ")
        if cells[0].startswith("**"):
            part = ROOT / cells[-1]
        else:
            yield from named_in_row(cells[1:] or cells, part)


def named_in_row(cells, part=None):
    """The same of the cells of a row. A file without a path is in the folder of the one before it, or of the part of the page."""
    folder = part
    for names, file in (found for cell in cells for found in NAMED.findall(cell)):
        if file.startswith("crates/"):
            path = ROOT / file
            folder = part or path.parent
        else:
            path = folder / f"{file.removesuffix('.antt')}.antt"
        for name in re.findall(r"`([^`]+)`", names):
            yield name, path


# What stands between names: in definitions and proofs a name may have nearly any character.
APART = {".antt": r"[\s(){}.;,@]+", ".rt": r"[\s(){}\[\],;:.&<>]+"}


def words_of(path):
    return set(re.split(APART.get(path.suffix, APART[".rt"]), ASIDE.sub("", path.read_text()))) if path.is_file() else set()


def check_where():
    for name in PAGES:
        named = list(named_in((ROOT / "docs" / name).read_text()))
        files = {path: words_of(path) for _, path in named}
        lost = [f"{word} in {path.relative_to(ROOT)}" for word, path in named if word not in files[path]]
        check(f"docs/{name} names definitions or theorems", len(named) >= 40, True)
        check(f"docs/{name}, each stands in its file", lost, [])
