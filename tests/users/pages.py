"""The examples that are files, and those in docs/REFUSALS.md and docs/FORMATS.md."""
import re

from checks import ROOT, answer_in, check, check_pair
from explanation.formatting import fractions
from explanation.refusals import OF_CHECKING, PROGRAM, REFUSALS, SPLIT, USUALLY
from explanation.sheets import counts_of, read_sheet, split_of, steps_of
from explanation.sites import Sites
from explanation.words import NUMBER_OF, WORDS

PAGES = ["REFUSALS.md", "FORMATS.md"]

# ---- The examples that are files


def examples():
    return sorted(path.parent for path in (ROOT / "examples").glob("*/expected"))


def check_examples(binary):
    check("there are examples", len(examples()) >= 4, True)
    for folder in examples():
        check(f"examples/{folder.name}", answer_in(binary, folder), (folder / "expected").read_bytes())


# ---- The examples in the pages


def fenced(page, kind):
    """The blocks of one kind in a page, each with the number of its first line."""
    for found in re.finditer(rf"^```{kind}\n(.*?)^```$", page, re.M | re.S):
        yield page.count("\n", 0, found.start()) + 2, found[1].splitlines()


def pairs_of(page):
    """Every pair of a page: its line there, program, split, answer."""
    for line, block in fenced(page, "pair"):
        fields = dict(row.split(": ", 1) for row in block)
        yield line, fields["program"], fields["split"], fields["answer"]
    for line, block in fenced(page, "pairs"):
        for offset, row in enumerate(block):
            if row.startswith("head: "):
                head = row.removeprefix("head: ")
            else:
                program, rows, answer = row.split()
                yield line + offset, program, head + rows, answer


def check_pages(binary):
    for name in PAGES:
        page = (ROOT / "docs" / name).read_text()
        for line, program, split, answer in pairs_of(page):
            check_pair(binary, f"docs/{name} line {line}", program, split, answer)
        check_tables(name, page)
        linked = re.findall(r"\b(examples/[\w-]+)", page)
        check(f"docs/{name}, its examples are there", [e for e in linked if not (ROOT / e / "program.txt").exists()], [])


def check_nothing_left_out():
    page = (ROOT / "docs" / "REFUSALS.md").read_text()
    pairs = list(pairs_of(page))
    answers = {answer for _, _, _, answer in pairs}
    check("REFUSALS.md has ACCEPT and UNREAD", {"ACCEPT", "UNREAD"} <= answers, True)
    check("REFUSALS.md has every number", {int(a.split(",")[1]) for a in answers if a.startswith("REFUSE")}, OF_CHECKING)
    check("REFUSALS.md has a heading for each", [n for n in REFUSALS if f"\n### {n}: " not in page], [])
    failed = set()
    for _, program, _, answer in pairs:
        if re.match("REFUSE,3[123],", answer):
            _, _, line, condition, _ = answer.split(",")
            failed.add((program.split("|")[int(line) - 1].split(",")[0], int(condition)))
    every = {(name, k) for name, word in WORDS.items() for k in range(1, len(word.conditions) + 1)}
    check("REFUSALS.md has an example for each condition", failed, every)


# ---- What the pages share with the tables of tools/explanation


def rows_of(page, head):
    """The rows of the table with this head, as cells, without the marks that links lead to."""
    table = re.sub(r'<a id="[\w-]+"></a>', "", page[page.index(head):].split("\n\n")[0]).splitlines()[2:]
    return [[cell.strip() for cell in row.strip("|").split("|")] for row in table]


def check_refusals_words():
    """REFUSALS.md says of each answer and each condition what tools/explain says."""
    page = (ROOT / "docs" / "REFUSALS.md").read_text()
    told = [row for row in rows_of(page, "| answer | found wrong | look first |") if row[0].isdigit()]
    check("REFUSALS.md, its answers", told, [[str(number), row.found, row.owner] for number, row in REFUSALS.items()])
    helps = [f"What usually helps: {row.helps}." for row in REFUSALS.values()]
    check("REFUSALS.md, what helps", [words for words in helps if words not in page], [])
    wanted = [
        [f"`{name}`" * (k == 1), word.rule * (k == 1), str(k), f"`{one.wording}`", one.plain, str(NUMBER_OF[one.mark])]
        for name, word in WORDS.items() for k, one in enumerate(word.conditions, 1)]
    check("REFUSALS.md, its conditions", rows_of(page, "| word | rule | condition |"), wanted)
    usually = {}
    for labels, words in re.findall(r"^- at (`.*?): (.*)\.$", page, re.M):
        usually.update({(word, int(k)): words for word, k in re.findall(r"`(\w+)` (\d)", labels)})
    check("REFUSALS.md, what a condition usually means", usually, USUALLY)


STARTS = {"pre": "before", "post": "after", "s": "s", "post of e1": "what the first leaves", "before": "what the procedure starts with"}


def check_formats_words():
    """FORMATS.md says of each word's type, parts and map what the tables say."""
    page = (ROOT / "docs" / "FORMATS.md").read_text()
    wanted = []
    for name, word in WORDS.items():
        starts = [STARTS[start] for start in word.parts.values()]
        flows = [one.plain for one in word.conditions if one.mark == "F"]
        parts = f"first: {starts[0]}; second: {starts[1]}" if len(starts) == 2 else "".join(starts)
        wanted.append([f"`{name}`", word.result, parts, "; ".join(flows)])
    check("FORMATS.md, its words", rows_of(page, "| word | its type | its parts start with |"), wanted)


# ---- The tables of FORMATS.md that explain a pair line by line


def tables(page, kind):
    """The tables under a mark `<!-- kind: folder -->`: the folder, the cells of each row, and the text up to the next heading."""
    for found in re.finditer(rf"^<!-- {kind}: (\S+) -->\n((?:\|[^\n]*\n)+)(.*?)(?=^#|\Z)", page, re.M | re.S):
        rows = [[cell.strip(" `") for cell in row.strip("|").split("|")] for row in found[2].splitlines()]
        yield found[1], rows[2:], found[3]


def check_tables(name, page):
    for folder, cells, _ in tables(page, "head"):
        split = (ROOT / folder / "split.txt").read_text().splitlines()
        check(f"docs/{name}, head of {folder}", [row[:2] for row in cells], [[str(i + 1), split[i]] for i in range(len(cells))])
    for folder, cells, below in tables(page, "walk"):
        program = read_sheet(ROOT / folder, PROGRAM)
        split = split_of(read_sheet(ROOT / folder, SPLIT), counts_of(program).procedures)
        sites = Sites(steps_of(program), split)
        for row in cells:
            site = sites.at_line(int(row[0]))
            before, after = (fractions(numbers, split) for numbers in (site.pre, site.post))
            wanted = [program.line(site.line).decode(), site.row.text, before, after]
            check(f"docs/{name}, {folder} line {site.line}", row[1:5], wanted)
        answer = (ROOT / folder / "expected").read_text().strip()
        check(f"docs/{name}, answer of {folder}", re.findall(r"answer is `([^`]*)`", below), [answer])
