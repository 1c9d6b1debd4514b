"""The tables of PROMISES.md: each clause of an offered call stands there once, with a theorem that its file states; the entries for C
have the clauses of the calls behind them; and PROOFS.md has no second table of clauses."""
import re

from checks import ROOT, check
from where import named_in_row

# The crates of the offered calls, and that of the entries for C.
CRATES = ["checker", "drill", "fill", "replay", "replay_pieces", "entries", "entries_c"]
# What an entry for C leaves out, since it hands out numbers alone; and what it says beside, as that of a whole replay does.
LEFT_OUT = {"racecheck_replay": {"ending"}}
BESIDE = {"racecheck_replay_told": {"report", "stops", "first_race", "safe"}}
HEAD = "| clause | says | read | theorem |\n|---|---|---|---|\n"
TABLE = re.compile(r"^`(\w+)` in (\S+\.rt):\n\n" + re.escape(HEAD) + r"((?:\|.*\|\n)+)", re.M)
# A function that others may call, up to its body.
OFFERED = re.compile(r'^pub (?:extern "C" )?fn (\w+)\(.*?^\{$', re.M | re.S)


def contracts():
    """The clauses of each offered call and of each entry for C, by its file and its name."""
    files = [file for crate in CRATES for file in sorted((ROOT / "crates" / crate / "src").glob("*.rt"))]
    found = {(str(file.relative_to(ROOT)), call[1]): re.findall(r"^    ensures (\w+) \{", call[0], re.M)
             for file in files for call in OFFERED.finditer(file.read_text())}
    return {place: clauses for place, clauses in found.items() if clauses}


def faults_of(page, promised):
    """What is wrong with the tables of a page, for these contracts."""
    tables = {(file, call): [cells_of(row) for row in rows.splitlines()] for call, file, rows in TABLE.findall(page)}
    calls = {place: clauses for place, clauses in promised.items() if not place[1].startswith("racecheck_")}
    faults = [f"{call} in {file}: {'no table' if (file, call) in calls else 'no such call'}" for file, call in tables.keys() ^ calls.keys()]
    for place in sorted(tables.keys() & calls.keys()):
        told = [clause for cells in tables[place] for clause in re.findall(r"`(\w+)`", cells[0])]
        faults += [f"{place[1]}: the page has {sorted(told)}, the source {sorted(calls[place])}"] * (sorted(told) != sorted(calls[place]))
        faults += [fault for cells in tables[place] for fault in theorem_faults(cells)]
    return faults + entry_faults(promised)


def cells_of(row):
    return [cell.strip() for cell in row.strip("|").split("|")]


def theorem_faults(cells):
    """A row names at least one theorem, and the file of each states it."""
    named = list(named_in_row(cells[3:]))
    stated = [path.is_file() and re.search(rf"^ *pub {re.escape(name)} :", path.read_text(), re.M) for name, path in named]
    lost = [f"{cells[0]}: {name} is not stated in {path}" for (name, path), there in zip(named, stated) if not there]
    return lost if named else [f"{cells[0]}: no theorem"]


def entry_faults(promised):
    entries = [(call, set(clauses)) for (_, call), clauses in promised.items() if call.startswith("racecheck_")]
    return [f"{entry} has other clauses than the call behind it" for entry, clauses in entries
            if clauses != behind(entry, promised) - LEFT_OUT.get(entry, set()) | BESIDE.get(entry, set())]


def behind(entry, promised):
    """The clauses of the call behind an entry: racecheck_replay_more has behind it `more` of replay_pieces."""
    name = entry.removeprefix("racecheck_")
    pieces = name.startswith("replay_")
    return {clause for (file, call), clauses in promised.items() if call == name.removeprefix("replay_") and ("/replay_pieces/" in file) == pieces
            for clause in clauses}


def spoilt(page, promised):
    """Pages and contracts with one thing wrong, and what it is."""
    row = "| `solvable` |" + page.split("| `solvable` |")[1].split("\n")[0] + "\n"
    for what, old, new in [
            ("a row left out", row, ""),
            ("a row twice", row, row + row),
            ("a clause by another name", "| `solvable` |", "| `solved` |"),
            ("a clause that is not there", "| `safe` |", "| `safe`, `sound` |"),
            ("a row without a theorem", row, row.rsplit(" | ", 1)[0] + " | |\n"),
            ("a theorem that is not there", "`accepted_is_safe`", "`accepted_is_sound`"),
            ("a theorem in another file", "`accepted_is_safe` (crates/soundness/proofs/Safety.antt)",
             "`accepted_is_safe` (crates/soundness/proofs/EitherOrder.antt)"),
            ("a call without a table", "`told` in crates/replay/src/pieces.rt:", "told:"),
            ("a table of no call", "`told` in crates/replay/src/pieces.rt:", "`tell` in crates/replay/src/pieces.rt:")]:
        yield what, page.replace(old, new, 1), promised
    call, entry = ("crates/checker/src/lib.rt", "check"), ("crates/entries/src/lib.rt", "racecheck_drill")
    yield "a new clause", page, {**promised, call: [*promised[call], "quick"]}
    yield "an entry for C without a clause", page, {**promised, entry: promised[entry][1:]}


def check_promised():
    page, promised = (ROOT / "docs" / "PROMISES.md").read_text(), contracts()
    check("PROMISES.md, each clause of an offered call once, with its theorem", faults_of(page, promised), [])
    check("the offered calls", sorted(call for _, call in promised if not call.startswith("racecheck_")),
          ["begin", "begin", "check", "drill", "fill", "more", "more", "replay", "told", "told"])
    for what, other, contract in spoilt(page, promised):
        check(f"PROMISES.md with {what} is found out", faults_of(other, contract) != [], True)
    heads = [row for row in re.findall(r"^\|.*\|(?=\n\|---)", (ROOT / "docs" / "PROOFS.md").read_text(), re.M) if "clause" in row]
    check("PROOFS.md, tables of clauses", heads, [])
