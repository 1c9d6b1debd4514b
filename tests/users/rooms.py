"""crates.txt is the picture of ARCHITECTURE.md: its rooms have the same crates, ten at most, each behind those that it stands on, and the
page tells of each."""
import re

from checks import ROOT, check

MOST = 10


def rooms():
    """Each room of crates.txt: its name, and its crates with those that they stand on."""
    for part in (ROOT / "crates.txt").read_text().split("\n\n# ")[1:]:
        heading, *lines = part.strip().split("\n")
        yield re.split(r"[:,]", heading)[0], [[re.sub(r" .*", "", words) for words in line.split(":")[:1]] + line.split(":")[1:] for line in lines]


def rows(heading):
    """The tables' rows under a heading of ARCHITECTURE.md, cell by cell."""
    page = (ROOT / "docs" / "ARCHITECTURE.md").read_text().split(f"\n## {heading}\n")[1].split("\n## ")[0]
    return [row.split(" | ") for row in re.findall(r"^\| (.*) \|$", page, re.M)]


def check_rooms():
    listed = {room: [name for name, _ in crates] for room, crates in rooms()}
    drawn = {}
    for cells in rows("The picture"):
        if cells[0] in listed:
            drawn.setdefault(cells[0], re.findall(r"`(\w+)`", cells[1]))
    check("crates.txt has rooms", len(listed) >= 10, True)
    check("ARCHITECTURE.md, the picture is crates.txt", drawn, listed)
    told = [cells[0].strip("`") for cells in rows("The crates") if cells[0].startswith("`")]
    check("ARCHITECTURE.md tells of every crate, in the order of crates.txt", told, [name for crates in listed.values() for name in crates])
    check("a room has few crates", [room for room, crates in listed.items() if len(crates) > MOST], [])
    crates, seen, early = {path.name for path in (ROOT / "crates").iterdir()}, set(), []
    for _, lines in rooms():
        for name, below in lines:
            early += [f"{name} in front of {other}" for other in below.split() if other in crates and other not in seen]
            seen.add(name)
    check("crates.txt, each crate behind those that it stands on", early, [])
    check("crates.txt has every crate", seen, crates)
