"""Who touches what: each cell with the steps that read and write it, by thread, and which locks are held there.

A lock is held at a step if it is held on every way to it: of an `if` what both parts leave, of a `while` what a round leaves too.
A new thread holds nothing. The body of a procedure is followed where it is called, with what the caller holds; not once more
inside itself. A read-write lock is held for reading or for writing. This is a reading of the job, which judges nothing: a cell
may be safe without any lock, by spawns and joins.
"""
from typing import NamedTuple

from .conditions import cell_location
from .drawing.calls import body_of
from .drawing.holders import origin
from .formatting import listed
from .sites import acted_on
from .walk import touches

TAKES = {"lock": "", "rdlock": "for reading", "wrlock": "for writing"}
GIVES = {"unlock": "", "rdunlock": "for reading", "wrunlock": "for writing"}


class Touch(NamedTuple):
    thread: int
    word: str  # read or write
    line: int
    held: frozenset  # of pairs: the line where a lock was made, and how it is held

    def has(self, lock):
        """Whether a lock is held so that it is enough: a writer needs the whole of a read-write lock."""
        ways = ["", "for writing"] + ["for reading"] * (self.word == "read")
        return any((lock, way) in self.held for way in ways)


class Cell(NamedTuple):
    made: int  # the line of its `ref`; None if the sheets do not show which cell it is
    location: int
    touches: list

    def is_shared(self, sites):
        """Whether more than one thread touches it: threads of several spawn lines, or of one that may be come to more than once."""
        threads = {touch.thread for touch in self.touches}
        once = {0, *(site.body for site in sites.all if site.word == "spawn" and site.thread is not None and site.nest == 0)}
        return len(threads) > 1 or not threads <= once

    def guard(self):
        """The lock that most touches have, and at least half of them; None if there is none."""
        locks = sorted({lock for touch in self.touches for lock, _ in touch.held})
        most = max(locks, key=self.count, default=None)
        return most if most is not None and 2 * self.count(most) >= len(self.touches) else None

    def count(self, lock):
        return sum(touch.has(lock) for touch in self.touches)

    def bare(self):
        """The touches without the lock that the others have."""
        guard = self.guard()
        return [] if guard is None else [touch for touch in self.touches if not touch.has(guard)]


def cells_of(sites):
    """The cells of a well-formed pair's job that some step touches, in the order of their lines."""
    following = _Following(sites)
    following.follow(sites.root, frozenset(), frozenset())
    return sorted(following.cells.values(), key=lambda cell: (cell.made is None, cell.made or cell.location))


def parted(sites):
    """The cells that several threads touch, and those that one thread alone touches."""
    cells = cells_of(sites)
    return [cell for cell in cells if cell.is_shared(sites)], [cell for cell in cells if not cell.is_shared(sites)]


class _Following:
    def __init__(self, sites):
        self.sites, self.split, self.cells = sites, sites.split, {}

    def follow(self, site, held, called):
        """What is held after a step, if so much is held before it. `called` are the procedures in whose bodies it stands."""
        parts = list(site.parts.values())
        if site.word == "if":
            return frozenset.intersection(*(self.follow(part, held, called) for part in parts))
        if site.word == "while":
            return held & self.follow(parts[0], held, called)
        if site.word == "spawn":
            self.follow(parts[1], frozenset(), called)
            parts = parts[:1]
        for part in parts:
            held = self.follow(part, held, called)
        if site.word == "call" and site.number not in called:
            return self.follow(body_of(site, self.sites), held, called | {site.number})
        return self._acted(site, held)

    def _acted(self, site, held):
        if touches(site, self.split):
            self._note(site, held)
        for words, change in ((TAKES, frozenset.union), (GIVES, frozenset.difference)):
            if site.word in words:
                return change(held, {(origin(acted_on(site)).line, words[site.word])})
        return held

    def _note(self, site, held):
        made, location = origin(acted_on(site)), cell_location(site, self.split)
        made = made.line if made.word == "ref" else None
        cell = self.cells.setdefault((made, location), Cell(made, location, []))
        touch = Touch(site.thread, site.word, site.line, held)
        if touch not in cell.touches:
            cell.touches.append(touch)


# ---- In words


class Words:
    """What cells, locks and touches are called."""

    def __init__(self, explanation):
        self.sites, self.names = explanation.sites, explanation.names

    def cell(self, cell):
        place = self.names.place(cell.location)
        if cell.made is None:
            return f"a cell of {place}"
        called = self.thing(cell.made, "the cell")
        return called if called == place else f"{called}, of {place}"

    def thing(self, line, noun):
        """A thing by the variable that its let binds, else by its line."""
        for site in self.sites.all:
            if site.word == "let" and site.parts["e1"].line == line:
                return self.names.variable(site.number)
        return f"{noun} of {self.names.line(line)}"

    def held(self, touch):
        locks = [f"{self.thing(lock, 'the lock')} {how}".strip() for lock, how in sorted(touch.held)]
        return listed(locks) or "no lock"

    def alone(self, cells):
        """The cells that one thread alone touches, in a sentence; empty if there are none."""
        told = [f"{self.cell(cell)} ({self.names.thread(cell.touches[0].thread)})" for cell in cells]
        return f"Touched by one thread alone: {', '.join(told)}." if told else ""

    def guard(self, cell):
        """How many touches have the lock that most have, and which have not."""
        lock = cell.guard()
        if lock is None:
            return f"no lock is held at {'most' if any(touch.held for touch in cell.touches) else 'any'} of its touches"
        name, count = self.thing(lock, "the lock"), len(cell.touches)
        if not cell.bare():
            return f"{name} is held at {'every touch' if count > 1 else 'its one touch'}"
        where = listed(f"{self.names.thread(touch.thread)} {touch.word}s, {self.names.line(touch.line)}" for touch in cell.bare())
        return f"{name} is held at {cell.count(lock)} of {count} touches, and not where {where}"


def told(explanation):
    """The table as lines of text, or why there is none."""
    if not explanation.sites:
        return ["There is no table of touches: the sheets are not well formed, or no step of them has its map."]
    words, lines = Words(explanation), ["Who touches what, and which locks the thread holds there:"]
    shared, alone = parted(explanation.sites)
    for cell in shared:
        rows = [(">" if touch in cell.bare() else "", words.names.thread(touch.thread), f"{touch.word}s",
                  words.names.line(touch.line), words.held(touch)) for touch in cell.touches]
        widths = [max(len(row[column]) for row in rows) for column in range(4)]
        lines += ["", f"{words.cell(cell)}: {words.guard(cell)}"]
        lines += ["  ".join(["", *map(str.ljust, row[:4], widths), row[4]]).rstrip() for row in rows]
    return lines + ["", words.alone(alone)] * bool(alone)
