"""The steps of a job as trees, the bodies of its procedures and its root, each with the map before it, its thread and its nesting."""
from dataclasses import dataclass, field
from functools import lru_cache

from .words import MAPS, WORDS


@dataclass
class Site:
    """One step where it stands, or a `proc` line, whose row is that of its procedure. Maps are tuples of numbers."""

    line: int
    word: str
    number: int
    row: object
    type: int
    pre: tuple
    thread: int  # 0 is the first; the threads of spawn lines are numbered in line order; None for whoever calls a procedure
    depth: int  # how far it is indented in the walk
    nest: int  # how many loops, choices and spawned bodies it stands in
    post: tuple = None
    start: tuple = None  # what the body of a spawn starts with, or what a call keeps back
    body: int = None  # the thread that a spawn starts
    binder: object = None  # for a var, the site of its let or of its procedure
    signature: object = None  # for a call and for a `proc` line, the procedure's line in the split
    parts: dict = field(default_factory=dict)  # document 01's name of a part, and its site


class Sites:
    """Every step and every `proc` line of a well-formed pair, in line order."""

    def __init__(self, steps, split):
        self.split = split
        self.steps = steps
        self.all = []
        self.threads = 1
        self.procedures = []
        self._binders = {}
        self._rows = iter(split.rows)
        for signature in split.signatures:
            self.procedures.append(self._read_procedure(signature))
        self.root = self._read(split.root_start(), thread=0, depth=0, nest=0)
        self.used = {site.number for site in self.all if site.word == "var"}

    def at_line(self, line):
        return self.all[line - 2]

    def _read_procedure(self, signature):
        step, maps = self.steps[len(self.all)], self.split.maps
        site = Site(
            *step, signature, signature.result, maps[signature.before], thread=None, depth=0, nest=0,
            post=maps[signature.after], signature=signature,
        )
        self.all.append(site)
        self._binders[site.number] = site
        site.parts["body"] = self._read(site.pre, thread=None, depth=1, nest=0)
        self._work_out(site)
        return site

    def _read(self, pre, thread, depth, nest):
        step, row = self.steps[len(self.all)], next(self._rows)
        site = Site(*step, row, row.type, pre, thread, depth, nest)
        self.all.append(site)
        if site.word in ("spawn", "call"):
            site.start = self.split.last_map(row)
        if site.word == "call":
            site.signature = self.split.signatures[site.number]
        if site.word == "spawn":
            site.body = self.threads
            self.threads += 1
        if site.word == "var":
            site.binder = self._binders[site.number]
        self._work_out(site)
        for name, start in WORDS[site.word].parts.items():
            is_body = site.word == "spawn" and name == "e2"
            # What follows a let stands under it, not inside it: "do this, then that" does not move to the right.
            follows = site.word == "let" and name == "e2"
            site.parts[name] = self._read(
                map_named(site, start, self.split), site.body if is_body else thread, depth if follows else depth + 1,
                nest + (is_body or site.word in ("if", "while")))
            if site.word == "let" and name == "e1":
                self._binders[site.number] = site
            self._work_out(site)
        return site

    def _work_out(self, site):
        """What the step leaves, as far as it is known before its parts and after each of them: here the row says it."""
        if site.word != "proc" and site.row.post is not None:
            site.post = self.split.maps[site.row.post]


def acted_on(site):
    """The step whose type has the maps, p and c of the conditions: the part that the word acts on, or the step itself."""
    part = part_acted_on(site.word)
    return site.parts[part] if part else None if part is None else site


@lru_cache(maxsize=None)
def part_acted_on(word):
    """The part that a word acts on, "" for the step itself, None if the conditions name no such thing."""
    for condition in WORDS[word].conditions:
        words = condition.wording.split()
        if len(words) == 3 and words[1] == "a":  # "part a tid"
            return words[0]
        if len(words) == 3 and words[0] == "a" and words[2] == "type":  # "a lock type"
            return ""
    return None


def map_named(site, name, split):
    """The map that the documents call pre, post, s, "post of" a part, one of a type, K, in, out, r, w or N × r, or one of a
    procedure: before, after or kept."""
    if name in ("pre", "post"):
        return site.pre if name == "pre" else site.post
    if name.startswith("post of "):
        return site.parts[name.removeprefix("post of ")].post
    if name in MAPS:
        return split.map_in(acted_on(site).type, name)
    if name.startswith("N × "):
        return tuple(site.number * a for a in map_named(site, name.removeprefix("N × "), split))
    if name in ("before", "after"):
        return split.maps[getattr(site.signature, name)]
    return {"s": site.start, "kept": site.start}[name]
