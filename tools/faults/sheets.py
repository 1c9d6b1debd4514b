"""The two sheets of a job: program.txt, and a split whose rows follow from the start, step by step.

The after-map of each step is what its rule makes of the map before it. Where a rule would have to take more than is there,
nothing is left: that row is where the split is refused.
"""
from typing import NamedTuple

from .trees import INT

# Which load of its part a word takes or gives, and which one a new thing gets from who makes it.
TAKES = {"join": 1, "lock": 1, "wait": 1, "rdlock": 1, "wrlock": 2}
GIVES = {"unlock": 1, "post": 1, "rdunlock": 1, "wrunlock": 2}
MADE_OF = {"newlock": 1, "newrwlock": 2}


class Row(NamedTuple):
    word: str
    kind: tuple
    post: tuple
    start: tuple = None  # of a spawn and a call


class Sheets(NamedTuple):
    """A job and its split. The start has the whole of every location, D of each."""

    whole: int
    locations: tuple
    procedures: tuple
    lines: list  # of program.txt, behind the first
    rows: list
    variables: list
    threads: list

    def program(self):
        count = len(self.procedures)
        return _text([f"P2,{len(self.rows)},{count}" if count else f"P,{len(self.rows)}", *self.lines])

    def split(self):
        return Split(self).text()

    def names(self):
        lists = {
            "location": self.locations, "variable": self.variables, "thread": ["main", *self.threads],
            "procedure": [one.called for one in self.procedures]}
        return _text(f"{kind},{number},{name}" for kind, names in lists.items() for number, name in enumerate(names) if name)

    def amount(self, numbers):
        """A map in words."""
        return " and ".join(f"{number}/{self.whole} of {name}" for number, name in zip(numbers, self.locations))


def sheets(whole, locations, root, procedures=()):
    walk = _Walk(procedures)
    for one in procedures:
        walk.lines.append(f"proc,{walk.bind(one.variable)}")
        walk.step(one.body, one.before, {one.variable: one.argument})
    walk.step(root, (whole,) * len(locations), {})
    return Sheets(whole, locations, procedures, walk.lines, walk.rows, walk.variables, walk.threads)


class _Walk:
    """Lines and rows in the order of the sheet. `kinds` has the type of each variable in reach."""

    def __init__(self, procedures):
        self.procedures, self.lines, self.rows, self.variables, self.threads = procedures, [], [], [], []

    def bind(self, name):
        self.variables.append(name)
        return len(self.variables) - 1

    def step(self, step, pre, kinds):
        """Adds a step with its parts. Its type and its post."""
        at = len(self.rows)
        self.rows.append(None)
        self.lines.append(f"{step.word},{self._number(step)}")
        if step.word == "spawn":
            self.threads.append(step.called)
        kind, post = self._done(step, pre, kinds)
        self.rows[at] = Row(step.word, kind, post, step.given if step.word in ("spawn", "call") else None)
        return kind, post

    def _number(self, step):
        if step.word == "let":
            return self.bind(step.called)
        return self.variables.index(step.called) if step.word == "var" else step.number

    def _done(self, step, pre, kinds):
        word, parts = step.word, step.parts
        if word == "var":
            return kinds[step.called], pre
        if word == "while":
            self.step(parts[0], pre, kinds)
            return INT, pre
        if not parts:
            return step.given or INT, _less(pre, step.given[MADE_OF[word]]) if word in MADE_OF else pre
        kind, post = self.step(parts[0], pre, kinds)
        if word == "let":
            return self.step(parts[1], post, {**kinds, step.called: kind})
        if word == "write":
            return INT, self.step(parts[1], post, kinds)[1]
        if word == "spawn":
            self.step(parts[1], step.given, kinds)
            return INT, _less(post, step.given)
        if word == "call":
            return INT, _more(self.procedures[step.number].after, step.given)
        return step.given or INT, _moved(word, kind, post)


def _moved(word, kind, post):
    """What a word of one part leaves: a load comes in or goes out."""
    if word in TAKES:
        return _more(post, kind[TAKES[word]])
    return _less(post, kind[GIVES[word]]) if word in GIVES else post


class Split:
    """A `C2` sheet in which each type and each map stands once; map 0 is the start."""

    def __init__(self, sheets):
        self.sheets, self.types, self.maps = sheets, [INT], [(sheets.whole,) * len(sheets.locations)]

    def text(self):
        sheets = self.sheets
        rows = [f"{self._type(row.kind)},{self._map(row.post)},{'' if row.start is None else self._map(row.start)}"
                for row in sheets.rows]
        called = [f"{self._map(one.before)},{self._type(one.argument)},{self._map(one.after)},0" for one in sheets.procedures]
        types = [self._type_line(kind) for kind in self.types]
        head = f"C2,{sheets.whole},{len(sheets.locations)},{len(self.types)},{len(self.maps)},0"
        return _text([head, *types, *(",".join(map(str, numbers)) for numbers in self.maps), *called, *rows])

    def _type(self, kind):
        return _place(self.types, kind)

    def _map(self, numbers):
        return _place(self.maps, numbers)

    def _type_line(self, kind):
        numbers = [kind[1], 0] if kind[0] == "ref" else [self._map(load) for load in kind[1:]]
        return ",".join(map(str, [kind[0], *numbers, 0, 0][:3]))


def _place(things, one):
    if one not in things:
        things.append(one)
    return things.index(one)


def _less(have, gone):
    return tuple(max(0, a - b) for a, b in zip(have, gone))


def _more(have, come):
    return tuple(a + b for a, b in zip(have, come))


def _text(lines):
    return "".join(f"{line}\n" for line in lines)
