"""The words of the program sheet and the kinds of types, as tables in the order of document 01, then of document 02.

A new word is a row of WORDS, a new kind of type a row of KINDS. A condition stands here in document 01's own wording, and
conditions.py computes it from that wording.
"""
from typing import NamedTuple


class Kind(NamedTuple):
    noun: str
    fields: tuple  # what the two numbers of its type line are; None where the line shows 0

    def maps(self):
        """The names of the maps in such a type, as the conditions call them."""
        return [field for field in self.fields if field in MAPS]


# The names of maps in types.
MAPS = ("K", "in", "out", "r", "w")
# The names of maps around a call: what its procedure starts with and leaves, and what is kept back.
CALLED = ("before", "after", "kept")

KINDS = {
    "int": Kind("a number", (None, None)),
    "ref": Kind("a cell", ("location", "content")),
    "lock": Kind("a lock", ("in", "out")),
    "tid": Kind("a thread identifier", ("K", None)),
    "sem": Kind("a semaphore", ("K", None)),
    "rwlock": Kind("a read-write lock", ("r", "w")),
}


class Condition(NamedTuple):
    wording: str  # document 01's
    mark: str  # T type, F flow, A access
    plain: str  # the same for somebody who has not read document 01


class Word(NamedTuple):
    rule: str  # its name in the paper's rules
    number: str  # what its v is: a name in forms.RANGES
    parts: dict  # document 01's name of each part, and the map it starts with
    result: str  # its type, in words
    does: str  # what the step does; walk.py puts the names and amounts in
    conditions: tuple
    source: str  # where the paper has its rule


def _word(rule, number, parts, result, does, *conditions, source="Figure 5"):
    return Word(rule, number, parts, result, does, tuple(Condition(*condition) for condition in conditions), source)


_INT = ("type int", "T", "its type is of the kind `int`")
_KEEPS = ("post = pre", "F", "after equals before")
_PART_KEEPS = ("post = post of part", "F", "after equals what its part leaves")


def _takes(load, plain=None):
    """The load of its part comes in."""
    return f"post = post of part + {load}", "F", f"after equals what its part leaves plus {plain or load}"


def _gives(load, plain=None):
    """The load of its part goes out."""
    return f"post + {load} = post of part", "F", f"after plus {plain or load} equals what its part leaves"


def _moves(rule, kind, does, moved, **source):
    """A word whose one part is of that kind, and that takes or gives its load."""
    part = (f"part a {kind}", "T", f"its part is {KINDS[kind].noun}")
    return _word(rule, "nothing", {"part": "pre"}, "`int`", does, _INT, part, moved, **source)


_TAKES, _GIVES = _takes("K", "the load"), _gives("K", "the load")

WORDS = {
    "var": _word(
        "VAR", "variable", {},
        "that of what its `let` bound", "{variable}, {type}",
        ("type is that of its let's e1", "T",
         "its type agrees with that of what its `let` bound, or both are locks and it shows no more in and no less out"),
        _KEEPS),
    "int": _word(
        "INT", "constant", {},
        "`int`", "the number {number}",
        _INT, _KEEPS),
    "let": _word(
        "LET", "variable", {"e1": "pre", "e2": "post of e1"},
        "that of its second part", "let {variable} be line {e1}, then line {e2}",
        ("type of e2", "T", "its type agrees with that of its second part"),
        ("post = post of e2", "F", "after equals what its second part leaves")),
    "if": _word(
        "IF", "nothing", {"e1": "pre", "e2": "pre"},
        "that of both its parts", "line {e1} or line {e2}, nobody says which",
        ("type of e1", "T", "its type agrees with that of its first part"),
        ("type of e2", "T", "its type agrees with that of its second part"),
        ("post of e1 ≥ post", "F", "its first part leaves at least after"),
        ("post of e2 ≥ post", "F", "its second part leaves at least after")),
    "while": _word(
        "WHILE", "nothing", {"part": "post"},
        "`int`", "again and again, from line {part}",
        _INT,
        ("pre ≥ post", "F", "before is at least after"),
        ("post of part ≥ post", "F", "a round leaves at least after, which is what it began with")),
    "newtid": _word(
        "NEWT", "nothing", {},
        "a `tid` type", "a new identifier; a join on it hands over {K}",
        ("a tid type", "T", "its type is of the kind `tid`"),
        _KEEPS),
    "spawn": _word(
        "SPAWN", "nothing", {"e1": "pre", "e2": "s"},
        "`int`", "start {thread} with {start}",
        _INT,
        ("e1 a tid", "T", "its first part is a thread identifier"),
        ("post of e2 ≥ K", "F", "the body leaves at least the load of the identifier"),
        ("post + s = post of e1", "F", "after plus what the body starts with equals what the first part leaves")),
    "join": _moves("JOIN", "tid", "wait for a thread of {thing} and get {K}", _TAKES),
    "ref": _word(
        "REF", "nothing", {"part": "pre"},
        "a `ref` type that holds its part's type", "a new cell of {location}",
        ("a ref type whose c is the part's type", "T", "its type is a cell whose content agrees with the type of its part"),
        _PART_KEEPS),
    "read": _word(
        "READ", "nothing", {"part": "pre"},
        "that of the cell's content", "read {cell}",
        ("part a ref", "T", "its part is a cell"),
        ("type is c", "T", "its type agrees with the cell's content"),
        _PART_KEEPS,
        ("post at p > 0", "A", "after has more than 0 of the cell's location")),
    "write": _word(
        "WRITE", "nothing", {"e1": "pre", "e2": "post of e1"},
        "`int`", "write {cell}",
        _INT,
        ("e1 a ref", "T", "its first part is a cell"),
        ("type of e2 is c", "T", "the type of its second part agrees with the cell's content"),
        ("post = post of e2", "F", "after equals what its second part leaves"),
        ("post at p ≥ D", "A", "after has at least D of the cell's location")),
    "newlock": _word(
        "NEWL", "nothing", {},
        "a `lock` type", "a new lock, which gets {out}",
        ("a lock type", "T", "its type is of the kind `lock`"),
        ("post + out = pre", "F", "after plus out equals before")),
    "lock": _moves("LCK", "lock", "take {thing} and get {in}", _takes("in")),
    "unlock": _moves("ULCK", "lock", "give back {thing} and with it {out}", _gives("out")),
    "newsem": _word(
        "NEWSEM", "nothing", {},
        "a `sem` type", "a new semaphore; each post puts in {K}",
        ("a sem type", "T", "its type is of the kind `sem`"),
        _KEEPS, source="Section 3.1.4"),
    "post": _moves("POST", "sem", "post {thing}, which gets {K}", _GIVES, source="Section 3.1.4"),
    "wait": _moves("WAIT", "sem", "wait at {thing} and get {K}", _TAKES, source="Section 3.1.4"),
    "newrwlock": _word(
        "NEWRWLOCK", "places", {},
        "a `rwlock` type", "a new read-write lock (N = {number}), which gets {w}; a reader gets {r}",
        ("a rwlock type", "T", "its type is of the kind `rwlock`"),
        ("N × r ≤ w", "F", "N times r is at most w"),
        ("post + w = pre", "F", "after plus w equals before"), source="Figure 8"),
    "rdlock": _moves(
        "RDLOCK", "rwlock", "take a reading place of {thing} and get {r}", _takes("r"), source="Figure 8"),
    "rdunlock": _moves(
        "RDUNLOCK", "rwlock", "give back a reading place of {thing} and with it {r}", _gives("r"), source="Figure 8"),
    "wrlock": _moves(
        "WRLOCK", "rwlock", "take {thing} for writing and get {w}", _takes("w"), source="Figure 8"),
    "wrunlock": _moves(
        "WRUNLOCK", "rwlock", "give back {thing} after writing and with it {w}", _gives("w"), source="Figure 8"),
    "call": _word(
        "CALL", "procedure", {"part": "pre"},
        "the result of its procedure", "call {procedure} with {argument}; keep back {kept}",
        ("type is result", "T", "its type agrees with the result of its procedure"),
        ("type of part is argument", "T", "the type of its part agrees with the argument of its procedure"),
        ("post of part = before + kept", "F", "its part leaves what the procedure starts with plus what is kept back"),
        ("post = after + kept", "F", "after equals what the procedure leaves plus what is kept back"), source="Section 3.1.3"),
    "proc": _word(
        "PROC", "variable", {"body": "before"},
        "none: it is no step", "{procedure}, of {variable}: it starts with {before} and leaves {after}",
        ("type of body is result", "T", "the type of its body agrees with its result"),
        ("post of body ≥ after", "F", "its body leaves at least what the procedure leaves"), source="Section 3.1.3"),
}

# The words of `P2` sheets alone. A `proc` line is no step: it has a line of its own in the split, and no row.
WITH_PROCEDURES = ("call", "proc")

# A word that no machine does, and the one to write in its place.
NO_STEP = {"freelock": "lock"}

# The refusal's number for a false condition of each mark.
NUMBER_OF = {"T": 31, "F": 32, "A": 33}
