"""The files of a folder: their bytes, their lines, and what the lines of well-formed sheets say."""
import hashlib
import os
import stat
from math import gcd
from typing import NamedTuple

from common.files import TRACE

from .forms import TRACE_BYTES
from .words import KINDS

# More than the longest sheet or trace: enough to see that a file is longer.
MOST_BYTES = 1 << 17
MOST_TRACE_BYTES = TRACE_BYTES + 1


class Line(NamedTuple):
    text: bytes
    closed: bool


class Sheet(NamedTuple):
    name: str
    text: bytes  # its first MOST_BYTES bytes
    length: int
    lines: list
    digest: str = ""  # the SHA-256 of the whole file; none of one that is too long, which is not read to its end
    mark: tuple = ()  # what a file system changes with the file

    def line(self, number):
        """The bytes of a line, counted from 1; None past the last."""
        return self.lines[number - 1].text if 0 < number <= len(self.lines) else None


def sheet_of(name, text, length=0, digest="", mark=()):
    pieces = text.split(b"\n")
    lines = [Line(piece, True) for piece in pieces[:-1]] + [Line(piece, False) for piece in pieces[-1:] if piece]
    return Sheet(name, text, max(length, len(text)), lines, digest, mark)


def read_sheet(folder, name):
    """A sheet or a trace, or None. Only a plain file is opened: a FIFO would be waited for."""
    path = os.path.join(folder, name)
    try:
        status = os.stat(path)
        if not stat.S_ISREG(status.st_mode):
            return None
        with open(path, "rb") as file:
            most = MOST_TRACE_BYTES if name == TRACE else MOST_BYTES
            text = file.read(most)
    except OSError:
        return None
    return sheet_of(name, text, status.st_size, digest_of(text) if len(text) < most else "", _mark(status))


def digest_of(text):
    return hashlib.sha256(text).hexdigest()


def _mark(status):
    return status.st_dev, status.st_ino, status.st_size, status.st_mtime_ns, status.st_ctime_ns


def read_sheets(folder, names):
    """The sheets of a folder by their names."""
    return {name: read_sheet(folder, name) for name in names}


def is_as_read(folder, sheet):
    """Whether a sheet's file has not been written or replaced since it was read."""
    try:
        return _mark(os.stat(os.path.join(folder, sheet.name))) == sheet.mark
    except OSError:
        return False


class Step(NamedTuple):
    line: int
    word: str
    number: int


class Type(NamedTuple):
    kind: str
    first: int
    second: int


class Row(NamedTuple):
    line: int
    text: str
    type: int
    post: int  # None in a sheet for filling
    start: int  # None where the field is empty


class Signature(NamedTuple):
    """The line of a procedure: two maps and two types."""

    number: int
    line: int
    text: str
    before: int
    argument: int
    after: int
    result: int


class Split(NamedTuple):
    denominator: int
    locations: int
    start: int  # the map that the job starts with
    types: list
    maps: list
    signatures: list
    rows: list
    factors: tuple = ()  # by what each location's fractions are reduced where they are shown; nothing, as the sheet has them

    def root_start(self):
        return self.maps[self.start]

    def fraction(self, number, location):
        """An amount of a location as it is shown."""
        factor = self.factors[location] if self.factors else 1
        return f"{number // factor}/{self.denominator // factor}"

    def reduced(self):
        """The same split, which shows a location's fractions reduced as far as all of them can be."""
        return self._replace(factors=tuple(gcd(self.denominator, *numbers) for numbers in zip(*self.maps)))

    def last_map(self, row):
        """The map that a spawn's body starts with, or that a call keeps back. An empty field means nothing of any location."""
        return (0,) * self.locations if row.start is None else self.maps[row.start]

    def map_number(self, number, name):
        """The number of a map in a type, by its name in the conditions."""
        kind, *numbers = self.types[number]
        return numbers[KINDS[kind].fields.index(name)]

    def map_in(self, number, name):
        return self.maps[self.map_number(number, name)]

    def agree(self, one, other):
        return self.parting(one, other) is None

    def parting(self, one, other):
        """Where two types part: they themselves, or contents as deep in one as in the other. None if they agree."""
        if one == other:
            return None
        this, that = self.types[one], self.types[other]
        kind = KINDS[this.kind]
        if this.kind != that.kind:
            return one, other
        if any(self.map_in(one, name) != self.map_in(other, name) for name in kind.maps()):
            return one, other
        if kind.fields[0] == "location" and this.first != that.first:
            return one, other
        return self.parting(this.second, that.second) if kind.fields[1] == "content" else None

    def may_show(self, shown, own):
        """Whether a var line may show a type for its let's value: a lock with no more in and no less out, else one that agrees."""
        if self.types[shown].kind == self.types[own].kind == "lock":
            return (at_least(self.map_in(own, "in"), self.map_in(shown, "in"))
                    and at_least(self.map_in(shown, "out"), self.map_in(own, "out")))
        return self.agree(shown, own)


def at_least(one, other):
    """Whether a map has at least as much as another of every location."""
    return all(a >= b for a, b in zip(one, other))


def _fields(line):
    return line.text.decode("ascii").split(",")


class Counts(NamedTuple):
    steps: int
    procedures: int

    def __str__(self):
        procedures = f" and {self.procedures} procedure{'s' * (self.procedures > 1)}" if self.procedures else ""
        return f"{self.steps} step{'s' * (self.steps > 1)}{procedures}"


def counts_of(sheet):
    """The steps and procedures that line 1 of a program sheet promises, which is known to be of its form."""
    _, steps, *procedures = _fields(sheet.lines[0])
    return Counts(int(steps), int(*procedures))


def steps_of(sheet):
    """The steps of a well-formed program sheet, with its `proc` lines."""
    return [Step(number, word, int(v)) for number, (word, v) in enumerate(map(_fields, sheet.lines[1:]), 2)]


def split_of(sheet, procedures):
    """What a well-formed split sheet says, of a job with so many procedures."""
    heading, *header = _fields(sheet.lines[0])
    denominator, locations, types, maps, *root = map(int, header)
    first_map, first_signature, first_row = 1 + types, 1 + types + maps, 1 + types + maps + procedures
    signatures = [
        Signature(number, first_signature + number + 1, line.text.decode("ascii"), *map(int, _fields(line)))
        for number, line in enumerate(sheet.lines[first_signature:first_row])]
    rows = []
    for number, line in enumerate(sheet.lines[first_row:], first_row + 1):
        kind, post, start = _fields(line)
        rows.append(Row(number, line.text.decode("ascii"), int(kind), int(post) if post else None, int(start) if start else None))
    return Split(
        denominator,
        locations,
        root[0] if root else 0,  # a C sheet names none and means map 0
        [_type_of(heading, *_fields(line)) for line in sheet.lines[1:first_map]],
        [tuple(map(int, _fields(line))) for line in sheet.lines[first_map:first_signature]],
        signatures,
        rows,
    )


def _type_of(heading, kind, first, second):
    """What a type line says. A lock line shows its out in a C3 sheet alone; elsewhere out is in."""
    return Type(kind, int(first), int(first if kind == "lock" and heading != "C3" else second))
