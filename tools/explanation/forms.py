"""The forms and ranges of the lines of both sheets: why a line is refused with 11, 12, 21, 22, 40, 45 or 50."""
import re
from functools import lru_cache
from typing import NamedTuple

from .formatting import grouped, shown
from .words import KINDS, MAPS, NO_STEP, WITH_PROCEDURES, WORDS

DIGITS = 10
NUMERAL = re.compile(rb"0|[1-9][0-9]{0,%d}" % (DIGITS - 1))
PROGRAM_BYTES, SPLIT_BYTES = 16_384, 65_536
TRACE_BYTES = 4_000_000  # the longest trace that the tools work out again; racereplay takes any
WHOLE = 1_000_000_000
MOST_TO_FILL = 256  # maps given in a sheet for filling


class Range(NamedTuple):
    what: str
    low: int
    high: int

    def __str__(self):
        to = f" to {grouped(self.high)}" if self.low < self.high else ""
        return f"{self.what} is {grouped(self.low)}{to}"


# What the number beside a word may be.
RANGES = {
    "variable": Range("a variable", 0, 255),
    "constant": Range("a constant", 0, 65_535),
    "nothing": Range("the number on this word", 0, 0),
    "places": Range("the number of reading places", 1, 64),
    "procedure": Range("a procedure", 0, 15),
}
STEPS = Range("the number of steps", 1, 256)
PROCEDURES = Range("the number of procedures", 0, 16)
COUNTS = [
    Range("D", 1, WHOLE),
    Range("the number of locations L", 1, 16),
    Range("the number of types T", 1, 64),
    Range("the number of maps M", 1, 512),
]
IN_A_MAP = Range("a number in a map", 0, WHOLE)


class OneOf(NamedTuple):
    """A first field, which is a fixed word."""

    what: str
    words: tuple
    instead: dict = {}  # words that are refused after all, once the line's ranges are judged, and what to write for them


class Absent(NamedTuple):
    """A field that is empty, whatever number it might hold."""

    what: str


class Optional(NamedTuple):
    """A field that is empty or a number."""

    range: Range
    lacking: str = ""  # why it may not be empty after all, which is judged after the line's ranges
    kind: str = "lack"  # the kind of that fault


class Fault(NamedTuple):
    kind: str  # form, range, lack, nothing kept or word
    why: str


def numbered(what, count):
    """The range of a thing numbered from 0."""
    return Range(f"{what} (there {'is' if count == 1 else 'are'} {count})", 0, count - 1)


# ---- What each line should be, given the fields it has


@lru_cache(maxsize=None)
def words_under(heading):
    """The words of a program sheet's lines, by the first field of its line 1."""
    return tuple(word for word in (*WORDS, *NO_STEP) if heading == b"P2" or word not in WITH_PROCEDURES)


def program_head_fields(fields):
    return [OneOf("`P` or `P2`", ("P", "P2")), STEPS, *[PROCEDURES] * (fields[0] == b"P2")]


def program_fields(fields, heading):
    """What a line below the first should be, under the first field of line 1."""
    word = WORDS.get(fields[0].decode("latin-1"))
    return [OneOf("a word of the language", words_under(heading), NO_STEP), RANGES[word.number] if word else RANGES["nothing"]]


MAP, PROCEDURE = "a map line", "a procedure's line"  # beside the words, what a line of a split is


class Counts(NamedTuple):
    heading: str
    locations: int
    types: int
    maps: int


def counts_of(header):
    """The heading and counts of a split's first line, which is known to be of its form and in range."""
    heading, _, *counts = header.split(b",")
    return Counts(heading.decode("ascii"), *map(int, counts[:3]))


def split_fields(kind, fields, counts, is_filling=False):
    """What a line below the first should be. `kind` is a type's number, MAP, PROCEDURE, or the word of a row."""
    if isinstance(kind, int):
        return _type_fields(kind, fields, counts)
    if kind == MAP:
        return [IN_A_MAP] * counts.locations
    a_map, a_type = numbered("a map", counts.maps), numbered("a type", counts.types)
    if kind == PROCEDURE:
        return [a_map, a_type, a_map, a_type]
    after = Absent("the after-map in a sheet for filling") if is_filling else a_map
    return [a_type, after, _last_field(kind, a_map, counts.heading)]


def _last_field(word, a_map, heading):
    """An s stands on a spawn and on a call alone."""
    if word == "call":
        return Optional(a_map, "the last field is empty: a call has to say which map is kept back", "nothing kept")
    if word != "spawn":
        return Absent(f"the last field on `{word}`, which is no spawn and no call,")
    lacking = "the last field is empty: a `C` sheet has to say what the new thread starts with" if heading == "C" else ""
    return Optional(a_map, lacking)


def head_fields(fields, is_filling=False):
    """A C2 or C3 line names the start as well, one of its M maps. A C sheet is not filled."""
    start = []
    if fields[0] in (b"C2", b"C3"):
        maps = int(fields[4]) if len(fields) > 4 and NUMERAL.fullmatch(fields[4]) else 1
        start = [Range(f"the start r, with M = {grouped(maps)},", 0, maps - 1)]
    heading = OneOf("`C2` or `C3`", ("C2", "C3")) if is_filling else OneOf("`C`, `C2` or `C3`", ("C", "C2", "C3"))
    return [heading, *COUNTS, *start]


def _type_fields(own, fields, counts):
    ranges = {
        None: Range("the number there", 0, 0),
        "location": numbered("a location", counts.locations),
        "content": Range("the content's type, which stands above,", 0, own - 1),
        **{name: numbered("a map", counts.maps) for name in MAPS},
    }
    if counts.heading != "C3":
        ranges["out"] = ranges[None]  # such a lock line has one map
    kind = KINDS.get(fields[0].decode("latin-1"), KINDS["int"])
    return [OneOf("a kind of type", tuple(KINDS)), *(ranges[field] for field in kind.fields)]


# ---- What is wrong with a line


def fault(line, wanted):
    """The first fault of a line: form before range, as document 01 orders them, then what is judged after both."""
    return _form_fault(line, wanted) or _range_fault(line, wanted) or _late_fault(line, wanted)


def _form_fault(line, wanted):
    fields = line.text.split(b",")
    if not line.closed:
        return Fault("form", "the line is not closed by byte 10")
    if isinstance(wanted[0], OneOf) and fields[0].decode("latin-1") not in wanted[0].words:
        return Fault("form", f"\"{shown(fields[0])}\" is not {wanted[0].what}")
    if len(fields) != len(wanted):
        return Fault("form", f"it has {len(fields)} field{'s' * (len(fields) > 1)}, not {len(wanted)}")
    for field, want in zip(fields, wanted):
        if not isinstance(want, OneOf) and not NUMERAL.fullmatch(field) and (field or isinstance(want, Range)):
            return Fault("form", f"\"{shown(field)}\" is no number of 1 to {DIGITS} digits without a leading zero")
    return None


def _range_fault(line, wanted):
    for field, want in zip(line.text.split(b","), wanted):
        if isinstance(want, Absent) and field:
            return Fault("range", f"{want.what} is empty, not {shown(field)}")
        ranged = want.range if isinstance(want, Optional) and field else want
        if isinstance(ranged, Range) and not ranged.low <= int(field) <= ranged.high:
            return Fault("range", _outside(ranged, int(field)))
    return None


def _late_fault(line, wanted):
    for field, want in zip(line.text.split(b","), wanted):
        if isinstance(want, Optional) and not field and want.lacking:
            return Fault(want.kind, want.lacking)
        if isinstance(want, OneOf) and field.decode("latin-1") in want.instead:
            return Fault("word", f"`{shown(field)}` is no step of the machines; `{want.instead[shown(field)]}` is")
    return None


def _outside(ranged, number):
    if ranged.high < ranged.low:
        return f"{number} is out of range: nothing stands above type 0"
    return f"{grouped(number)} is out of range: {ranged}"
