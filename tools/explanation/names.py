"""Names for locations, variables, threads and procedures, and where lines come from: from names.txt in the pair's folder if it is
there, else numbers.

A line is `location,0,level`, `variable,3,lock of the level`, `thread,1,pump`, `procedure,0,purge` or `line,70,refill.c:88`.
racecheck does not open this file, and no answer depends on it: a line that is not understood, or a file that cannot be read, is
told and passed over.
"""
import os

from common.files import NAMES

from .formatting import shown

KINDS = ("location", "variable", "thread", "procedure", "line")
MOST_BYTES, LONGEST = 1 << 16, 40
FEW = 3  # lines not understood that are told one by one


class Names:
    def __init__(self, given=None, passed_over=()):
        self.given = given or {}
        self.passed_over = passed_over  # what was not understood, a sentence each

    def location(self, number):
        """A location in full, with its number."""
        name = self.given.get(("location", number))
        return f"location {number}" + (f" ({name})" if name else "")

    def place(self, number):
        """A location where there is little room."""
        return self._named("location", number, f"location {number}")

    def variable(self, number):
        return self._named("variable", number, f"v{number}")

    def procedure(self, number):
        return self._named("procedure", number, f"procedure {number}")

    def thread(self, number):
        """None stands for whoever calls a procedure."""
        return self._named("thread", number, "the caller" if number is None else f"thread {number}")

    def line(self, number):
        """A line of the program, with where it comes from if that is known."""
        return f"line {number}{self.source(number)}"

    def source(self, number):
        """Where a line of the program comes from, to be put behind its number; empty if that is not known."""
        place = self.given.get(("line", number))
        return f" [{place}]" if place else ""

    def _named(self, kind, number, otherwise):
        return self.given.get((kind, number), otherwise)


def read_names(folder):
    """The names of a folder's pair."""
    path = os.path.join(folder, NAMES)
    if not os.path.lexists(path):
        return Names()
    if not os.path.isfile(path):
        return Names(passed_over=[f"{NAMES} is no plain file and is passed over"])
    try:
        with open(path, "rb") as file:
            text = file.read(MOST_BYTES)
    except OSError as error:
        return Names(passed_over=[f"{NAMES} cannot be read and is passed over: {error.strerror}"])
    given, passed_over = {}, []
    for number, line in enumerate(text.split(b"\n"), 1):
        name = _name_of(line)
        if name:
            given[name[0], name[1]] = name[2]
        elif line:
            passed_over.append(f"{NAMES} line {number} is not understood and is passed over: {shown(line)}")
    return Names(given, _few(passed_over))


def _few(passed_over):
    """The first few of many sentences, and how many more there are."""
    more = len(passed_over) - FEW
    return passed_over if more < 2 else [*passed_over[:FEW], f"{more} more lines of {NAMES} are not understood and are passed over"]


def _name_of(line):
    """What a line names: the kind of thing, its number, and the name; None if it is of another form."""
    kind, _, rest = line.partition(b",")
    number, _, name = rest.partition(b",")
    printable = "".join(filter(str.isprintable, name.decode("utf-8", "replace")))
    printable = printable[-LONGEST:] if kind == b"line" else printable[:LONGEST]  # of a file's path the end tells most
    if kind.decode("latin-1") in KINDS and number.isdigit() and len(number) < 4 and printable:
        return kind.decode("ascii"), int(number), printable
    return None
