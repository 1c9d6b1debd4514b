"""Pairs in families, with as many threads as wanted: a job with a split that is accepted once it is filled, and the same with one
fault, of the job or of the split. What tools/triage has to decide of each is known."""
from typing import NamedTuple

INT, REF, GUARD, OTHER = range(4)  # types: a number, a cell of location 0, what the family shares by, and one more
OWN = 200  # the first variable of threads


class Pair(NamedTuple):
    """A pair without after-maps."""

    program: list  # lines behind the first
    head: list  # D and the number of locations
    types: list
    maps: list
    signatures: list
    rows: list  # a type and a start each

    def program_text(self):
        procedures = len(self.signatures)
        steps = len(self.program) - procedures
        return "\n".join([f"P2,{steps},{procedures}" if procedures else f"P,{steps}", *self.program, ""])

    def split_text(self, post=""):
        """A sheet for filling, or with one map in every row."""
        denominator, locations = self.head
        rows = [f"{kind},{post},{start}" for kind, start in self.rows]
        head = f"C2,{denominator},{locations},{len(self.types)},{len(self.maps)},0"
        return "\n".join([head, *self.types, *(",".join(map(str, one)) for one in self.maps), *self.signatures, *rows, ""])


class _Job:
    """A job and its rows, act by act."""

    def __init__(self):
        self.program, self.rows, self.variable = [], [], 0

    def let(self, act, kind_of_rest=INT):
        """Binds what an act comes to. An act is lines with their types and starts."""
        self.program.append(f"let,{self.variable}")
        self.rows.append((kind_of_rest, ""))
        self.add(act)
        self.variable += 1
        return self.variable - 1

    def add(self, act):
        for line, kind, start in act:
            self.program.append(line)
            self.rows.append((kind, start))

    def begin_with_purge(self):
        """A procedure that writes the cell that it is handed."""
        self.program.append("proc,0")
        self.variable += 1
        self.add(_write(0, OTHER))

    def pair(self, head, types, maps, signatures=()):
        self.add([("int,0", INT, "")])
        return Pair(self.program, head, types, maps, list(signatures), self.rows)


def _started(start):
    """A thread that nobody joins."""
    return [("spawn,0", INT, start), ("newtid,0", OTHER, "")]


def _acts(number, *acts):
    """What a thread does, one act after the other, with variables of its own."""
    lets = [(f"let,{OWN + 2 * number + place}", INT, "") for place in range(len(acts) - 1)]
    return [line for place, act in enumerate(acts) for line in (*lets[place:place + 1], *act)]


def _on(word, variable, kind=GUARD):
    return [(f"{word},0", INT, ""), (f"var,{variable}", kind, "")]


def _cell(job, kind=REF):
    return job.let([("ref,0", kind, ""), ("int,0", INT, "")])


def _write(cell, kind=REF):
    return [("write,0", INT, ""), (f"var,{cell}", kind, ""), ("int,1", INT, "")]


def joined(count, faulty=False, denominator=None, load=None):
    """Threads read a cell, all are joined, or all but one; then it is written. Each has a part, or a share of a great D."""
    job, parts = _Job(), denominator or count
    share = parts // count
    cell, identifier = _cell(job), job.let([("newtid,0", GUARD, "")])
    for _ in range(count):
        job.let([("spawn,0", INT, 1), (f"var,{identifier}", GUARD, ""), *_on("read", cell, REF)])
    for _ in range(count - faulty):
        job.let(_on("join", identifier))
    job.let(_write(cell))
    maps = [(share * count,), (share,), (share if load is None else load(share),)]
    return job.pair((share * count, 1), ["int,0,0", "ref,0,0", "tid,2,0"], maps)


def locked(count, faulty=False):
    """Threads write a cell under a lock; the last of them forgets it."""
    job = _Job()
    cell, lock = _cell(job), job.let([("newlock,0", GUARD, "")])
    for number in range(count):
        guarded = _acts(number, _on("lock", lock), _write(cell), _on("unlock", lock))
        job.let([*_started(""), *(_write(cell) if faulty and number == count - 1 else guarded)])
    return job.pair((1, 1), ["int,0,0", "ref,0,0", "lock,0,0", "tid,1,0"], [(1,), (0,)])


def posted(count, faulty=False):
    """Threads read a cell and post; who writes it waits as often, or once too few: one canister too few."""
    job = _Job()
    cell, rack = _cell(job), job.let([("newsem,0", GUARD, "")])
    for number in range(count):
        job.let([*_started(1), *_acts(number, _on("read", cell, REF), _on("post", rack))])
    for _ in range(count - faulty):
        job.let(_on("wait", rack))
    job.let(_write(cell))
    return job.pair((count, 1), ["int,0,0", "ref,0,0", "sem,1,0", "tid,2,0"], [(count,), (1,), (0,)])


def placed(count, faulty=False):
    """Threads read a cell in a reading place each; who writes it takes every place, or there is a place, and a reader, too many."""
    job = _Job()
    cell, book = _cell(job), job.let([(f"newrwlock,{count + faulty}", GUARD, "")])
    for number in range(count):
        job.let([*_started(""), *_acts(number, _on("rdlock", book), _on("read", cell, REF), _on("rdunlock", book))])
    for _ in range(count):
        job.let(_on("rdlock", book))
    job.let(_write(cell))
    return job.pair((count, 1), ["int,0,0", "ref,0,0", "rwlock,1,0", "tid,2,0"], [(count,), (1,), (0,)])


def purged(count, faulty=False):
    """Threads read a cell and are joined; then a procedure writes another cell, and the first is kept back for a write; or nothing
    is."""
    job = _Job()
    job.begin_with_purge()
    cell, valve, identifier = _cell(job), _cell(job, OTHER), job.let([("newtid,0", GUARD, "")])
    for _ in range(count):
        job.let([("spawn,0", INT, 1), (f"var,{identifier}", GUARD, ""), *_on("read", cell, REF)])
    for _ in range(count):
        job.let(_on("join", identifier))
    job.let([("call,0", INT, 4 if faulty else 3), (f"var,{valve}", OTHER, "")])
    job.let(_write(cell))
    maps = [(count, count), (1, 0), (0, count), (count, 0), (0, 0)]
    return job.pair((count, 2), ["int,0,0", "ref,0,0", "tid,1,0", "ref,1,0"], maps, ["2,3,2,0"])
