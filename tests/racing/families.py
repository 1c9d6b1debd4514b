"""Jobs in families, up to 15 threads and 256 steps, each as it should be and with one fault. In the first five every thread has
a cell of its own, or a place, so that a search cannot take one thread for another."""


class _Job:
    """Lines of a program sheet, one act after the other."""

    def __init__(self, procedures=()):
        self.lines, self.variable = list(procedures), len([line for line in procedures if line.startswith("proc,")])

    def let(self, *act):
        """Binds what an act comes to. Its variable."""
        self.lines += [f"let,{self.variable}", *act]
        self.variable += 1
        return self.variable - 1

    def spawn(self, identifier, *acts):
        """A thread that does these acts, each a list of lines."""
        lines = ["spawn,0", f"var,{identifier}"]
        here = self.variable
        for number, act in enumerate(acts[:-1], here + 1):
            lines += [f"let,{number}", *act]
        self.variable += len(acts)
        self.lines += [f"let,{here}", *lines, *acts[-1]]

    def ended(self):
        return [*self.lines, "int,0"]


def _on(word, variable, *more):
    return [f"{word},0", f"var,{variable}", *more]


def _cells(job, count):
    return [job.let("ref,0", "int,0") for _ in range(count)]


def joined(count, faulty):
    """Threads read a cell each, all are joined, or all but one; then every cell is written."""
    job = _Job()
    cells, identifier = _cells(job, count), job.let("newtid,0")
    for cell in cells:
        job.spawn(identifier, _on("read", cell))
    return _written_behind_joins(job, cells, identifier, count - faulty)


def _written_behind_joins(job, cells, identifier, joins):
    for _ in range(joins):
        job.let(*_on("join", identifier))
    for cell in cells:
        job.let(*_on("write", cell, "int,1"))
    return job.ended()


def locked(count, faulty):
    """Threads write one cell under a lock and read a cell of their own, which the first writes once all are joined; the last of
    them forgets the lock."""
    job = _Job()
    shared, lock, identifier, cells = job.let("ref,0", "int,0"), job.let("newlock,0"), job.let("newtid,0"), _cells(job, count)
    for number, cell in enumerate(cells):
        guarded = [_on("lock", lock), _on("write", shared, "int,1"), _on("unlock", lock)]
        job.spawn(identifier, *(guarded[1:2] if faulty and number == count - 1 else guarded), _on("read", cell))
    return _written_behind_joins(job, cells, identifier, count)


def posted(count, faulty):
    """Threads read a cell each and post; the first waits as often, or once too few, and writes every cell."""
    job = _Job()
    cells, done, identifier = _cells(job, count), job.let("newsem,0"), job.let("newtid,0")
    for cell in cells:
        job.spawn(identifier, _on("read", cell), _on("post", done))
    for _ in range(count - faulty):
        job.let(*_on("wait", done))
    for cell in cells:
        job.let(*_on("write", cell, "int,1"))
    return job.ended()


def placed(count, faulty):
    """Threads read a cell in a reading place each; who writes it takes every place, or leaves one."""
    job = _Job()
    shared, places, identifier = job.let("ref,0", "int,0"), job.let(f"newrwlock,{count}"), job.let("newtid,0")
    for _ in range(count):
        job.spawn(identifier, _on("rdlock", places), _on("read", shared), _on("rdunlock", places))
    for _ in range(count - faulty):
        job.let(*_on("rdlock", places))
    job.let(*_on("write", shared, "int,1"))
    return job.ended()


def called(count, faulty):
    """As `joined`, by a procedure that reads the cell that it is handed twice."""
    job = _Job(["proc,0", "let,1", "read,0", "var,0", "read,0", "var,0"])
    job.variable = 2
    cells, identifier = _cells(job, count), job.let("newtid,0")
    for cell in cells:
        job.spawn(identifier, ["call,0", f"var,{cell}"])
    return _written_behind_joins(job, cells, identifier, count - faulty)


def nested(count, faulty):
    """Threads under a lock write a cell under a second one too, then read another, which the first writes; one forgets the outer."""
    job = _Job()
    one, other, outer, inner = *_cells(job, 2), job.let("newlock,0"), job.let("newlock,0")
    for number in range(count):
        within = [_on("lock", inner), _on("write", other, "int,1"), _on("unlock", inner), _on("read", one)]
        around = [_on("lock", outer), *within, _on("unlock", outer)]
        job.spawn(job.let("newtid,0"), *(within if faulty and number == count - 1 else around))
    job.let(*_on("lock", outer))
    job.let(*_on("write", one, "int,2"))
    job.let(*_on("unlock", outer))
    return job.ended()


def chosen(count, faulty):
    """Threads under a lock read a cell by a procedure, or write it; one forgets the lock."""
    job = _Job(["proc,0", "let,1", "read,0", "var,0", "read,0", "var,0"])
    job.variable = 2
    cell, lock, identifier = job.let("ref,0", "int,0"), job.let("newlock,0"), job.let("newtid,0")
    for number in range(count):
        act = ["if,0", "call,0", f"var,{cell}", *_on("write", cell, "int,1")]
        job.spawn(identifier, *([act] if faulty and number == count - 1 else [_on("lock", lock), act, _on("unlock", lock)]))
    return job.ended()


def racked(count, faulty):
    """Threads take one canister from a rack, write a cell and put it back; there is one, or one too many."""
    job = _Job()
    cell, rack, identifier = job.let("ref,0", "int,0"), job.let("newsem,0"), job.let("newtid,0")
    for _ in range(1 + faulty):
        job.let(*_on("post", rack))
    for _ in range(count):
        job.spawn(identifier, _on("wait", rack), _on("write", cell, "int,1"), _on("post", rack))
    return job.ended()


def picked(count, faulty):
    """A thread writes one of two cells; the first thread, which has joined it or not, has picked one of them many times and reads
    what it has picked."""
    job = _Job()
    cells, identifier = _cells(job, 2), job.let("newtid,0")
    job.spawn(identifier, _on("write", cells[0], "int,1"))
    picks = [job.let("if,0", *[f"var,{cell}" for cell in cells]) for _ in range(2 * count)]
    if not faulty:
        job.let(*_on("join", identifier))
    for pick in picks:
        job.let(*_on("read", pick))
    return job.ended()


FAMILIES = {"joined": joined, "locked": locked, "posted": posted, "placed": placed, "called": called, "nested": nested,
            "chosen": chosen, "racked": racked, "picked": picked}
STEPS = 256


def jobs(counts):
    """(what, whether it races, lines) of every family with so many threads, as far as a sheet has room."""
    for what, family in FAMILIES.items():
        for count in counts:
            for faulty in (True, False):
                lines = family(count, faulty)
                if sum(not line.startswith("proc,") for line in lines) <= STEPS:
                    yield f"{what}, {count} threads{', one fault' * faulty}", faulty, lines


# Threads started for ever, and counts that grow for ever: (what, whether it races, lines).
_CELL, _READS, _ANEW = "let,0|ref,0|int,0|", "read,0|var,0", "while,0|spawn,0|newtid,0|"
ENDLESS = [
    ("readers for ever", False, _CELL + _ANEW + _READS),
    ("readers for ever of one identifier", False, _CELL + "let,1|newtid,0|while,0|spawn,0|var,1|" + _READS),
    ("writers for ever", True, _CELL + _ANEW + "write,0|var,0|int,1"),
    ("writers for ever under a lock", False, _CELL + "let,1|newlock,0|" + _ANEW
     + "let,2|lock,0|var,1|let,3|write,0|var,0|int,1|unlock,0|var,1"),
    ("counts for ever", False, _CELL + "let,1|newsem,0|let,2|spawn,0|newtid,0|while,0|post,0|var,1|"
     "while,0|let,3|wait,0|var,1|" + _READS),
    ("readers that count for ever", False, _CELL + "let,1|newsem,0|" + _ANEW
     + "let,2|read,0|var,0|let,3|post,0|var,1|let,4|wait,0|var,1|" + _READS),
    ("threads that start threads", False, "proc,0|let,1|spawn,0|newtid,0|call,0|var,0|read,0|var,0|let,2|ref,0|int,0|call,0|var,2"),
    ("a write once three are there", True, _CELL + "let,1|newsem,0|let,2|" + _ANEW
     + "let,3|post,0|var,1|let,4|wait,0|var,1|read,0|var,0|let,5|wait,0|var,1|let,6|wait,0|var,1|write,0|var,0|int,1"),
]
