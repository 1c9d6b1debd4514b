"""The faults: from a draw a pair with the fault, the same pair mended, and what is wrong in a sentence."""
from typing import NamedTuple

from .jobs import Canisters, ColourBook, Purge, Readers, Writers
from .sheets import Sheets

JOB, SPLIT = "the job", "the split"


class Drill(NamedTuple):
    fault: str  # as FAULTS calls it
    at_fault: str  # JOB or SPLIT; where it is the job, the job races
    wrong: str  # in a sentence
    mend: str
    pair: Sheets
    mended: Sheets


def _join(draw):
    job = Readers(draw)
    left = draw.one(job.threads)
    return (JOB, f"Main writes the level without having joined the {left}, which may still be reading it.",
            f"A join of the {left} before the write.", job.sheets(left), job.sheets())


def _lock(draw):
    job = Writers(draw)
    bare = draw.one(job.threads)
    return (JOB, f"The {bare} writes the level without the level lock; the others take it.",
            f"The {bare} takes the level lock and gives it back.", job.sheets(bare), job.sheets())


def _canister(draw):
    job = Canisters(draw)
    count = len(job.threads)
    return (JOB, f"Main waits for {count - 1} of {count} canisters, so one thread may still look at the rack when main writes it.",
            "One more wait at full.", job.sheets(1), job.sheets())


def _reader(draw):
    job = ColourBook(draw)
    places = len(job.threads)
    return (SPLIT, f"The book lock lets {places} readers in, and the split has a share for {places - 1} of them.",
            f"A split in {places} shares.", job.sheets(1), job.sheets())


def _purge(draw):
    job = Purge(draw)
    lost = draw.below(job.calls)
    return (SPLIT, f"Call {lost + 1} of the purge keeps nothing back, so main's right to the level is lost in it.",
            "What the purge does not need is kept back.", job.sheets(lost), job.sheets())


def _row(draw):
    sound = draw.one([Readers, Writers, Canisters])(draw).sheets()
    moving = [at for at, row in enumerate(sound.rows)
              if row.word in ("spawn", "join", "lock", "wait", "post", "unlock") and sound.rows[at - 1].word == "let"]
    at = draw.one(moving)
    right, word = sound.rows[at].post, sound.rows[at].word
    wrong = draw.one(sorted({row.post for row in sound.rows} - {right}))
    rows = [row._replace(post=wrong) if place == at else row for place, row in enumerate(sound.rows)]
    return (SPLIT, f"The row of line {at + 2}, a {word}, leaves {sound.amount(wrong)}.",
            f"That row leaves {sound.amount(right)}.", sound._replace(rows=rows), sound)


def _load(draw):
    sound = draw.one([Readers, Writers, Canisters])(draw).sheets()
    kinds = [row.kind for row in sound.rows if len(row.kind) == 2 and row.kind[0] != "ref" and any(row.kind[1])]
    kind = draw.one(sorted(set(kinds)))
    right = kind[1]
    wrong = draw.one([tuple(0 for _ in right), tuple(number + (number > 0) for number in right)])
    rows = [row._replace(kind=(kind[0], wrong)) if row.kind == kind else row for row in sound.rows]
    noun = {"tid": "identifier", "sem": "semaphore", "lock": "lock"}[kind[0]]
    return (SPLIT, f"The {noun} type has the load {sound.amount(wrong)}.",
            f"Its load is {sound.amount(right)}.", sound._replace(rows=rows), sound)


FAULTS = {
    "a join forgotten": _join, "a lock not taken": _lock, "one canister too few": _canister, "a reader too many": _reader,
    "a purge that keeps nothing back": _purge, "a wrong row": _row, "a wrong load": _load}


def drills(draw):
    """One of each fault, in a drawn order."""
    return [Drill(fault, *FAULTS[fault](draw)) for fault in draw.shuffled(FAULTS)]
