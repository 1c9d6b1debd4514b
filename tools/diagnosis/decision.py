"""What is decided of a pair, as a record: for a person in lines, for a script as fields."""
from typing import NamedTuple

DISAGREEMENT = "disagreement"
NOBODY, OF_PROGRAM, OF_SOLVER = "nobody", "the owner of the program", "the owner of the solver"
OF_TOOLS, DESK = "the owners of racecheck", "the release desk"


class Kind(NamedTuple):
    """A kind of decision."""

    status: int  # the exit status of tools/triage
    who: str  # must act
    says: str  # in words, behind the answer


KINDS = {
    "accepted": Kind(0, NOBODY, "Nothing is wrong: the split shows the job safe."),
    "races": Kind(1, OF_PROGRAM, "The job races. No split of it will ever be accepted."),
    "gets-stuck": Kind(1, OF_PROGRAM, "A thread of the job gets stuck. No split of it will ever be accepted."),
    "unread": Kind(2, DESK, "A file could not be read. Nothing was judged."),
    "failed": Kind(2, DESK, "A program gave no answer. Nothing was judged."),
    DISAGREEMENT: Kind(3, OF_TOOLS, "The tools do not agree, so nothing is said of the pair."),
    "undecided": Kind(4, DESK, "Undecided within the limits. Give it more with --seconds and --states."),
    "rows": Kind(5, OF_SOLVER, "The rows of the split are wrong. A mended split is accepted, so the job is safe."),
    "unfilled": Kind(5, OF_SOLVER, "The split is a sheet for filling. Filled, it is accepted, so the job is safe."),
    "denominator": Kind(5, OF_SOLVER, "D of the split is wrong. With another D it is accepted, so the job is safe."),
    "start": Kind(5, OF_SOLVER, "The start of the split is wrong. With a whole of each it is accepted, so the job is safe."),
    "loads": Kind(6, OF_SOLVER, "No after-maps go with the loads and starts of the split. A search of all orders met no race."),
    "types": Kind(6, OF_SOLVER, "The types of the split are wrong. A search of all orders met no race."),
    "program-malformed": Kind(7, OF_PROGRAM, "The program sheet is malformed."),
    "split-malformed": Kind(8, OF_SOLVER, "The split sheet is malformed."),
}


class Race(NamedTuple):
    """An order that shows what is wrong with the job."""

    order: list  # moves (thread, choice)
    replayed: str  # racereplay's line to it


class Decision(NamedTuple):
    kind: str  # a key of KINDS
    answer: str  # racecheck's line
    grounds: list  # why, line by line
    race: Race = None
    mended: bytes = None  # the text of a split that racecheck accepts
    lack: object = None  # where the loads and starts do not suffice (lacking.Lack)
    is_rounded: bool = False  # what is wrong is a few parts in a great D
    search: str = ""  # how far the job was searched: "all", "limits", "room"; empty if it was not
    seconds: float = 0.0

    @property
    def status(self):
        return KINDS[self.kind].status

    @property
    def who(self):
        return KINDS[self.kind].who

    def line(self):
        """The decision in one line: the answer, what is wrong, who must act."""
        rounded = " What is off looks rounded." if self.is_rounded else ""
        return f"{self.answer}. {KINDS[self.kind].says}{rounded} Who acts: {self.who}."

    def numbers(self):
        """The four numbers of the answer; none if it has none."""
        return [0] * 4 if self.answer == "ACCEPT" else [int(number) for number in self.answer.split(",")[1:5]]

    def fields(self):
        """The same as plain fields, for JSON. Fields that a decision does not fill are null."""
        return {
            "kind": self.kind, "status": self.status, "who": self.who, "says": self.line(), "grounds": self.grounds,
            "answer": self.answer, "numbers": self.numbers(), "rounded": self.is_rounded, "search": self.search or None,
            "race": self.race and {"order": [list(move) for move in self.race.order], "replayed": self.race.replayed},
            "mended": self.mended and self.mended.decode("ascii"), "lack": self.lack and self.lack.fields(),
            "seconds": round(self.seconds, 3),
        }
