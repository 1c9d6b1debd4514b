"""From a refusal to a decision. First racecheck; then racefill on the split without its after-maps, and other ways to mend it, of
which racecheck accepts one or none; only then the search for a race, which racereplay confirms. Nothing is written."""
import time
from typing import NamedTuple

from explanation import report
from explanation.filling import is_for_filling
from explanation.findings import explain
from explanation.formatting import grouped
from explanation.refusals import PROGRAM, REFUSALS, SPLIT
from explanation.running import CHECKING, FILLING, REPLAYING, find_program, run_in
from explanation.sheets import steps_of
from interpreter.machine import Machine
from interpreter.program import Steps
from races.budget import Limits
from races.confirming import Replay
from races.looking import DISAGREES, FAULTY, NONE, RACE, look

from .decision import Decision, Race
from .lacking import is_rounded, lack_of, lacking
from .mending import Mending


# Nothing tells a split that is wrong from a job that is safe for a reason which the rules do not see.
OTHERWISE = "If the solver finds no other split either, the owner of the program has to write the job more plainly."


class Programs(NamedTuple):
    """The proved programs, as files that can be run."""

    racecheck: str
    racefill: str
    racereplay: str


def found_programs():
    return Programs(*map(find_program, (CHECKING, FILLING, REPLAYING)))


def decide(folder, programs=None, limits=Limits(), watch=None):
    """The decision on a folder's pair. `watch` is told how many states are searched and how many seconds are left."""
    begun = time.monotonic()
    decision = _Pair(folder, programs or found_programs(), limits, watch).decision()
    return decision._replace(seconds=time.monotonic() - begun)


class _Pair:
    def __init__(self, folder, programs, limits, watch):
        self.folder, self.programs, self.limits, self.watch = folder, programs, limits, watch
        self.run = run_in(programs.racecheck, folder)
        self.explanation = explain(self.run, folder)

    def decision(self):
        """By racecheck's answer alone, if that is enough."""
        explanation = self.explanation
        if explanation.disagrees:
            return self._of("disagreement", report.told(explanation))
        if self.run.answer in ("UNREAD", "FAILED") or explanation.unseen:
            return self._of("unread" if self.run.answer == "UNREAD" else "failed", report.told(explanation)[2:])
        if self.run.answer == "ACCEPT":
            return self._of("accepted", [])
        self.program, self.split = self.run.sheets[PROGRAM], self.run.sheets[SPLIT]
        self.is_filling = explanation.site is None and is_for_filling(self.program, self.split)
        if explanation.site is None and not (self.is_filling and _is_of_split(explanation)):
            return self._malformed(explanation)
        return self._mended()

    def _of(self, kind, grounds, **more):
        return Decision(kind, self.run.answer, grounds, **more)

    def _malformed(self, explanation):
        return self._of("split-malformed" if _is_of_split(explanation) else "program-malformed", report.finding(explanation))

    # ---- The split mended

    def _mended(self):
        mending = Mending(self.programs, self.run, self.folder, self.is_filling)
        if mending.filled.disagrees:
            return self._of("disagreement", report.told(mending.filled))
        if mending.is_malformed():
            return self._malformed(mending.filled)
        for mended in mending.ways():
            if mended.objection:
                return self._of("disagreement", [mended.objection])
            return self._accepted_as(mended)
        return self._searched(lacking(mending.filled))

    def _accepted_as(self, mended):
        grounds = [f"racecheck accepts the mended split, which is the given one save for this: {mended.changes}."]
        lack = lack_of(self.explanation)
        is_few = mended.kind == "rows" and lack is not None and is_rounded(lack.missing, lack.of)
        if is_few:
            grounds.append(f"What is off is {grouped(lack.missing)} in {grouped(lack.of)}: the rows look rounded.")
        if not self.is_filling:
            grounds += ["", "What is refused in the given one:", *report.finding(self.explanation)]
        return self._of(mended.kind, grounds, mended=mended.text, is_rounded=is_few)

    # ---- The job itself

    def _searched(self, lacks):
        machine, replay = Machine(Steps(steps_of(self.program))), Replay(self.program.text, self.programs.racereplay)
        looked = look(machine, self.explanation.names, replay, self.limits, self.watch)
        search = "all" if looked.found.whole() else "limits" if looked.found.limited else "room"
        if looked.status() == DISAGREES:
            return self._of("disagreement", looked.lines(), search=search)
        if looked.status() == FAULTY:
            kind = "races" if looked.kind is RACE else "gets-stuck"
            return self._of(kind, looked.lines(), race=Race(looked.shown.order, looked.replayed), search=search)
        kind = lacks.kind if looked.status() == NONE and lacks.kind else "undecided"
        grounds = [*lacks.lines, "", *looked.lines(), *([OTHERWISE] if kind != "undecided" else [])]
        return self._of(kind, grounds, lack=lacks.lack, is_rounded=lacks.is_rounded, search=search)


def _is_of_split(explanation):
    """Whether a malformed sheet is the split. 10 and 20 name no line of a sheet."""
    return REFUSALS[explanation.number].sheet == SPLIT or explanation.number == 20
