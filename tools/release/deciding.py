"""What is wrong with a refused pair and who acts, as tools/triage decides it, and the files that go with that."""
import os
import re
from typing import NamedTuple

from common.command import Failure, fault
from common.writing import replace

from diagnosis.deciding import decide, found_programs
from explanation.drawing import page as pair_page
from explanation.findings import explain
from explanation.formatting import visible
from explanation.sheets import steps_of
from interpreter.machine import Machine
from interpreter.program import Steps
from races.budget import Limits
from races.drawing import page as race_page
from races.looking import RACE
from races.orders import trace_text
from races.short_order import ShortOrder

from .entries import DISAGREEMENT
from .reading import Unfit, read_pair

LETTERS = 40  # of a pair's name in the names of its files


class Deciding(NamedTuple):
    """How refused pairs are decided on."""

    release: str  # its real path
    judge: object
    programs: object  # those that decide; None if no decision is wanted
    seconds: float  # that the search for a race in a pair may take
    folder: str = ""  # where pages are put; empty if none are wanted

    def decided(self, task):
        """A pair's entry, which comes with its number, with the decision and its pages. What goes wrong is told; the answer stays."""
        number, entry = task
        folder = os.path.join(self.release, entry.name)
        try:
            entry = self._with_decision(entry, folder) if self.programs and entry.kind() == "REFUSE" else entry
            return entry._replace(pages=tuple(self._pages(number, entry, folder))) if self.folder else entry
        except (Failure, Unfit) as error:
            return entry._replace(details=(*entry.details, f"no decision or page: {error}"))
        except Exception as error:  # a fault of the tools is told and stops nothing
            return entry._replace(details=(*entry.details, f"no decision or page, by a fault of check-release: {fault(error)}"))

    def _with_decision(self, entry, folder):
        decision = decide(folder, self.programs, Limits(seconds=self.seconds))
        if decision.answer != entry.answer:
            parts = f"the {self.judge.kind} answered {entry.answer}, {self.programs.racecheck} {decision.answer}"
            return entry._replace(details=(f"*** {DISAGREEMENT}: {parts} ***", *entry.details), alarming=True)
        return entry._replace(decision=decision, alarming=decision.kind == "disagreement")

    # ---- Its files

    def _pages(self, number, entry, folder):
        """What each is called, and its name."""
        stem = f"{number}-{re.sub('[^A-Za-z0-9._-]+', '-', entry.name)[:LETTERS]}"
        for what, end, text in self._texts(entry, folder):
            name = f"pairs/{stem}-{end}"
            replace(os.path.join(self.folder, name), text)
            yield what, name

    def _texts(self, entry, folder):
        title, decision = visible(entry.name), entry.decision
        files = read_pair(folder, self.release)
        run = self.judge.answer(folder, files)
        run = run if run.sheets else run._replace(sheets={file.name: file.sheet() for file in files})
        explanation = explain(run, folder)
        yield "the pair, with its picture", "pair.html", pair_page.text(title, explanation).encode("utf-8", "replace")
        if decision and decision.race:
            if decision.kind == "races":
                yield "the race, step by step", "race.html", _drawn(title, decision.race, files[0], explanation.names)
            yield "the order, for racereplay", "order.txt", trace_text(decision.race.order).encode()
        if decision and decision.mended:
            yield "a mended split, which is accepted", "mended.txt", decision.mended


def _drawn(title, race, program, names):
    """The page of a race that racereplay has reported."""
    shown = ShortOrder(Machine(Steps(steps_of(program.sheet()))), names, race.order, RACE.ending.shows)
    return race_page.text(title, shown, RACE.ending(shown), RACE.borne_out.format(race.replayed)).encode("utf-8", "replace")
