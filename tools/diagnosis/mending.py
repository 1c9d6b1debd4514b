"""Ways to mend a split, each tried with racefill and racecheck. A sheet that racecheck accepts proves the job safe.

The after-maps are left to racefill, which finds the greatest. If none help, D may be wrong, or the start. Of all D the least that
the start allows asks least of a `write`, so no other has to be tried; of all starts a whole of each location has the most.
"""
import os
import tempfile
from typing import NamedTuple

from common.command import Failure
from common.writing import replace

from explanation.findings import explain
from explanation.formatting import grouped
from explanation.refusals import PROGRAM, SPLIT
from explanation.running import CHECKING, FILLING, run_in
from explanation.sheets import counts_of

from .parts import Parts

NO_ROOM = (42, 43)  # the answers of racefill that fewer maps may help
NO_MAPS = (30, 41)  # those that another D or another start may help


class Mended(NamedTuple):
    """A sheet that mends a split."""

    kind: str  # of decision
    text: bytes
    changes: str  # what is other than in the given one
    objection: str = ""  # what racecheck says if it does not accept it


class Mending:
    """A pair whose program sheet is well formed, and whose split is too, or has its after-maps left empty."""

    def __init__(self, programs, run, folder, is_for_filling):
        self._programs, self._folder, self._is_for_filling = programs, folder, is_for_filling
        self._program, self._split = run.sheets[PROGRAM], run.sheets[SPLIT]
        self._run, self.filled = self._fill_as_given()

    def is_malformed(self):
        """Whether racefill finds a sheet for filling malformed."""
        return self._is_for_filling and self.filled.site is None and self.filled.number not in (0, *NO_MAPS, *NO_ROOM)

    def ways(self):
        """Each way in turn by which the split might be mended."""
        if self._run.answer == "FILLED":
            yield self._judged("unfilled" if self._is_for_filling else "rows", self._run.written, "the after-maps")
        elif self.filled.number in NO_MAPS:
            yield from filter(None, (self._with_another_denominator(), self._with_whole_start()))

    def _with_another_denominator(self):
        parts = self._parts()
        old, new = parts.denominator(), max(1, *parts.start())
        if new == old:
            return None
        parts.divide_by(new)
        changes = f"D is {grouped(new)}, not {grouped(old)}"
        if not self._is_for_filling and self._answer_to(parts.text()) == "ACCEPT":
            return Mended("denominator", parts.text(), changes)
        return self._refilled("denominator", parts, changes)

    def _with_whole_start(self):
        parts = self._parts()
        whole = [parts.denominator()] * len(parts.start())
        if parts.start() == whole:
            return None
        parts.begin_with(whole)
        return self._refilled("start", parts, "the start is a whole of each location")

    def _refilled(self, kind, parts, changes):
        run, _ = self._fill(parts)
        return self._judged(kind, run.written, f"{changes}, and the after-maps") if run.answer == "FILLED" else None

    # ---- The proved programs

    def _parts(self):
        return Parts(self._split, counts_of(self._program).procedures)

    def _fill_as_given(self):
        """A sheet for filling may be malformed otherwise, so it is not taken apart."""
        if not self._is_for_filling:
            return self._fill(self._parts())
        head, _, rest = self._split.text.partition(b"\n")
        run = self._answered(FILLING, (b"C2" + head[1:] + b",0" if head.startswith(b"C,") else head) + b"\n" + rest)
        return run, explain(run, self._folder)

    def _fill(self, parts):
        """racefill on a split without its after-maps, and what is to be known of its answer. Where there is no room for more maps,
        those that nothing names go."""
        parts.leave_maps_empty()
        run = self._answered(FILLING, parts.text())
        if run.answer.startswith("REFUSE") and run.numbers()[0] in NO_ROOM:
            parts.drop_spare_maps()
            run = self._answered(FILLING, parts.text())
        return run, explain(run, self._folder)

    def _judged(self, kind, text, changes):
        answer = self._answer_to(text)
        return Mended(kind, text, changes, "" if answer == "ACCEPT" else f"racefill fills the split, and racecheck says {answer}")

    def _answer_to(self, text):
        return self._answered(CHECKING, text).answer

    def _answered(self, program, split):
        """A program's run on the job with another split, in a folder of its own."""
        with tempfile.TemporaryDirectory() as scratch:
            for name, text in ((PROGRAM, self._program.text), (SPLIT, split)):
                replace(os.path.join(scratch, name), text)
            run = run_in(getattr(self._programs, program), scratch, program)
        if run.answer in ("UNREAD", "FAILED"):
            raise Failure(f"{program} gives no answer: {run.failure or run.answer}")
        return run._replace(changed=())
