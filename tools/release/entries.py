"""One pair of a release: racecheck's answer, what is wrong, and the sheets that it was about."""
import os
import time
from typing import NamedTuple

from common.command import fault

from explanation.findings import explain
from explanation.judging import judge
from explanation.refusals import REFUSALS
from explanation.report import alarm, condition_line
from explanation.running import unreachable

from .reading import Unfit, read_pair

DISAGREEMENT = "DISAGREEMENT"


class Entry(NamedTuple):
    """A pair in the report."""

    name: str
    answer: str
    details: tuple = ()  # what is wrong, a sentence a line
    alarming: bool = False  # racecheck and the arithmetic here part
    digests: tuple = ()  # the name and the SHA-256 of each sheet that was read to its end
    owner: str = ""  # who looks first
    seconds: float = 0.0  # by the clock, to read it, to judge it and to look again
    look: float = 0.0  # of processor, for the second look
    decision: object = None  # on a refused pair, by tools/triage
    pages: tuple = ()  # what it is called and the file of each page on the pair, beside that of the release

    def kind(self):
        """What it counts as: a pair on which the tools do not agree counts as nothing else."""
        return DISAGREEMENT if self.alarming else self.answer.split(",")[0]

    def numbers(self):
        """The four numbers of the answer; none if it has none."""
        return tuple(map(int, self.answer.split(",")[1:])) if self.answer.startswith("REFUSE") else ()


def entry(name, judge_by, release, recheck):
    """A pair's entry. What goes wrong in the tools is that pair's failure, not the release's. `release` is a real path."""
    begun = time.monotonic()
    try:
        made = _entry(name, judge_by, release, recheck)
    except (Unfit, OSError) as error:
        made = failed(name, getattr(error, "strerror", None) or f"{error}")
    except Exception as error:  # a fault of the tools is told and stops nothing
        made = failed(name, f"check-release failed on it by a fault of its own: {fault(error)}")
    return made._replace(seconds=time.monotonic() - begun)


def failed(name, why):
    return Entry(name, "FAILED", (f"There is no answer: {why}.",))


def _entry(name, judge_by, release, recheck):
    folder = os.path.join(release, name)
    if "\t" in name or "\n" in name:
        raise Unfit("there is a tab or a line end in its name")
    if not os.path.lexists(folder):
        raise Unfit("the manifest names it, and there is no such folder")
    why = unreachable(folder)
    if why:
        raise Unfit(why)
    files = read_pair(folder, release)
    run = judge_by.answer(folder, files)
    read = run.sheets.values() if run.sheets else files
    digests = tuple((file.name, file.digest) for file in read if file and file.digest)
    return _told(name, run, files, folder, recheck)._replace(digests=digests)


def _told(name, run, files, folder, recheck):
    if run.answer == "ACCEPT" and not recheck and not run.changed and None not in files:
        return Entry(name, run.answer)
    run = run if run.sheets else run._replace(sheets={file.name: file.sheet() for file in files if file})
    sheets, begun = run.sheets.values(), time.thread_time()
    if run.answer == "ACCEPT" and not run.changed and None not in sheets and judge(*sheets).number == 0:
        return Entry(name, run.answer, look=time.thread_time() - begun)
    explanation = explain(run, folder)
    if explanation.unseen:
        raise Unfit(f"racecheck answered {run.answer}, and {' and '.join(explanation.unseen)}")
    owner = REFUSALS[explanation.number].owner if explanation.number in REFUSALS else ""
    return Entry(name, run.answer, tuple(details(explanation)), bool(explanation.disagrees), owner=owner)


def details(explanation):
    """What is wrong with a pair: a disagreement, what the answer means, the place, the thread, the condition with its numbers, the
    likely cause."""
    meaning = f"{explanation.program} says: {explanation.meaning}" if explanation.disagrees else explanation.meaning
    lines = [*filter(None, alarm(explanation)), meaning, *explanation.place]
    if explanation.site:
        lines.append(f"taken by {explanation.names.thread(explanation.site.thread)}")
    if explanation.condition:
        lines.append(condition_line(explanation))
    return [*lines, *explanation.numbers, *(f"likely cause: {cause}" for cause in explanation.causes)]
