"""tools/draw-faults: draws pairs with a fault, has the proved programs answer for each, and only then makes the folder."""
import os
import re
import shutil
import tempfile
from pathlib import Path
from typing import NamedTuple

from common.command import Failure, options, say, take, tell
from common.files import NAMES, PROGRAM, SPLIT

from explanation.findings import explain
from explanation.formatting import visible
from explanation.names import read_names
from explanation.running import CHECKING, find_program, run_in
from explanation.sheets import read_sheet, steps_of
from interpreter.machine import Machine
from interpreter.program import Steps
from orders.witness import Disagreement, witness
from races.confirming import Replay
from races.endings import Race
from races.orders import trace_text
from races.report import alarm

from . import pages
from .draw import SEEDS, Draw
from .kinds import JOB, Drill, drills

QUESTIONS, ANSWERS, RACE = "questions.html", "answers.html", "race.txt"


class Judged(NamedTuple):
    """A drill with what the proved programs say of it."""

    drill: Drill
    answer: str  # racecheck's line on the pair
    meaning: str
    place: list
    race: str = ""  # who meets over what, in a sentence
    replayed: str = ""  # racereplay's line on an order that races


def main(arguments):
    _, others = options(arguments)
    seed, folder = take(others, "SEED", "FOLDER")
    if not re.fullmatch("0|[1-9][0-9]{0,9}", seed) or int(seed) >= SEEDS:
        raise Failure(f"a seed is a number from 0 to {SEEDS - 1}, without leading zeros: {visible(seed)}")
    if os.path.lexists(folder):
        raise Failure(f"{visible(folder)} is there already and is left as it is; name a folder that is not there yet")
    with tempfile.TemporaryDirectory() as scratch:
        try:
            count = _make(seed, Path(scratch) / "lesson")
        except Disagreement as objection:
            say("draw-faults: DISAGREEMENT with the proved programs, see above")
            tell([f"{visible(folder)}: no drills are made.", *alarm(objection)])
            return 3
        try:
            shutil.copytree(Path(scratch) / "lesson", folder)
        except OSError as error:
            raise Failure(f"cannot make {visible(folder)}: {error.strerror or 'not every file could be written'}") from error
    tell([f"{visible(folder)}: {count} pairs with a fault each, drawn from seed {seed}.",
          f"To hand out: {QUESTIONS} and the folders 1 to {count}. To keep: {ANSWERS} and the folder answers."])
    return 0


def _make(seed, folder):
    """Writes all that there is to a new folder. How many pairs there are."""
    judged = []
    for number, drill in enumerate(drills(Draw(int(seed))), 1):
        pair, mended = folder / str(number), folder / "answers" / str(number)
        _write_pair(pair, drill.pair)
        _write_pair(mended, drill.mended)
        judged.append(_judged(drill, pair, mended))
    (folder / QUESTIONS).write_text(pages.questions(seed, len(judged)), encoding="utf-8")
    (folder / ANSWERS).write_text(pages.answers(seed, judged), encoding="utf-8")
    return len(judged)


def _write_pair(folder, sheets):
    folder.mkdir(parents=True)
    for name, text in ((PROGRAM, sheets.program()), (SPLIT, sheets.split()), (NAMES, sheets.names())):
        (folder / name).write_text(text, encoding="utf-8")


def _judged(drill, pair, mended):
    """Has the proved programs bear a drill out: the pair is refused, the mended one accepted, and the job races or is the same."""
    told, after = _explained(pair), _explained(mended).answer
    _require(after == "ACCEPT", f"racecheck says {after} of a mended pair")
    _require(told.answer.startswith("REFUSE,"), f"racecheck says {told.answer} of a pair with a fault")
    judged = Judged(drill, told.answer, told.meaning, told.place)
    if drill.at_fault != JOB:
        _require((pair / PROGRAM).read_bytes() == (mended / PROGRAM).read_bytes(), "a split is at fault, and the job was mended")
        return judged
    program = read_sheet(str(pair), PROGRAM)
    found = witness(Machine(Steps(steps_of(program))), read_names(str(pair)), Replay(program.text))
    _require(found.shown is not None, f"a job is at fault, and {found.words}")
    (mended / RACE).write_text(trace_text(found.shown.order), encoding="ascii")
    return judged._replace(race=Race(found.shown).sentence(), replayed=found.line)


def _explained(folder):
    run = run_in(find_program(CHECKING), str(folder))
    explanation = explain(run, str(folder))
    _require(not explanation.disagrees, f"racecheck says {run.answer}, and the numbers here say something else")
    return explanation


def _require(holds, objection):
    if not holds:
        raise Disagreement(objection)
