"""tools/fill: a sheet filled in by racefill, checked by racecheck, and only then put into place."""
import os
import shutil
import tempfile

from common.command import Failure, options, say, take, tell
from common.files import NAMES, PROGRAM, SPLIT
from common.writing import replace

from . import report
from .findings import explain
from .formatting import grouped, visible
from .running import CHECKING, FILLING, find_program, run_in

KEPT = "split-to-fill"


def main(arguments):
    _, folders = options(arguments)
    folder, new = take(folders, "FOLDER", "NEWFOLDER", least=1)
    if not os.path.isdir(folder):
        raise Failure(f"no such folder: {visible(folder)}")
    if new is not None and os.path.lexists(new):
        raise Failure(f"{visible(new)} is there already and is left as it is: give a folder that is not there yet")
    run = run_in(find_program(FILLING), folder, FILLING)
    explanation = explain(run, folder)
    if run.answer != "FILLED" or explanation.disagrees or explanation.unseen:
        return _refused(folder, explanation)
    answer = checked(run, folder)
    if answer != "ACCEPT":
        tell([f"{visible(folder)}: racefill: filled", f"racecheck: {answer}"])
        say("fill: DISAGREEMENT of racefill and racecheck; nothing is written; hand this pair to their owners")
        return 3
    kept = _put_beside(run, folder) if new is None else _put_into(run, folder, new)
    steps = len(explanation.sites.split.rows)
    tell([f"{visible(new or folder)}: racefill: filled, {grouped(steps)} maps", f"racecheck: {answer}", kept])
    return 0


def _refused(folder, explanation):
    lines = report.told(explanation)
    tell([f"{visible(folder)}: racefill: {lines[0]}", *lines[1:]])
    say("fill: nothing is written")
    if explanation.disagrees:
        return 3
    return 1 if explanation.answer.startswith("REFUSE") else 2


def checked(run, folder):
    """racecheck's answer to the job and the filled sheet, in a folder of its own."""
    with tempfile.TemporaryDirectory() as scratch:
        _write_pair(run, folder, scratch)
        there = run_in(find_program(CHECKING), scratch)
        return there.answer if there.answer != "FAILED" else f"no answer: {there.failure}"


def _write_pair(run, folder, place):
    for name, text in ((PROGRAM, run.sheets[PROGRAM].text), (SPLIT, run.written)):
        replace(os.path.join(place, name), text)
    if os.path.isfile(os.path.join(folder, NAMES)):
        shutil.copyfile(os.path.join(folder, NAMES), os.path.join(place, NAMES))


def _put_beside(run, folder):
    """The filled sheet in the place of the given one, which is kept under another name."""
    split = os.path.realpath(os.path.join(folder, SPLIT))
    kept = _keep(split, run.sheets[SPLIT].text)
    replace(split, run.written)
    return f"the given sheet is kept as {visible(kept)}"


def _keep(split, text):
    """Writes the given sheet under the first name that is free. A link would share later changes with the file."""
    number = 1
    while True:
        name = f"{KEPT}.txt" if number == 1 else f"{KEPT}-{number}.txt"
        try:
            with open(os.path.join(os.path.dirname(split), name), "xb") as file:
                file.write(text)
            return name
        except FileExistsError:
            number += 1


def _put_into(run, folder, new):
    """A new folder, made beside and renamed into place, so that it is there whole or not at all."""
    full = os.path.abspath(new)
    beside = tempfile.mkdtemp(prefix=".fill-", dir=os.path.dirname(full))
    try:
        _write_pair(run, folder, beside)
        os.chmod(beside, 0o777 & ~_umask())
        os.rename(beside, full)
    except BaseException:
        shutil.rmtree(beside, ignore_errors=True)
        raise
    return f"{visible(folder)} is as it was"


def _umask():
    mask = os.umask(0o022)
    os.umask(mask)
    return mask
