"""tools/explain: in words the answer to a pair, that to a recorded order, or a number."""
import os

from common.command import Failure, Usage, options, say, take, tell
from common.files import PROGRAM, SPLIT, files_of
from common.writing import Output, approve, write
from orders.page import BEGINS as ORDER_BEGINS
from orders.tool import page_of
from orders.witness import Disagreement

from . import replays, report, touching, walk
from .drawing import page
from .drawing.foot import foot
from .filling import is_for_filling
from .findings import explain
from .formatting import visible
from .lookup import told_alone
from .running import CHECKING, FILLING, REPLAYING, find_program, run_in
from .sheets import read_sheet


def main(arguments):
    given, others = options(arguments, flags=["--replay", "--touches", "--walk"], valued=["--page"])
    if {"--replay", "--touches"} <= set(given):
        raise Usage("that is of a pair, not of a recorded order: --replay and --touches do not go together")
    folder, walks = take(others, "FOLDER", least=0)[0] or os.curdir, "--walk" in given
    if not os.path.isdir(folder):
        return _tell_alone(folder, given)
    begins = ORDER_BEGINS if "--replay" in given else page.BEGINS
    pages = [Output("page", given["--page"], begins)] if "--page" in given else []
    approve(pages, files_of(folder))
    is_filling = is_for_filling(read_sheet(folder, PROGRAM), read_sheet(folder, SPLIT))
    program = REPLAYING if "--replay" in given else FILLING if is_filling else CHECKING
    binary = find_program(program)
    run = run_in(binary, folder, program)
    explanation = replays.explain(run, folder, walks) if program == REPLAYING else explain(run, folder)
    lines, walked = report.told(explanation), replays.told if program == REPLAYING else walk.told
    lines += [""] + touching.told(explanation) if "--touches" in given else []
    first = f"DISAGREEMENT, {program} says {lines[0]}" if explanation.disagrees else lines[0]
    tell([f"{visible(folder)}: {first}", *lines[1:], *([""] + walked(explanation) if walks else [])])
    for words in explanation.names.passed_over:
        say(f"explain: {words}")
    if explanation.disagrees:
        say(f"explain: DISAGREEMENT with {program}, see above")
    for output in pages:
        if program == REPLAYING:
            return _write_order(output, folder, explanation)
        title = visible(os.path.basename(os.path.abspath(folder)))
        made = foot(page.TOOL, binary, (run.sheets or {}).values())
        write(output, page.text(title, explanation, made, walks).encode("utf-8", "replace"))
    return _status_of(explanation)


def _write_order(output, folder, explanation):
    """The page on which a recorded order is played, if there is one to play."""
    if explanation.disagrees or explanation.unseen or explanation.order is None:
        say("explain: there is no order to play, so no page is written")
        return _status_of(explanation)
    try:
        write(output, page_of(folder)[0])
    except Disagreement as objection:
        say(f"explain: DISAGREEMENT with racereplay, so no page is written: {objection}")
        return 3
    return _status_of(explanation)


def _tell_alone(answer, given):
    lines = told_alone(answer)
    if lines is None:
        raise Failure(f"no such folder: {visible(answer)}")
    if given:
        raise Failure("an answer alone has no walk, no page and no order: give the folder")
    tell(lines)
    return 0


def _status_of(explanation):
    if explanation.disagrees:
        return 3
    if explanation.unseen:
        return 2
    return {"ACCEPT": 0, "FILLED": 0, "RAN": 0, "UNREAD": 2, "FAILED": 2}.get(explanation.answer.split(",")[0], 1)
