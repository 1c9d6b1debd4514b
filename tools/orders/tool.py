"""tools/try-orders: gathers what a job's page needs, has the proved programs judge it, and writes the page."""
import os
from typing import NamedTuple

from common.command import Failure, options, say, take, tell
from common.files import PROGRAM, SPLIT, TRACE, files_of
from common.writing import Output, approve, write

from explanation.formatting import visible
from explanation.forms import TRACE_BYTES
from explanation.names import Names, read_names
from explanation.replays import order_of
from explanation.running import CHECKING, find_program, run_in
from explanation.sheets import read_sheet, sheet_of, steps_of
from interpreter.machine import Machine
from interpreter.program import Steps
from races.confirming import Replay
from races.report import alarm

from . import page
from .witness import Disagreement, witness

PAGE = "step.html"


class Job(NamedTuple):
    """What a page is made of."""

    program: bytes
    names: Names
    trace: bytes  # the recorded order; None if there is none
    answer: str  # racereplay's line on it
    verdict: str  # what is known of the job's orders, in a sentence
    quiz: dict  # an order that races, which racereplay has confirmed, veiled, and its switches of thread; None if there is none
    source: str  # where the recorded order comes from, in a sentence


class Malformed(Exception):
    """racereplay's refusal of a program sheet."""


def main(arguments):
    given, folders = options(arguments, valued=["--page", "--trace"])
    folder = take(folders, "FOLDER", least=0)[0] or os.curdir
    if not os.path.isdir(folder):
        raise Failure(f"no such folder: {visible(folder)}")
    output = Output("page", given.get("--page") or os.path.join(folder, PAGE), page.BEGINS)
    approve([output], [*files_of(folder), *filter(None, [given.get("--trace")])])
    try:
        text, lines = page_of(folder, given.get("--trace"))
    except Malformed as refusal:
        tell([f"{visible(folder)}: {refusal}", "The program sheet is not well formed; docs/REFUSALS.md tells what that means."])
        return 2
    except Disagreement as objection:
        say("try-orders: DISAGREEMENT with racereplay, see above")
        tell([f"{visible(folder)}: no page is written.", *alarm(objection)])
        return 3
    write(output, text)
    tell([f"{visible(folder)}: the page is {visible(output.path)}; open it in a browser.", *lines])
    return 0


def page_of(folder, asked=None):
    """The page of a folder's job with its recorded order, or with the one asked for; and what is to be said of it."""
    program, names = read_sheet(folder, PROGRAM), read_names(folder)
    if program is None:
        raise Failure(f"no {PROGRAM} that can be read in {visible(folder)}")
    replay = Replay(program.text)
    answer = replay.answer([])  # it judges the program sheet before the trace
    if answer.startswith("REFUSE,"):
        raise Malformed(answer)
    if answer != "RAN,0":
        raise Failure(f"racereplay says {answer}")
    job, lines = _job(folder, program, names, replay, asked)
    title = visible(os.path.basename(os.path.abspath(folder)))
    return page.text(title, job).encode("utf-8", "replace"), [*lines, *names.passed_over]


def _job(folder, program, names, replay, asked):
    trace, told = _trace(folder, asked), []
    answer, source = "", "There is no recorded order in this page."
    if trace is not None:
        answer = replay.answer_to(trace)
        _require(answer, order_of(program, sheet_of(TRACE, trace), names).line())
        source = f"racereplay, which is proved, says {answer} of the recorded order in this page."
        told += [f"Its recorded order: racereplay says {answer}."]
    verdict, quiz = _verdict(folder, Machine(Steps(steps_of(program))), names, replay)
    return Job(program.text, names, trace, answer, verdict, quiz, source), [*told, verdict]


def _require(answer, here):
    if answer != here:
        raise Disagreement(f"racereplay says {answer}, and the steps taken here come to {here}")


def _trace(folder, asked):
    """The recorded order; None if there is none."""
    file = asked or os.path.join(folder, TRACE)
    if not asked and not os.path.lexists(file):
        return None
    if not os.path.isfile(file):
        raise Failure(f"no recorded order that can be read: {visible(file)}")
    with open(file, "rb") as opened:
        text = opened.read(TRACE_BYTES + 1)
    if len(text) > TRACE_BYTES:
        raise Failure(f"the recorded order has more bytes than a page can have: {visible(file)}")
    return text


# ---- Whether it can race


def _verdict(folder, machine, names, replay):
    """What is known of the job's orders, in a sentence; and an order that races, if one is known."""
    answer = _checked(folder)
    if answer == "ACCEPT":
        return "racecheck accepts this job with its split: no order races, and that is proved.", None
    begins = f"racecheck refuses this pair ({answer})" if answer.startswith("REFUSE") else "No split of this job was judged here"
    sought = witness(machine, names, replay)
    if sought.shown is None:
        return f"{begins}; {sought.words}.", None
    quiz = {"veiled": page.veiled(sought.shown.order), "switches": sought.shown.switches(), "fewest": sought.shown.fewest}
    return f"{begins}, and {sought.words}.", quiz


def _checked(folder):
    """racecheck's line on the pair; empty without a split or without racecheck."""
    if not os.path.isfile(os.path.join(folder, SPLIT)):
        return ""
    try:
        return run_in(find_program(CHECKING), folder).answer
    except Failure:
        return ""
