"""tools/show-race: looks for an order with a race, has racereplay run it, and only then tells it."""
import os
import sys

from common.command import Failure, Usage, options, say, take, tell
from common.files import PROGRAM, SHEETS, files_of
from common.writing import Output, approve, write

from explanation.drawing.foot import foot
from explanation.formatting import visible
from explanation.names import read_names
from explanation.running import REPLAYING, find_program
from explanation.sheets import read_sheet, steps_of
from interpreter.machine import Machine
from interpreter.program import Steps

from .budget import Limits
from .confirming import Replay
from .drawing import page
from .looking import look
from .orders import trace_text
from .wording import counted

NUMBERS = {"--states": int, "--seconds": float}
# What the file behind an option is called, and what such a file begins with.
FILES = {"--trace": ("order", b""), "--page": ("page", page.BEGINS)}
PROGRESS = 60  # letters, more than a line that tells how far a search is


def main(arguments):
    given, folders = options(arguments, valued=[*NUMBERS, *FILES])
    folder, limits = take(folders, "FOLDER", least=0)[0] or os.curdir, limits_of(given)
    if not os.path.isdir(folder):
        raise Failure(f"no such folder: {visible(folder)}")
    job = Job(folder, given, limits)
    answer = job.replay.answer([])  # it judges the program sheet before the trace
    if answer.startswith("REFUSE,"):
        tell([f"{visible(folder)}: {answer}", "The program sheet is not well formed; docs/REFUSALS.md tells what that means."])
        return 2
    if answer != "RAN,0":
        raise Failure(f"racereplay says {answer}")
    return job.show()


def limits_of(given):
    try:
        return Limits(**{option.strip("-"): number(given[option]) for option, number in NUMBERS.items() if option in given})
    except ValueError as error:
        raise Usage(f"--states and --seconds want a number: {error}") from error


def watched(search):
    """What a search finds. How far it is stands in a line on a terminal, which is gone afterwards; elsewhere nothing is said."""
    if not sys.stderr.isatty():
        return search(None)
    found = search(lambda states, left: say(f"\r{counted(states, 'state')} searched, {left:.0f} s left ", end=""))
    say("\r" + " " * PROGRESS + "\r", end="")
    return found


class Job:
    """A job, and where what is found of it goes."""

    def __init__(self, folder, given, limits):
        self.folder, self.given, self.limits = folder, given, limits
        self.program, self.names = read_sheet(folder, PROGRAM), read_names(folder)
        if self.program is None:
            raise Failure(f"no {PROGRAM} that can be read in {visible(folder)}")
        self.files = {option: Output(what, given[option], begins) for option, (what, begins) in FILES.items() if option in given}
        approve(list(self.files.values()), files_of(folder, SHEETS))
        self.replay = Replay(self.program.text)

    def show(self):
        """Searches the job and tells what was found. The status."""
        looked = watched(lambda watch: look(Machine(Steps(steps_of(self.program))), self.names, self.replay, self.limits, watch))
        first, *rest = looked.lines()
        if looked.kind is not None:
            rest.append(self.write_trace(looked.shown.order))
        elif "--page" in self.given:
            rest.append("There is nothing to draw, so no page is written.")
        tell([f"{visible(self.folder)}: {first}", *rest])
        if looked.objection:
            say("show-race: DISAGREEMENT with racereplay, see above")
        if looked.is_told() and "--page" in self.given:
            title = visible(os.path.basename(os.path.abspath(self.folder)))
            made = foot(page.TOOL, find_program(REPLAYING), [self.program])
            drawn = page.text(title, looked.shown, looked.ending(), looked.borne_out(), made)
            write(self.files["--page"], drawn.encode("utf-8", "replace"))
        return looked.status()

    def write_trace(self, order):
        """Where the order is, in words. It is written if that was asked for: a folder's trace.txt is the bench's."""
        if "--trace" not in self.files:
            return "--trace FILE writes this order, as racereplay reads it."
        try:
            write(self.files["--trace"], trace_text(order).encode())
        except Failure as error:  # what was found is worth more than the file
            return f"The order is in no file: {error}; --trace FILE writes it elsewhere."
        return f"The order is in {visible(self.given['--trace'])}, as racereplay reads it."
