"""By what a release is judged: the library, which each process of the tool calls, or the program racecheck, run for each pair."""
import os

from common.command import Failure, say

from explanation.formatting import visible
from explanation.running import CHECKING, Run, find_program, run_in
from racecheck import Library, NoLibrary, find_library
from racecheck.finding import VARIABLE, is_stale


class ByLibrary:
    """One process a worker: the sheets are handed to racecheck_check."""

    words = "the library, called by each process of check-release"
    kind = "library"

    def __init__(self, library):
        self.path, self._library = library.path, library

    def answer(self, folder, files):
        """racecheck's answer to the bytes of two sheets. UNREAD is what the program answers where one cannot be read."""
        if None in files:
            return Run("UNREAD", None)
        program, split = files
        return Run(str(self._library.check(program.text, split.text)), None)


class ByProgram:
    """One process a pair: the program reads the sheets by itself."""

    words = "the program, run for each pair"
    kind = "program"

    def __init__(self, path):
        self.path = path

    def answer(self, folder, files):
        return run_in(self.path, folder)


def find_judge():
    """The program that RACECHECK names; else the library, if there is one; else the program as it is found."""
    if not os.environ.get(CHECKING.upper()):
        if is_stale():
            say("check-release: the library is older than the archive it is made of, and is not used: tools/install --library")
        path = find_library()
        if path:
            try:
                return ByLibrary(Library(path))
            except NoLibrary as error:
                if os.environ.get(VARIABLE):
                    raise Failure(f"{VARIABLE} names a library that cannot be used: {visible(path)}: {error}") from error
                say(f"check-release: {visible(path)} cannot be used, so the program judges: {error}")
    return ByProgram(find_program(CHECKING))
