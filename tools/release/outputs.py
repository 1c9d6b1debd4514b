"""What check-release writes: the report, the files beside it, and the folder of pages. What cannot be written is told, and all else
is written."""
import os
import shutil
from contextlib import suppress
from typing import NamedTuple

from common.command import Failure
from common.writing import Output, approve, is_device, write

from explanation.formatting import visible

from .fields import as_json
from .junit import as_junit
from .report import report

USUAL = "release-report{}.txt"
# The files beside the report: by option, what each is called, what it begins with and how it is made.
BESIDE = {
    "--json": ("JSON", b'{"format": ', as_json),
    "--junit": ("JUnit file", b'<?xml version="1.0" encoding="UTF-8"?>\n<testsuite name="racecheck"', as_junit)}


class Outputs(NamedTuple):
    """The files that are to be written, which is known to be allowed."""

    report: Output
    beside: dict
    pages: str  # the folder for a folder of pages; empty if none are wanted

    def writes(self, release):
        """Each file's path, and what writes it."""
        text = "".join(f"{line}\n" for line in report(release)).encode()
        yield self.report.path, lambda: write(self.report, text)
        for option, output in self.beside.items():
            made = BESIDE[option][2]
            yield output.path, lambda output=output, made=made: write(output, made(release).encode())


def outputs_of(report_path, given, folder):
    """What is asked for. Without a name the report takes one that is free."""
    asked = Output("report", report_path, b"record\t") if report_path else Output("report", free(USUAL))
    beside = {option: Output(BESIDE[option][0], given[option], BESIDE[option][1]) for option in BESIDE if option in given}
    approve([asked, *beside.values()], [given[option] for option in ("--manifest", "--against") if option in given])
    for output in (asked, *beside.values()):
        if not is_device(output.path) and os.path.dirname(os.path.realpath(output.path)) != os.path.realpath(folder):
            _require_outside(output.path, folder, output.what)
    pages = given.get("--page", "")
    if pages:
        _require_folder(pages, folder)
    return Outputs(asked, beside, pages)


def free(pattern):
    """The first name that nothing has: without a number, then with 2 and so on."""
    number = 1
    while os.path.lexists(name := pattern.format("" if number == 1 else f"-{number}")):
        number += 1
    return name


def _require_outside(path, folder, what):
    if os.path.join(os.path.realpath(path), "").startswith(os.path.join(os.path.realpath(folder), "")):
        raise Failure(f"the {what} would be written into a pair's folder, or as one: {visible(path)}")


def _require_folder(pages, folder):
    """A folder that can be written in, or can be made, and is no pair of the release, today or tomorrow."""
    _require_outside(pages, folder, "page")
    if os.path.lexists(pages) and not os.path.isdir(pages):
        raise Failure(f"--page wants a folder, and this is none: {visible(pages)}")
    place = pages if os.path.isdir(pages) else os.path.dirname(os.path.abspath(pages))
    if not os.path.isdir(place) or not os.access(place, os.W_OK | os.X_OK):
        raise Failure(f"no folder to make the pages in: {visible(pages)}")


class PageFolder:
    """A folder of pages under way. It is filled beside an empty one of its name, whose place it takes once it is whole; one that is
    there is never written over."""

    def __init__(self, place, date):
        self.place, self.name = place, f"release-{date[:19].replace(':', '').replace('T', '-')}{{}}"
        self.path = os.path.join(place, f".release.{os.getpid()}") if place else ""

    def __enter__(self):
        if self.place:
            os.makedirs(os.path.join(self.path, "pairs"))
            self.final = free(os.path.join(os.path.realpath(self.place), self.name))
            os.mkdir(self.final)
        return self

    def index(self):
        """Where the page of the release will be."""
        return os.path.join(self.final, "index.html")

    def finish(self):
        os.rename(self.path, self.final)

    def __exit__(self, *_):
        if self.place:
            shutil.rmtree(self.path, ignore_errors=True)
            with suppress(OSError):  # it is not empty if it is finished
                os.rmdir(self.final)
