"""tools/check-release: every pair of a release, some at once."""
import os

from common.command import Failure, Usage, options, say, take, tell

from explanation.formatting import visible

from .against import changes, read_older
from .checking import checked, decided
from .entries import DISAGREEMENT
from .judges import find_judge
from .manifest import names_in
from .outputs import BESIDE, PageFolder, outputs_of
from .pairs import pairs_of
from .record import NAMED, record_of, second_look
from .report import Release, terminal_lines
from .workers import when_told_to_end

USUAL_SECONDS = 5.0


def main(arguments):
    valued = [*BESIDE, *NAMED, "--page", "--decide"]
    given, others = options(arguments, flags=["--recheck", "--no-recheck"], valued=valued)
    folder, asked = take(others, "FOLDER", "REPORT", least=1)
    when_told_to_end(_stopped)
    seconds = _seconds(given)
    outputs = outputs_of(asked or "", given, folder)
    must_have = names_in(given["--manifest"]) if "--manifest" in given else None
    older = read_older(given["--against"]) if "--against" in given else None
    names, judge = pairs_of(folder, must_have or set()), find_judge()
    record = record_of(judge, folder, given)
    with PageFolder(outputs.pages, record["date"]) as pages:
        record.update({"page": visible(pages.index())} if pages.path else {})
        release = _judged(judge, folder, names, "--no-recheck" not in given, record)
        release = _decided_on(release, judge, folder, seconds, pages)
        release = _beside_lists(release, folder, must_have, older)
        return _told(release, outputs, pages)


def _seconds(given):
    try:
        return max(0.0, float(given.get("--decide", USUAL_SECONDS)))
    except ValueError:
        raise Usage("--decide wants a number of seconds") from None


def _stopped(_number, _frame):
    raise Failure("stopped; nothing is written, and an older report is as it was")


# ---- What there is to tell


def _judged(judge, folder, names, recheck, record):
    entries = checked(judge, os.path.realpath(folder), names, recheck)
    return Release({**record, "second look": second_look(entries, recheck)}, entries)


def _decided_on(release, judge, folder, seconds, pages):
    """The refused pairs with their decisions and pages. What that takes is loaded where there are some."""
    release.record["decisions"] = f"up to {seconds:g} seconds of search a pair" if seconds else "none"
    if not (seconds or pages.path) or not any(one.answer.startswith("REFUSE") for one in release.entries):
        return release
    from .deciding import Deciding, found_programs

    programs = None
    if seconds:
        try:
            programs = found_programs()
        except Failure as error:  # what is judged is worth more than the decisions
            release.record["decisions"] = f"none: {error}"
            say(f"check-release: no decisions: {error}")
    deciding = Deciding(os.path.realpath(folder), judge, programs, seconds, pages.path)
    return release._replace(entries=decided(deciding, release.entries)) if programs or pages.path else release


def _beside_lists(release, folder, must_have, older):
    """What the release is held against: the manifest, and an older report."""
    if must_have is not None:
        present = [one.name for one in release.entries if os.path.lexists(os.path.join(folder, one.name))]
        missing = [one.name for one in release.entries if one.name not in set(present)]
        release = release._replace(missing=missing, unnamed=[name for name in present if name not in must_have])
    return release if older is None else release._replace(changes=changes(older, release.entries))


# ---- Telling it


def _told(release, outputs, pages):
    """Tells and writes all there is. What cannot be written stops nothing else, and makes the status 2."""
    for kind, words in (("FAILED", "no answer for"), (DISAGREEMENT, f"{DISAGREEMENT} on")):
        count = sum(one.kind() == kind for one in release.entries)
        if count:
            say(f"check-release: {words} {count} of {len(release.entries)} pairs")
    written, faults = [], []
    steps = [("", lambda: tell(terminal_lines(release))), *outputs.writes(release)]
    if pages.path:
        steps.append((outputs.pages, lambda: _write_page(release, pages, written)))
    for path, step in steps:
        try:
            step()
            written += [os.path.realpath(path)] if path and path != outputs.pages else []
        except BrokenPipeError:  # whoever reads has seen enough, as head has
            pass
        except (Failure, OSError) as error:
            faults.append(str(error))
    for words in faults:
        say(f"check-release: {words}")
    say(f"check-release: {len(release.entries)} pairs, {', '.join(map(visible, written)) or 'nothing'} written")
    return 2 if faults else status_of(release)


def _write_page(release, pages, written):
    from .drawing.page import write_page

    write_page(pages.path, release)
    pages.finish()
    written.append(pages.index())


def status_of(release):
    """0 if all is well, 1 if not, 2 if some have no answer that stands. Beside an older report, whether anything got worse."""
    kinds = {one.kind() for one in release.entries}
    if DISAGREEMENT in kinds:
        return 2
    if release.changes:
        return 1 if release.changes.worse() else 0
    return 2 if kinds & {"UNREAD", "FAILED"} else 1 if "REFUSE" in kinds else 0
