"""tools/triage: tells what is decided of a pair, and writes what there is to write beside it."""
import json
import os

from common.command import Failure, options, say, take, tell
from common.files import SHEETS, files_of
from common.writing import Output, approve, write

from explanation.formatting import visible
from explanation.sheets import read_sheet
from races.orders import trace_text
from races.tool import limits_of, watched

from .deciding import decide
from .decision import DISAGREEMENT

# What can be written, by its option: what it is called.
FILES = {"--trace": "order", "--mended": "mended split"}
MENDED = "split-mended.txt"


def main(arguments):
    given, folders = options(arguments, flags=["--json"], valued=["--states", "--seconds", *FILES])
    folder, limits = take(folders, "FOLDER", least=0)[0] or os.curdir, limits_of(given)
    if not os.path.isdir(folder):
        raise Failure(f"no such folder: {visible(folder)}")
    approve([Output(what, given[option]) for option, what in FILES.items() if option in given], files_of(folder, SHEETS))
    decision = watched(lambda watch: decide(folder, limits=limits, watch=watch))
    kept = _kept(decision, folder, given)
    if "--json" in given:
        tell([json.dumps({"folder": visible(folder), **decision.fields(), "kept": kept}, indent=1, ensure_ascii=False)])
    else:
        tell([f"{visible(folder)}: {decision.line()}", *[""] * bool(decision.grounds or kept), *decision.grounds, *kept])
    if decision.kind == DISAGREEMENT:
        say("triage: DISAGREEMENT, see above")
    return decision.status


def _kept(decision, folder, given):
    """Writes the order if that was asked for, and the mended split beside the given one. Where they are, in words."""
    kept = []
    if decision.race and "--trace" in given:
        kept.append(_written("--trace", given["--trace"], trace_text(decision.race.order).encode()))
    if decision.mended:
        file = given.get("--mended") or os.path.join(folder, MENDED)
        there = None if "--mended" in given else read_sheet(folder, MENDED)
        is_there = there is not None and there.text == decision.mended
        kept.append(f"The mended split is in {visible(file)}." if is_there else _written("--mended", file, decision.mended))
    return kept


def _written(option, file, text):
    """What was decided is worth more than the file: if that cannot be written, it is said."""
    what = FILES[option]
    try:
        write(Output(what, file), text)
    except Failure as error:
        return f"The {what} is in no file: {error}; {option} FILE writes it elsewhere."
    return f"The {what} is in {visible(file)}."
