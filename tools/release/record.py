"""What is put on record: what was judged, when and by what."""
import os
from datetime import datetime

from common.version import version

from explanation.formatting import visible
from explanation.sheets import digest_of

# The files that an option names, which are put on record with their digests.
NAMED = {"--manifest": "manifest", "--against": "against"}


def record_of(judge, folder, given):
    record = {
        "date": datetime.now().astimezone().isoformat(timespec="seconds"), "folder": visible(os.path.realpath(folder)),
        "checker": visible(judge.path), "checker SHA-256": _digest(judge.path), "judged by": judge.words, "tools": version()}
    for option, what in NAMED.items():
        if option in given:
            record.update({what: visible(given[option]), f"{what} SHA-256": _digest(given[option])})
    return record


def _digest(path):
    with open(path, "rb") as file:
        return digest_of(file.read())


def second_look(entries, recheck):
    """What came of working the accepted pairs out again."""
    if not recheck:
        return "none"
    looked = [one for one in entries if one.answer == "ACCEPT"]
    parts = sum(one.alarming for one in looked)
    found = f"DISAGREEMENT on {parts}" if parts else "all found the same"
    return f"{len(looked)} accepted pairs, {found}, {sum(one.look for one in looked):.2f} seconds"
