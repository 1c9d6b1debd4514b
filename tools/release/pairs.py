"""Which pairs a release has."""
import os

from common.command import Failure

from explanation.formatting import visible


def pairs_of(release, must_have=frozenset()):
    """The names of a release's pairs, in byte order: folders, links to folders, links that lead nowhere, and those it must have."""
    if not os.path.isdir(release):
        raise Failure(f"no such folder: {visible(release)}")
    with os.scandir(release) as entries:
        names = {entry.name for entry in entries if not entry.name.startswith(".") and _is_pair(entry)} | must_have
    if not names and os.path.isfile(os.path.join(release, "program.txt")):
        raise Failure(f"this is a pair's own folder, give the one above it: {visible(release)}")
    if not names:
        raise Failure(f"no pairs: there is no subfolder in {visible(release)}")
    return sorted(names, key=os.fsencode)


def _is_pair(entry):
    if not entry.is_symlink():
        return entry.is_dir()
    # Asked of the path, which says no where the entry would raise: at a loop of links, or behind a closed folder.
    return os.path.isdir(entry.path) or not os.path.exists(entry.path)
