"""The sheets of a pair as a release has them: the bytes that are judged are the bytes whose SHA-256 is told."""
import errno
import os
import stat
from typing import NamedTuple

from explanation.refusals import PROGRAM, SPLIT
from explanation.sheets import MOST_BYTES, digest_of, sheet_of

# A link is looked at before it is followed, and a FIFO is not waited for.
HOW = os.O_RDONLY | os.O_CLOEXEC | os.O_NOFOLLOW | os.O_NONBLOCK


class Unfit(Exception):
    """Why a pair is not handed to racecheck, in words."""


class File(NamedTuple):
    name: str
    text: bytes  # its first MOST_BYTES bytes, which are more than the longest sheet
    length: int
    digest: str  # the SHA-256; empty for a file that is longer, which is not read to its end

    def sheet(self):
        return sheet_of(self.name, self.text, self.length, self.digest)


def read_pair(folder, release):
    """Both sheets of a pair's folder, None for one that cannot be read. `release` is the real path of the release."""
    return [_read(folder, name, release) for name in (PROGRAM, SPLIT)]


def _read(folder, name, release):
    try:
        handle = _opened(os.path.join(folder, name), folder, name, release)
    except OSError:
        return None
    try:
        status = os.fstat(handle)
        if stat.S_ISDIR(status.st_mode):
            return None
        if not stat.S_ISREG(status.st_mode):
            raise Unfit(f"{name} is no plain file")
        text = _first_bytes(handle)
    except OSError:
        return None
    finally:
        os.close(handle)
    is_whole = len(text) < MOST_BYTES
    return File(name, text, max(status.st_size, len(text)), digest_of(text) if is_whole else "")


def _opened(path, folder, name, release):
    """A file that is opened. A link is followed within the release and within its pair's folder, wherever that is, and no further:
    what the report quotes of a sheet is the release's own."""
    try:
        return os.open(path, HOW)
    except OSError as error:
        if error.errno != errno.ELOOP:
            raise
    real = os.path.realpath(path)
    if os.path.exists(real) and not any(real.startswith(os.path.join(place, "")) for place in (release, os.path.realpath(folder))):
        raise Unfit(f"{name} is a link that leads out of the release: copy the sheet into the pair's folder")
    return os.open(real, HOW)


def _first_bytes(handle):
    text = os.read(handle, MOST_BYTES)
    while text and len(text) < MOST_BYTES and (piece := os.read(handle, MOST_BYTES - len(text))):
        text += piece
    return text
