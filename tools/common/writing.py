"""What the tools write: by one rule for what may be written where, and beside the old file and renamed into place, so that nobody
ever sees a half.

No file of a sheet's name is written, anywhere: program.txt, split.txt, names.txt. No file is written that is also read. No two
files are written under one name. A file that is there is replaced only by a newer one of the same tool and kind, which it has to
begin as; an order or a split has nothing to tell it by, and only goes where nothing is. All this is asked before anything is
done, and once more right before the file is written. `fill` alone puts a split.txt into place, and keeps the one that was there.
"""
import os
import stat
from typing import NamedTuple

from .command import Failure
from .files import SHEETS


class Output(NamedTuple):
    """A file that a tool is to write."""

    what: str  # what it is called: the page, the report
    path: str  # as it was given
    begins: bytes = b""  # what every such file of the tool begins with; empty if nothing tells it from a file of somebody else


def approve(outputs, inputs=()):
    """Refuses files that may not be written, with the reason; `inputs` are those that the command reads."""
    for place, output in enumerate(outputs):
        _require_place(output)
        for other in outputs[:place]:
            if _is_same(output.path, other.path):
                raise Failure(f"the {other.what} and the {output.what} would both be {output.path}: give each a name of its own")
        if any(_is_same(output.path, path) for path in inputs):
            raise Failure(f"the {output.what} would be written over {output.path}, which is read here: give it another name")
        _require_replaceable(output)


def write(output, text):
    """Writes the bytes of an approved file."""
    try:
        if is_device(output.path):
            _write_all(output.path, "wb", text)
        else:
            _require_replaceable(output)
            replace(os.path.realpath(output.path), text)
    except OSError as error:
        raise Failure(f"cannot write the {output.what}: {output.path}: {error.strerror}") from error


def is_device(path):
    """Whether a device or a pipe stands there, say /dev/stdout: it is written to, never replaced."""
    return os.path.exists(path) and not stat.S_ISREG(os.stat(path).st_mode) and not os.path.isdir(path)


def replace(path, text):
    """Writes a file beside the old one and renames it into place."""
    beside = os.path.join(os.path.dirname(path), f".{os.path.basename(path)}.{os.getpid()}")
    try:
        _write_all(beside, "xb", text)
        os.replace(beside, path)
    except BaseException:
        if os.path.exists(beside):
            os.unlink(beside)
        raise


def _write_all(path, mode, text):
    with open(path, mode) as file:
        file.write(text)


# ---- The rule


def _is_same(one, other):
    if os.path.exists(one) and os.path.exists(other):
        return os.path.samefile(one, other)
    return os.path.realpath(one) == os.path.realpath(other)


def _require_place(output):
    """A folder that can be written in, and a name that is no sheet's, by itself and where a link leads."""
    what, path = output.what, output.path
    if is_device(path):
        return
    full = os.path.realpath(path)
    for name in (os.path.basename(path), os.path.basename(full)):
        if name in SHEETS:
            never = "a sheet of that name is never written over"
            raise Failure(f"the {what} would be called {name}, and {never}: give it another name")
    if os.path.isdir(full):
        raise Failure(f"the {what}'s name is that of a folder: {path}")
    if not os.path.isdir(os.path.dirname(full)):
        raise Failure(f"no folder to write the {what} in: {path}")
    if not os.access(os.path.dirname(full), os.W_OK):
        raise Failure(f"cannot write the {what} into that folder, give it another: {path}")


def _require_replaceable(output):
    """Nothing is there, or nothing is in it, or it is an older one of the same kind."""
    if not os.path.exists(output.path) or is_device(output.path):
        return
    if _beginning(output) not in (b"", output.begins):
        kind = f"is no {output.what} of this tool" if output.begins else "may be somebody's own"
        raise Failure(f"{output.path} is there already and {kind}, so it is left as it is: give the {output.what} another name")


def _beginning(output):
    """As much of the file that is there as tells its kind."""
    try:
        with open(output.path, "rb") as file:
            return file.read(len(output.begins) or 1)
    except OSError as error:
        raise Failure(f"{output.path} is there already and cannot be read: {error.strerror}") from error
