"""The pairs that a release must have: a file of names, one a line."""
import os
import re

from common.command import Failure

from explanation.formatting import visible

SHOWN = re.compile(rb"\\x([0-9a-f]{2})")
ESCAPED = {rb"\\": b"\\", rb"\n": b"\n", rb"\r": b"\r"}
MARK = b"\xef\xbb\xbf"


def names_in(manifest):
    """The names that a manifest has, spelled as the report spells them or as sha256sum does."""
    try:
        with open(manifest, "rb") as file:
            text = file.read()
    except OSError as error:
        raise Failure(f"cannot read the manifest: {visible(manifest)}: {error.strerror}") from error
    lines = [line for line in text.split(b"\n") if line]
    _refuse_odd(manifest, text, lines)
    names = {os.fsdecode(_name(line)) for line in lines}
    odd = sorted(name for name in names if "/" in name or "\0" in name or name.startswith("."))
    if odd:
        raise Failure(f"the manifest has a line that is no pair's name: {visible(odd[0])}")
    return names


def _refuse_odd(manifest, text, lines):
    """A file that names nothing, or each name with a byte that no name of a pair has, is some other file, or was saved wrongly."""
    if not lines:
        raise Failure(f"the manifest names no pair: {visible(manifest)}: write the pairs' names in it, one a line")
    ended = sum(line.endswith(b"\r") for line in lines)
    if ended:
        raise Failure(
            f"the manifest has byte 13 before the line's end, on {ended} of {len(lines)} lines: save it with byte 10 alone:"
            f" {visible(manifest)}")
    if text.startswith(MARK):
        raise Failure(f"the manifest begins with a byte order mark: save it without one: {visible(manifest)}")


def _name(line):
    """The bytes of a name. The report shows a byte as \\xNN; sha256sum puts a backslash in front of a line with such bytes, and
    writes two for one, \\n for byte 10 and \\r for byte 13."""
    unshown = SHOWN.sub(lambda found: bytes([int(found[1], 16)]), line)
    if line.startswith(b"\\") and not SHOWN.match(line):
        pieces = re.findall(rb"\\[\\nr]|[^\\]", line[1:])
        if b"".join(pieces) == line[1:]:
            return b"".join(ESCAPED.get(piece, piece) for piece in pieces)
    return unshown
