"""Likely causes that the bytes of the two files show."""
import os
import re
import stat

from common.files import PROGRAM, SPLIT

from .conditions import least
from .formatting import grouped
from .sheets import counts_of

MARKS = {b"\xef\xbb\xbf": "UTF-8", b"\xff\xfe": "UTF-16", b"\xfe\xff": "UTF-16"}


def unread_causes(folder, files=(PROGRAM, SPLIT)):
    """Why a file could not be read: one sentence for each file at fault."""
    return [f"{name} {why}" for name in files if (why := _unreadable(os.path.join(folder, name)))]


def _unreadable(path):
    try:
        mode = os.stat(path).st_mode
    except FileNotFoundError:
        return "is a link that leads nowhere" if os.path.islink(path) else "is missing"
    except OSError as error:
        return f"cannot be reached: {error.strerror}"
    if stat.S_ISDIR(mode):
        return "is a folder"
    if not stat.S_ISREG(mode):
        return "is no plain file"
    return None if os.access(path, os.R_OK) else "may not be read"


def line_causes(sheet, line):
    """What the bytes of a refused line, and of its file, say about the likely cause."""
    if not sheet.text:
        return [f"{sheet.name} is empty"]
    causes = []
    text = sheet.line(line)
    mark = next((name for mark, name in MARKS.items() if sheet.text.startswith(mark)), None)
    if mark == "UTF-16" and line == 1:
        return [f"{sheet.name} is written in UTF-16: save it as plain text, one byte a letter"]
    if mark and line == 1:
        causes.append(f"{sheet.name} begins with a byte order mark ({mark}): save it without one")
    if text is None:
        return causes
    if text.endswith(b"\r"):
        ended = sum(one.text.endswith(b"\r") for one in sheet.lines)
        share = f"{grouped(ended)} of {grouped(len(sheet.lines))}"
        causes.append(f"byte 13 before the line's end, on {share} lines: save it with byte 10 alone")
    if line == len(sheet.lines) and not sheet.lines[-1].closed:
        causes.append("the last byte 10 is missing: the file may have been cut off, or its last line was not closed")
    if b" " in text or b"\t" in text:
        causes.append("there is a space or a tab in the line")
    if text == b"" and line > 1:
        causes.append("the line is empty")
    if sheet.name == SPLIT and re.fullmatch(rb"\d+,,\d*", text):
        causes.append("the after-map is left empty: `racefill` fills in such a sheet")
    if b"\0" in text:
        causes.append("there are bytes 0 in the line: the file is not plain text")
    return causes


def version_causes(program, split, expected_lines):
    """Whether the split looks like one of another version of the job."""
    if len(split.lines) == expected_lines:
        return []
    return [
        f"by its line 1 and the job's {counts_of(program)} the split should have"
        f" {grouped(expected_lines)} lines and has {grouped(len(split.lines))}: it may be that of another version of the job"
    ]


def never_there(split, condition, location):
    """That the start has too little of a location for a touch, whoever holds it: then D or the start is wrong. Else empty."""
    wanted = least(condition.wording, split) if condition.mark == "A" else 0
    start = split.root_start()[location]
    if start >= wanted:
        return ""
    return (f"nobody holds the rest: the job starts with {split.fraction(start, location)} of the location, so there is never more;"
            " D or the start is wrong")


def filling_cause(sheet, line, is_for_filling):
    """Why racefill refuses a split that is no sheet for filling, and what to do then; empty if that is not why."""
    if sheet is None or sheet.name != SPLIT:
        return ""
    text = sheet.line(line) or b""
    if line == 1 and re.fullmatch(rb"C(,\d+){4}", text):
        return ("a `C` sheet is not filled, since it does not name its start: write `C2` in the place of `C` and the number of the"
                " start, `,0`, at the end of line 1; or let triage do that")
    if not is_for_filling and re.fullmatch(rb"\d+,\d+,\d*", text):
        return ("the sheet is filled already: `racecheck` judges it as it is, and triage fills it afresh, without its after-maps;"
                " for racefill leave the after-map of every row empty")
    return ""
