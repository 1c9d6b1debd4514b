"""What each tool says of itself, which is the one source of its --help, its section in docs/COMMANDS.md, its man page and its
completion: the words in front of its script. Their first sentence says what it does; a paragraph `usage:` how it is started;
lines that begin with two spaces and an option what the option does; `Exit status:` what it ends with.
"""
import ast
import re
from pathlib import Path

TOOLS = Path(__file__).resolve().parents[1]
OPTION = re.compile(r"(?<![\w-])(--[a-z][a-z-]*)(?: ([A-Z]+)\b)?")


def tools():
    """The names of the tools, in order."""
    return sorted(path.name for path in TOOLS.iterdir() if path.is_file() and not path.suffix)


def words_of(tool):
    return ast.get_docstring(ast.parse((TOOLS / tool).read_text(encoding="utf-8")))


def options_of(tool):
    """The options that a tool names where it says how it is started and what they do, each with what stands behind it, or empty."""
    told = {}
    for paragraph in words_of(tool).split("\n\n"):
        if paragraph.startswith("usage: ") or paragraph.startswith("  --"):
            for line in paragraph.split("\n"):
                begins = OPTION.finditer(line) if paragraph.startswith("usage: ") else filter(None, [OPTION.match(line, 2)])
                told.update({found[1]: found[2] or told.get(found[1], "") for found in begins})
    return told


# ---- As a section of docs/COMMANDS.md


def section_of(tool):
    """The section of a tool."""
    first, *paragraphs = words_of(tool).split("\n\n")
    what, _, more = _joined(first).partition(". ")
    usage = next(one for one in paragraphs if one.startswith("usage: "))
    options = [one for one in paragraphs if one.startswith("  --")]
    ends = [one for one in paragraphs if one.startswith("Exit status: ")]
    others = [one for one in paragraphs if one not in (usage, *options, *ends)]
    blocks = [f"## {tool}: {what[0].lower()}{what[1:].rstrip('.')}", "\n".join(f"    {line[7:]}" for line in usage.split("\n"))]
    blocks += [_marked(more)] if more else []
    blocks += ["\n".join(f"    {line[2:]}" for line in one.split("\n")) if one.startswith("  ") else _marked(_joined(one))
               for one in others]
    blocks += ["### Options", "\n".join(item for one in options for item in _items(one))] if options else []
    for one in ends:
        blocks += ["### Exit status", _statuses(_joined(one).removeprefix("Exit status: "))]
    return "\n\n".join(blocks) + "\n"


def _joined(paragraph):
    return " ".join(paragraph.split("\n"))


def _items(paragraph):
    """The options of a table, each on one line."""
    items = []
    for line in paragraph.split("\n"):
        option = re.match(r"  (--\S+(?: [A-Z]+)?)  +(.*)", line)
        if option:
            items.append(f"- `{option[1]}`: {_marked(option[2])}")
        else:
            items[-1] += f" {_marked(line.strip())}"
    return items


def _statuses(words):
    """A list, if each status is told in one part of one sentence."""
    parts = words.rstrip(".").split("; ")
    if ". " in words or not all(re.match(r"\d ", part) for part in parts):
        return _marked(words)
    return "\n".join(f"- {part[0]}: {_marked(part[2:])}" for part in parts)


def _marked(words):
    """Words with options and files as code, and pages as links."""
    words = words.replace("\\", "\\\\")
    words = re.sub(r"\bdocs/([A-Z]+\.md)\b", r"[\1](\1)", words)
    words = re.sub(r"(?<![\w-])(--[a-z][a-z-]*(?: [A-Z]+\b)?)", r"`\1`", words)
    return re.sub(r"(?<![\w/(\[])([\w-]+\.(?:txt|html|so|xml))\b", r"`\1`", words)
