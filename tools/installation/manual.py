"""The man pages, made of docs/COMMANDS.md: a section `## name: what it does` is a page. A new program is one more section.

Behind the mark TOOLS that page has what the tools say of themselves: `python3 -m installation.manual`, in tools, writes it anew.
"""
import re
from pathlib import Path

from explanation.refusals import OF_CHECKING, OF_FILLING, OF_REPLAYING, REFUSALS

from .helping import section_of, tools

SOURCE = Path(__file__).resolve().parents[2] / "docs" / "COMMANDS.md"
SECTION = re.compile(r"^## ([\w-]+): (.*?)\n(.*?)(?=^##? |\Z)", re.M | re.S)
# A section whose man page has another name: a system has one of an `install` of its own.
OTHERWISE = {"install": "racecheck-install"}
MARK = "<!-- the tools, as they say themselves -->"
# Which answers a line `<!-- answers: kind -->` stands for.
ANSWERS = {"checking": OF_CHECKING, "filling": OF_FILLING, "replaying": OF_REPLAYING}


def manual_pages():
    """Each program's name, and its man page."""
    sections = SECTION.findall(SOURCE.read_text(encoding="utf-8"))
    titled = {OTHERWISE.get(name, name): (what, text) for name, what, text in sections}
    return {name: _page(name, *told, [one for one in titled if one != name]) for name, told in titled.items()}


def commands_page(text):
    """docs/COMMANDS.md with the sections of the tools as the tools have them."""
    return "\n".join([text.partition(MARK)[0] + MARK, *(f"\n{section_of(tool)}".rstrip("\n") for tool in tools()), ""])


def _page(name, what, text, others):
    synopsis, *blocks = [block for block in re.split(r"\n{2,}", text.strip("\n")) if block.strip()]
    lines = [
        f'.TH {name} 1 "" "racecheck" "racecheck"', ".SH NAME", f"{name} \\- {_escaped(what)}",
        ".SH SYNOPSIS", *(line for one in synopsis.split("\n") for line in (f".B {_escaped(one.strip())}", ".br")),
        ".SH DESCRIPTION"]
    for block in blocks:
        lines += _block(block)
    return "\n".join([*lines, ".SH SEE ALSO", ", ".join(f"\\fB{one}\\fR(1)" for one in others), ""])


def _block(block):
    """A heading, a list of answers, an example, a list or a paragraph."""
    answers = re.fullmatch(r"<!-- answers: (\w+) -->", block.strip())
    if block.startswith("### "):
        return [f".SH {block[4:].upper()}"]
    if answers:
        return [line for number in sorted(ANSWERS[answers[1]]) for line in (".TP 6", str(number), _inline(REFUSALS[number].found))]
    if block.startswith("    "):
        return [".PP", ".RS 4", ".nf", *(_escaped(line[4:]) for line in block.split("\n")), ".fi", ".RE"]
    if block.startswith("- "):
        return [line for item in block.split("\n") for line in (".IP \\(bu 3", _inline(item[2:]))]
    return [".PP", _inline(block.replace("\n", " "))]


def _inline(words):
    """Words with `code` in bold, and links as their text."""
    pieces = re.sub(r"\[([^]]*)\]\([^)]*\)", r"\1", words).split("`")
    return _guarded("".join(f"\\fB{_escaped(piece)}\\fR" if place % 2 else _escaped(piece) for place, piece in enumerate(pieces)))


def _escaped(words):
    return _guarded(words.replace("\\", "\\e").replace("-", "\\-"))


def _guarded(words):
    """A line that does not begin as a request."""
    return "\\&" + words if words.startswith((".", "'")) else words


if __name__ == "__main__":
    SOURCE.write_text(commands_page(SOURCE.read_text(encoding="utf-8")), encoding="utf-8")
