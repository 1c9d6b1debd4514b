"""An answer or a number told without its pair, as docs/REFUSALS.md has it: for whoever got the line by phone."""
import re
from pathlib import Path

from .findings import refusal_meaning
from .refusals import MEANINGS, REFUSALS, USUALLY
from .words import NUMBER_OF, WORDS

PAGE = Path(__file__).resolve().parents[2] / "docs" / "REFUSALS.md"
# A refusal's number, its line, condition and location; of a replay the steps done, and a race among them, too.
ALONE = re.compile(r"(?:REFUSE,)?(\d{1,10})(?:,(\d+),(\d+),(\d+)(?:,(\d+)(?:,RACE,(\d+),(\d+),(\d+))?)?)?")
# The steps done, and the race among them.
REPLAYED = re.compile(r"RAN,(\d+)|RACE,(\d+),(\d+),(\d+),(\d+)")


def told_alone(answer):
    """The lines that tell it; None if it is no answer."""
    if answer in ("ACCEPT", "UNREAD"):
        return [answer, "", MEANINGS[answer], *_page(answer)]
    replayed, found = REPLAYED.fullmatch(answer), ALONE.fullmatch(answer)
    if replayed:
        steps = _replayed(replayed[1] or replayed[2], *replayed.groups()[2:])
        return [answer, "", MEANINGS[answer.split(",")[0]], *steps, "", "docs/REPLAY.md says more."]
    if not found:
        return None
    number = int(found[1])
    lines, refusal = [answer, "", refusal_meaning(number)], REFUSALS.get(number)
    if refusal is None:
        return lines
    if found[2]:
        lines += _numbers(number, refusal, *map(int, found.groups()[1:4]))
    lines += _replayed(*found.groups()[4:])
    lines += ["", "What usually helps", f"  - {refusal.helps}"]
    return lines + ["", f"Who looks first: {refusal.owner}", *_page(f"{number}: ")]


def _numbers(number, refusal, line, condition, location):
    """What the other three numbers of the answer say."""
    lines = [f"  {refusal.sheet} line {line}" if refusal.sheet else "  no line is named"]
    words = [name for name, word in WORDS.items() for one in word.conditions[condition - 1:condition] if condition
             and NUMBER_OF[one.mark] == number]
    for name in words:
        usually = f"; usually: {USUALLY[name, condition]}" if (name, condition) in USUALLY else ""
        lines.append(f"  if line {line} has `{name}`: {WORDS[name].conditions[condition - 1].plain}{usually}")
    if number in (30, 32, 33):
        lines.append(f"  location {location}: the numbers in place {location + 1} of the maps")
    return lines


def _replayed(steps, state, first, second):
    """What a replay reports, as far as the line has it."""
    lines = [f"  {steps} step{'s' * (steps != '1')} done"] if steps else []
    return lines + ([f"  threads {first} and {second} race in state {state}, the one after so many steps"] if state else [])


def _page(title):
    """What the page says below the heading of that title, up to its first example and without the words that lead to it."""
    if not PAGE.is_file():
        return []
    section = re.search(rf"^### {title}[^\n]*\n(.*?)(?=^##|\Z)", PAGE.read_text(encoding="utf-8"), re.M | re.S)
    prose, example, _ = section[1].partition("\n```") if section else ("", "", "")
    if example:
        prose = re.sub(r"(\nHere [^\n]*|[^.\n]*:)\n$", "", prose)
    lines = [line.strip() for line in prose.split("\n") if line.strip()]
    return ["", "docs/REFUSALS.md says:", *(f"  {line}" for line in lines)]
