"""A sheet for filling, followed from the start: what each step leaves, or the first step that no after-map can help.

One pass in the order in which the job is done finds both, the bodies of procedures first, since only loads, starts and what
procedures take and leave move anything. What a step leaves follows from its conditions; where they leave a choice it is the
greatest: after an `if` the smaller of what its parts leave, after a `while` all of what was there, and no more than a call behind
it lets it (caps.py).
"""
from typing import NamedTuple

from . import forms
from .caps import Caps
from .conditions import RELATIONS, cell_location, holds, least, sides, summed
from .formatting import grouped
from .sites import Sites, part_acted_on
from .words import MAPS, WORDS


class Lack(NamedTuple):
    """Where the pass fails: the step, its condition by number, and the lowest location."""

    site: object
    condition: int
    location: int


class FilledSites(Sites):
    """The steps of a sheet for filling, each with the greatest map that it can leave. After a lack nothing is owed."""

    def __init__(self, steps, split):
        self.lack = None
        self._caps = Caps(Sites(steps, split))
        super().__init__(steps, split)

    def _work_out(self, site):
        word = WORDS[site.word]
        for number, condition in enumerate(word.conditions, 1):
            if condition.mark == "F" and _is_due(site, sides(condition.wording)):
                self._flow(site, number, *sides(condition.wording), is_fixed="post" in word.parts.values())
            if condition.mark == "A" and len(site.parts) == len(word.parts) and not holds(site, condition, self.split):
                self._fail(site, number, cell_location(site, self.split))

    def _flow(self, site, number, left, relation, right, is_fixed):
        """Takes from a condition what the step leaves, or asks whether it holds."""
        if left[0] == "post" and site.post is None:
            has, gives = summed(site, right, self.split), summed(site, left[1:], self.split) if left[1:] else None
            site.post = has if gives is None else tuple(max(0, a - b) for a, b in zip(has, gives))
        elif right == ["post"] and not (is_fixed and site.post):
            known = self._caps.of(site) if site.post is None else site.post
            site.post = tuple(map(min, known, summed(site, left, self.split)))
        holds_at = map(RELATIONS[relation], summed(site, left, self.split), summed(site, right, self.split))
        false_at = [location for location, is_true in enumerate(holds_at) if not is_true]
        if false_at:
            self._fail(site, number, false_at[0])

    def _fail(self, site, condition, location):
        self.lack = self.lack or Lack(site, condition, location)


def _is_due(site, condition):
    """Whether a flow condition can be judged now for the first time: the last part that it names has just been followed."""
    left, _, right = condition
    parts = list(WORDS[site.word].parts)
    needed = [term.removeprefix("post of ") for term in left + right if term.startswith("post of ")]
    if any(term.removeprefix("N × ") in MAPS for term in left + right):
        needed.append(part_acted_on(site.word))
    return len(site.parts) == max((parts.index(name) + 1 for name in needed if name), default=0)


def lack_in_words(lack, split, names):
    """What would have to be there, and what is."""
    site, wording = lack.site, WORDS[lack.site.word].conditions[lack.condition - 1].wording
    where, amount = names.location(lack.location), lambda number: split.fraction(number, lack.location)
    if wording.startswith("post at p"):
        more = "some" if least(wording, split) == 1 else f"the whole, {amount(split.denominator)},"
        return f"at {where}: {more} is needed, and there is {amount(site.post[lack.location])}"
    left, relation, right = sides(wording)
    one, other = (amount(summed(site, terms, split)[lack.location]) for terms in (left[1:] or left, right))
    if site.word == "call":
        return f"at {where}: the procedure starts with, and the call keeps back, {other} together, and there is {one}"
    if relation == "=":
        return f"at {where}: {one} would have to be given up, and there is {other}"
    if relation == "≥":
        return f"at {where}: {other} would have to be left, and there is {one}"
    return f"at {where}: the reading places together would have {one}, and a writer gets {other}"


def too_large(sheet, sites, names):
    """The number that makes a filled sheet too large, in words; None if it is not."""
    for site in sites.all:
        for location, number in enumerate(site.post):
            if number > forms.WHOLE:
                where = f"after {names.line(site.line)} there would be {grouped(number)} of {names.location(location)}"
                return f"{where}; a number in a map is at most {grouped(forms.WHOLE)}"
    length = len(filled_text(sheet, sites))
    if length > forms.SPLIT_BYTES:
        return f"the filled sheet would have {grouped(length)} bytes; at most {grouped(forms.SPLIT_BYTES)} are written"
    return None


def filled_text(sheet, sites):
    """The filled sheet: a new map for each step, behind the given ones and before the lines of procedures."""
    heading, denominator, locations, types, given, start = sheet.lines[0].text.decode("ascii").split(",")
    maps, steps = int(given), [site for site in sites.all if site.word != "proc"]
    first_procedure = 1 + int(types) + maps
    lines = [f"{heading},{denominator},{locations},{types},{maps + len(steps)},{start}"]
    lines += [line.text.decode("ascii") for line in sheet.lines[1:first_procedure]]
    lines += [",".join(map(str, site.post)) for site in steps]
    lines += [signature.text for signature in sites.split.signatures]
    for number, site in enumerate(steps, maps):
        kind, _, last = site.row.text.split(",")
        lines.append(f"{kind},{number},{last}")
    return "".join(f"{line}\n" for line in lines).encode("ascii")


def is_for_filling(program, sheet):
    """Whether a split's first row, behind its types, its maps and the lines of procedures, leaves its map empty."""
    if sheet is None or not sheet.lines:
        return False
    header, fields = program.lines[0].text.split(b",") if program and program.lines else [], sheet.lines[0].text.split(b",")
    counts = fields[3:5] + header[2:3]
    if len(fields) < 5 or not all(forms.NUMERAL.fullmatch(count) for count in counts):
        return False
    row = sheet.line(2 + sum(map(int, counts)))
    return row is not None and row.count(b",") == 2 and row.split(b",")[1] == b""
