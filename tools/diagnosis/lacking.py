"""Where the loads and starts of a split do not suffice, by racefill's answer to it without its after-maps: at which step, how much
is missing, and who holds the rest."""
from typing import NamedTuple

from explanation import report
from explanation.conditions import least, sides, summed
from explanation.formatting import grouped

from .rest import rest_of

FEW = 1000  # parts in D that look like rounding, if D is that many times greater
# What is wrong by racefill's answer, as a kind of decision. 42 and 43 say nothing of it.
KINDS = {30: "loads", 31: "types", 41: "loads"}


class Lack(NamedTuple):
    """A step at which a condition fails."""

    line: int
    word: str
    condition: int
    location: int
    missing: int
    of: int  # D
    rest: tuple = ()  # who has the rest, where it is lost and where it comes back, in words

    def fields(self):
        return {**self._asdict(), "rest": list(self.rest)}


class Lacking(NamedTuple):
    kind: str  # of decision; None if racefill had no room to say
    lack: Lack
    is_rounded: bool
    lines: list


def lacking(filled):
    """What is to be said of racefill's refusal."""
    lines = ["The split without its after-maps:", *_indented([f"racefill: {filled.answer}", "", *report.finding(filled)])]
    lack = lack_of(filled)
    if lack is None:
        return Lacking(KINDS.get(filled.number), None, False, lines)
    lack, is_few = lack._replace(rest=tuple(rest_of(filled))), is_rounded(lack.missing, lack.of)
    amount = filled.sites.split.fraction(lack.missing, lack.location)
    lines += ["", f"At line {lack.line}, `{lack.word}`, the loads and starts are {amount} of"
              f" {filled.names.location(lack.location)} off."]
    if is_few:
        lines.append(f"That is only {grouped(lack.missing)} in {grouped(lack.of)}: they look rounded.")
    if lack.rest:
        lines += ["", "Who has the rest at that point, as the picture of tools/explain tells it:", *_indented(lack.rest)]
    return Lacking(KINDS.get(filled.number), lack, is_few, lines)


def lack_of(explanation):
    """The step of a refusal and how much it lacks; None where no condition on rights fails."""
    site, condition = explanation.site, explanation.condition
    if condition is None or condition.mark == "T":
        return None
    split, location = explanation.sites.split, explanation.location
    return Lack(site.line, site.word, explanation.condition_number, location,
                _missing(site, condition, split, location), split.denominator)


def _missing(site, condition, split, location):
    """By how much a condition on rights fails at a location."""
    if condition.mark == "A":
        return least(condition.wording, split) - site.post[location]
    left, _, right = sides(condition.wording)
    return abs(summed(site, left, split)[location] - summed(site, right, split)[location])


def is_rounded(missing, denominator):
    return 0 < missing <= FEW <= denominator // FEW


def _indented(lines):
    return [f"  {line}".rstrip() for line in lines]
