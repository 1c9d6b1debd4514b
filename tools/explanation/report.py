"""An explanation as text for a person at the desk."""
from common.command import called

from .formatting import FEW, grouped
from .words import WORDS

# What document 01's names of maps are called beside "before" and "after".
PLAIN = {
    "K": "load (K)",
    "in": "the lock gives (in)",
    "out": "the lock takes (out)",
    "r": "a reader's (r)",
    "w": "a writer's (w)",
    "N × r": "all readers' (N × r)",
    "s": "body's start (s)",
    "before": "the procedure starts with (before)",
    "after": "the procedure leaves (after)",
    "kept": "kept back (s)",
    "post of body": "the body leaves",
    "post": "after",
    "pre": "before",
    "post of part": "the part leaves",
    "post of e1": "e1 leaves",
    "post of e2": "e2 leaves",
}
# A refusal does not say whether the job or its split is at fault. Of a start that is too great nobody has to ask.
ASKED = (31, 32, 33, 41)


def told(explanation):
    """The lines of an explanation, from the answer to what helps."""
    lines = [explanation.answer, "", *finding(explanation)]
    lines += _titled("What usually helps", explanation.helps)
    if explanation.owner:
        lines += ["", f"Who looks first: {explanation.owner}"]
    if explanation.number in ASKED and explanation.site:
        lines += ["", f"Whose fault it is, the job's or the split's: {called('triage')} tells; {called('show-race')} shows an order"
                  " in which the job races, if it finds one."]
    return lines


def finding(explanation):
    """What an answer means, and what it is about; not what to do then."""
    lines = [explanation.meaning]
    lines += alarm(explanation)
    lines += _indented(explanation.unseen)
    lines += _indented(explanation.place)
    if explanation.site:
        lines += _indented([f"taken by {explanation.names.thread(explanation.site.thread)}"])
    if explanation.condition:
        lines += ["", condition_line(explanation)]
        lines += _indented([f"that is: {explanation.condition.plain}"])
    lines += _indented(explanation.numbers)
    lines += _maps(explanation)
    return lines + _titled("Likely cause", explanation.causes)


def condition_line(explanation):
    number, name = explanation.condition_number, explanation.site.word
    word = WORDS[name]
    return f"Condition {number} of {name} ({word.rule} in {word.source}): {explanation.condition.wording}"


def alarm(explanation):
    """What is said when racecheck and the arithmetic here part: loudly, since one of them is wrong."""
    if not explanation.disagrees:
        return []
    told = f"*** DISAGREEMENT: {explanation.disagrees} ***"
    return ["", told, f"*** Trust neither; hand this pair to the owners of {explanation.program}. ***", ""]


def maps_of(explanation):
    """Before, after and the other maps that the condition names, each as its name and its fractions; then D."""
    if not (explanation.site and explanation.sites):
        return []
    split = explanation.sites.split
    named = [("before", explanation.site.pre)]
    if explanation.number != 41 or explanation.condition.mark == "A":  # else there is no map to leave
        named.append(("after", explanation.site.post))
    named += [(PLAIN.get(name, name), numbers) for name, numbers in explanation.maps if name not in ("pre", "post")]
    # Of many locations the one at fault is enough.
    told = range(split.locations) if split.locations <= FEW else [explanation.location]
    rows = [(name, ", ".join(split.fraction(numbers[p], p) for p in told)) for name, numbers in named]
    if split.locations > 1:
        rows.insert(0, ("of", ", ".join(map(explanation.names.place, told))))
    wholes = dict.fromkeys(split.fraction(split.denominator, location) for location in told)
    return rows + [("D", f"{grouped(split.denominator)}, so {' or '.join(wholes)} is the whole")]


def _maps(explanation):
    rows = maps_of(explanation)
    width = max((len(name) for name, _ in rows), default=0)
    return [""] * bool(rows) + _indented(f"{name.ljust(width)}  {value}" for name, value in rows)


def _indented(lines):
    return [f"  {line}" for line in lines]


def _titled(title, lines):
    return ["", title, *(f"  - {line}" for line in lines)] if lines else []
