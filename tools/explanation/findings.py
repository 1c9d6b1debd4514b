"""An answer put beside the pair: what it speaks of, and whether the tool's own arithmetic finds the same."""
from dataclasses import dataclass, field

from . import causes
from .conditions import find
from .disagreement import Disagreement, require
from .filling import filled_text, is_for_filling, lack_in_words, too_large
from .formatting import shown
from .judging import judge
from .names import read_names
from .refusals import MEANINGS, PROGRAM, REFUSALS, SPLIT, USUALLY
from .running import FILLING, READS
from .sheets import counts_of, read_sheets, sheet_of, split_of, steps_of
from .sites import Sites
from .texts import lines_wanted
from .words import WORDS


@dataclass
class Explanation:
    """What is known about a folder and its answer. Fields that its answer does not fill stay empty."""

    answer: str
    meaning: str
    names: object
    program: str = "racecheck"  # whose answer it is
    number: int = 0
    owner: str = ""  # who looks first, of a refusal
    place: list = field(default_factory=list)  # file, line and the line's text, as sentences
    site: object = None  # the refused step
    condition: object = None  # the refused condition, with its number
    condition_number: int = 0
    location: int = None
    numbers: list = field(default_factory=list)  # the refused condition with this pair's numbers
    maps: list = field(default_factory=list)  # the maps it names
    helps: list = field(default_factory=list)
    causes: list = field(default_factory=list)
    disagrees: str = ""  # where the program and the tool's own arithmetic part
    unseen: list = field(default_factory=list)  # why the sheets that were judged are not those that can be read now
    sites: object = None  # the steps, when both sheets are well formed
    order: object = None  # the recorded order as far as it was done, when it was replayed


def explain(run, folder):
    """The explanation of a pair's answer in a folder."""
    return explained(run, folder, lambda explanation, program, split: _compare(explanation, run, program, split))


def explained(run, folder, compare):
    """The explanation of a run's answer in a folder. `compare` works the answer out again, and adds what it is about."""
    explanation = Explanation(run.answer, _meaning(run), read_names(folder), run.program)
    if run.answer == "FAILED":
        return explanation
    if run.answer == "UNREAD":
        explanation.causes += causes.unread_causes(folder, READS[run.program])
        return explanation
    sheets = run.sheets or read_sheets(folder, READS[run.program])
    explanation.unseen = [f"{name} is no plain file, and is not read again here" for name, sheet in sheets.items() if sheet is None]
    explanation.unseen += [f"{name} has changed since {run.program} read it; run again" for name in run.changed]
    if run.answer.startswith("REFUSE"):
        explanation.number = run.numbers()[0]
        if explanation.number in REFUSALS:
            explanation.helps.append(REFUSALS[explanation.number].helps)
            explanation.owner = REFUSALS[explanation.number].owner
    if not explanation.unseen:
        try:
            compare(explanation, *sheets.values())
        except Disagreement as why:
            explanation.disagrees = str(why)
            explanation.meaning = f"{run.program} says so, and that is in doubt: {explanation.meaning}"
    return explanation


def _meaning(run):
    if run.answer == "FAILED":
        return f"There is no answer: {run.failure}."
    kind = run.answer.split(",")[0]
    return MEANINGS[kind] if kind in MEANINGS else refusal_meaning(run.numbers()[0])


def refusal_meaning(number):
    """What was found wrong, as a sentence."""
    found = REFUSALS[number].found if number in REFUSALS else f"this number is not known here: {number}"
    return f"{found[0].upper()}{found[1:]}."


def _compare(explanation, run, program, split):
    """Works the answer out again, and fills the explanation if it is the same."""
    judgement, sheet = judge(program, split, run.program == FILLING), _sheet_at_fault(explanation, program, split)
    explanation.place += place_in(sheet, run.numbers()[1], explanation.names) if sheet else []
    nothing_wrong = "FILLED" if run.program == FILLING else "ACCEPT"
    found = "REFUSE," + ",".join(map(str, judgement.numbers())) if judgement.number else nothing_wrong
    why = f" ({judgement.why})" if judgement.why else ""
    require(run.answer == found, f"by the numbers here the answer is {found}{why}")
    if run.answer == "FILLED":
        require(run.written == filled_text(split, judgement.sites), "the sheet that was written is not the one found here")
        split = sheet_of(SPLIT, run.written)
    _take_sites(explanation, judgement, program, split)
    _tell_refusal(explanation, judgement, program, split)


def _sheet_at_fault(explanation, program, split):
    """The sheet that a refusal names a line of, or None."""
    refusal = REFUSALS.get(explanation.number)
    return {PROGRAM: program, SPLIT: split}.get(refusal.sheet) if refusal else None


def place_in(sheet, line, names):
    """A line of a sheet with its text, and of the program with where it comes from."""
    text, source = sheet.line(line), names.source(line) if sheet.name == PROGRAM else ""
    return [f"{sheet.name} line {line}{source}" + ("" if text is None else f": {shown(text)}")]


def _take_sites(explanation, judgement, program, split):
    """The steps, with what each leaves; a sheet for filling has that only where it was followed. Fractions are shown reduced."""
    if judgement.sites:
        judgement.sites.split = judgement.sites.split.reduced()
    if explanation.answer == "FILLED":
        explanation.sites = Sites(steps_of(program), split_of(split, counts_of(program).procedures).reduced())
    elif judgement.sites and judgement.sites.root.post is not None:
        explanation.sites = judgement.sites


def _tell_refusal(explanation, judgement, program, split):
    number, line, condition, location = judgement.numbers()
    if number in (31, 32, 33):
        _tell_condition(explanation, judgement.sites, line, condition, location)
    elif number == 30:
        _tell_start(explanation, judgement.sites, location)
    elif number == 41:
        lack = judgement.sites.lack
        explanation.place += place_in(program, lack.site.line, explanation.names)
        _tell_condition(explanation, judgement.sites, lack.site.line, lack.condition, lack.location)
        explanation.numbers.insert(0, lack_in_words(lack, judgement.sites.split, explanation.names))
    elif number == 42:
        explanation.numbers.append(too_large(split, judgement.sites, explanation.names))
    elif number:
        explanation.numbers.append(judgement.why)
        _tell_causes(explanation, line, program, split)


def _tell_causes(explanation, line, program, split):
    sheet = _sheet_at_fault(explanation, program, split)
    explanation.causes += causes.line_causes(sheet, line) if sheet else []
    other = causes.filling_cause(sheet, line, is_for_filling(program, split)) if explanation.program == FILLING else ""
    if other:
        explanation.causes, explanation.helps = [], [other]
        return
    if explanation.number in (21, 22, 23, 40, 50) and line > 1:
        explanation.causes += causes.version_causes(program, split, lines_wanted(steps_of(program), split))


# ---- 30 to 33, and 41


def _tell_start(explanation, sites, location):
    split, explanation.site, explanation.location = sites.split, sites.root, location
    explanation.maps = [(f"map {split.start}, the start", split.root_start())]
    over = [p for p, number in enumerate(split.root_start()) if number > split.denominator]
    explanation.numbers = [
        f"at {explanation.names.location(p)}: {split.fraction(split.root_start()[p], p)} is more than the whole" for p in over]


def _tell_condition(explanation, sites, line, condition, location):
    site = explanation.site = sites.at_line(line)
    explanation.location = location
    explanation.place.append(f"{SPLIT} line {site.row.line}: {site.row.text}")
    explanation.condition = WORDS[site.word].conditions[condition - 1]
    explanation.condition_number = condition
    usually, never = USUALLY.get((site.word, condition)), causes.never_there(sites.split, explanation.condition, location)
    if never:
        explanation.owner = REFUSALS[30].owner
    if never or usually:
        explanation.helps.insert(0, never or usually)
    finding = find(site, condition, sites.split, explanation.names)
    explanation.numbers, explanation.maps = finding.numbers, finding.maps
