"""The whole answer to a pair worked out again, by the tool's own arithmetic. It settles nothing: where it parts from the
program's answer, that is told as a disagreement.

As document 01 orders it: the program sheet, the split sheet, the start, then the conditions in the order of the lines. When a
sheet is to be filled, as document 02 does: conditions on types alone, then whether there are after-maps, then their size.
"""
from typing import NamedTuple

from .conditions import find, holds
from .filling import FilledSites, too_large
from .names import Names
from .sheets import counts_of, split_of, steps_of
from .sites import Sites
from .texts import job_fault, lock_fault, program_lines_fault, split_lines_fault
from .words import NUMBER_OF, WORDS


class Judgement(NamedTuple):
    number: int = 0  # of the refusal; 0 if there is none
    line: int = 0
    condition: int = 0
    location: int = 0
    why: str = ""  # of a fault of a text
    sites: object = None  # the steps, once both sheets are well formed

    def numbers(self):
        return self.number, self.line, self.condition, self.location


def judge(program, split, is_filling=False):
    """The answer to two sheets: a check's, or that of filling."""
    try:
        steps, division = _read(program, split, is_filling)
    except _Faulty as faulty:
        fault, = faulty.args
        return Judgement(fault.number, fault.line, why=fault.why)
    over = [p for p, number in enumerate(division.root_start()) if number > division.denominator]
    sites = Sites(steps, division)
    if over:
        return Judgement(30, sites.root.line, 0, over[0], sites=sites)
    marks = "T" if is_filling else "TFA"
    false = first_false(sites, marks)
    if false:
        return Judgement(*false, sites=sites)
    return filled_judgement(steps, division, split) if is_filling else Judgement(sites=sites)


class _Faulty(Exception):
    pass


def _read(program, split, is_filling):
    """What two sheets say, if no text of them is at fault."""
    _pass(program_lines_fault(program))
    steps, procedures = steps_of(program), counts_of(program).procedures
    _pass(job_fault(steps, procedures))
    _pass(split_lines_fault(steps, split, is_filling))
    division = split_of(split, procedures)
    _pass(lock_fault(division))
    return steps, division


def _pass(fault):
    if fault:
        raise _Faulty(fault)


def first_false(sites, marks="TFA"):
    """The first condition of these marks that is false: the refusal's number, the line, the condition and the location."""
    for site in sites.all:
        for number, condition in enumerate(WORDS[site.word].conditions, 1):
            if condition.mark in marks and not holds(site, condition, sites.split):
                location = find(site, number, sites.split, Names()).location
                return NUMBER_OF[condition.mark], site.line, number, location
    return None


def filled_judgement(steps, division, sheet):
    sites = FilledSites(steps, division)
    if sites.lack:
        return Judgement(41, sites=sites)
    why = too_large(sheet, sites, Names())
    return Judgement(42, why=why, sites=sites) if why else Judgement(sites=sites)
