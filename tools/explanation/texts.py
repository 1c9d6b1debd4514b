"""Faults of a sheet's text, 10 to 15, 20 to 23, 40, 43 to 45, 49 and 50: the first one in the order of the documents, in words."""
from functools import lru_cache
from typing import NamedTuple

from . import forms
from .formatting import fractions, grouped
from .sheets import at_least, counts_of
from .words import WORDS


class Fault(NamedTuple):
    number: int
    line: int
    why: str


def program_lines_fault(program):
    """The first fault of a program sheet's lines, or None."""
    return _length_fault(10, program, forms.PROGRAM_BYTES) or _lines_fault(
        {"form": 11, "range": 12, "word": 45}, 13, program, lambda: 1 + sum(counts_of(program)),
        lambda number, line: _program_line_fault(line, None if number == 1 else program.line(1).split(b",")[0]))


def job_fault(steps, procedures):
    """The first fault of the steps as a job with so many procedures, or None."""
    return _shape_fault(steps, procedures) or _scope_fault(steps, procedures)


def split_lines_fault(steps, split, is_filling):
    """The first fault of a split sheet's lines beside these steps, or None."""
    return (_length_fault(20, split, forms.SPLIT_BYTES)
            or _lines_fault(
                {"form": 21, "range": 22, "lack": 40, "nothing kept": 50}, 23, split, lambda: lines_wanted(steps, split),
                _split_forms(steps, split, is_filling))
            or (_count_fault(split) if is_filling else None))


def _length_fault(number, sheet, most):
    if sheet.length <= most:
        return None
    return Fault(number, 0, f"{sheet.name} has {grouped(sheet.length)} bytes; at most {grouped(most)} are read")


# ---- Lines in turn: each of its form and in range, none missing or spare


def _lines_fault(numbers, count_number, sheet, lines_promised, fault_of):
    """`fault_of` says what is wrong with a line, by its number and the line itself."""
    if not sheet.lines:
        return Fault(numbers["form"], 1, "there is no line 1")
    line, promised = 1, 1
    while line <= promised:
        if line > len(sheet.lines):
            return Fault(count_number, line - 1, f"{_promise(sheet, promised)}; there are {grouped(line - 1)}")
        fault = fault_of(line, sheet.lines[line - 1])
        if fault:
            return Fault(numbers[fault.kind], line, fault.why)
        promised = promised if line > 1 else lines_promised()
        line += 1
    if line <= len(sheet.lines):
        return Fault(count_number, line, f"{_promise(sheet, promised)}; line {line} is spare")
    return None


def _promise(sheet, promised):
    if sheet.line(1).startswith(b"P"):
        return f"line 1 promises {counts_of(sheet)}, with it {grouped(promised)} lines"
    counts = forms.counts_of(sheet.line(1))
    job = grouped(promised - 1 - counts.types - counts.maps)
    return f"1 + {counts.types} types + {counts.maps} maps + {job} steps and procedures make {grouped(promised)} lines"


def lines_wanted(steps, split):
    """How many lines the split should have by its first line, which was read: one for each step and each procedure too."""
    counts = forms.counts_of(split.line(1))
    return 1 + counts.types + counts.maps + len(steps)


# Many lines are alike, in a sheet and in a release.
@lru_cache(maxsize=1 << 14)
def _program_line_fault(line, heading):
    """`heading` is the first field of line 1; None for line 1 itself."""
    fields = line.text.split(b",")
    return forms.fault(line, forms.program_head_fields(fields) if heading is None else forms.program_fields(fields, heading))


@lru_cache(maxsize=1 << 14)
def _split_line_fault(line, kind, counts, is_filling):
    return forms.fault(line, forms.split_fields(kind, line.text.split(b","), counts, is_filling))


def _split_forms(steps, split, is_filling):
    words, counts = [step.word for step in steps if step.word != "proc"], None
    procedures = len(steps) - len(words)

    def fault(number, line):
        nonlocal counts
        if number == 1:
            return forms.fault(line, forms.head_fields(line.text.split(b","), is_filling))
        counts = counts or forms.counts_of(split.line(1))
        return _split_line_fault(line, _kind(number - 2, counts, procedures, words), counts, is_filling)

    return fault


def _kind(place, counts, procedures, words):
    """What a line of a split is, by its place below the first: of a type its number, of a row its word."""
    if place < counts.types:
        return place
    row = place - counts.types - counts.maps - procedures
    return words[row] if row >= 0 else forms.PROCEDURE if row >= -procedures else forms.MAP


# ---- The job as expressions, its variables and calls


def _shape_fault(steps, procedures):
    """The first line that does not fit, or the last line of a job that is not finished."""
    left = procedures + 1  # the expressions that are not finished: the bodies, and the job itself
    unfinished = []  # the words that still lack parts: line, word, how many
    for step in steps:
        misfit = _misfit(step, left, bool(unfinished))
        if misfit:
            return Fault(13, step.line, misfit)
        if unfinished:
            unfinished[-1][2] -= 1
        unfinished.append([step.line, step.word, len(WORDS[step.word].parts)])
        while unfinished and unfinished[-1][2] == 0:
            unfinished.pop()
        left -= not unfinished
    return Fault(13, len(steps) + 1, _missing(left, unfinished)) if left else None


def _misfit(step, left, is_inside):
    """Why a line does not fit where it stands, inside an expression or not, with so many expressions to come; None if it does."""
    if not left:
        return f"the job is over on line {step.line - 1}"
    is_due = left > 1 and not is_inside
    if is_due == (step.word == "proc"):
        return None
    return "a `proc` line is due here" if is_due else "a step is due here, not a `proc` line"


def _missing(left, unfinished):
    if unfinished:
        line, word, _ = unfinished[-1]
        return f"the job is not finished: `{word}` on line {line} lacks {'its body' if word == 'proc' else 'a part'}"
    return "the job itself is missing, behind its procedures" if left == 1 else "a procedure is missing, and the job itself"


# The part of a word in which the variable that it binds may be used.
_SCOPES = {"let": "e2", "proc": "body"}


def _scope_fault(steps, procedures):
    """The first variable used unbound (14) or bound twice (15), or call of no procedure (49), in line order."""
    bound, ended = {}, set()  # the step that binds each variable, and the variables whose scope is over or not begun

    def walk(at):
        step = steps[at]
        if step.word == "var" and (step.number not in bound or step.number in ended):
            raise _Found(14, step.line, f"variable {step.number} is {_where_bound(bound.get(step.number))}")
        if step.word == "call" and step.number >= procedures:
            raise _Found(49, step.line, f"procedure {step.number} is called, and {_procedures_there(procedures)}")
        if step.word in _SCOPES:
            if step.number in bound:
                raise _Found(15, step.line, f"variable {step.number} is bound on line {bound[step.number].line} already")
            bound[step.number] = step
            ended.add(step.number)
        at += 1
        for name in WORDS[step.word].parts:
            if name == _SCOPES.get(step.word):
                ended.discard(step.number)
            at = walk(at)
        if step.word in _SCOPES:
            ended.add(step.number)
        return at

    try:
        at = 0
        while at < len(steps):
            at = walk(at)
    except _Found as found:
        return Fault(*found.args)
    return None


def _where_bound(binder):
    if not binder:
        return "bound by no line above it"
    scope = "the body of its procedure" if binder.word == "proc" else "the second part of its let"
    return f"used outside {scope} on line {binder.line}"


def _procedures_there(count):
    return {0: "there is none", 1: "there is procedure 0 alone"}.get(count, f"there are procedures 0 to {count - 1}")


class _Found(Exception):
    pass


# ---- The split as a whole


def _count_fault(split):
    given = forms.counts_of(split.line(1)).maps
    if given <= forms.MOST_TO_FILL:
        return None
    return Fault(43, 0, f"{grouped(given)} maps are given; a sheet for filling has at most {grouped(forms.MOST_TO_FILL)}")


def lock_fault(split):
    """The first lock line whose out is below its in somewhere, and why."""
    for number, one in enumerate(split.types):
        if one.kind == "lock" and not at_least(split.map_in(number, "out"), split.map_in(number, "in")):
            gives, takes = (fractions(split.map_in(number, name), split) for name in ("in", "out"))
            return Fault(44, number + 2, f"the lock gives {gives} (in) and takes {takes} (out)")
    return None
