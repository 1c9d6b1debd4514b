"""The whole pair as a walk: each step with its row, its thread, what is there before and after, and what it comes to."""
from textwrap import wrap
from typing import NamedTuple

from .conditions import access_at, cell_location, equation, find, holds_at, sides
from .formatting import FEW, fractions, listed
from .sites import acted_on, map_named
from .words import CALLED, KINDS, MAPS, WORDS


WIDEST = {"what changes": 34, "in words": 72}  # letters of a column on the terminal
DEEPEST = 12  # steps to the right on the terminal
AROUND = {"let", "if", "while", "proc"}


class Stride(NamedTuple):
    """One line of the walk."""

    site: object
    row: str
    maps: list  # before and after, or what changes
    words: str
    sums: str  # the conditions that move or ask for rights, with their fractions
    refused: bool
    apart: bool  # it begins the body of another procedure than the line above it, or the job itself


def strides(explanation):
    """The walk's lines, in the order of the program sheet."""
    return [_stride(site, explanation) for site in explanation.sites.all]


def _stride(site, explanation):
    split = explanation.sites.split
    return Stride(
        site,
        site.row.text,
        [fractions(site.pre, split), fractions(site.post, split)] if split.locations <= FEW
        else [changes(site, split, explanation.names)],
        in_words(site, explanation.sites, explanation.names),
        sums(site, split, explanation.names),
        site is explanation.site,
        site.line > 2 and (site.word == "proc" or site is explanation.sites.root),
    )


def map_heads(explanation):
    """What stands above the maps of a stride."""
    return ["before", "after"] if explanation.sites.split.locations <= FEW else ["what changes"]


def preface(explanation):
    """What is to be known before the walk: which location each fraction is of, and what the job starts with."""
    split, names = explanation.sites.split, explanation.names
    if split.locations <= FEW:
        return f"Before and after are what the thread has of {listed(map(names.place, range(split.locations)))}, in turn."
    has_all = set(split.root_start()) == {split.denominator}
    starts = "the whole of every location" if has_all else amounts(split.root_start(), split, names)
    return f"The job starts with {starts}. What changes is told of the thread; a read or write has its cell's location beside it."


def changes(site, split, names):
    """The locations of which a step leaves more or less than there was, and the one that it touches; of a step that has others
    in it nothing: they tell it."""
    if site.word in AROUND:
        return ""
    touched = [cell_location(site, split)] if touches(site, split) else []
    moved = [p for p in range(split.locations) if site.pre[p] != site.post[p] or p in touched]
    told = {p: dict.fromkeys(split.fraction(numbers[p], p) for numbers in (site.pre, site.post)) for p in moved}
    return ", ".join(f"{names.place(p)} {' → '.join(amounts)}" for p, amounts in told.items())


def touches(site, split):
    """Whether a step reads or writes a cell, which its part has to be."""
    is_access = any(condition.mark == "A" for condition in WORDS[site.word].conditions)
    return is_access and split.types[acted_on(site).type].kind == "ref"


# ---- In words


def in_words(site, sites, names):
    split = sites.split
    does = WORDS[site.word].does
    if site.word == "let" and site.number not in sites.used:
        does = does.replace("let {variable} be", "do")
    holder = acted_on(site) or site
    return does.format(
        variable=names.variable(site.number),
        number=site.number,
        type=_noun(site, names.variable(site.number), split, names),
        thread=names.thread(site.body),
        start=amounts(site.start, split, names),
        location=_place(holder, split, names),
        thing=thing(holder, names),
        cell=_cell(holder, split, names),
        **{name: _moved_map(holder, name, split, names) for name in MAPS},
        **_around_call(site, split, names),
        **{name: part.line for name, part in site.parts.items()},
    )


def _around_call(site, split, names):
    """What is told of a call and of a `proc` line: the procedure, the argument, and the maps before, after and kept."""
    if not site.signature:
        return {}
    told = {"procedure": names.procedure(site.signature.number)}
    if site.word == "call":
        told["argument"] = thing(site.parts["part"], names)
    return told | {name: amounts(map_named(site, name, split), split, names) for name in CALLED}


def amounts(numbers, split, names):
    """What a map holds, in words: 1/2 of level and 2/2 of colour."""
    if numbers is None:
        return ""
    held = [f"{split.fraction(a, p)} of {names.place(p)}" for p, a in enumerate(numbers) if a]
    return listed(held) or "nothing"


def thing(site, names):
    """What a part stands for: its variable's name, or what stands on its line."""
    return names.variable(site.number) if site.word == "var" else f"what line {site.line} gives"


def _cell(site, split, names):
    called = thing(site, names)
    place = _place(site, split, names)
    return called if called == place else f"{called}, of {place}"


def _noun(site, called, split, names):
    noun, place = KINDS[split.types[site.type].kind].noun, _place(site, split, names)
    return noun if not _has(site, "location", split) or called == place else f"{noun} of {place}"


def _moved_map(site, name, split, names):
    # A step behind the refused one may show a type of the wrong kind; then there is no such map to tell.
    return amounts(split.map_in(site.type, name), split, names) if _has(site, name, split) else "?"


def _place(site, split, names):
    return names.place(split.types[site.type].first) if _has(site, "location", split) else "?"


def _has(site, field, split):
    return field in KINDS[split.types[site.type].kind].fields


# ---- In fractions


def sums(site, split, names):
    """The conditions of a step that move rights, or ask for them, at the locations where they do."""
    told = []
    for number, condition in enumerate(WORDS[site.word].conditions, 1):
        finding = find(site, number, split, names)
        if condition.mark == "T" and not finding.holds:
            return ""
        if condition.mark == "F" and (" + " in condition.wording or " × " in condition.wording):
            told += _equations(site, condition.wording, split, names)
        if condition.mark == "A":
            told.append(access_at(site, condition.wording, split) + " is false" * (not finding.holds))
    return "; ".join(dict.fromkeys(told))  # before and after a call the sums are often the same


def _equations(site, wording, split, names):
    moved = _moved(site, wording, split)
    for location in moved:
        where = f"{names.place(location)}: " if len(moved) > 1 else ""
        is_false = " is false" * (not holds_at(site, wording, location, split))
        yield where + equation(site, wording, location, split) + is_false


def _moved(site, wording, split):
    """The locations of which a step hands over some."""
    left, _, right = sides(wording)
    moved = [map_named(site, term, split) for term in left + right if term in ("s", *MAPS, *CALLED)]
    return [p for p in range(split.locations) if any(numbers[p] for numbers in moved)]


# ---- As text


def told(explanation):
    """The walk as lines of text, or why there is none."""
    if not explanation.sites:
        return ["There is no walk: the sheets are not well formed, or no step of them has its map."]
    return text(explanation) + [line for line in [past_the_lack(explanation)] if line]


def past_the_lack(explanation):
    """What is to be known about the walk of a sheet for filling that fails."""
    if explanation.number != 41:
        return ""
    line = explanation.names.line(explanation.site.line)
    return f"From {line} on, what is there is told as if that step took no more than there is."


def text(explanation):
    """The walk as lines of text, the refused step marked, and an empty line behind the body of each procedure."""
    heads, names = ["line", "thread", "step", "row", *map_heads(explanation), "in words"], explanation.names
    table = [[[head] for head in heads]]
    for stride in strides(explanation):
        table += [[[""]] * len(heads)] * stride.apart
        site = stride.site
        cells = [
            f"{'>' if stride.refused else ' '}{site.line}", names.thread(site.thread),
            "  " * min(site.depth, DEEPEST) + f"{site.word},{site.number}", stride.row, *stride.maps,
            f"{stride.words}{names.source(site.line)}" + (f": {stride.sums}" if stride.sums else "")]
        table.append([_folded(cell, WIDEST.get(head)) for head, cell in zip(heads, cells)])
    widths = [max(len(line) for row in table for line in row[column]) for column in range(len(heads))]
    return [*wrap(preface(explanation), 100), "", *(line for row in table for line in _laid(row, widths))]


def _folded(words, widest):
    return (widest and wrap(words, widest)) or [words]


def _laid(row, widths):
    """A row of the table on as many lines as its longest cell takes."""
    for number in range(max(map(len, row))):
        cells = [cell[number] if number < len(cell) else "" for cell in row]
        yield "  ".join([cells[0].rjust(widths[0]), *map(str.ljust, cells[1:], widths[1:])]).rstrip()
