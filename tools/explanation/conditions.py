"""One condition of one step, computed from document 01's wording of it with this pair's numbers put in."""
import re
from functools import lru_cache
from typing import NamedTuple

from .formatting import fractions
from .names import Names
from .sites import acted_on, map_named
from .words import KINDS, WORDS


class Finding(NamedTuple):
    holds: bool
    location: int  # the lowest where it is false; for an access the cell's; 0 for a type
    numbers: list  # the condition with this pair's numbers, a sentence a line
    maps: list  # each map it names: its name and its numbers


def find(site, condition, split, names):
    """What comes of condition number `condition` at a site."""
    chosen = WORDS[site.word].conditions[condition - 1]
    return {"T": _type, "F": _flow, "A": _access}[chosen.mark](site, chosen.wording, split, names)


def holds(site, condition, split):
    """Whether a condition of a site's word holds: what `find` finds, without the words."""
    judge = _type_holds if condition.mark == "T" else _flow_holds if condition.mark == "F" else _access_holds
    return judge(site, condition.wording, split)


# ---- Flow: sums of maps, equal, at least or at most, at every location

RELATIONS = {
    "=": lambda one, other: one == other, "≥": lambda one, other: one >= other, "≤": lambda one, other: one <= other,
}


@lru_cache(maxsize=None)
def sides(wording):
    """The names of the maps summed on each side, and the relation between."""
    one, relation, other = re.split(r" ([=≥≤]) ", wording)
    return one.split(" + "), relation, other.split(" + ")


def summed(site, terms, split):
    """The sum of the maps that the terms name, location by location."""
    if len(terms) == 1:
        return map_named(site, terms[0], split)
    return tuple(map(sum, zip(*(map_named(site, term, split) for term in terms))))


def _flow_holds(site, wording, split):
    left, relation, right = sides(wording)
    one, other = summed(site, left, split), summed(site, right, split)
    return one == other or (relation != "=" and all(map(RELATIONS[relation], one, other)))


def holds_at(site, wording, location, split):
    """Whether a flow condition holds at one location."""
    left, relation, right = sides(wording)
    return RELATIONS[relation](summed(site, left, split)[location], summed(site, right, split)[location])


def equation(site, wording, location, split):
    """A flow condition with its fractions at one location, as in 1/2 + 1/2 = 2/2 or 3 × 1/2 ≤ 2/2."""
    left, relation, right = sides(wording)

    def term_written(term):
        times = f"{site.number} × " if term.startswith("N × ") else ""
        return times + split.fraction(map_named(site, term.removeprefix("N × "), split)[location], location)

    def written(terms):
        return " + ".join(map(term_written, terms))

    return f"{written(left)} {relation} {written(right)}"


def _flow(site, wording, split, names):
    left, _, right = sides(wording)
    false_at = [location for location in range(split.locations) if not holds_at(site, wording, location, split)]
    numbers = [f"at {names.location(p)}: {equation(site, wording, p, split)} is false" for p in false_at]
    used = [(term, map_named(site, term, split)) for term in dict.fromkeys(left + right)]
    return Finding(not false_at, false_at[0] if false_at else 0, numbers, used)


# ---- Access: one number of the post, at the location of the cell


def cell_location(site, split):
    """The location of the cell that a step touches: document 01's p."""
    return split.types[acted_on(site).type].first


def least(wording, split):
    """How much of the cell's location an access condition asks for."""
    return {"post at p > 0": 1, "post at p ≥ D": split.denominator}[wording]


def access_at(site, wording, split):
    """An access condition with its fractions, as in 1/2 > 0."""
    location = cell_location(site, split)
    held = split.fraction(site.post[location], location)
    return wording.replace("post at p", held).replace("D", split.fraction(split.denominator, location))


def _access_holds(site, wording, split):
    return site.post[cell_location(site, split)] >= least(wording, split)


def _access(site, wording, split, names):
    location = cell_location(site, split)
    is_true = _access_holds(site, wording, split)
    numbers = [] if is_true else [f"at {names.location(location)}, that of the cell: {access_at(site, wording, split)} is false"]
    return Finding(is_true, location, numbers, [("post", site.post)])


# ---- Types: a kind that is wanted, or two types that agree


def described(number, split, names):
    """A type in words."""
    kind, first, second = split.types[number]
    noun = KINDS[kind].noun
    if kind == "ref":
        return f"type {number}, {noun} of {names.location(first)} that holds type {second}"
    maps = [_map_described(number, name, split) for name in KINDS[kind].maps()]
    return f"type {number}, {noun} with {' and '.join(maps)}" if maps else f"type {number}, {noun}"


def _map_described(number, name, split):
    content = fractions(split.map_in(number, name), split)
    return f"{MAP_NAMES[name]} map {split.map_number(number, name)}, which is {content}"


# What a type's maps are called where the type is told.
MAP_NAMES = {"K": "a load of", "in": "in", "out": "out", "r": "r", "w": "w"}


@lru_cache(maxsize=None)
def kind_wanted(wording):
    """Whose kind a condition on types asks for, as a part's name or None for the step itself, and the kind; else None."""
    words = wording.split()
    if wording == "type int":
        return None, "int"
    if len(words) == 3 and words[1] == "a":
        return words[0], words[2]
    if len(words) == 3 and words[0] == "a" and words[2] == "type":
        return None, words[1]
    return None


def _type_holds(site, wording, split):
    wanted = kind_wanted(wording)
    if wanted:
        return split.types[_whose(site, wanted[0]).type].kind == wanted[1]
    if _lacks_cell(site, wording, split):
        return False
    (_, one), (_, other) = _compared(site, wording, split)
    return (site.word == "var" and split.may_show(one, other)) or split.agree(one, other)


def _type(site, wording, split, names):
    return Finding(_type_holds(site, wording, split), 0, _type_numbers(site, wording, split, names), [])


def _type_numbers(site, wording, split, names):
    wanted = kind_wanted(wording)
    if wanted or _lacks_cell(site, wording, split):
        part, kind = wanted or (None, "ref")
        which = _whose(site, part)
        whose = f"the {_part_name(part)} ({names.line(which.line)})" if part else "the step's own type"
        return [f"{whose} is {described(which.type, split, names)}; wanted is {KINDS[kind].noun} (`{kind}`)"]
    (one, one_type), (other, other_type) = _compared(site, wording, split, names)
    numbers = [f"{one} is {described(one_type, split, names)}", f"{other} is {described(other_type, split, names)}"]
    parting = split.parting(one_type, other_type)
    if parting not in (None, (one_type, other_type)):
        numbers.append("they part inside: " + "; ".join(described(number, split, names) for number in parting))
    return numbers


def _whose(site, part):
    return site.parts[part] if part else site


def _part_name(name):
    return {"part": "part", "e1": "first part", "e2": "second part", "body": "body"}[name]


def _lacks_cell(site, wording, split):
    """Whether a condition compares the content of the step's own cell, and the step's own type is no cell."""
    return wording.startswith("a ref type whose c") and split.types[site.type].kind != "ref"


# The conditions that compare a type with one of a procedure: which one, and whose type, None for the step's own.
OF_PROCEDURE = {
    "type is result": ("result", None), "type of part is argument": ("argument", "part"),
    "type of body is result": ("result", "body")}


def _bound(binder, names):
    """What a variable stands for, and its type: the first part of its let, or the argument of its procedure."""
    if binder.word == "proc":
        return f"the argument of the procedure on {names.line(binder.line)}", binder.signature.argument
    bound = binder.parts["e1"]
    return f"what the let on {names.line(binder.line)} binds ({names.line(bound.line)})", bound.type


def _compared(site, wording, split, names=Names()):
    """The two types that a condition compares, each with whose it is."""
    own = ("the step's own type", site.type)
    if wording in OF_PROCEDURE:
        field, part = OF_PROCEDURE[wording]
        whose = (f"the {_part_name(part)} ({names.line(site.parts[part].line)})", site.parts[part].type) if part else own
        return whose, (f"the {field} of {names.procedure(site.signature.number)}", getattr(site.signature, field))
    cell = acted_on(site)
    content = cell and ("the cell's content", split.types[cell.type].second)
    if wording == "a ref type whose c is the part's type":
        return ("the cell's content", split.types[site.type].second), ("the part", site.parts["part"].type)
    if wording == "type is that of its let's e1":
        return own, _bound(site.binder, names)
    if wording == "type is c":
        return own, content
    if wording == "type of e2 is c":
        return ("the second part", site.parts["e2"].type), content
    part = wording.removeprefix("type of ")  # "type of e1", "type of e2"
    return own, (f"the {_part_name(part)} ({names.line(site.parts[part].line)})", site.parts[part].type)
