"""Choices made late: an `if` between values, say one cell or another, need not be settled before a step uses what it came to.

Until then the value is one of several, and stands for all of them. So thirty such choices in a row are one way and not 2 to the
30th. In the moves of an order such a choice is left open, and settled by a mark behind it; `made` makes moves of both.
"""
from typing import NamedTuple

from interpreter.machine import KIND, TID, kind

EITHER = TID + 8  # a kind of value beside those of machine.py


class Open(NamedTuple):
    """In the place of a move's choice: one that is yet to be made."""

    value: int
    ways: tuple  # the choices to one of the values, where nothing depends on it


class Made(NamedTuple):
    """In the place of a move's choice: what an open one comes to, as the choices on the way there. It is no move by itself."""

    value: int
    ways: tuple


class Eithers:
    """The values that stand for one of several, each with the choices that lead to each."""

    def __init__(self, steps):
        self._steps, self._known, self._all = steps, {}, []

    def at(self, thread, point):
        """The value that an `if` comes to, if both its parts are values; else None."""
        if point.word != "if" or point.loop:
            return None
        slots = dict(zip(point.live, thread.slots))
        ways = {}
        for leaf, choices in self._leaves(point.step, ()):
            value = self._value(leaf, slots)
            if value is None or kind(value) == EITHER:
                return None
            ways.setdefault(value if kind(value) else 0, (value, choices))
        # Two of one step may be there at one time, in calls of one procedure inside of one another.
        key = point.step, len(thread.calls), tuple(sorted(ways.values()))
        if key not in self._known:
            self._known[key] = EITHER * KIND + len(self._all)
            self._all.append(tuple(ways.values()))
        return self._known[key]

    def _leaves(self, at, choices):
        """The steps that an `if` can come to, through those in its parts, and the choices on the way."""
        if self._steps.steps[at].word != "if":
            return [(at, choices)]
        return [leaf for choice, part in enumerate(self._steps.parts[at]) for leaf in self._leaves(part, (*choices, choice))]

    def _value(self, at, slots):
        step = self._steps.steps[at]
        return {"int": step.number, "var": slots.get(step.number)}.get(step.word)

    def ways(self, value):
        """(value, choices) of each that a value stands for."""
        return self._all[value - EITHER * KIND]

    def values(self, value):
        """What a value stands for: itself, or each of several."""
        return [one for one, _ in self.ways(value)] if kind(value) == EITHER else [value]


def put_for(thread, value, one):
    """A thread with one of several in the place of a value that stands for them."""
    def put(values):
        return tuple(one if other == value else other for other in values)

    calls = tuple(call._replace(slots=put(call.slots)) for call in thread.calls)
    return thread._replace(operands=put(thread.operands), slots=put(thread.slots), calls=calls)


def made(order):
    """An order with every choice made."""
    moves, ways = [], {}
    for number, choice in reversed(order):
        if isinstance(choice, Made):
            ways[number, choice.value] = choice.ways
        elif isinstance(choice, Open):
            moves += [(number, one) for one in reversed(ways.pop((number, choice.value), choice.ways))]
        else:
            moves.append((number, choice))
    return moves[::-1]
