"""An order of a job that races: sought as by tools/show-race, and taken only if racereplay, which is proved, reports its race."""
from typing import NamedTuple

from interpreter.machine import ROOM
from races.confirming import race_lines
from races.finding import find
from races.orders import has_race
from races.short_order import ShortOrder

CAN_RACE = "the job can race"
NONE = "all orders were searched, and none races; the search is not proved"
NONE_FOUND = "no race was found, and not all orders were searched"
NO_ROOM = "no race was found in which racereplay can follow"


class Disagreement(Exception):
    """racereplay does not say of an order what the steps taken here come to."""


class Witness(NamedTuple):
    shown: ShortOrder  # the order, made short; None if there is none
    words: str  # what is known of the job's orders
    line: str = ""  # what racereplay says of the order


def witness(machine, names, replay):
    found = find(machine)
    if found.race is None:
        return Witness(None, NONE if found.whole() else NONE_FOUND)
    shown = ShortOrder(machine, names, found.race, has_race, found.fewest)
    if not all(ROOM.holds(one.after) for one in shown.steps):
        return Witness(None, NO_ROOM)
    lines = race_lines(shown)
    objection = replay.objection(lines)
    if objection:
        raise Disagreement(objection)
    return Witness(shown, CAN_RACE, lines[0][1])
