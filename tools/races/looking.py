"""A job searched, and what was found borne out by racereplay. Nothing is written: tools/show-race and tools/triage tell it."""
from typing import Callable, NamedTuple

from interpreter.machine import ROOM

from . import report
from .confirming import halt_lines, race_lines
from .endings import OddHalt, Race, Wait
from .finding import find
from .short_order import ShortOrder

# What is known of a job then, as the exit status of show-race.
NONE, FAULTY, DISAGREES, UNDECIDED = 0, 1, 3, 4


class Kind(NamedTuple):
    """Something that an order can lead to."""

    ending: type
    lines: Callable  # the orders that racereplay is given, and the line by which it bears each out
    borne_out: str  # what racereplay has done then
    is_fault: bool  # of the job


_REFUSES = "racereplay, which is proved, runs this order and refuses a step behind it: {}."
RACE = Kind(Race, race_lines, "racereplay, which is proved, runs this order and reports this race: {}.", True)
ODD = Kind(OddHalt, halt_lines, _REFUSES, True)
WAIT = Kind(Wait, halt_lines, _REFUSES, False)


class Looked(NamedTuple):
    """What came of a search. If it led to something, the order that shows it, and what racereplay says."""

    found: object
    kind: Kind = None
    shown: ShortOrder = None
    replayed: str = ""  # racereplay's line
    objection: str = ""  # what racereplay says instead
    is_past_room: bool = False  # racereplay has no room for the order

    def status(self):
        if self.objection:
            return DISAGREES
        if self.kind and self.kind.is_fault:
            return UNDECIDED if self.is_past_room else FAULTY
        return NONE if self.found.whole() else UNDECIDED

    def is_told(self):
        """Whether there is an order, and racereplay bears it out."""
        return self.kind is not None and not self.is_past_room and not self.objection

    def ending(self):
        return self.kind.ending(self.shown)

    def borne_out(self):
        return self.kind.borne_out.format(self.replayed)

    def lines(self):
        """All there is to say, save where the order is kept."""
        lines = [] if self.found.race is not None else report.searched(self.found)
        if self.kind is None:
            return lines
        if self.objection:
            return report.alarm(self.objection)
        told = report.past_room() if self.is_past_room else [*report.told(self.shown, self.ending()), "", self.borne_out()]
        return [*lines, *[""] * bool(lines), *told]


def look(machine, names, replay, limits, watch=None):
    """Searches a job within limits; the order that it leads to is made short, and run by racereplay."""
    found = find(machine, limits, watch)
    for kind, order in ((RACE, found.race), (ODD, found.odd), (WAIT, found.stuck)):
        if order is not None:
            shown = ShortOrder(machine, names, order, kind.ending.shows, found.fewest)
            return _borne_out(Looked(found, kind, shown), replay)
    return Looked(found)


def _borne_out(looked, replay):
    if not all(ROOM.holds(one.after) for one in looked.shown.steps):
        return looked._replace(is_past_room=True)
    wanted = looked.kind.lines(looked.shown)
    return looked._replace(replayed=wanted[0][1], objection=replay.objection(wanted))
