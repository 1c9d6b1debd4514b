"""Whether a job races: the search that holds threads tells whether there is a race at all; if there is one, the search for the
fewest switches goes on a little for an order that is good to read."""
from interpreter.machine import ROOM, Room

from .budget import Budget, Limits
from .holding import Holding
from .search import Search

PLENTY = Room(256, 256, 256)  # to search on where there is no race within the room of racereplay
NEXT = 0.6  # the part of the seconds that the search that holds threads may take
# States, and the part of the seconds left then, for the fewest switches once it is known that there is a race.
LATER = 1000, 0.3


def find(machine, limits=Limits(), watch=None):
    """What is met in the room of racereplay; if some order goes past it and there is no race within, in plenty."""
    budget = Budget(limits, watch)
    found = _find_within(machine, budget, ROOM)
    if found.race is not None or found.limited or not found.cut:
        return found
    return _find_within(machine, budget, PLENTY)


def _find_within(machine, budget, room):
    found = hold(machine, budget, room, budget.share(budget.most(), NEXT))
    if found.whole():
        return found
    fewest = Search(machine, budget, room).run(None if found.race is None else budget.share(*LATER))
    return found if fewest.race is None and found.race is not None else fewest


def hold(machine, budget, room, share=None):
    """The search that holds threads. If there is a race once there are enough threads of a kind, it is run again for an order."""
    search = Holding(machine, budget, room)
    found = search.run(share)
    return Holding(machine, budget, room, is_endless=False).run(share) if search.needs_many else found
