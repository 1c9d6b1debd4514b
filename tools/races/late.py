"""A search whose threads make choices between values late: when a step uses what such a choice came to."""
from interpreter.machine import kind
from interpreter.program import FINISHED

from .choices import EITHER, Eithers, Made, Open, made, put_for
from .search import Search


class Late(Search):
    def __init__(self, machine, budget, room):
        self._eithers = Eithers(machine.steps)
        self.stands_for = self._eithers.values
        super().__init__(machine, budget, room)

    def _branches(self, state, at):
        thread = state.threads[at]
        if thread.point == FINISHED:
            return []
        for value in self._to_be_made(thread):
            return [(((thread.number, Made(value, ways)),), state._replace(threads=(
                *state.threads[:at], put_for(thread, value, one), *state.threads[at + 1:])))
                for one, ways in self._eithers.ways(value)]
        value = self._eithers.at(thread, self.points[thread.point])
        if value is not None and len(self._eithers.ways(value)) > 1:
            ways = self._eithers.ways(value)[0][1]
            return [(((thread.number, Open(value, ways)),), self.machine.valued(state, at, value))]
        return super()._branches(state, at)

    def _to_be_made(self, thread):
        """The values that the next step of a thread uses, or hands to another thread, and that stand for several."""
        point = self.points[thread.point]
        if point.word in ("let", "call"):
            return []
        used = list(thread.operands)
        if point.word == "spawn":
            free = self.machine.steps.free[point.parts[1]]
            used += [value for slot, value in zip(point.live, thread.slots) if slot in free]
        return [value for value in used if kind(value) == EITHER]

    def _goes_on(self, state, at):
        thread = state.threads[at]
        return not (thread.point != FINISHED and self._to_be_made(thread)) and super()._goes_on(state, at)

    def plain(self, order):
        return order and made(order)

    def _found(self, race, limited):
        found = super()._found(race, limited)
        return found._replace(race=self.plain(found.race), odd=self.plain(found.odd), stuck=self.plain(found.stuck))
