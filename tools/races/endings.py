"""What an order leads to, in words: a race, a thread that is stuck, or threads that all wait."""
from explanation.formatting import listed
from interpreter.machine import CELL, KIND, ODD, WAITS, name
from interpreter.wording import about

from .orders import has_odd_halt, has_race, is_stuck
from .wording import capital, counted


class Ending:
    """The threads that the last state of an order is about: their numbers, what each is about to do, and their lines."""

    cell = None  # the cell that two of them meet at

    def __init__(self, shown, threads):
        self.naming, self.order = shown.naming, shown.order
        self.size = f"{counted(len(shown.order), 'step')}, {counted(shown.switches(), 'switch')} of thread"
        self.threads, self.numbers = threads, [thread.number for thread in threads]
        self.lines = [shown.machine.points[thread.point].line for thread in threads]
        self.words = [about(shown.machine, shown.state, thread, self.naming) for thread in threads]

    def each(self):
        """Each thread with what it is about to do, and where."""
        return [f"{self.naming.thread(number)} {words} ({self.naming.names.line(line)})"
                for number, words, line in zip(self.numbers, self.words, self.lines)]


class Race(Ending):
    """Two threads about to access one cell, one of them to write it."""

    badge, grave = "RACES", True
    mark = "what both do next, in whatever order: the race"
    claim = "This job can race."
    shows = staticmethod(has_race)

    def __init__(self, shown):
        machine, state = shown.machine, shown.state
        super().__init__(shown, [state.threads[state.at(number)] for number in machine.race(state)])
        self._fewest = "no race was found with fewer switches" if shown.fewest else "there may be one with fewer switches"
        self.cell = CELL * KIND + machine.access(self.threads[0])[0]
        self.name, self.holds = self.naming.thing(self.cell), self.naming.thing(state.cells[name(self.cell)])

    def sentence(self):
        return capital(" while ".join(self.each()) + ".")

    def facts(self):
        made = self.naming.made_line[self.cell]
        so = self._outcomes()
        return [("the cell", f"{self.name}, made on {self.naming.names.line(made)}; it holds {self.holds} at that moment"),
                ("the order", f"{self.size}; {self._fewest}"), *([("so", so)] if so else [])]

    def _outcomes(self):
        """What depends on who comes first, if it shows in the next two steps; else empty."""
        written = {thread.number: self.naming.thing(thread.operands[1]) for thread in self.threads if len(thread.operands) == 2}
        if len(written) == 2:
            one, other = written.values()
            return f"{self.name} holds {one} or {other}, whoever comes last" if one != other else ""
        reader = next(number for number in self.numbers if number not in written)
        after = next(iter(written.values()))
        return f"{self.naming.thread(reader)} reads {self.holds} or {after}, whoever comes first" if after != self.holds else ""


class OddHalt(Ending):
    """A thread at a word of the wrong kind, which can never go on."""

    badge, grave = "GETS STUCK", True
    mark = "cannot go on, ever"
    claim = "A thread of this job can get stuck."
    shows = staticmethod(has_odd_halt)

    def __init__(self, shown):
        odd = [thread for thread in shown.state.threads if shown.machine.standing(shown.state, thread) == ODD]
        super().__init__(shown, odd[:1])

    def sentence(self):
        return capital(f"{self.each()[0]}.")

    def facts(self):
        return [("what it is", "no race; but no pair for such a job is accepted"), ("the order", self.size)]


class Wait(Ending):
    """Every thread that has not finished waits."""

    badge, grave = "CAN WAIT FOR EVER", False
    mark = "waits, and nobody is left to let it go"
    claim = "All threads of this job can wait for ever."
    shows = staticmethod(is_stuck)

    def __init__(self, shown):
        super().__init__(shown, [
            thread for thread in shown.state.threads if shown.machine.standing(shown.state, thread) == WAITS])

    def sentence(self):
        waits, them = ("waits", "it") if len(self.numbers) == 1 else ("wait", "them")
        return capital(f"{listed(map(self.naming.thread, self.numbers))} {waits}, and nobody is left to let {them} go.")

    def facts(self):
        return [("what it is", "no race, and no reason for a refusal: accepted jobs may wait so too"), ("the order", self.size)]
