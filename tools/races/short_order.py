"""An order that was found, made short, with what is told of it: its steps, its last state, its names."""
from explanation.formatting import listed
from interpreter.naming import Naming

from .arranging import arranged
from .orders import happenings
from .search import switches_in

MOST_NAMES = 5  # in a row


class ShortOrder:
    def __init__(self, machine, names, order, shows, fewest=True):
        self.machine, self.fewest = machine, fewest
        self.order = arranged(machine, order, shows)
        self.steps = happenings(machine, self.order)
        self.state = self.steps[-1].after if self.steps else machine.start()
        self.naming = Naming(machine.steps, names, self.steps)

    def switches(self):
        return switches_in(self.order)

    def idle(self, wanted):
        """Which threads are started and take no step, save those that are wanted; empty if there are none."""
        moving = {number for number, _ in self.order} | set(wanted)
        names = [self.naming.thread(number) for number in self.naming.thread_line if number not in moving]
        if len(names) > MOST_NAMES:
            return f"{len(names)} other threads take no step"
        return f"{listed(names)} {'takes' if len(names) == 1 else 'take'} no step" if names else ""

    def unable(self):
        """The numbers of the threads that have not finished and can take no step now."""
        return [thread.number for thread in self.state.threads if self.machine.is_halted(self.state, thread)]
