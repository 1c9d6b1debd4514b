"""The search of tools/show-race on the lines of a program, and what racereplay has against an order."""
from explanation.names import Names
from explanation.sheets import Step
from jobs import sheet_of
from races.confirming import Replay
from races.budget import Budget, Limits
from races.finding import find, hold
from races.short_order import ShortOrder
from interpreter.machine import ROOM, Machine
from interpreter.program import Steps


def machine_of(lines):
    return Machine(Steps([Step(number, word, int(v)) for number, (word, v) in enumerate((line.split(",") for line in lines), 2)]))


def searched(lines):
    return find(machine_of(lines), Limits(100_000, 60))


def held(lines):
    """What the search that holds threads finds by itself."""
    return hold(machine_of(lines), Budget(Limits(100_000, 60)), ROOM)


def objection(lines, order, shows, told):
    """What racereplay says instead, if it does not bear out an order that shows something; else empty."""
    shown = ShortOrder(machine_of(lines), Names(), order, shows)
    return Replay(sheet_of(lines).encode()).objection(told(shown))
