"""Steps in words: what a step does, and what a thread is about to do or waits for.

The sentences are tables, so that a page which words steps by itself can be handed the same ones.
"""
from .machine import ODD, WAITS, name

# What a step does. In braces: the thing that its first part is, a value, a thread, what a cell held, what a semaphore counts.
DOES = {
    "call": "calls {procedure} with {argument}",
    "spawn": "starts {started}",
    "join": "joins {joined}",
    "read": "reads {thing}: {held}",
    "write": "writes {value} into {thing}",
    "lock": "takes {thing}",
    "unlock": "gives back {thing}",
    "post": "posts {thing}, now {count}",
    "wait": "takes one of {thing}, {count} left",
    "rdlock": "takes {thing} for reading",
    "rdunlock": "gives back {thing} after reading",
    "wrlock": "takes {thing} for writing",
    "wrunlock": "gives back {thing} after writing",
}
MAKES_A_CELL, MAKES_A_THING = "makes {made}, holding {argument}", "makes {made}"
# By the choice.
OF_A_LOOP = "goes round the loop", "leaves the loop"
OF_AN_IF = "chooses the first way", "chooses the second way"
# What a thread waits for.
WAITING = {
    "join": "waits for a thread of {thing}",
    "lock": "waits for {thing}",
    "wait": "waits for a count of {thing}",
    "rdlock": "waits to read under {thing}",
    "wrlock": "waits to write under {thing}",
    "rdunlock": "waits to give back {thing}, which nobody reads under",
    "wrunlock": "waits to give back {thing}, which nobody writes under",
}
STUCK = "is stuck at `{word}`, which cannot go on with {noun}"
# What a thread is about to do that others may meet.
ABOUT = {"write": "is about to write {value} into {thing}", "read": "is about to read {thing}"}
GOES_ON = "can go on"
# Steps that only go on: a let that binds something anew, then where to; the two of a loop.
BINDS, TO_LINE = "{variable} is {thing}; ", "goes on to line {line}"
ON_A_LOOP = {"let": "the round is over", "while": "comes to the loop"}


class _Facts:
    """What the braces of a sentence stand for, each worked out when it is asked for."""

    def __init__(self, one, naming):
        self.one, self.naming = one, naming

    def __getitem__(self, fact):
        return getattr(self, fact)()

    def thing(self):
        return self.naming.thing(self.one.operands[0])

    argument = thing

    def value(self):
        return self.naming.thing(self.one.operands[1])

    def procedure(self):
        return self.naming.names.procedure(self.one.point.number)

    def started(self):
        return self.naming.thread(self.one.started())

    def joined(self):
        return self.naming.thread(self.one.joined())

    def made(self):
        return self.naming.thing(self.one.made())

    def held(self):
        return self.naming.thing(self.one.before.cells[name(self.one.operands[0])])

    def count(self):
        return self.one.after.sems[name(self.one.operands[0])]


def step_words(one, naming):
    """What a step does."""
    return _sentence(one).format_map(_Facts(one, naming))


def _sentence(one):
    word = one.point.word
    if one.made() is not None:
        return MAKES_A_CELL if word == "ref" else MAKES_A_THING
    if word == "if":
        return (OF_A_LOOP if one.point.loop else OF_AN_IF)[one.choice]
    return DOES[word]


# ---- One thread


def about(machine, state, thread, naming):
    """What a thread that has not finished is about to do."""
    word, operands, standing = machine.points[thread.point].word, thread.operands, machine.standing(state, thread)
    if standing == ODD:
        return STUCK.format(word=word, noun=naming.noun(operands[0]))
    if standing == WAITS:
        return WAITING[word].format(thing=naming.thing(operands[0]))
    if word not in ABOUT:
        return GOES_ON
    return ABOUT[word].format(thing=naming.thing(operands[0]), value=naming.thing(operands[-1]))
