"""A program sheet as control points: where a thread can stand, and which values it still needs there.

A variable is bound by one line, and a loop's round is over before the next begins, so a body needs one value for each variable
at a time. The expression that is left of a thread is then a point of the sheet, the values that it still uses, and for each call
whose body is no value yet where it goes on once the body is one. These calls are the open ones of document 02.
"""
from typing import NamedTuple

from explanation.words import WORDS

# How many parts have to be values before a word reduces: every part, save for these words.
STRICT = {"let": 1, "spawn": 1, "if": 0, "while": 0}
EVERY = 2
# A thread that has finished stands nowhere.
FINISHED = -1


class Point(NamedTuple):
    """A word that is about to reduce, once its parts are values."""

    line: int
    word: str  # a loop's `if` and `let` are called so too
    number: int
    loop: bool  # one of the two words that a `while` becomes
    live: tuple  # the slots that what comes after still uses
    parts: tuple  # the steps that may follow in its place
    step: int  # the step that reduces here, by its place in the sheet


class Call(NamedTuple):
    """A call that is open."""

    step: int  # by its place in the sheet
    slots: tuple  # the values that its thread still uses once it has returned, in the order of its point's live slots


class Stand(NamedTuple):
    """Where a thread stands."""

    point: int
    operands: tuple  # the values of the word's parts
    slots: dict
    calls: tuple  # those that are open, the latest last


class Steps:
    """The lines of a well-formed sheet: parents, free variables, points."""

    def __init__(self, steps):
        self.steps = steps
        self.parts, self.parent, self.place = [()] * len(steps), [None] * len(steps), [0] * len(steps)
        self.procedures, self.root = [], 0
        while steps[self.root].word == "proc":
            self.procedures.append(self.root)
            self.root = self._read(self.root)
        self._read(self.root)
        self.free = [frozenset()] * len(steps)
        for at in reversed(range(len(steps))):
            self.free[at] = self._free_in(at)
        self.points, self.point_of = [], {}
        for at, step in enumerate(steps):
            if step.word not in ("var", "int", "proc"):
                self._add_points(at, step)

    def _read(self, at):
        parts, end = [], at + 1
        for place in range(len(WORDS[self.steps[at].word].parts)):
            parts.append(end)
            self.parent[end], self.place[end] = at, place
            end = self._read(end)
        self.parts[at] = tuple(parts)
        return end

    def _free_in(self, at):
        step, parts = self.steps[at], self.parts[at]
        if step.word == "var":
            return frozenset([step.number])
        if step.word == "let":
            return self.free[parts[0]] | self.free[parts[1]] - {step.number}
        if step.word == "proc":
            return frozenset()
        return frozenset().union(*(self.free[part] for part in parts))

    # ---- Points

    def _add_points(self, at, step):
        again = frozenset().union(*(self.free[part] for part in self.parts[at][STRICT.get(step.word, EVERY):]))
        if step.word == "let":
            again -= {step.number}
        live = tuple(sorted(again | self._after(at)))
        kinds = [("while", False), ("if", True), ("let", True)] if step.word == "while" else [(step.word, False)]
        for word, loop in kinds:
            self.point_of[at, word] = len(self.points)
            self.points.append(Point(step.line, word, step.number, loop, live, self.parts[at], at))

    def _after(self, at):
        """The slots used once this step is a value."""
        if self.is_whole(at):
            return frozenset()
        above = self.parent[at]
        word, place, parts = self.steps[above].word, self.place[at], self.parts[above]
        needed = self._after(above)
        if word == "let" and place == 0:
            needed |= self.free[parts[1]] - {self.steps[above].number}
        elif word == "while":
            needed |= self.free[at]
        elif word in ("spawn", "write") and place == 0:
            needed |= self.free[parts[1]]
        elif word == "write":
            needed |= {saved(above)}
        return needed

    def is_whole(self, at):
        """Whether a step is all that its body or its thread does: nothing of the same body follows it."""
        above = self.parent[at]
        return above is None or self.steps[above].word == "proc" or self.steps[above].word == "spawn" and self.place[at] == 1

    def body_of(self, procedure):
        """The step that a procedure's body begins with."""
        return self.parts[self.procedures[procedure]][0]

    # ---- Going on

    def entered(self, at, slots, calls=()):
        """Where a thread stands that is to evaluate a step, with these calls open. `slots` may be written to."""
        while True:
            step = self.steps[at]
            if step.word == "int":
                return self.returned(at, step.number, slots, calls)
            if step.word == "var":
                return self.returned(at, slots[step.number], slots, calls)
            if not self.parts[at] or STRICT.get(step.word) == 0:
                return Stand(self.point_of[at, step.word], (), slots, calls)
            at = self.parts[at][0]

    def called(self, at, argument, slots, calls):
        """Where a thread stands once it has taken a call: in its body, or behind it if that is a value at once."""
        number, live = self.steps[at].number, self.points[self.point_of[at, "call"]].live
        call = Call(at, tuple(slots[slot] for slot in live))
        return self.entered(self.body_of(number), {self.steps[self.procedures[number]].number: argument}, (*calls, call))

    def returned(self, at, value, slots, calls=()):
        """Where a thread stands once a step of it has become a value."""
        while True:
            if self.is_whole(at):
                if not calls:
                    return Stand(FINISHED, (value,), {}, ())
                (at, kept), calls = calls[-1], calls[:-1]
                slots = dict(zip(self.points[self.point_of[at, "call"]].live, kept))
                continue
            above = self.parent[at]
            word, place = self.steps[above].word, self.place[at]
            if word == "if" or word == "let" and place == 1:
                at = above
                continue
            if word == "while":
                return Stand(self.point_of[above, "let"], (value,), slots, calls)
            if word == "write" and place == 0:
                slots[saved(above)] = value
                return self.entered(self.parts[above][1], slots, calls)
            operands = (slots[saved(above)], value) if word == "write" else (value,)
            return Stand(self.point_of[above, word], operands, slots, calls)


def saved(at):
    """The slot of a write's cell while its value is worked out. Variables are 0 and more."""
    return -1 - at
