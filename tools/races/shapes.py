"""What is left to do at a point, line numbers, constants and names of variables aside: two points of one shape do the same.

Of a point in the body of a procedure it is what is left of the body; the calls that are open say what comes behind it.
"""
from typing import NamedTuple

from interpreter.program import EVERY, STRICT, saved


class Alike(NamedTuple):
    """Numbers of shapes."""

    points: list  # of what is left at each point
    returns: dict  # by the step of a call, of what is left behind it; None if that is nothing
    words: list  # the words in what is left at each point, those in spawned bodies and in called procedures included
    words_behind: dict  # by the step of a call, those in what is left behind it

    def calls(self, thread):
        """The open calls of a thread that matter: those with nothing left behind them only hand the value on."""
        return tuple([call for call in thread.calls if self.returns[call.step] is not None])

    def words_of(self, thread):
        """Every word that a thread, or one that it starts, can still come to."""
        return self.words[thread.point].union(*[self.words_behind[call.step] for call in thread.calls])


def alike(steps):
    numbers, within = {}, _words_within(steps)

    def number(shape):
        return numbers.setdefault(shape.tokens, len(numbers))

    calls = [point for point in steps.points if point.word == "call"]
    returns = {point.step: _Shape(steps, point, is_over=True) for point in calls}
    shapes = [_Shape(steps, point) for point in steps.points]
    return Alike(
        [number(shape) for shape in shapes],
        {step: number(shape) if shape.tokens else None for step, shape in returns.items()},
        [_words_in(shape.tokens, within) for shape in shapes],
        {step: _words_in(shape.tokens, within) for step, shape in returns.items()})


def _words_within(steps):
    """The words of each procedure's body, and of those that it calls."""
    ends = [*steps.procedures[1:], steps.root]
    bodies = [[(step.word, step.number) for step in steps.steps[begin:end]] for begin, end in zip(steps.procedures, ends)]
    within = [frozenset(word for word, _ in body) for body in bodies]
    for _ in bodies:
        within = [words.union(*[within[number] for word, number in body if word == "call"]) for words, body in zip(within, bodies)]
    return within


def _words_in(tokens, within):
    """The words among the tokens of a shape: a word stands as itself, or second in ("again", word) and ("then", word, place)."""
    words = {token if isinstance(token, str) else token[1] for token in tokens if isinstance(token, (str, tuple))}
    called = [tokens[at + 1] for at, token in enumerate(tokens) if token == "call"]
    return frozenset(word for word in words if isinstance(word, str)).union(*[within[number] for number in called])


class _Shape:
    """The rest of a body from a point on, or from behind its word, in the order of evaluation: words, and slots by their place at
    the point."""

    def __init__(self, steps, point, is_over=False):
        self.steps = steps
        self.slots = {slot: place for place, slot in enumerate(point.live)}
        self.bound, self._binders = {}, 0
        self._out = []
        if not is_over:
            self._begin(point)
        self._climb(point.step)
        self.tokens = tuple(self._out)

    def _begin(self, point):
        # A loop that a thread has yet to come to is like one that it is back at.
        again = point.loop or point.word == "while"
        word = "if" if point.word == "while" else point.word
        self._out += [("again", word) if again else word, _places(point)]
        if point.word == "let" and not point.loop:
            self._bind(point.number)
        for part in point.parts[0 if again else STRICT.get(point.word, EVERY):]:
            self._expression(part)

    def _bind(self, variable):
        self.bound[variable], self._binders = self._binders, self._binders + 1

    def _expression(self, at):
        step, parts = self.steps.steps[at], self.steps.parts[at]
        if step.word == "var":
            self._out.append(("bound", self.bound[step.number]) if step.number in self.bound else ("slot", self.slots[step.number]))
            return
        self._out += [step.word, _places(step)]
        for place, part in enumerate(parts):
            if step.word == "let" and place == 1:
                self._bind(step.number)
            self._expression(part)

    def _climb(self, at):
        """What follows once a step is a value."""
        while not self.steps.is_whole(at):
            above = self.steps.parent[at]
            word, place, parts = self.steps.steps[above].word, self.steps.place[at], self.steps.parts[above]
            if word == "let" and place == 0:
                self._bind(self.steps.steps[above].number)
            if word not in ("let", "if") or place == 0 and word == "let":
                self._out.append(("then", word, place))
            if word == "write" and place == 1:
                self._out.append(("slot", self.slots[saved(above)]))
            for part in parts[:1] if word == "while" else parts[1:] if word in ("let", "spawn", "write") and place == 0 else ():
                self._expression(part)
            at = above


def _places(step):
    """The one number of a step that matters, besides variables: the reading places of a new read-write lock, a called procedure."""
    return step.number if step.word in ("newrwlock", "call") else 0
