"""Blocks: something is taken, cells are touched, and all that was taken is given back. With numbers in cells, and nothing given
back but by who took it, a whole block leaves everything as it was for the other threads: a search can take it as one step.

A block may hold other blocks, choices, loops and calls. It is found by walking the thread on by itself.
"""
from typing import NamedTuple

from interpreter.machine import READY
from interpreter.program import FINISHED

# By the word that takes, the one that gives back.
GIVES = {"lock": "unlock", "rdlock": "rdunlock", "wrlock": "wrunlock", "wait": "post"}
TAKES = {give: take for take, give in GIVES.items()}
# By the word that gives back, the one that takes; who gives back a count of a semaphore need not be who took it.
OWNED = {"unlock": "lock", "rdunlock": "rdlock", "wrunlock": "wrlock"}
# The words that take, by the kind of thing.
KINDS = ({"lock"}, {"rdlock", "wrlock"}, {"wait"})
MOST = 256  # points on the ways through a block


class Touch(NamedTuple):
    """A touch inside of a block."""

    access: tuple  # the cell, and whether it writes it
    state: object  # its thread stands before it
    moves: tuple
    taken: tuple  # the words that give back what is taken, each with its thing
    is_past: bool  # something was given back before it


class Block(NamedTuple):
    """The ways of a thread through a block that it is about to begin, the other threads standing still."""

    ends: list  # (state, moves) behind it
    touches: list
    is_whole: bool  # every way leads to an end

    def enters_once(self):
        """Whether a thread that waits before the block comes to every touch by taking things alone."""
        return not any(touch.is_past for touch in self.touches)


def walk(search, outcome):
    """The block that a thread begins where it stands; not whole if it is none. `search` takes it on through its own steps."""
    number, ends, touches, is_whole, seen = outcome.state.threads[outcome.at].number, [], [], True, set()
    waiting = [(outcome.state, outcome.moves, (), False)]
    while waiting:
        state, moves, taken, is_past = waiting.pop()
        at = state.at(number)
        here = search.here(state.threads[at]), taken, is_past
        if here in seen:
            continue
        seen.add(here)
        after = _after(search, state, at, taken)
        if after is None or len(seen) > MOST:
            is_whole = False
            continue
        access = search.machine.access(state.threads[at])
        if access:
            touches.append(Touch(access, state, moves, taken, is_past))
        now, left = after
        if not left:
            ends.append((now, (*moves, (number, 0))))
            continue
        gave = is_past or len(left) < len(taken)
        waiting += [(one.state, (*moves, (number, 0), *one.moves), left, gave) for one in search.outcomes(now, now.at(number))]
    return Block(ends, touches, is_whole and bool(ends))


def _after(search, state, at, taken):
    """The state behind a thread's next step and what it has taken then; None if that is no step of a block."""
    thread, machine = state.threads[at], search.machine
    if thread.point == FINISHED or machine.standing(state, thread) != READY:
        return None
    word, thing = search.points[thread.point].word, thread.operands[0]
    if word in search.takes:
        taken = (*taken, (GIVES[word], thing))
    elif (word, thing) in taken:
        place = taken.index((word, thing))
        taken = taken[:place] + taken[place + 1:]
    elif not taken or not machine.access(thread):
        return None
    return machine.step(state, at), taken


# ---- By the sheet alone


def takes_in(steps):
    """The words that can begin a block: those whose give-backs are all by who took, in a sheet whose cells hold numbers."""
    if not is_flat(steps):
        return frozenset()
    improper = _Brackets(steps).improper
    return frozenset(word for words in KINDS if not improper & words for word in words)


class _Brackets:
    """Follows each body as a thread goes on, with the variables whose things it has taken. What is not plain counts as improper."""

    def __init__(self, steps):
        self.steps, self.improper = steps, set()
        for root in [*map(steps.body_of, range(len(steps.procedures))), steps.root]:
            self._follow(root, frozenset())

    def _follow(self, at, taken):
        """What is taken behind a step, on every way."""
        word, parts = self.steps.steps[at].word, self.steps.parts[at]
        if word == "if":
            return self._follow(parts[0], taken) & self._follow(parts[1], taken)
        if word == "while":
            return self._round(parts[0], taken)
        for place, part in enumerate(parts):
            if word == "spawn" and place == 1:
                self._follow(part, frozenset())
            else:
                taken = self._follow(part, taken)
        return self._acted(word, parts, taken)

    def _acted(self, word, parts, taken):
        variable = self.steps.steps[parts[0]] if parts else None
        if word in OWNED.values():
            return taken | {(word, variable.number)} if variable.word == "var" else taken
        if word not in OWNED:
            return taken
        if variable.word != "var" or (OWNED[word], variable.number) not in taken:
            self.improper.add(OWNED[word])
        return taken - {(OWNED[word], variable.number)}

    def _round(self, at, taken):
        """What is taken before each round of a loop."""
        while True:
            again = taken & self._follow(at, taken)
            if again == taken:
                return taken
            taken = again


def is_flat(steps):
    """Whether nothing but numbers is ever written into a cell, by the looks of the sheet."""
    return all(_is_number(steps, steps.parts[at][-1], set())
               for at, step in enumerate(steps.steps) if step.word in ("ref", "write"))


def _is_number(steps, at, asked):
    """Whether a step comes to a number, if those that were asked for do."""
    if at in asked:
        return True
    asked.add(at)
    step, parts = steps.steps[at], steps.parts[at]
    if step.word in ("ref", "newtid", "newlock", "newsem", "newrwlock"):
        return False
    comes_from = {"var": lambda: _bound(steps, step.number), "let": lambda: parts[1:], "if": lambda: parts,
                  "call": lambda: [steps.body_of(step.number)]}
    return all(_is_number(steps, one, asked) for one in comes_from.get(step.word, list)())


def _bound(steps, variable):
    """The steps whose values a variable can have."""
    for number, at in enumerate(steps.procedures):
        if steps.steps[at].number == variable:
            return [steps.parts[call][0] for call, step in enumerate(steps.steps) if step.word == "call" and step.number == number]
    return [steps.parts[at][0] for at, step in enumerate(steps.steps) if step.word == "let" and step.number == variable]
