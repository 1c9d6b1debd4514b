"""How much each step of a sheet for filling may leave, so that what comes after it still passes.

A call asks for just what its procedure starts with and what is kept back, so less may have to be claimed before it, after an
`if` or a `while`. What is asked of the end of an expression goes back to its parts, the last one first. Nothing asks for less at
the end of the job, of a body, of a spawned thread, of a branch or of a round.
"""
from .conditions import sides, summed
from .sites import map_named
from .words import WORDS

TOP = 1 << 62  # no bound: past every number that a sheet can come to


class Caps:
    """By the line of a step the most that it may leave; of a `while`, what a round can end with again is in it."""

    def __init__(self, sites):
        self.split, self._most = sites.split, {}
        self._top = (TOP,) * self.split.locations
        for procedure in sites.procedures:
            self._ceiling(procedure.parts["body"], self._top)
        self._ceiling(sites.root, self._top)

    def of(self, site):
        return self._most[site.line]

    def _ceiling(self, site, cap):
        """Notes the most that a step and its parts may leave, and returns the most that may be there before it."""
        self._most[site.line], parts = cap, site.parts
        if site.word == "if":
            return _least(self._ceiling(parts["e1"], self._top), self._ceiling(parts["e2"], self._top))
        if site.word == "while":
            before = self._ceiling(parts["part"], self._top)
            self._most[site.line] = _least(cap, before, self._reach(parts["part"], self._top))
            return self._top
        if site.word == "call":
            return self._ceiling(parts["part"], summed(site, ["before", "kept"], self.split))
        if site.word == "spawn":
            self._ceiling(parts["e2"], self._top)
            return self._ceiling(parts["e1"], _sum(cap, site.start))
        gives, takes = self._moved(site)
        before = _less(_sum(cap, takes), gives)
        for part in reversed(parts.values()):
            before = self._ceiling(part, before)
        return before

    def _reach(self, site, before):
        """The most that a step can leave, if at most so much is there before it. Its caps are known."""
        cap, parts = self._most[site.line], site.parts
        if site.word == "if":
            return _least(cap, self._reach(parts["e1"], before), self._reach(parts["e2"], before))
        if site.word == "while":
            return _least(cap, before)
        if site.word == "call":
            return summed(site, ["after", "kept"], self.split)
        if site.word == "spawn":
            return _less(self._reach(parts["e1"], before), site.start)
        for part in parts.values():
            before = self._reach(part, before)
        gives, takes = self._moved(site)
        return _less(_sum(before, gives), takes)

    def _moved(self, site):
        """What a step adds to what its parts leave, and what it takes off, by its conditions: post = .. + K, post + K = .."""
        gives = takes = (0,) * self.split.locations
        for condition in WORDS[site.word].conditions:
            left, relation, right = sides(condition.wording) if condition.mark == "F" else ((), "", ())
            if relation == "=":
                takes = map_named(site, left[1], self.split) if left[1:] else takes
                gives = map_named(site, right[1], self.split) if right[1:] else gives
        return gives, takes


def _least(*maps):
    return tuple(map(min, *maps))


def _sum(one, other):
    return tuple(a + b for a, b in zip(one, other))


def _less(one, other):
    return tuple(max(0, a - b) for a, b in zip(one, other))
