"""The threads that can be let go on from a state: what each is about to do, what it can still come to, and whom it can meet."""
from typing import NamedTuple

from interpreter.machine import CELL, DONE, KIND, ODD, READY
from interpreter.program import FINISHED

from .blocks import Block, walk
from .state_key import reached

# For a word that can go ahead and for one that waits: the words of others on the same thing that it must be tried before and
# behind. A word that is not here gets in nobody's way, and nobody in its.
_LOCKING, _SHARING = frozenset({"lock", "unlock"}), frozenset({"rdlock", "rdunlock", "wrlock", "wrunlock"})
MEETS = {
    "lock": (_LOCKING, _LOCKING), "unlock": (_LOCKING, _LOCKING), "wait": (frozenset({"wait"}), frozenset({"wait", "post"})),
    "join": (frozenset({"join"}), frozenset({"join", "spawn"})), **dict.fromkeys(_SHARING, (_SHARING, _SHARING)),
}
# Where nothing is given back but by who took it, a give-back gets in nobody's way, and a word that can go ahead meets those alone
# that take.
_TAKING = frozenset({"rdlock", "wrlock"})
OWN_MEETS = {"lock": (frozenset({"lock"}), _LOCKING), **dict.fromkeys(_TAKING, (_TAKING, _SHARING))}
GIVEN_BACK = {"unlock": "lock", "rdunlock": "rdlock", "wrunlock": "wrlock"}
# The words that race with a read, and with a write.
RACES = {False: frozenset({"write"}), True: frozenset({"read", "write"})}
NO_BLOCK, NOTHING = Block([], [], False), ((), ())


class Touch(NamedTuple):
    """A touch that a thread comes to by itself."""

    access: tuple  # the cell, and whether it writes it
    taken: tuple  # what the block that it is in has taken before


class Going:
    """One way of a thread by itself to its next step that others see, and the block that it begins there."""

    def __init__(self, search, outcome, is_opened=False):
        self.outcome, self.thread = outcome, outcome.state.threads[outcome.at]
        self.word = None if self.thread.point == FINISHED else search.points[self.thread.point].word
        self.can = outcome.standing in (READY, DONE)
        begins = not is_opened and self.word in search.takes and outcome.standing == READY
        self.block = walk(search, outcome) if begins else NO_BLOCK
        self._access = search.machine.access(self.thread)

    def touches(self):
        """The touches that it comes to, in the block or at once."""
        at_once = [Touch(self._access, ())] if self._access else []
        return at_once + [Touch(touch.access, touch.taken) for touch in self.block.touches]

    def steps_to(self):
        """The same as states, with the moves to each."""
        at_once = [(self._access, self.outcome.state, self.outcome.moves)] if self._access else []
        return at_once + [(touch.access, touch.state, touch.moves) for touch in self.block.touches]


class Others:
    """The threads of a state: those that are not held can go on, and those that are held before a block can get in their way."""

    def __init__(self, search, node, outcomes):
        self._search, self._opened = search, dict(node.opened)
        self._held = {one.number: one.uses() for one in node.held}
        self.moving = [one for one in outcomes if one[1] and self._held.get(one[0].number) != frozenset()]
        self._words = [search.alike.words_of(thread) for thread, _ in self.moving]
        self._reach = [reached(node.state, thread.values(), search.stands_for) for thread, _ in self.moving]
        self._goings, self._next = {}, {}

    def is_held(self, at):
        return self.number(at) in self._held

    def number(self, at):
        return self.moving[at][0].number

    def goings(self, at):
        """The ways of a thread."""
        if at not in self._goings:
            thread, choices = self.moving[at]
            self._goings[at] = [Going(self._search, one, thread.number in self._opened) for one in choices]
        return self._goings[at]

    def _wants(self, at):
        """The things that a thread is about to use, each with the words of others that matter then, and whether it waits there."""
        if at not in self._next:
            self._next[at] = ([(thing, self._meets(word)[True], False) for word, thing in self._held[self.number(at)]]
                              if self.is_held(at) else [want for going in self.goings(at) for want in self._wants_of(going)])
        return self._next[at]

    def _wants_of(self, going):
        if going.word not in MEETS or going.outcome.standing == ODD or going.block.is_whole:
            return
        waits = going.outcome.standing != READY
        words = self._meets(going.word)[waits]
        if words:
            yield going.thread.operands[0], words, going.word == "join" and waits

    def _meets(self, word):
        if GIVEN_BACK.get(word, word) not in self._search.takes:
            return MEETS[word]
        return NOTHING if word in GIVEN_BACK else OWN_MEETS.get(word, MEETS[word])

    def smallest(self):
        """A small set of threads that the rest cannot get in the way of, one of which can go on; by their places."""
        best = ()
        for start in range(len(self.moving)):
            if not self.is_held(start) and any(going.can for going in self.goings(start)):
                chosen = self._closed_under_meeting(start)
                if not best or len(chosen) < len(best):
                    best = chosen
                if len(best) == 1:
                    break
        return sorted(best)

    def unlike(self, chosen):
        """One of each kind among these threads: two of one identifier that stand alike lead to the same, up to names."""
        return {(self.moving[at][0]._replace(number=0), self._opened.get(self.number(at))): at for at in reversed(chosen)}.values()

    def _closed_under_meeting(self, start):
        chosen, waiting = {start}, [start]
        while waiting:
            for thing, words, is_waiting_for_end in self._wants(waiting.pop()):
                for at in range(len(self.moving)):
                    if at in chosen:
                        continue
                    ends = is_waiting_for_end and self.moving[at][0].identifier == thing
                    if ends or self._may_use(at, words, thing):
                        chosen.add(at)
                        waiting.append(at)
        return chosen

    def may_race(self, own, cell, writes):
        """Whether another thread can still come to touch the cell that one is about to touch: where one is opened, with that."""
        return any(at != own and self._may_use(at, RACES[writes], CELL * KIND + cell) for at in range(len(self.moving))
                   if not self._opened or self.number(own) in self._opened or self.number(at) in self._opened)

    def _may_use(self, at, words, thing):
        """Whether a thread, or one that it starts, can come to one of these words on a thing. A thing that is written into cells
        may come to anybody."""
        if self.is_held(at):
            return any(word in words and own == thing for word, own in self._held[self.number(at)])
        if not words & self._words[at]:
            return False
        return thing in self._reach[at] if self._search.is_flat else any(thing in reached for reached in self._reach)


def may_meet(one, other):
    """Whether two touches race, and two threads can come to both at one time: no lock is taken for both, and no read-write lock
    that one of them writes under."""
    (cell, writes), (other_cell, other_writes) = one.access, other.access
    if cell != other_cell or not (writes or other_writes):
        return False
    return not any(thing == held and (word == give == "unlock" or "wrunlock" in (word, give))
                   for word, thing in one.taken for give, held in other.taken)
