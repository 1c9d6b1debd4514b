"""A second search, which asks only whether there is a race, and needs far fewer states: a thread is held just before it touches
a cell, and the others are let go on.

A touch always goes ahead. Say some order leads from here to a race. Either the thread that is about to touch a cell has no part
in that race, and then its touch can come first, unless another thread comes to the same cell before it, which is a race with it;
or it has, and then it stands where it is. So each touch is taken at once, and once more the thread is held there for good.
Nothing else of a touch depends on when it comes. What is left to try in every order are steps on locks, semaphores, read-write
locks and identifiers that other threads may use in a way that matters: from each state go on only the threads of one set that
no other can get in the way of. A block (blocks.py) is taken at once like a touch, and once more its thread is held before it,
until it can meet another inside; or, if it gives back something before a touch, it is opened: taken step by step once more.
docs/RACES.md has the reasons.
"""
from collections import deque
from typing import NamedTuple

from interpreter.machine import CELL, KIND
from interpreter.program import FINISHED

from .blocks import GIVES, TAKES, is_flat, takes_in
from .endless import ENDLESS, FAR, evened, grown
from .state_key import key
from .meeting import Going, Others, Touch, may_meet
from .late import Late
from .recursion import recursive
from .search import Enough

BURST = 16  # states of one family before it is another's turn
HELD, OPENED = 1, 2  # marks on threads


class Held(NamedTuple):
    """A thread that moves no more, save to meet another."""

    number: int
    touches: tuple  # those that it can come to: that which it is at, or those inside of the block that it is before

    def uses(self):
        """What it still has to take, with the words that do."""
        return frozenset((TAKES[give], thing) for touch in self.touches for give, thing in touch.taken)


class Node(NamedTuple):
    state: object
    held: tuple  # at most two
    opened: tuple  # (number, what it has taken since) of threads whose block is taken step by step
    moves: tuple
    before: object
    many: frozenset = frozenset()  # how threads look of which there can be any number

    def path(self):
        pieces, node = [], self
        while node is not None:
            pieces.append(node.moves)
            node = node.before
        return [move for piece in reversed(pieces) for move in piece]

    def held_numbers(self):
        return [one.number for one in self.held]

    def marks(self):
        return {**{number: OPENED + len(taken) for number, taken in self.opened}, **dict.fromkeys(self.held_numbers(), HELD)}


class Holding(Late):
    """The states with the same threads held or opened, where they are, are a family of their own; the families take turns."""

    def __init__(self, machine, budget, room, is_endless=True):
        self._is_endless = is_endless and goes_round(machine.steps)
        self.needs_many = False  # a race was met among any number of threads, and no order to it is known
        super().__init__(machine, budget, room)
        self.is_flat, self.takes = is_flat(machine.steps), takes_in(machine.steps)
        self._families, self._turns = {}, deque()
        self._closed = set()
        self._put(None, Node(self._first.state, (), (), self._first.moves, None))

    def run(self, share=None):
        self._share = share
        try:
            while self._turns:
                race = self._burst(self._turns.popleft())
                if race is not None:
                    return self._found(*race)._replace(fewest=False)
        except Enough:
            return self._found(None, True)
        return self._found(None, False)

    def _burst(self, family):
        """Looks at some states of a family: a race and that nothing ended the search, or None."""
        waiting = self._families[family]
        for _ in range(BURST):
            if not waiting:
                break
            if self._is_enough():
                raise Enough
            self.budget.count()
            node, known = waiting.pop()
            race = self._go_on(family, node, known)
            if race is not None and self._is_unending(node):
                self.needs_many = True
                raise Enough
            if race is not None:
                return race, False
        if waiting:
            self._turns.append(family)
        else:
            del self._families[family]
        return None

    def _is_unending(self, node):
        return bool(node.many) or max(node.state.sems, default=0) >= ENDLESS // 2

    def _put(self, family, node):
        """Has a state looked at later, if it is a new one. Its key."""
        node = self._many(node) if self._is_endless else node
        known = key(node.state, node.marks(), self.alike, self.stands_for)
        if known not in self._seen:
            self._seen.add(known)
            if family not in self._families:
                self._families[family] = []
                self._turns.append(family)
            self._families[family].append((node, known))
        return known

    def _go_on(self, family, node, known):
        """Looks at a state: a race, or None once the states behind it are put down."""
        self._closed.add(known)
        if not self.room.holds(node.state):
            self.cut = True
            return None
        outcomes = self._all_outcomes(node.state)
        for order in self._races(node, outcomes):
            return order
        for order in self._meetings(node):
            return order
        self._look_for_halts(node, outcomes)
        others = Others(self, node, outcomes)
        chosen = others.smallest()
        self._hold(node, others, chosen)
        if not self._take(family, node, others, chosen):
            # All that these threads do has been looked at: without the others, nobody might ever come to theirs.
            rest = [at for at in range(len(others.moving)) if at not in chosen]
            self._hold(node, others, rest)
            self._take(family, node, others, rest)
        return None

    def _many(self, node):
        """A state that goes on from one with any number of some threads, or that has come to more than there was on the way."""
        apart, before = node.marks(), node.before
        node = self._evened(node, before.many if before else frozenset(), [])
        for _ in range(FAR):
            if before is None or before.marks() != apart:
                return node
            more = grown(before.state, node.state, apart, self.stands_for)
            if more:
                node = self._evened(node, node.many | more[0], more[1])
            before = before.before
        return node

    def _evened(self, node, many, counts):
        if not many and not counts and max(node.state.sems, default=0) < ENDLESS // 2:
            return node
        sems = tuple(ENDLESS if at in counts else count for at, count in enumerate(node.state.sems))
        return node._replace(state=evened(node.state._replace(sems=sems), many, node.marks(), self.stands_for), many=many)

    # ---- Going on

    def _take(self, family, node, others, chosen):
        """Puts down the states behind the steps of some threads. Whether one of them has yet to be looked at."""
        behind = []
        for at in others.unlike(chosen):
            if others.is_held(at):
                behind += self._entered(family, node, others.number(at))
                continue
            behind += [self._put(family, Node(state, node.held, opened, moves, node))
                       for going in others.goings(at) for state, moves, opened in self._behind(node, others.number(at), going)]
        return any(known not in self._closed for known in behind)

    def _entered(self, family, node, number):
        """Puts down the states in which a thread that is held before a block is held inside, before a touch."""
        for access, state, moves in self._touches_of(node.state, number):
            held = tuple(Held(number, (Touch(access, ()),)) if one.number == number else one for one in node.held)
            yield self._put(family, Node(state, held, node.opened, moves, node))

    def _behind(self, node, number, going):
        """Where a thread gets by a block or by one step: states, the moves to each, and what is opened then."""
        if going.block.is_whole:
            for state, moves in going.block.ends:
                state, rest = self.settled(state, state.at(number))
                yield state, (*moves, *rest), node.opened
            return
        opened = _opened_behind(node.opened, number, going)
        if opened is not None:
            for state, moves in self._ways_on(number, [going.outcome]):
                yield state, moves, opened

    # ---- Holding

    def _hold(self, node, others, chosen):
        """Puts down the states in which one of these threads is held, or opened, before a touch that another can race with."""
        meeting = [*node.held_numbers(), *dict(node.opened)]  # two threads race, and no more
        for at in others.unlike(chosen):
            if others.is_held(at) or len(meeting) == 2 and others.number(at) not in meeting:
                continue
            for going in others.goings(at):
                if self._is_to_be_held(node, others, at, going):
                    self._hold_one(node, others.number(at), going)

    def _is_to_be_held(self, node, others, at, going):
        """Whether a thread may come to race where it goes: with any other thread, or with the one that is held."""
        if not going.block.is_whole and going.word in self.takes:
            return False
        if not node.held:
            return any(others.may_race(at, *touch.access) for touch in going.touches())
        return any(may_meet(one, other) for one in going.touches() for other in node.held[0].touches)

    def _hold_one(self, node, number, going):
        outcome, point, touches = going.outcome, going.thread.point, tuple(going.touches())
        others_opened = tuple(one for one in node.opened if one[0] != number)
        if going.block.enters_once():
            held = (*node.held, Held(number, touches))
            self._put((held[0].number, number, point), Node(outcome.state, held, others_opened, outcome.moves, node))
        else:
            opened = (*others_opened, (number, ()))
            self._put((number, point, OPENED), Node(outcome.state, node.held, opened, outcome.moves, node))

    # ---- Meeting

    def _meetings(self, node):
        """The orders in which a held thread goes on to a touch, and another, or the other held one, to one that races with it."""
        if not node.held:
            return
        first, *second = node.held_numbers()
        for access, state, moves in self._touches_of(node.state, first):
            for thread in state.threads:
                if thread.number == first or second and thread.number != second[0] or not self._may_reach(thread, access):
                    continue
                for other, _, rest in self._touches_of(state, thread.number):
                    if access[0] == other[0] and (access[1] or other[1]):
                        yield [*node.path(), *moves, *rest]

    def _touches_of(self, state, number):
        """The touches that a thread comes to by itself: what it accesses, the state before it, and the moves to it."""
        at = state.at(number)
        if state.threads[at].point == FINISHED:
            return []
        return [touch for one in self.outcomes(state, at) for touch in Going(self, one).steps_to()]

    def _may_reach(self, thread, access):
        return not self.is_flat or CELL * KIND + access[0] in [one for value in thread.values() for one in self.stands_for(value)]


def goes_round(steps):
    """Whether a job can come back to where it was."""
    return bool(recursive(steps)) or any(step.word == "while" for step in steps.steps)


def _opened_behind(opened, number, going):
    """What is opened behind a step; None once an opened thread has given back all that it took."""
    taken = dict(opened).get(number)
    if taken is None:
        return opened
    thing = going.thread.operands[0] if going.thread.operands else None
    if going.word in GIVES and going.word != "post":
        taken = (*taken, (GIVES[going.word], thing))
    elif (going.word, thing) in taken:
        place = taken.index((going.word, thing))
        taken = taken[:place] + taken[place + 1:]
        if not taken:
            return None
    return tuple((other, taken if other == number else has) for other, has in opened)
