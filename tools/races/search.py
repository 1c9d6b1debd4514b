"""The search for an order of moves with a race: fewest switches of thread first, then fewest steps.

Between two switches only what others can see is a point to switch at. Steps on nothing shared are taken at once, or as late
as the thread's next step that others see, whichever loses nothing; docs/RACES.md has the reasons. A call by which a thread can
come back to the same call is taken late, as a choice is: so a thread that goes on for ever by itself is seen to.
"""
import heapq
from typing import NamedTuple

from interpreter.machine import DONE, ODD, READY, WAITS, WANTS, kind
from interpreter.program import FINISHED

from .recursion import recursive
from .shapes import alike
from .state_key import key, reached_by_others, same_things

# Steps that touch nothing another thread can name, and that always go ahead.
LOCAL = {"let", "while", "call", "ref", "newtid", "newlock", "newsem", "newrwlock"}
MAKERS = LOCAL - {"let", "while", "call"}
# Steps that always go ahead, and only let others do more.
GIVING = {"spawn", "post"}


class Outcome(NamedTuple):
    """Where a thread can get by itself, up to its next step that others see."""

    moves: tuple  # (thread, choice)
    state: object
    at: int
    standing: str


class Found(NamedTuple):
    """What a search met. An order is a list of moves (thread, choice)."""

    race: list  # an order that ends in a state with a race, or None
    odd: list  # one that ends with a thread halted at a word of the wrong kind, or None
    stuck: list  # one that ends with every unfinished thread waiting, or None
    states: int
    seconds: float
    limited: bool  # the search was ended by its limits
    cut: bool  # some order was left at the end of the room
    switches: int  # every order with fewer switches was tried
    fewest: bool = True  # no order with fewer switches has a race

    def whole(self):
        """Whether every order was searched."""
        return self.race is None and not self.limited and not self.cut


class _Node(NamedTuple):
    state: object
    last: int
    moves: tuple
    before: object

    def path(self):
        pieces, node = [], self
        while node is not None:
            pieces.append(node.moves)
            node = node.before
        return [move for piece in reversed(pieces) for move in piece]


class Search:
    """One that has come to a share of its budget can be run on."""

    @staticmethod
    def stands_for(value):
        """The values that one stands for: here itself alone."""
        return (value,)

    def __init__(self, machine, budget, room):
        self.machine, self.points, self.budget, self.room = machine, machine.points, budget, room
        self.alike = alike(machine.steps)
        self._recursive = recursive(machine.steps)
        self._share = None
        self.cut = False
        self.odd = self.stuck = None
        self._turn = 0
        self._heap, self._seen, self._switches = [], set(), 0
        state, moves = self.settled(machine.start(), 0)
        self._first = _Node(state, 0, moves, None)
        self._push(0, len(moves), self._first, None)

    def run(self, share=None):
        """What is met within the budget, or within a share of it."""
        self._share = share
        while self._heap:
            self._switches, steps, turn, node, race = heapq.heappop(self._heap)
            if race is not None:
                return self._found(race, False)
            known = key(node.state, {node.last: 1}, self.alike)
            if known in self._seen:
                continue
            if self._is_enough():
                heapq.heappush(self._heap, (self._switches, steps, turn, node, race))
                return self._found(None, True)
            self._seen.add(known)
            self.budget.count()
            try:
                self._expand(node, self._switches, steps)
            except Enough:
                self._seen.discard(known)
                heapq.heappush(self._heap, (self._switches, steps, turn, node, race))
                return self._found(None, True)
        return self._found(None, False)

    def _is_enough(self):
        return self.budget.is_over(self._share)

    def _found(self, race, limited):
        return Found(
            race, self.odd, self.stuck, self.budget.states, self.budget.seconds(), limited, self.cut, self._switches)

    def _push(self, switches, steps, node, race):
        self._turn += 1
        heapq.heappush(self._heap, (switches, steps, self._turn, node, race))

    # ---- From one state

    def _expand(self, node, switches, steps):
        state = node.state
        if not self.room.holds(state):
            self.cut = True
            return
        outcomes = self._all_outcomes(state)
        for order in self._races(node, outcomes):
            self._push(switches_in(order), len(order), node, order)
        self._look_for_halts(node, outcomes)
        for thread, choices in outcomes:
            more = switches + (thread.number != node.last)
            for after, moves in self._ways_on(thread.number, choices):
                then = _Node(after, thread.number, moves, node)
                if not self._only_gone(node, after, thread.number):
                    self._push(more, steps + len(moves), then, None)
                elif self.stuck is None:
                    self._look_for_halts(then, self._all_outcomes(after))

    def _ways_on(self, number, choices):
        """Where a thread can get by its next step that others see, or by finishing: states, and the moves to each."""
        for outcome in choices:
            if outcome.standing == READY:
                after = self.machine.step(outcome.state, outcome.at)
                after, rest = self.settled(after, after.at(number))
                yield after, (*outcome.moves, (number, 0), *rest)
            elif outcome.standing == DONE:
                yield outcome.state, outcome.moves

    def _only_gone(self, node, after, number):
        """Whether all that came of a thread's moves since some state on the way is that the thread is gone for good.

        What the others can do now, they could do then.
        """
        thread = after.threads[after.at(number)]
        if thread.point != FINISHED or thread.identifier in reached_by_others(after, after.at(number)):
            return False
        others = _without(after, number)
        while node is not None and node.state.at(number) is not None:
            then = node.state  # what was made since then has no name but in a cell
            if _without(then, number) == others and same_things(then, after) and then.sems == after.sems[:len(then.sems)]:
                return True
            node = node.before
        return False

    def _all_outcomes(self, state):
        return [(thread, self.outcomes(state, at)) for at, thread in enumerate(state.threads) if thread.point != FINISHED]

    def _has_no_room(self, state, thread, word):
        """Whether such a step of a thread would leave the room: then it is not taken ahead of others."""
        if word == "spawn":
            return state.spawned >= self.room.threads
        if word == "call":
            return len(thread.calls) >= self.room.calls
        if word not in MAKERS:
            return False
        made = {"ref": len(state.cells), "newtid": state.identifiers, "newlock": len(state.locks), "newsem": len(state.sems),
                "newrwlock": len(state.rwlocks)}
        return made[word] >= self.room.things

    def settled(self, state, at):
        """A thread taken on through steps on nothing shared, up to a choice or a step that others see."""
        number, moves = state.threads[at].number, []
        while self._goes_on(state, at):
            moves.append((number, 0))
            state = self.machine.step(state, at)
            at = state.at(number)
        return state, tuple(moves)

    def _goes_on(self, state, at):
        thread = state.threads[at]
        if thread.point == FINISHED:
            return False
        word = self.points[thread.point].word
        if self._has_no_room(state, thread, word) or self._may_come_back(thread):
            return False
        if word in LOCAL:
            return True
        if word not in WANTS or self.machine.standing(state, thread) != READY:
            return False
        return word in GIVING or thread.operands[0] not in reached_by_others(state, at, self.stands_for)

    def _may_come_back(self, thread):
        """Whether a thread is at a choice, or at a call by which it can come back to where it is."""
        point = self.points[thread.point]
        return point.word == "if" or point.word == "call" and point.number in self._recursive

    def outcomes(self, state, at):
        """Every way in which a thread can go on by itself: through local steps and choices to a step that others see."""
        outcomes, seen, most = [], set(), self._share[0] if self._share else self.budget.most()
        waiting = [((), state)]
        while waiting:
            moves, now = waiting.pop()
            thread = now.threads[at]
            branches = self._branches(now, at)
            if not branches:
                outcomes.append(Outcome(moves, now, at, self.machine.standing(now, thread)))
                continue
            if self._may_come_back(thread):
                here = self.here(thread)
                if here in seen:
                    continue
                if len(seen) >= most or self._is_enough():
                    raise Enough
                seen.add(here)
            waiting += [((*moves, *more), then) for more, then in branches]
        return outcomes

    def _branches(self, state, at):
        """Where a step that others do not see takes a thread: the moves and the state of each way; none at any other step."""
        thread = state.threads[at]
        word = self.points[thread.point].word if thread.point != FINISHED else None
        if word not in LOCAL | {"if"} or self._has_no_room(state, thread, word):
            return []
        choices = (1, 0) if word == "if" else (0,)
        return [(((thread.number, choice),), self.machine.step(state, at, choice)) for choice in choices]

    def here(self, thread):
        """Where a thread stands, constants and calls with nothing left behind them aside."""
        calls = tuple(call.step for call in self.alike.calls(thread))
        return thread.point, calls, tuple(value if kind(value) else 0 for value in thread.values())

    # ---- What there is to see in a state

    def _races(self, node, outcomes):
        """The orders in which two threads go on to accesses that race."""
        made = len(node.state.cells)
        accesses = []
        for thread, choices in outcomes:
            for outcome in choices:
                access = self.machine.access(outcome.state.threads[outcome.at])
                if access and access[0] < made:
                    accesses.append((thread, *access, outcome.moves))
        for place, (one, cell, writes, moves) in enumerate(accesses):
            for other, other_cell, other_writes, other_moves in accesses[place + 1:]:
                if one is not other and cell == other_cell and (writes or other_writes):
                    yield _with(_with(node.path(), moves), other_moves)

    def _look_for_halts(self, node, outcomes):
        for _, choices in outcomes:
            for outcome in choices:
                if outcome.standing == ODD and self.odd is None:
                    self.odd = _with(node.path(), outcome.moves)
        if self.stuck is None:
            waits = [next((outcome for outcome in choices if outcome.standing == WAITS), None)
                     or next((outcome for outcome in choices if outcome.standing == DONE), None) for _, choices in outcomes]
            if None not in waits and any(outcome.standing == WAITS for outcome in waits):
                self.stuck = self._waiting(node, waits)

    def _waiting(self, node, outcomes):
        """The order in which every thread goes where it waits or finishes; None if a join can go on then after all."""
        order = node.path()
        for outcome in outcomes:
            order = _with(order, outcome.moves)
        order, state = self.plain(order), self.machine.start()
        for number, choice in order:
            state = self.machine.step(state, state.at(number), choice)
        return None if any(self.machine.standing(state, thread) == READY for thread in state.threads) else order

    def plain(self, order):
        """An order as moves alone."""
        return order


class Enough(Exception):
    """The search has come to its limits."""


def _without(state, number):
    return tuple(thread for thread in state.threads if thread.number != number)


def _with(order, moves):
    """An order with local moves of one thread put in behind the thread's last move, else at the end: others do not see them."""
    if not moves:
        return order
    number = moves[0][0]
    at = max((place + 1 for place, move in enumerate(order) if move[0] == number), default=len(order))
    return order[:at] + list(moves) + order[at:]


def switches_in(order):
    """How often the thread changes from one move to the next."""
    return sum(one[0] != other[0] for one, other in zip(order, order[1:]))
