"""Threads started for ever, and counts that grow for ever. If a state has all that an earlier one on its way had, and more threads
or greater counts besides, the way can be gone again and again: there can be as many of these as one likes.

More threads and greater counts let the others do no less. So from then on such a thread is one of many: two of it stand in the
state, which meet one another as any two do, and when one goes on another takes its place. Such a count does not end.
"""
from collections import Counter

from interpreter.machine import START, kind, name
from interpreter.program import FINISHED

from .state_key import reached, same_things

ENDLESS = 1 << 30  # a count that does not end
COPIES = 2  # of one of many
FAR = 64  # states back


def looks(state, apart, stands_for):
    """The threads of a state as they look, their numbers aside, and the identifiers that nobody can get at; and how many of each.
    Those that are kept apart do not count."""
    free = [thread for thread in state.threads if thread.number not in apart]
    known = _known(state, stands_for)
    return Counter(look(thread, known) for thread in free if thread.point != FINISHED or thread.identifier in known)


def _known(state, stands_for):
    """The things that some thread can get at."""
    return reached(state, [value for thread in state.threads if thread.point != FINISHED for value in thread.values()], stands_for)


def look(thread, known):
    operands = () if thread.point == FINISHED else thread.operands
    return thread._replace(number=0, operands=operands, identifier=thread.identifier if thread.identifier in known else START)


def grown(earlier, later, apart, stands_for):
    """What there is more of in a later state, which has all of an earlier one: threads as they look, and semaphores. None if it
    has not all of it, or no more."""
    if not _has_all_of(earlier, later):
        return None
    before, now = (looks(state, apart, stands_for) for state in (earlier, later))
    if before - now:
        return None
    threads = frozenset((now - before).keys())
    counts = [at for at, count in enumerate(earlier.sems) if later.sems[at] > count]
    if not threads and not counts or any(not _is_old(value, earlier, stands_for) for one in threads for value in one.values()):
        return None
    return threads, counts


def _has_all_of(earlier, later):
    """Whether a later state may have all of an earlier one: the same things, no fewer threads, and no count that is less."""
    return (len(earlier.threads) <= len(later.threads) and all(one <= other for one, other in zip(earlier.sems, later.sems))
            and same_things(earlier, later))


def _is_old(value, state, stands_for):
    """Whether a value was there already."""
    made = dict(zip(range(1, 6), (len(state.cells), len(state.locks), state.identifiers, len(state.sems), len(state.rwlocks))))
    return all(not kind(one) or name(one) < made[kind(one)] for one in stands_for(value))


def evened(state, many, apart, stands_for):
    """A state with as many copies of each of many as stand for all of them, and counts that do not end as they were."""
    known = _known(state, stands_for)
    there, kept, spawned = Counter(), [], state.spawned
    for thread in state.threads:
        one = look(thread, known)
        if thread.number not in apart and one in many:
            if there[one] == COPIES:
                continue
            there[one] += 1
        kept.append(thread)
    for one in sorted(many):
        for _ in range(COPIES - there[one]):
            kept.append(one._replace(number=spawned))
            spawned += 1
    sems = tuple(ENDLESS if count > ENDLESS // 2 else count for count in state.sems)
    return state._replace(threads=tuple(kept), sems=sems, spawned=spawned)
