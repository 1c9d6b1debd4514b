"""Where each holder's share of a location stands in its column, so that a share stays in place until it moves on."""
from typing import NamedTuple

from .holders import Holder


class Place(NamedTuple):
    holder: Holder
    left: int
    number: int


def places(moments, location):
    """For each moment the places of one location's shares. What changes hands keeps its place in the column."""
    stretches, told = [], []  # a column from left to right: who, or None, and how much
    for moment in moments:
        wanted = {holder: numbers[location] for holder, numbers in moment.held.items() if numbers[location]}
        stretches = _joined(_filled(_freed(_handed_on(stretches, wanted), wanted), wanted))
        told.append(_placed(stretches))
    return told


def _handed_on(stretches, wanted):
    """The column with the share of a thread that has ended in the name of its identifier, which keeps it where it stood."""
    kept = {holder.owner: holder for holder in wanted if holder.kind == "identifier"}
    return [
        (kept[who.number] if who and who.kind == "thread" and who.number in kept and who not in wanted else who, number)
        for who, number in stretches
    ]


def _held(stretches, holder):
    return sum(number for who, number in stretches if who == holder)


def _freed(stretches, wanted):
    """The column with what each holder has too much of set free, from the right end of its share."""
    over = {who: _held(stretches, who) - wanted.get(who, 0) for who, _ in stretches if who is not None}
    freed = []
    for who, number in reversed(stretches):
        loses = min(number, max(0, over.get(who, 0)))
        if loses:
            over[who] -= loses
        freed += [(None, loses), (who, number - loses)]
    return [stretch for stretch in reversed(freed) if stretch[1]]


def _filled(stretches, wanted):
    """The column with what each holder lacks taken from what is free, from the left; past the end if that is not enough."""
    for holder, number in wanted.items():
        lacks = number - _held(stretches, holder)
        filled = []
        for who, width in stretches:
            takes = min(width, lacks) if who is None else 0
            lacks -= takes
            filled += [(holder, takes), (who, width - takes)]
        stretches = [stretch for stretch in [*filled, (holder, lacks)] if stretch[1]]
    return stretches


def _joined(stretches):
    """The column with neighbours of one holder made one."""
    joined = []
    for who, number in stretches:
        if joined and joined[-1][0] == who:
            joined[-1] = (who, joined[-1][1] + number)
        else:
            joined.append((who, number))
    return joined


def _placed(stretches):
    placed, left = [], 0
    for who, number in stretches:
        if who is not None:
            placed.append(Place(who, left, number))
        left += number
    return placed
