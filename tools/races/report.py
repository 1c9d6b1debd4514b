"""What was found, in words: the order step by step and what it leads to; or how much was searched."""
from interpreter.machine import ROOM
from interpreter.wording import step_words

from .finding import PLENTY
from .wording import capital, counted


def is_silent(one, naming):
    """Whether a step is not told: one that only goes on, and the making of an identifier that has no name."""
    word = one.point.word
    return word in ("let", "while") or word == "newtid" and not naming.is_bound(one.point.line)


# ---- What was found


def told(shown, ending):
    """What an order leads to, and the order."""
    lines = [f"{ending.claim} {ending.sentence()}", *(f"  {about:<10}  {words}" for about, words in ending.facts()), ""]
    lines += [*_order(shown), *(f"{'':>6}  -> {capital(words)}." for words in ending.each())]
    idle = shown.idle(ending.numbers)
    return lines + (["", f"{capital(idle)} in it."] if idle else [])


def _order(shown):
    """The steps of an order, a paragraph for each stretch of one thread."""
    lines, last, names = [], None, shown.naming.names
    width = max([8, *(len(names.line(one.point.line)) for one in shown.steps)])
    for number, one in enumerate(shown.steps, 1):
        if one.thread != last:
            lines.append(f"{capital(shown.naming.thread(one.thread))}:")
            last = one.thread
        if not is_silent(one, shown.naming):
            lines.append(f"{number:>6}  {names.line(one.point.line):<{width}}  {step_words(one, shown.naming)}")
    return lines


# ---- What was searched


def searched(found):
    """How far a search went that met no race."""
    took = f"{counted(found.states, 'state')}, {found.seconds:.1f} seconds"
    if found.whole():
        stuck = "" if found.odd is not None else " or to a thread stuck at a word of the wrong kind"
        return [f"No order of moves leads to a race{stuck}: all of them were searched, loops of any number of rounds"
                f" included ({took}). The search is not proved; only an accepted pair is proof."]
    past = f"some go past {PLENTY.threads} threads, {PLENTY.things} things of a kind or {PLENTY.calls} open calls of one thread"
    bound = "the search came to its limits" if found.limited else past
    lines = [f"No race was found, and that proves nothing: not all orders were searched, since {bound} ({took})."]
    if found.switches and not found.cut:
        lines.append(f"Every order with fewer than {counted(found.switches, 'switch')} of thread was searched.")
    return lines


def past_room():
    """An order that racereplay has no room for."""
    return [f"The search met something past what racereplay runs, which is {ROOM.threads} threads, {ROOM.things} things of a"
            f" kind and {ROOM.calls} open calls of one thread. So nothing confirms it, and it is not told."]


def alarm(objection):
    """What is said when racereplay does not bear out the search: loudly, since one of them is wrong."""
    return [f"*** DISAGREEMENT: {objection}. ***",
            "*** Trust neither; hand program.txt and the order to the owners of racecheck. ***"]
