"""The search of tools/show-race beside a plain one, on drawn programs.

They must agree on whether there is a race, on its fewest switches, and where there is none on whether a thread can get stuck
oddly; and racereplay must report each race. That all threads can wait is told if it is met: the tally has how often it was not.
The search that holds threads must agree with the plain one by itself, save for the switches.
"""
from collections import Counter

import plain
from checks import check
from blocks import drawn_blocks
from drawn import Draw
from races.confirming import race_lines
from races.orders import has_race
from races.search import switches_in
from searching import held, objection, searched

LONGEST = 256  # steps of a program sheet


def check_drawn(count, seed, most):
    """So many drawn programs. One with more than `most` states in the plain search is passed over. The tally, in words."""
    tally, switches, number = Counter(), Counter(), 0
    while tally["compared"] < count:
        lines = Draw(seed * 1_000_000 + number, odd=number % 6 == 0, dense=number % 2 == 1, calls=number % 5 < 2).program()
        number += 1
        wanted = plain.search(lines, most) if len(lines) <= LONGEST else None
        if wanted is None:
            tally["passed over"] += 1
            continue
        found = searched(lines)
        check(f"drawn program {number - 1} of seed {seed}: {'|'.join(lines)}", differences(lines, wanted, found), [])
        check(f"drawn program {number - 1} of seed {seed}, threads held: {'|'.join(lines)}", held_differences(lines, wanted), [])
        tally["compared"] += 1
        tally["with calls"] += any(line.startswith("call,") for line in lines)
        count_met(tally, switches, wanted, found)
    words = ", ".join(f"{counted} {what}" for what, counted in tally.items())
    return f"{words}; fewest switches {', '.join(f'{least}: {times}' for least, times in sorted(switches.items()))}"


def differences(lines, wanted, found):
    """What the search finds otherwise than the plain one, or racereplay otherwise than the search."""
    least, odd, waits = wanted
    if (found.race is None) != (least is None):
        return [f"race {found.race}, wanted {least}"]
    if found.race is not None:
        return list(filter(None, [
            "" if switches_in(found.race) == least else f"{switches_in(found.race)} switches, wanted {least}",
            "" if (plain.replay(lines, found.race) or (0, None))[1] else "the order has no race in the plain interpreter",
            objection(lines, found.race, has_race, race_lines)]))
    return list(filter(None, [
        "" if found.whole() else "not all was searched",
        "" if (found.odd is not None) == odd else f"odd halt {found.odd}, wanted {odd}",
        "" if found.stuck is None or waits else f"waits {found.stuck}, and none is wanted"]))


def held_differences(lines, wanted):
    """What the search that holds threads finds otherwise than the plain one."""
    (least, odd, waits), found = wanted, held(lines)
    if (found.race is None) != (least is None):
        return [f"race {found.race}, wanted {least}"]
    if found.race is not None:
        return [] if (plain.replay(lines, found.race) or (0, None))[1] else ["the order has no race in the plain interpreter"]
    return list(filter(None, [
        "" if found.whole() else "not all was searched",
        "" if (found.odd is not None) == odd else f"odd halt {found.odd}, wanted {odd}",
        "" if found.stuck is None or waits else f"waits {found.stuck}, and none is wanted"]))


def check_blocks(count, seed, most):
    """So many drawn programs whose locks are used in blocks. The tally, in words."""
    tally = Counter()
    for lines in drawn_blocks(count, seed):
        wanted = plain.search(lines, most)
        if wanted is None:
            tally["passed over"] += 1
            continue
        check(f"drawn blocks, threads held: {'|'.join(lines)}", held_differences(lines, wanted), [])
        tally["compared"] += 1
        tally["race"] += wanted[0] is not None
    return ", ".join(f"{counted} {what}" for what, counted in tally.items())


def count_met(tally, switches, wanted, found):
    least, odd, waits = wanted
    if least is not None:
        tally["race"] += 1
        switches[least] += 1
        return
    tally["do not race"] += 1
    tally["halt oddly"] += odd
    tally["can all wait"] += waits
    tally["of these not met"] += waits and found.stuck is None
