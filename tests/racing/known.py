"""Programs whose fate is known through the search of tools/show-race: those of tests/src/steps/programs.rs, and losses.py."""
import re
import time
from pathlib import Path

import families
import losses
import plain
from checks import check
from races.confirming import halt_lines, race_lines
from races.orders import has_odd_halt, has_race, is_stuck
from races.search import switches_in
from searching import held, objection, searched

MOST = 20_000  # states of a plain search
FAMILY_SIZES, FAMILY_STATES = (2, 8, 15), 3_000
FAMILY_SECONDS = 5  # of processor time
LISTS = Path(__file__).resolve().parents[1] / "src" / "steps" / "programs.rs"


def programs():
    """(list, steps) of each known program."""
    text = re.sub(r"\\\n\s*", "", LISTS.read_text())
    for section in re.findall(r"pub const (\w+):.*?= &\[(.*?)\n\];", text, re.S):
        for steps in re.findall(r'"([^"]*,\d[^"]*)"', section[1]):
            if re.fullmatch(r"[a-z]+,\d+(\|[a-z]+,\d+)*", steps):
                yield section[0], steps.split("|")


def programs_of(wanted):
    return [steps for section, steps in programs() if section == wanted]


def check_known():
    """Each program meets its fate, and racereplay bears it out."""
    for number, (section, lines) in enumerate(programs()):
        found = searched(lines)
        met = {"RACY": found.race is not None, "ODD": found.odd is not None and found.race is None,
               "WAITING": found.stuck is not None and found.race is None and found.odd is None}[section]
        check(f"known program {number}, {section}: {'|'.join(lines)}", met, True)
        if met:
            order, shows, told = {"RACY": (found.race, has_race, race_lines), "ODD": (found.odd, has_odd_halt, halt_lines),
                                  "WAITING": (found.stuck, is_stuck, halt_lines)}[section]
            check(f"known program {number}, {section}: as racereplay has it", objection(lines, order, shows, told), "")


def check_losses():
    """Each race that a careless search loses is found, with as few switches as by the plain one."""
    for what, lines in losses.programs():
        wanted, found = plain.search(lines, MOST), searched(lines)
        check(f"{what}: a race is wanted", wanted is not None and wanted[0] is not None, True)
        check(f"{what}: its fewest switches", found.race and switches_in(found.race), wanted[0])
        if found.race is not None:
            check(f"{what}: as racereplay has it", objection(lines, found.race, has_race, race_lines), "")
        check(f"{what}: found with threads held", (plain.replay(lines, held(lines).race or []) or (0, None))[1] is not None, True)


def check_families():
    """Large jobs: a race is found and borne out, and where there is none all orders are searched, both soon."""
    endless = [(what, is_racing, text.split("|")) for what, is_racing, text in families.ENDLESS]
    for what, is_racing, lines in [*families.jobs(FAMILY_SIZES), *endless]:
        begun = time.process_time()
        found = searched(lines)
        took = time.process_time() - begun
        check(f"{what}: a race or none", (found.race is not None, found.race is not None or found.whole()), (is_racing, True))
        check(f"{what}: within {FAMILY_STATES} states, not {found.states}", found.states <= FAMILY_STATES, True)
        check(f"{what}: within {FAMILY_SECONDS} s, not {took:.1f}", took < FAMILY_SECONDS, True)
        if found.race is not None:
            check(f"{what}: as racereplay has it", objection(lines, found.race, has_race, race_lines), "")
