"""What tools/triage decides: of families of pairs the right thing, and of drawn refused pairs nothing that a proved program does
not confirm.

usage: python3 tests/users/decisions.py RACECHECK RACEFILL RACEREPLAY [PAIRS [SEED]]
"""
import os
import random
import subprocess
import sys
import tempfile
import time
from collections import Counter
from pathlib import Path

sys.path.insert(1, str(Path(__file__).resolve().parents[2] / "tools"))
import checks
import pairs
from checks import ROOT, check
from diagnosis.deciding import Programs, decide
from races.budget import Limits
from races.orders import trace_text

GREAT = 1_000_000_000
SIZES, PAIRS, SEED = (2, 9, 15), 60, 1  # the share of every run of the tests
SECONDS = 5  # of processor time, for one decision
LIMITS = Limits(20_000, 60)
FEW_STATES = Limits(2_000, 60)
MALFORMED = {"program-malformed": {10, 11, 12, 13, 14, 15, 45, 49}, "split-malformed": {20, 21, 22, 23, 40, 44, 50}}


_ONE, _TWO = ("read", "join", "lock", "unlock", "wait", "post", "rdlock", "rdunlock", "wrlock", "wrunlock"), ("write", "spawn")
WORDS = {word: words for words in (_ONE, _TWO) for word in words}  # with as many parts


# ---- Families


def families():
    """(what, the decision, whether it looks rounded, the pair's texts by the number of threads)"""
    for family in (pairs.joined, pairs.locked, pairs.posted, pairs.placed):
        yield f"{family.__name__}, a fault", "races", False, lambda count, family=family: texts(family(count, True), 0)
    yield "purged, nothing kept back", "loads", False, lambda count: texts(pairs.purged(count, True), 0)
    yield "a wrong row", "rows", False, lambda count: texts(pairs.joined(count), 1)
    yield "a wrong load", "loads", False, lambda count: texts(pairs.joined(count, load=lambda share: 0), 0)
    yield "a wrong D", "denominator", False, lambda count: with_denominator(pairs.joined(count), count + 1)
    yield "a D that is too small", "denominator", False, lambda count: with_denominator(pairs.joined(count), count - 1)
    yield "rounded loads", "loads", True, lambda count: texts(pairs.joined(count, False, GREAT, lambda share: share - 1), 0)
    yield "rounded rows", "rows", True, lambda count: with_rounded_row(pairs.joined(count, False, GREAT))


def texts(pair, post=""):
    return pair.program_text(), pair.split_text(post)


def filled(pair):
    """The texts of a pair whose after-maps racefill has found."""
    return pair.program_text(), written_by("racefill", *texts(pair))


def with_denominator(pair, denominator):
    program, split = filled(pair)
    head, rest = split.split(",", 2)[0], split.split(",", 2)[2]
    return program, f"{head},{denominator},{rest}"


def with_rounded_row(pair):
    """The last row's map is one part less than it should be."""
    program, split = filled(pair)
    lines = split.split("\n")
    first_row = len(lines) - 1 - len(pair.rows)
    lines[first_row - 1] = str(int(lines[first_row - 1]) - 1)
    return program, "\n".join(lines)


def check_families(sizes):
    """Each family with so many threads: the right decision, soon, and confirmed."""
    for what, kind, is_rounded, make in families():
        for count in sizes:
            begun = time.process_time()
            decision, objections = decided(*make(count), LIMITS)
            took = time.process_time() - begun
            check(f"{what}, {count} threads", (decision.kind, decision.is_rounded, objections), (kind, is_rounded, []))
            check(f"{what}, {count} threads: within {SECONDS} s, not {took:.1f}", took < SECONDS, True)


# ---- What is claimed, held against the proved programs


def decided(program, split, limits):
    """The decision on a pair, and what in it a proved program does not bear out."""
    with tempfile.TemporaryDirectory() as scratch:
        put(scratch, program, split)
        before = sorted(Path(scratch).iterdir())
        decision = decide(scratch, PROGRAMS, limits)
        left = [] if sorted(Path(scratch).iterdir()) == before else ["something is written"]
    return decision, left + list(filter(None, objections(decision, program, split)))


def objections(decision, program, split):
    answer, kind = written_by("racecheck", program, split).strip(), decision.kind
    yield "" if decision.answer == answer else f"racecheck says {answer}"
    if kind == "accepted":
        yield "" if answer == "ACCEPT" else "not accepted"
    if kind in MALFORMED:
        numbers = decision.numbers()[0], int((written_by("racefill", program, split).split(",") + ["0"])[1])
        yield "" if MALFORMED[kind] & set(numbers) else f"{numbers} is no malformed sheet"
    if decision.mended is not None:
        mended = written_by("racecheck", program, decision.mended.decode()).strip()
        yield "" if mended == "ACCEPT" else f"racecheck says {mended} to the mended split"
    if kind in ("races", "gets-stuck"):
        yield replay_objection(decision, program)
    if kind in ("loads", "types"):
        refilled = written_by("racefill", program, emptied(program, split)).strip().split(",")[:2]
        wanted = [["REFUSE", number] for number in {"loads": ("41", "30"), "types": ("31",)}[kind]]
        yield "" if refilled in wanted else f"racefill says {refilled}"
    yield "" if (decision.mended is None) == (decision.status != 5) else "a mended split, or none"
    yield "" if decision.kind not in ("disagreement", "failed", "unread") else f"{decision.kind}: {decision.grounds}"


def replay_objection(decision, program):
    """What racereplay says instead of the race, or of the step that is no step."""
    order, steps = list(decision.race.order), len(decision.race.order)
    if decision.kind == "races":
        line = written_by("racereplay", program, trace=trace_text(order)).strip()
        return "" if line == decision.race.replayed and line.startswith(f"RACE,{steps},{steps},") else f"racereplay says {line}"
    stuck = int(decision.race.replayed.split(",")[-1]) == steps and decision.race.replayed.startswith("REFUSE,47,")
    return "" if stuck else f"it is said to say {decision.race.replayed}"


def emptied(program, split):
    """A split without its after-maps, which names its start."""
    lines = split.split("\n")[:-1]
    head, count = lines[0].split(","), sum(not line.startswith("proc,") for line in program.split("\n")[1:-1])
    head = ["C2", *head[1:], "0"] if head[0] == "C" else head
    rows = [",".join([row.split(",")[0], "", row.split(",")[2]]) for row in lines[-count:]]
    return "\n".join([",".join(head), *lines[1:-count], *rows, ""])


def put(folder, program, split=None, trace=None):
    for name, text in (("program.txt", program), ("split.txt", split), ("trace.txt", trace)):
        if text is not None:
            (Path(folder) / name).write_text(text)


def written_by(name, program, split=None, trace=None):
    """What one of the proved programs writes."""
    with tempfile.TemporaryDirectory() as scratch:
        put(scratch, program, split, trace)
        done = subprocess.run([getattr(PROGRAMS, name)], cwd=scratch, stdin=subprocess.DEVNULL, capture_output=True, text=True)
    return done.stdout


# ---- Drawn pairs


def drawn_pairs(seed):
    """Pairs with something changed: a number of the split, a line of the job, or a line gone."""
    drawn, known = random.Random(seed), list(known_pairs())
    while True:
        program, split = drawn.choice(known)
        if drawn.random() < 0.35:
            yield changed(program, drawn), split
        else:
            split = changed(split, drawn)
            yield program, changed(split, drawn) if drawn.random() < 0.3 else split


def known_pairs():
    """Those of the examples, and of families: accepted, or with a fault of the job."""
    for folder in sorted((ROOT / "examples").iterdir()):
        if (folder / "split.txt").exists():
            yield (folder / "program.txt").read_text(), (folder / "split.txt").read_text()
    for family in (pairs.joined, pairs.locked, pairs.posted, pairs.placed, pairs.purged):
        for count in (2, 3, 4):
            yield filled(family(count))
            yield texts(family(count, True), 0)


def changed(text, drawn):
    lines = text.split("\n")[:-1]
    at, chance = drawn.randrange(len(lines)), drawn.random()
    if chance < 0.03:
        del lines[at]
    elif lines[at].split(",")[0] in WORDS and chance < 0.8:
        lines[at] = ",".join([drawn.choice(WORDS[lines[at].split(",")[0]]), *lines[at].split(",")[1:]])
    else:
        fields = lines[at].split(",")
        places = [place for place, field in enumerate(fields) if field.isdigit()]
        if places:
            place = drawn.choice(places)
            fields[place] = str(max(0, int(fields[place]) + drawn.choice([-2, -1, 1, 1, 2])))
            lines[at] = ",".join(fields)
    return "\n".join([*lines, ""])


def check_drawn(count, seed):
    """So many drawn pairs that are refused: every claim is borne out. The tally, in words."""
    tally, drawn = Counter(), drawn_pairs(seed)
    while sum(tally.values()) < count:
        program, split = next(drawn)
        if written_by("racecheck", program, split).startswith("REFUSE"):
            decision, against = decided(program, split, FEW_STATES)
            check(f"a drawn pair of seed {seed}: {program!r} {split!r}", against, [])
            tally[decision.kind] += 1
    return ", ".join(f"{times} {kind}" for kind, times in tally.most_common())


def check_decisions(racecheck, racefill, racereplay, count=PAIRS, seed=SEED, sizes=SIZES):
    global PROGRAMS
    PROGRAMS = Programs(racecheck, racefill, racereplay)
    check_families(sizes)
    return check_drawn(count, seed)


def main(given):
    """The families with 2 to 15 threads, and so many drawn pairs."""
    paths, numbers = given[:3], given[3:]
    if len(given) not in (3, 4, 5) or not all(os.access(path, os.X_OK) for path in paths) or not all(map(str.isdigit, numbers)):
        sys.exit("usage: tests/users/decisions.py RACECHECK RACEFILL RACEREPLAY [PAIRS [SEED]]")
    tally = check_decisions(*map(os.path.abspath, paths), *map(int, numbers), sizes=range(2, 16))
    print(f"decisions: {checks.passed} checks passed, {len(checks.failures)} did not; drawn pairs: {tally}")
    sys.exit(1 if checks.failures else 0)


if __name__ == "__main__":
    main(sys.argv[1:])
