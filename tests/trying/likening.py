"""The steps of the page beside those of tools/interpreter and of racereplay, state by state, on drawn programs and traces."""
import json
import random
import subprocess
import tempfile
from collections import Counter
from pathlib import Path

from checks import ROOT, answer_in, check
from drawn import Draw
from explanation.forms import Range, fault
from explanation.names import KINDS, Names
from explanation.sheets import sheet_of, steps_of
from explanation.trace_lines import in_words
from interpreter.happening import happened
from interpreter.machine import MAKES, ODD, ROOM, START, WAITS, WANTS, Machine, kind, name
from interpreter.naming import Naming
from interpreter.program import FINISHED, Steps
from interpreter.wording import about, step_words
from jobs import sheet_of as program_of
from orders import page
from orders.tool import Job

SCRIPTS = [(page.HERE / f"{name}.js").read_text() for name in page.PURE] + [Path(__file__).with_name("told.js").read_text()]
NUMERALS = [Range("a number", 0, 10**10)] * 2
LONGEST, MOST_STEPS = 256, 400
MANY = 500  # traces of a draw that meet everything


# ---- What tools/interpreter makes of a trace, in the form of told.js


def value_told(value):
    return [kind(value), name(value)]


def thread_told(machine, state, thread):
    identifier = START if thread.identifier == START else name(thread.identifier)
    calls = [machine.steps.steps[call.step].line for call in thread.calls]
    operands = [value_told(value) for value in thread.operands]
    if thread.point == FINISHED:
        return [thread.number, identifier, "done", "", 0, 0, operands, calls]
    point = machine.points[thread.point]
    return [thread.number, identifier, machine.standing(state, thread), point.word, int(point.loop), point.line, operands, calls]


def state_told(machine, state):
    race = machine.race(state)
    told = [
        [thread_told(machine, state, thread) for thread in state.threads], [value_told(value) for value in state.cells],
        list(map(int, state.locks)), list(state.sems), [list(map(int, lock)) for lock in state.rwlocks], state.identifiers,
        state.spawned, race and list(race)]
    return json.dumps(told, separators=(",", ":"))


def told(program, trace, tally):
    """Every state of a trace as far as it goes."""
    machine = Machine(Steps(steps_of(sheet_of("program.txt", program))))
    state = machine.start()
    states = [state_told(machine, state)]
    for line in sheet_of("trace.txt", trace).lines:
        if fault(line, NUMERALS):
            break
        number, choice = map(int, line.text.split(b","))
        at = state.at(number)
        if not machine.can_move(state, at, choice):
            count_refusal(tally, machine, state, at)
            break
        after = machine.step(state, at, choice)
        if not ROOM.holds(after):
            tally[f"past room at {machine.points[state.threads[at].point].word}"] += 1
            break
        count_step(tally, machine, state, state.threads[at])
        state = after
        states.append(state_told(machine, state))
    return states


def count_step(tally, machine, state, thread):
    point = machine.points[thread.point]
    tally[f"step of {'loop ' * point.loop}{point.word}"] += 1
    if point.word == "join":
        finished = sum(one.point == FINISHED and one.identifier == thread.operands[0] for one in state.threads)
        tally["joins of several finished threads"] += finished > 1
    tally["steps inside two calls or more"] += len(thread.calls) > 1


def count_refusal(tally, machine, state, at):
    standing = None if at is None else machine.standing(state, state.threads[at])
    if standing in (WAITS, ODD):
        tally[f"{standing} at {machine.points[state.threads[at].point].word}"] += 1


# ---- Drawn programs, with traces


WRONG = ["0,2", "99,0", "01,0", "0,0,0", "0;0", "", "0,00000000001", "9999999999,0", "10000000000,0", "0,1", "1,1", "2,0", "0, 0"]


def walk(program, seed):
    """A trace of a program: threads in stretches, sometimes a line that cannot be done."""
    draw, machine = random.Random(seed), Machine(Steps(steps_of(sheet_of("program.txt", program))))
    state, lines, last = machine.start(), [], 0
    stay, wrong, most = draw.choice([0.2, 0.7, 0.95]), draw.choice([0, 0, 0.01]), draw.randint(1, MOST_STEPS)
    while len(lines) < most:
        able = [thread.number for thread in state.threads if machine.can_move(state, state.at(thread.number), 0)]
        if draw.random() < wrong:
            lines.append(draw.choice(WRONG))
        elif not able:
            lines += [f"{draw.randrange(state.spawned)},0"] * (draw.random() < 0.5)
            break
        else:
            last = last if last in able and draw.random() < stay else draw.choice(able)
            choice = int(machine.points[state.threads[state.at(last)].point].word == "if" and draw.random() < 0.4)
            lines.append(f"{last},{choice}")
            state = machine.step(state, state.at(last), choice)
            if not ROOM.holds(state):
                break
            continue
        break
    return "".join(f"{line}\n" for line in lines).encode()[:-1 if draw.random() < wrong else None]


def crowd(seed):
    """Threads on one identifier that finish in any order and are joined one by one, with a race behind."""
    draw, lines = random.Random(seed), ["let,0", "newtid,0", "let,1", "ref,0", "int,0"]
    count = draw.randint(2, 9)
    for number in range(count):
        body = draw.choice([["int,7"], ["read,0", "var,1"], ["write,0", "var,1", f"int,{number}"], ["ref,0", "var,0"]])
        lines += [f"let,{2 + number}", "spawn,0", "var,0", *body]
    for number in range(draw.randint(1, count + 1)):
        lines += [f"let,{20 + number}", "join,0", "var,0"]
    return [*lines, "write,0", "var,1", "int,1"]


def own_draw(seed, number):
    """A program and a trace of it; None if the program is too long."""
    place = seed * 1_000_000 + number
    if number % 10 == 0:
        lines = crowd(place)
    else:
        lines = Draw(place // 3, odd=number % 6 == 0, dense=number % 4 == 1, calls=number % 5 < 3).program()
    if len(lines) > LONGEST:
        return None
    program = program_of(lines).encode()
    return program, walk(program, place)


MAKINGS = {0: ["int,5"], 1: ["ref,0", "int,0"], 2: ["newlock,0"], 3: ["newtid,0"], 4: ["newsem,0"], 5: ["newrwlock,1"]}


def every_kind():
    """Each word that wants something, on a thing of each kind: a program and a trace that comes to it and past it."""
    for word in WANTS:
        for making in MAKINGS.values():
            second = {"write": ["int,1"], "spawn": ["int,2"]}.get(word, [])
            lines = ["let,0", *making, f"{word},0", "var,0", *second]
            steps = 3 if making != ["int,5"] else 2
            yield program_of(lines).encode(), b"0,0\n" * steps


def every_form():
    """A step, then a line that is none or cannot be done; the last without its end too."""
    program = program_of(["let,0", "ref,0", "int,0", "read,0", "var,0"]).encode()
    for line in WRONG:
        yield program, f"0,0\n{line}\n".encode()
        yield program, f"0,0\n{line}".encode()


# What drawn traces seldom meet: the parts of a write, each a step; a reader past the last place; joined threads that free no room.
SELDOM = [
    (["write,0", "ref,0", "int,0", "ref,0", "int,1"], "0,0\n" * 4),
    (["let,0", "newrwlock,2", *["let,1", "rdlock,0", "var,0", "let,2", "rdlock,0", "var,0"], "rdlock,0", "var,0"], "0,0\n" * 7),
    (["while,0", "let,0", "newtid,0", "let,1", "spawn,0", "var,0", "int,0", "join,0", "var,0"], "0,0\n" * 128),
]


def seldom():
    for lines, trace in SELDOM:
        yield program_of(lines).encode(), trace.encode()


def rust_draws(scratch, count, seed):
    """The programs and traces that the second replayer is tried on, those that racereplay does not turn away."""
    command = ["cargo", "run", "--release", "--offline", "--quiet", "--bin", "traces", "--", scratch, str(count), str(seed)]
    check("orders are drawn", subprocess.run(command, cwd=ROOT / "tests").returncode, 0)
    for number in range(count):
        folder = Path(scratch) / str(number)
        yield (folder / "program.txt").read_bytes(), (folder / "trace.txt").read_bytes()


# ---- The comparison


class Racereplay:
    def __init__(self, binary, scratch):
        self.binary, self.folder = binary, Path(scratch) / "one"
        self.folder.mkdir()

    def line(self, program, trace):
        (self.folder / "program.txt").write_bytes(program)
        (self.folder / "trace.txt").write_bytes(trace)
        return answer_in(self.binary, self.folder).decode().strip()


def check_one(what, program, trace, engine, racereplay, tally):
    line = racereplay.line(program, trace)
    if line.startswith("REFUSE,") and not line.startswith(("REFUSE,46", "REFUSE,47", "REFUSE,48")) or line == "UNREAD":
        tally["not well formed, passed over"] += 1
        return
    answer, states = engine.call([program.decode("latin-1"), trace.decode("latin-1")])
    wanted = told(program, trace, tally)
    first = next((at for at, (one, other) in enumerate(zip(states, wanted)) if one != other), None)
    difference = None if first is None else (first, states[first], wanted[first])
    check(f"{what}: {program!r} {trace!r}", (answer, len(states), difference), (line, len(wanted), None))
    tally["traces"] += 1
    tally["states"] += len(states)
    tally[",".join(line.split(",")[:2]) if line.startswith("REFUSE") else line.split(",")[0]] += 1
    tally["REFUSE with a race"] += line.startswith("REFUSE") and "RACE" in line


MUST_MEET = [
    "RAN", "RACE", "REFUSE,46", "REFUSE,47", "REFUSE,48", "REFUSE with a race", "joins of several finished threads",
    "steps inside two calls or more", "past room at spawn", "past room at ref", "past room at call", "past room at newlock",
    "past room at newsem", "past room at newrwlock", "past room at newtid", "step of loop if", "step of loop let",
    *(f"step of {word}" for word in ("let", "if", "while", "call", "ref", *MAKES, *WANTS)),
    *(f"waits at {word}" for word in ("join", "lock", "wait", "rdlock", "rdunlock", "wrlock", "wrunlock")),
    *(f"odd at {word}" for word in WANTS),
]


def check_steps(kind_of_engine, binary, count, seed):
    """So many traces of each draw, which must meet everything. The tally."""
    engine, tally = kind_of_engine(SCRIPTS, "told"), Counter()
    with tempfile.TemporaryDirectory() as scratch:
        racereplay = Racereplay(binary, scratch)
        for number, (program, trace) in enumerate(rust_draws(f"{scratch}/drawn", count, seed)):
            check_one(f"drawn trace {number}", program, trace, engine, racereplay, tally)
        for number, (program, trace) in enumerate([*every_kind(), *every_form(), *seldom()]):
            check_one(f"known trace {number}", program, trace, engine, racereplay, tally)
        check_walks(engine, racereplay, count, seed, tally)
    engine.close()
    check("the traces meet everything", [what for what in MUST_MEET if not tally[what]] if count >= MANY else [], [])
    return tally


def check_walks(engine, racereplay, count, seed, tally):
    for number in range(count):
        drawn = own_draw(seed, number)
        if drawn is not None:
            check_one(f"walk {number} of seed {seed}, by {engine.name}", *drawn, engine, racereplay, tally)


def check_some(kind_of_engine, binary, count, seed):
    """So many walks by another engine: it comes to the same."""
    engine = kind_of_engine(SCRIPTS, "told")
    with tempfile.TemporaryDirectory() as scratch:
        check_walks(engine, Racereplay(binary, scratch), count, seed, Counter())
    engine.close()


# ---- The same in words


def drawn_names(seed):
    """Names for some things and not for others, with letters that mean something elsewhere."""
    draw = random.Random(seed)
    words = ["level", "colour lock", "{thing}", "$&", "$1", "<b>", "constructor", "__proto__", "a\\b", "`x`", "ünder"]
    return Names({(kind, number): draw.choice(words) for kind in KINDS for number in range(40) if draw.random() < 0.5})


def words_of(program, trace, names):
    """The steps of a trace in the words of tools/interpreter and tools/explanation."""
    machine = Machine(Steps(steps_of(sheet_of("program.txt", program))))
    state, naming, told = machine.start(), Naming(machine.steps, names), []
    for line in sheet_of("trace.txt", trace).lines:
        numbers = None if fault(line, NUMERALS) else tuple(map(int, line.text.split(b",")))
        if numbers is None or not machine.can_move(state, state.at(numbers[0]), numbers[1]):
            break
        one = happened(machine, state, state.at(numbers[0]), numbers[1])
        if not ROOM.holds(one.after):
            break
        naming.learn(one)
        state = one.after
        words = step_words(one, naming) if one.point.word == "call" else in_words(one, machine.steps, naming)
        told.append([words, *(f"{naming.thread(thread.number)} {about(machine, state, thread, naming)}"
                              for thread in state.threads if thread.point != FINISHED)])
    return told


def check_words(kind_of_engine, count, seed):
    """So many walks, each in words. How many steps they had."""
    engine, steps = kind_of_engine(SCRIPTS, "worded"), 0
    for number in range(count):
        drawn = own_draw(seed, number)
        if drawn is not None:
            (program, trace), names = drawn, drawn_names(number)
            handed = json.loads(page.handed(Job(program, names, None, "", "", None, "")))
            got, wanted = engine.call([program.decode(), trace.decode("latin-1"), handed]), words_of(program, trace, names)
            check(f"walk {number} in words: {program!r} {trace!r}", got, wanted)
            steps += len(wanted)
    engine.close()
    return steps
