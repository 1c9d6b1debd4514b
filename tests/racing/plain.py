"""A second interpreter and a plain search, written from documents 01 and 02 by substitution and sharing nothing with tools/races
and tools/interpreter.

Every thread may move at every step; states are told apart by all they hold. It is slow, and meant to be.
"""
import heapq

PARTS = {
    "var": 0, "int": 0, "newtid": 0, "newlock": 0, "newsem": 0, "newrwlock": 0,
    "while": 1, "join": 1, "ref": 1, "read": 1, "lock": 1, "unlock": 1, "post": 1, "wait": 1,
    "rdlock": 1, "rdunlock": 1, "wrlock": 1, "wrunlock": 1, "call": 1, "let": 2, "if": 2, "spawn": 2, "write": 2,
}
# An expression is ("value", kind, number), ("var", v) or (word, number, parts).


def program(lines):
    """The procedures, each its variable and its body, and the root."""
    procedures, at = [], 0
    while lines[at].startswith("proc,"):
        body, end = expression(lines, at + 1)
        procedures.append((int(lines[at].split(",")[1]), body))
        at = end
    return procedures, expression(lines, at)[0]


def expression(lines, first):
    """The expression from a line on, and the line behind it."""
    def read(at):
        word, number = lines[at].split(",")
        parts, end = [], at + 1
        for _ in range(PARTS[word]):
            part, end = read(end)
            parts.append(part)
        if word == "int":
            return ("value", "int", int(number)), end
        if word == "var":
            return ("var", int(number)), end
        return (word, int(number), tuple(parts)), end

    return read(first)


def put(inside, variable, value):
    if inside[0] == "value":
        return inside
    if inside[0] == "var":
        return value if inside[1] == variable else inside
    return inside[0], inside[1], tuple(put(part, variable, value) for part in inside[2])


STRICT = {"let": 1, "spawn": 1, "if": 0, "while": 0}  # how many parts of a word become values before it reduces; else all


def next_word(one):
    """The word that is to reduce, and the words around it with the place of the part in each, the innermost last."""
    around = []
    while True:
        word, _, parts = one
        for place, part in enumerate(parts[:STRICT.get(word)]):
            if part[0] != "value":
                around.append((one, place))
                one = part
                break
        else:
            return one, around


def put_back(new, around):
    """The whole, with something in the place of the word that was to reduce."""
    for (word, number, parts), place in reversed(around):
        new = word, number, parts[:place] + (new,) + parts[place + 1:]
    return new


ZERO = ("value", "int", 0)


class State:
    """Threads (number, identifier, expression), and things by (kind, number): a cell's value, a lock's state, .. The procedures
    stand beside, and never change."""

    def __init__(self, threads, things, spawned, procedures):
        self.threads, self.things, self.spawned, self.procedures = threads, things, spawned, procedures

    def key(self):
        return self.threads, tuple(sorted(self.things.items())), self.spawned

    def fresh(self, kind):
        return sum(1 for known, _ in self.things if known == kind)


def start(lines):
    procedures, root = program(lines)
    return State(((0, ("start", 0), root),), {}, 1, procedures)


def successors(state, at):
    """What a thread's one step can lead to: (choice, state)."""
    number, identifier, one = state.threads[at]
    if one[0] == "value":
        return
    (word, v, parts), around = next_word(one)
    for choice, (new, changes) in enumerate(reduced(state, word, v, parts)):
        threads = {thread[0]: thread for thread in changes.get("threads", state.threads)}
        threads[number] = number, identifier, put_back(new, around)
        kept = tuple(threads[k] for k in sorted(threads))
        yield choice, State(kept, changes.get("things", state.things), changes.get("spawned", state.spawned), state.procedures)


MAKES = {"newtid": "tid", "newlock": "lock", "newsem": "sem", "newrwlock": "rw", "ref": "cell"}


def reduced(state, word, v, parts):
    """What a word can become, by choice, each with what changes beside it: threads, things, how many were spawned."""
    if word == "let":
        return [(put(parts[1], v, parts[0]), {})]
    if word == "call":
        variable, body = state.procedures[v]
        return [(put(body, variable, parts[0]), {})]
    if word == "if":
        return [(part, {}) for part in parts]
    if word == "while":
        return [(("if", 0, (("let", 999, (parts[0], ("while", 0, parts))), ZERO)), {})]
    if word in MAKES:
        kind = MAKES[word]
        made = kind, state.fresh(kind)
        holds = {"tid": 0, "lock": "open", "sem": 0, "rw": (v, 0, False), "cell": parts and parts[0]}[kind]
        return [(("value", *made), {"things": {**state.things, made: holds}})]
    thing = parts[0][1:3]
    return used(state, word, thing, parts) if thing in state.things else []


def used(state, word, thing, parts):
    """The same of a word that is about a thing; nothing if the thing is of another kind, or the thread has to wait."""
    kind, held = thing[0], state.things[thing]
    if word == "read" and kind == "cell":
        return [(held, {})]
    if word == "spawn" and kind == "tid":
        return [(ZERO, {"threads": (*state.threads, (state.spawned, thing, parts[1])), "spawned": state.spawned + 1})]
    if word == "join" and kind == "tid":
        done = [t for t in state.threads if t[1] == thing and t[2][0] == "value"]
        return [(ZERO, {"threads": tuple(t for t in state.threads if t is not done[0])})] if done else []
    holds = parts[1] if word == "write" and kind == "cell" else held_after(word, kind, held)
    return [] if holds is None else [(ZERO, {"things": {**state.things, thing: holds}})]


def held_after(word, kind, held):
    """What a lock, a semaphore or a read-write lock is after a word, or None if the word cannot be done."""
    if kind == "lock":
        return {"lock": "closed" if held == "open" else None, "unlock": "open"}.get(word)
    if kind == "sem":
        return {"post": held + 1, "wait": held - 1 if held > 0 else None}.get(word)
    if kind == "rw":
        places, reading, writing = held
        return {
            "rdlock": (places, reading + 1, writing) if reading < places and not writing else None,
            "rdunlock": (places, reading - 1, writing) if reading > 0 else None,
            "wrlock": (places, reading, True) if reading == 0 and not writing else None,
            "wrunlock": (places, reading, False) if writing else None}.get(word)
    return None


WAITING = {"join": "tid", "lock": "lock", "wait": "sem", "rdlock": "rw", "rdunlock": "rw", "wrlock": "rw", "wrunlock": "rw"}


def standing(state, at, after):
    """done, ready, waits or odd, by what the thread's one step can lead to."""
    one = state.threads[at][2]
    if one[0] == "value":
        return "done"
    if after:
        return "ready"
    (word, _, parts), _ = next_word(one)
    return "waits" if WAITING.get(word) == parts[0][1] else "odd"


def race(state):
    """The lowest pair that is about to access one cell, one of them to write it."""
    about = []
    for number, _, one in state.threads:
        if one[0] != "value":
            (word, _, parts), _ = next_word(one)
            if word in ("read", "write") and parts[0][0] == "value" and parts[0][1] == "cell":
                about.append((number, parts[0], word == "write"))
    pairs = [(a[0], b[0]) for a in about for b in about if a[0] < b[0] and a[1] == b[1] and (a[2] or b[2])]
    return min(pairs) if pairs else None


class Met:
    """A state that the search has come to: the threads that moved last on the way to it, and what each thread's step leads to."""

    def __init__(self):
        self.lasts, self.after = set(), None


def search(lines, most):
    """Fewest switches to a race, or None; whether a thread can halt oddly; whether all can wait. None past `most` states."""
    heap, turn, states, seen = [(0, 0, start(lines), None)], 0, {}, 0
    odd, stuck = False, False
    while heap:
        switches, _, state, last = heapq.heappop(heap)
        met = states.setdefault(state.key(), Met())
        if last in met.lasts:
            continue
        met.lasts.add(last)
        seen += 1
        if seen > most:
            return None
        if race(state):
            return switches, odd, stuck
        if met.after is None:
            met.after = [[new for _, new in successors(state, at)] for at in range(len(state.threads))]
            stand = [standing(state, at, after) for at, after in enumerate(met.after)]
            odd = odd or "odd" in stand
            stuck = stuck or "waits" in stand and set(stand) <= {"waits", "done"}
        for thread, after in zip(state.threads, met.after):
            for new in after:
                turn += 1
                heapq.heappush(heap, (switches + (last is not None and thread[0] != last), turn, new, thread[0]))
    return None, odd, stuck


def replay(lines, order):
    """The steps done and the first state with a race and its pair, as document 02 (xii) has them; None if a move cannot be."""
    state = start(lines)
    found = (0, race(state)) if race(state) else None
    for done, (number, choice) in enumerate(order, 1):
        at = next((at for at, thread in enumerate(state.threads) if thread[0] == number), None)
        ways = dict(successors(state, at)) if at is not None else {}
        if choice not in ways:
            return None
        state = ways[choice]
        if found is None and race(state):
            found = done, race(state)
    return len(order), found
