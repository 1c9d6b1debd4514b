"""Races that a careless search loses: one job for each thing that it must not do.

A job is acts one after the other: `l = newlock` binds a name, a list is a thread that is spawned, a pair of lists a choice. A
procedure is acts on c, the thing that a call hands over.
"""
_START = ["x = ref 0", "y = ref 0", "l = newlock", "m = newlock", "k = newlock", "s = newsem", "r = newrwlock", "t = newtid"]
_WRITES, _ALSO = "write x 1", "write x 2"
_OPENS = ["lock k", "z = read box", "unlock k", "lock z"]  # the box is guarded by k

LOSSES = {
    # Steps of the first thread that must not be taken at once.
    "a lock taken at once": [["lock l", "unlock l", _WRITES], "lock l", _ALSO],
    "an unlock taken at once": [["lock l", _WRITES], "unlock l", "lock l", _ALSO],
    "a wait taken at once": [["wait s", "post s", _WRITES], "post s", "wait s", _ALSO],
    "a join taken at once": ["spawn t", ["join t", "spawn t", _WRITES], "join t", _ALSO],
    "a reading place taken at once": [["wrlock r", "wrunlock r", _WRITES], "rdlock r", _ALSO],
    "a writer's hold taken at once": [["rdlock r", "rdunlock r", _WRITES], "wrlock r", _ALSO],
    "a reading place given back at once": [["rdunlock r", _WRITES], [_ALSO], "rdlock r", "rdunlock r"],
    "a writer's hold given back at once": [["wrunlock r", _WRITES], [_ALSO], "wrlock r", "wrunlock r"],
    # Others reach the lock through a cell alone.
    "a lock in a cell taken at once": ["box = ref l", ["z = read box", "lock z", "unlock z", _WRITES], "lock l", _ALSO],
    # Two ways to one point that differ in one thing. The first is met first, and only after the second there is a race.
    "the second way of a choice": [["lock l", _WRITES], (["lock l"], ["lock m"]), _ALSO],
    "locks open and closed taken for one another": [["lock l", _WRITES], (["lock l"], ["lock l", "unlock l"]), _ALSO],
    "counts taken for one another": [["wait s", _WRITES], "post s", (["wait s"], ["wait s", "post s"]), _ALSO],
    "read-write locks taken for one another": [["wrlock r", _WRITES], (["rdlock r"], ["rdlock r", "rdunlock r"]), _ALSO],
    "finished threads not counted": [["join t", "read y", _WRITES], (["read y"], ["spawn t"]), _ALSO],
    "contents of cells taken for one another": [
        "box = ref l", "lock l", [*_OPENS, _WRITES, "lock l", "lock m"], "lock k", (["write box l"], ["write box m"]), "unlock k",
        _ALSO],
    "names taken for one another": [
        ["lock l", "read y", _WRITES, "lock m"], "z = either l m", "read y", "lock z", _ALSO, "lock l", "lock m"],
    "points taken for one another": [
        ["lock l", _WRITES, "read y", "lock m"], (["read y", "read y", "lock l"], ["read y", "read y", "lock m"]), _ALSO,
        "read y", "lock l", "lock m"],
    # A thread that is gone, and what it has left.
    "a thread that opened a lock and is gone": ["lock l", ["unlock l"], ["lock l", _WRITES], _ALSO],
    "a thread that posted and is gone": [["post s"], ["wait s", _WRITES], _ALSO],
    "a thread that gave back a hold and is gone": ["wrlock r", ["wrunlock r"], ["wrlock r", _WRITES], _ALSO],
    "a thread that wrote a lock and is gone": [
        "box = ref l", "lock l", ["lock k", "write box m", "unlock k"], [*_OPENS, _WRITES], _ALSO],
    "a thread that is gone and can be joined": [("t", ["read y"]), ["join t", _WRITES], "read y", _ALSO],
    "a thread that is gone after others moved": [
        "lock l", ["lock m", "unlock l", "lock l", "unlock m"], [_WRITES], "lock l", "unlock l", "lock m", _ALSO],
    # One state after another thread's step: the race is found, with a switch too many.
    "who moved last": ["lock l", ["read y", "lock l", _WRITES], ["a = ref 0", "b = ref 0", "unlock l"], _ALSO, "read y", "lock l"],
}

PROCEDURES = {
    "look": ["read c", "read c"], "take": ["wait c"], "outer": ["call inner c", "post c"], "inner": ["post c"],
    "again": [(["unlock c", "call again c"], ["0"])], "perhaps": [(["read c"], ["0"])],
}
# With calls: what is left of a thread is more than what is left of a body.
CALLS = {
    "what is behind a call taken for the same": [
        ["lock l", _WRITES, "read y"], (["call look y", "lock l", _ALSO], ["call look y", _ALSO, "lock l"])],
    "a choice in a procedure taken once for two calls": [
        ["lock l", _WRITES, "read y"], (["call perhaps y", "lock l", _ALSO], ["call perhaps y", _ALSO, "lock l"])],
    "what a caller keeps taken for the same": [
        ["lock l", "read y", _WRITES, "lock m"], "z = either l m", "call look y", "lock z", _ALSO, "lock l", "lock m"],
    "a lock that a caller keeps taken at once": [
        "d = newsem", ["post s", "call take d", "lock l", "unlock l", _WRITES], "wait s", "post d", "lock l", _ALSO],
    "what is behind an outer call lost": [["call outer s", "lock m"], [_WRITES], "wait s", "wait s", _ALSO],
    "the second round of a procedure that calls itself": [
        "lock l", ["call again l", "lock m"], [_WRITES], "lock l", "lock l", _ALSO],
}


def programs():
    """(what is lost, the lines of its sheet behind the first) of each."""
    for what, acts in LOSSES.items():
        yield what, _Job().steps(_START + acts)
    for what, acts in CALLS.items():
        job = _Job()
        yield what, job.procedures() + job.steps(_START + acts)


class _Job:
    def __init__(self):
        self.names, self.count = {}, 0

    def procedures(self):
        lines = []
        for acts in PROCEDURES.values():
            self.names = {"c": self.count}
            lines.append(f"proc,{self.count}")
            self.count += 1
            lines += self.steps(acts)
        return lines

    def steps(self, acts):
        """Each act but the last in a let of its own, around all that follows."""
        lines = []
        for place, act in enumerate(acts):
            bound, _, act = act.rpartition(" = ") if isinstance(act, str) else ("", "", act)
            inside = self._act(act)
            if place < len(acts) - 1:
                lines.append(f"let,{self.count}")
                self.names[bound], self.count = self.count, self.count + 1
            lines += inside
        return lines

    def _act(self, act):
        if isinstance(act, list):
            return ["spawn,0", "newtid,0", *self.steps(act)]
        if isinstance(act, tuple) and isinstance(act[0], str):
            return ["spawn,0", *self._value(act[0]), *self.steps(act[1])]
        if isinstance(act, tuple):
            return ["if,0", *self.steps(act[0]), *self.steps(act[1])]
        word, *operands = act.split()
        if word.isdigit():
            return self._value(word)
        if word == "call":
            return [f"call,{list(PROCEDURES).index(operands[0])}", *self._value(operands[1])]
        if word == "spawn":
            operands.append("0")
        lines = ["if,0" if word == "either" else "newrwlock,1" if word == "newrwlock" else f"{word},0"]
        return lines + [line for operand in operands for line in self._value(operand)]

    def _value(self, operand):
        return [f"int,{operand}" if operand.isdigit() else f"var,{self.names[operand]}"]
