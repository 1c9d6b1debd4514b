"""Drawn programs, small enough for a plain search: threads that share cells under locks, semaphores, joins, or nothing, in part
in procedures, which call one another and themselves."""
import random

ACTS = {
    "cell": ["read", "write"],
    "lock": ["lock", "unlock", "guarded"],
    "sem": ["post", "wait"],
    "rw": ["rdlock", "rdunlock", "wrlock", "wrunlock", "reading", "writing"],
    "tid": ["join", "spawn"],
}


class Draw:
    """One program. A dense one has no loops and choices, and its threads touch two or three things again and again."""

    def __init__(self, seed, odd=False, dense=False, calls=False):
        self.random, self.odd, self.dense, self.calls = random.Random(seed), odd, dense, calls
        self.variable, self.left = 0, 0
        self.procedures = []  # by number, the kind of thing that each is handed
        self.lines = []

    def program(self):
        """The lines of a program sheet behind the first."""
        if self.calls:
            self.procedures = self.random.choices(["cell", "cell", "lock", "sem"], k=self.random.randint(1, 3))
        for kind in self.procedures:
            here = self._new()
            self._say(f"proc,{here}")
            self.left = self.random.randint(1, 3)
            self._body([(kind, here)], depth=1)
        self.left = self.random.randint(4, 14)
        kinds = ["cell"] + [self.random.choice(["lock", "sem", "rw", "tid", "boxed"]) for _ in range(self.random.randint(0, 2))]
        if self.dense:
            self.left = 12
            kinds = ["cell", *self.random.sample(["lock", "lock", "sem", "rw", "tid"], self.random.choice([1, 1, 2]))]
        known = []
        for kind in kinds:
            known.append(self._bind(kind, known))
        for _ in range(self.random.choice([1, 1, 2])):
            self._say(f"let,{self._new()}")
            self._spawned(known, 0)
        self._body(known, depth=0)
        return self.lines

    def _new(self):
        self.variable += 1
        return self.variable - 1

    def _say(self, *lines):
        self.lines += lines

    def _bind(self, kind, known):
        """A let of a new thing."""
        here = self._new()
        self._say(f"let,{here}")
        if kind == "boxed" and not known:
            kind = "cell"
        if kind == "boxed":
            content = self.random.choice(known)
            self._say("ref,0", f"var,{content[1]}")
            return ("box", here, content[0])
        self._say(*{"cell": ["ref,0", "int,0"], "lock": ["newlock,0"], "sem": ["newsem,0"], "tid": ["newtid,0"],
                    "rw": [f"newrwlock,{self.random.randint(1, 2)}"]}[kind])
        return (kind, here)

    def _body(self, known, depth):
        """A few acts one after the other, then a value."""
        for _ in range(self.random.randint(1, 3 + self.dense)):
            if self.left <= 0:
                break
            here = self._new()
            self._say(f"let,{here}")
            bound = self._act(known, depth)
            if bound:
                known = known + [(bound, here)]
        # A call in the last place, or a value.
        if not (self.calls and self.random.random() < 0.2 and self._call(known)):
            self._say(*([f"var,{self.random.choice(known)[1]}"] if self.random.random() < 0.1 else ["int,0"]))

    def _call(self, known):
        """A call of a procedure for something known; whether there is one."""
        fitting = [(number, one[1]) for number, kind in enumerate(self.procedures) for one in known if one[0] == kind]
        if fitting:
            number, handed = self.random.choice(fitting)
            self._say(f"call,{number}", f"var,{handed}")
        return bool(fitting)

    def _act(self, known, depth):
        self.left -= 1
        if self.calls and self.random.random() < 0.3 and self._call(known):
            return None
        if self.dense:
            return self._touch(known)
        drawn = self.random.random()
        if depth < 2 and drawn < 0.10:
            self._spawned(known, depth)
            return None
        if depth < 3 and drawn < 0.20:
            self._say("if,0")
            self._body(known, depth + 1)
            self._body(known, depth + 1)
            return None
        if depth < 3 and drawn < 0.28:
            self._say("while,0")
            self._body(known, depth + 1)
            return None
        if drawn < 0.36:
            one, other = self.random.choice(known), self.random.choice(known)
            self._say("if,0", f"var,{one[1]}", f"var,{other[1]}")
            return one[0] if one[0] == other[0] and one[0] != "box" else None
        if drawn < 0.40:
            self._say("ref,0", "int,0")
            return "cell"
        return self._touch(known)

    def _spawned(self, known, depth):
        tids = [thing for thing in known if thing[0] == "tid"]
        self._say("spawn,0", f"var,{self.random.choice(tids)[1]}" if tids and self.random.random() < 0.7 else "newtid,0")
        self._body(known, depth + 1)

    def _touch(self, known):
        cells = [one for one in known if one[0] == "cell"] or known
        others = [one for one in known if one[0] != "cell"]
        # Few accesses among many other steps: else most programs race at once.
        if self.dense:
            thing = self.random.choice(cells if self.random.random() < 0.2 or not others else others)
        else:
            thing = self.random.choice(cells if self.random.random() < 0.4 else known)
        if self.odd and self.random.random() < 0.2:
            word = self.random.choice(["read", "lock", "unlock", "post", "wait", "join", "rdlock", "wrunlock", "ref"])
            self._say(f"{word},0", f"var,{thing[1]}")
            return None
        if thing[0] == "box":
            self._say("read,0", f"var,{thing[1]}")
            return thing[2] if thing[2] != "box" else None
        word = self.random.choice(ACTS[thing[0]])
        if word == "spawn":
            self._say("spawn,0", f"var,{thing[1]}", "int,0")
        elif word == "write":
            self._say("write,0", f"var,{thing[1]}", f"int,{self.random.randint(0, 3)}")
        elif word in ("guarded", "reading", "writing"):
            take, give = {"guarded": ("lock", "unlock"), "reading": ("rdlock", "rdunlock"), "writing": ("wrlock", "wrunlock")}[word]
            first, second = self._new(), self._new()
            self._say(f"let,{first}", f"{take},0", f"var,{thing[1]}", f"let,{second}")
            cells = [one for one in known if one[0] == "cell"]
            if cells and self.random.random() < 0.8:
                cell = self.random.choice(cells)
                self._say(*self.random.choice([["read,0", f"var,{cell[1]}"], ["write,0", f"var,{cell[1]}", "int,1"]]))
            else:
                self._say("int,0")
            self._say(f"{give},0", f"var,{thing[1]}")
        else:
            self._say(f"{word},0", f"var,{thing[1]}")
        return None
