"""Drawn programs whose locks are used in blocks: taken, cells touched, given back; blocks in blocks, choices, loops and calls
inside, semaphores used as locks, and now and then something taken that is not given back. Few steps, so that the plain search is
soon through; semaphores, joins and choices between."""
import random

TAKING = {"lock": [("lock", "unlock")], "rwlock": [("rdlock", "rdunlock"), ("wrlock", "wrunlock")], "sem": [("wait", "post")]}
PROCEDURES = ["proc,0", "read,0", "var,0", "proc,1", "if,0", "write,0", "var,1", "int,1", "int,0"]


def drawn_blocks(count, seed):
    drawn = random.Random(seed)
    for _ in range(count):
        yield _Draw(drawn).program()


class _Draw:
    def __init__(self, drawn):
        self.random, self.has_calls = drawn, drawn.random() < 0.4
        self.lines, self.variable = list(PROCEDURES) if self.has_calls else [], 2
        self.is_nested = drawn.random() < 0.7  # blocks in blocks
        self.is_loose = drawn.random() < 0.3  # something is taken and not given back, or given back and not taken

    def program(self):
        """The lines of a program sheet behind the first."""
        self.cells = [self._let("ref,0", "int,0") for _ in range(self.random.randint(1, 2))]
        self.locks = [("lock", self._let("newlock,0")) for _ in range(self.random.randint(1, 2))]
        if self.random.random() < 0.4:
            self.locks.append(("rwlock", self._let(f"newrwlock,{self.random.randint(1, 2)}")))
        self.semaphore, self.identifier = self._let("newsem,0"), self._let("newtid,0")
        if self.random.random() < 0.4:
            self.locks.append(("sem", self._let("newsem,0")))
            for _ in range(self.random.choice([1, 1, 2])):
                self._let("post,0", f"var,{self.locks[-1][1]}")
        self._let_either()
        for _ in range(self.random.choice([1, 2, 2])):
            self._let("spawn,0", f"var,{self.identifier}")
            self._acts()
        self._acts()
        return self.lines

    def _let_either(self):
        """Now and then a variable for one of two cells, or of two locks."""
        locks = [lock for kind, lock in self.locks if kind == "lock"]
        if len(self.cells) == 2 and self.random.random() < 0.4:
            self.cells.append(self._let("if,0", *[f"var,{cell}" for cell in self.cells]))
        if len(locks) == 2 and self.random.random() < 0.4:
            self.locks.append(("lock", self._let("if,0", *[f"var,{lock}" for lock in locks])))

    def _let(self, *act):
        self.lines += [f"let,{self.variable}", *act]
        self.variable += 1
        return self.variable - 1

    def _acts(self):
        """One act or two, then a value."""
        cells, locks = list(self.cells), list(self.locks)
        if self.random.random() < 0.3:
            self._let_either()
        for _ in range(self.random.randint(1, 2)):
            self._act(self.random.random())
        self.cells, self.locks = cells, locks
        self.lines.append("int,0")

    def _act(self, chance):
        if chance < 0.55:
            self._block(*self.random.choice(self.locks), depth=0)
        elif chance < 0.65:
            self._let(*self._touch())
        elif chance < 0.8:
            self._let(self.random.choice(["post,0", "wait,0"]), f"var,{self.semaphore}")
        elif chance < 0.92:
            self._let("join,0", f"var,{self.identifier}")
        else:
            self._let("if,0", "int,0", *self._touch())

    def _block(self, kind, lock, depth):
        take, give = self.random.choice(TAKING[kind])
        is_loose = self.is_loose and self.random.random() < 0.3
        if not (is_loose and self.random.random() < 0.3):
            self._let(f"{take},0", f"var,{lock}")
        for _ in range(self.random.choice([1, 1, 2])):
            self._inside(self.random.random(), depth, [one for one in self.locks if one[1] != lock])
        if not is_loose:
            self._let(f"{give},0", f"var,{lock}")

    def _inside(self, chance, depth, others):
        if self.is_nested and others and depth < 2 and chance < 0.35:
            self._block(*self.random.choice(others), depth=depth + 1)
        elif chance < 0.4:
            self._let("while,0", *self._touch())
        elif chance < 0.55:
            self._let("if,0", *self._touch(), "int,0")
        else:
            self._let(*self._touch())

    def _touch(self):
        cell = f"var,{self.random.choice(self.cells)}"
        acts = [["read,0", cell], ["write,0", cell, "int,1"]]
        return self.random.choice(acts + [["call,0", cell], ["call,1", cell]] * self.has_calls)
