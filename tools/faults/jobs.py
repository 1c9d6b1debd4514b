"""Sound jobs of a tinting machine, each with its split. What makes one faulty is said by who asks for it."""
from .sheets import sheets
from .trees import Procedure, call, in_turn, loop, new, on, ref, spawn, variable, write

# Threads, and what their identifiers are called.
THREADS = {
    "pump": "pumping", "screen": "showing", "stirrer": "stirring", "scale": "weighing", "heater": "heating", "lamp": "lighting"}


class Readers:
    """Threads that read the level, some of them at work on the colour under its lock; main joins them all and writes the level."""

    def __init__(self, draw):
        self.threads = draw.some(THREADS, draw.between(2, 4))
        self.joins, self.at_colour = draw.shuffled(self.threads), [one for one in self.threads if draw.below(2)]
        self.level = draw.between(1, 9) * 10

    def sheets(self, forgotten=None):
        whole = len(self.threads)
        return sheets(whole, ("level", "colour"), in_turn(
            ("level", ref(0, self.level)), ("colour", ref(1, 0)), ("colour lock", new("newlock", (0, whole))),
            *((THREADS[one], new("newtid", (1, 0))) for one in self.threads),
            *(spawn(one, variable(THREADS[one]), (1, 0), *self._body(one)) for one in self.threads),
            *(on("join", THREADS[one]) for one in self.joins if one != forgotten),
            write("level", 100)))

    def _body(self, one):
        work = [on("lock", "colour lock"), write("colour", 1), on("unlock", "colour lock")]
        return [on("read", "level"), *(work if one in self.at_colour else [])]


class Writers:
    """Threads that read the recipe and write the level under its lock, some of them again and again; main reads the recipe."""

    def __init__(self, draw):
        self.threads = draw.some(THREADS, draw.between(2, 4))
        self.looping = [one for one in self.threads if draw.below(2)]
        self.recipe = draw.between(1, 99)

    def sheets(self, bare=None):
        whole = len(self.threads) + 1
        return sheets(whole, ("level", "recipe"), in_turn(
            ("level", ref(0, 100)), ("recipe", ref(1, self.recipe)), ("level lock", new("newlock", (whole, 0))),
            *(spawn(one, new("newtid", (0, 0)), (0, 1), *self._body(one, one == bare)) for one in self.threads),
            on("read", "recipe")))

    def _body(self, one, is_bare):
        work = [write("level", 100 - 10 * self.threads.index(one))]
        if not is_bare:
            work = [on("lock", "level lock"), *work, on("unlock", "level lock")]
        return [on("read", "recipe"), *([loop(*work)] if one in self.looping else work)]


class Canisters:
    """Feeders that look at the rack once a place is empty and put a canister in; main waits for every canister, then clears it."""

    def __init__(self, draw):
        self.threads = draw.some(THREADS, draw.between(2, 4))
        self.posts_first = draw.below(2)

    def sheets(self, fewer=0):
        count = len(self.threads)
        spawned = [spawn(one, new("newtid", (0,)), (1,), on("wait", "empty"), on("read", "rack"), on("post", "full"))
                   for one in self.threads]
        posted = [on("post", "empty")] * count
        return sheets(count, ("rack",), in_turn(
            ("rack", ref(0, 0)), ("full", new("newsem", (1,))), ("empty", new("newsem", (0,))),
            *(posted + spawned if self.posts_first else spawned + posted),
            *[on("wait", "full")] * (count - fewer), write("rack", 0)))


class ColourBook:
    """Readers of the colour book, a reading place for each; main writes it."""

    def __init__(self, draw):
        self.threads = draw.some(THREADS, draw.between(3, 5))
        self.looping = [one for one in self.threads if draw.below(2)]

    def sheets(self, fewer=0):
        """With fewer shares than reading places, if so many are said."""
        places = len(self.threads)
        whole = places - fewer
        work = [on("rdlock", "book lock"), on("read", "book"), on("rdunlock", "book lock")]
        return sheets(whole, ("book",), in_turn(
            ("book", ref(0, 1)), ("book lock", new("newrwlock", (1,), (whole,), number=places)),
            *(spawn(one, new("newtid", (0,)), (0,), *([loop(*work)] if one in self.looping else work)) for one in self.threads),
            on("wrlock", "book lock"), write("book", 2), on("wrunlock", "book lock")))


class Purge:
    """Main purges the nozzle again and again while a thread reads the level, joins it and writes the level."""

    def __init__(self, draw):
        self.thread, self.calls = draw.one(list(THREADS)), draw.between(2, 4)
        self.before = draw.between(1, self.calls - 1)  # calls before the thread is started

    def sheets(self, lost=None):
        """With nothing kept back at one of the calls, if it is said which."""
        purge = Procedure(
            "purge", "nozzle", in_turn(write("nozzle", 1), write("nozzle", 0)), (2, 0), ("ref", 0), (2, 0))
        calls = [call(0, "valve", (0, 0 if at == lost else 2 if at < self.before else 1)) for at in range(self.calls)]
        identifier = THREADS[self.thread]
        return sheets(2, ("valve", "level"), in_turn(
            ("valve", ref(0, 0)), ("level", ref(1, 100)), (identifier, new("newtid", (0, 1))), *calls[:self.before],
            spawn(self.thread, variable(identifier), (0, 1), on("read", "level")), *calls[self.before:],
            on("join", identifier), write("level", 100)), (purge,))
