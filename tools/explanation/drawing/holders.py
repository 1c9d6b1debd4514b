"""Who holds how much: one telling of a job, in the order in which its steps act.

A sheet says what the thread at work has before and after each step. The telling keeps beside it what the other threads, the
locks, the semaphores, the read-write locks and the identifiers have. A new thread is told where it is spawned, to its end or
until it has to wait; it is told on when the thread at work has to wait or has ended. If all of them wait, the first goes on as
its row says, so that every step is told. The share of a thread that has ended is kept for its identifier, until a join takes
it. Of an `if` both parts are told, each from what there was before it, and the telling goes on from the one after which others
hold more; of a `while` one round is told. A call is told with its procedure's body, save inside that body: there it is one step.
A spawn line stands for one thread, however often its procedure is called. If the refused line is not told so, the body of its
procedure is told behind the job, by itself and from what it starts with.
"""
from typing import NamedTuple

from ..sites import acted_on
from ..words import KINDS
from .calls import body_of
from .inside import HOLDS, TAKES, WRITES, Inside

# Steps that neither move rights nor touch a cell. The picture leaves them out unless one is refused.
SILENT = {"var", "int", "let", "proc"}
# Steps that make a thing which keeps rights.
MAKERS = {"newlock", "newtid", "newsem", "newrwlock"}
# Steps that may have to wait.
WAITS = {"join", "lock", "wait", *HOLDS}


class Holder(NamedTuple):
    kind: str  # thread, lock, sem, rwlock or identifier
    number: int  # the thread, None for whoever calls a procedure; else the line where the lock, semaphore, read-write lock or identifier was made
    owner: int = 0  # for an identifier, the thread whose share it keeps

    def thread(self):
        """The thread whose share this is or was; None for a lock, a semaphore or a read-write lock."""
        return {"thread": self.number, "identifier": self.owner}.get(self.kind)


class Moment(NamedTuple):
    """What each holder has right after a step acted. Those with nothing are left out."""

    site: object
    held: dict


class Telling:
    def __init__(self, explanation):
        self.sites = explanation.sites
        self.split = explanation.sites.split
        self.all = explanation.sites.all
        self.refused = explanation.site
        self.moments = []
        self.held = {Holder("thread", 0): explanation.sites.root.pre}
        self.counts = {}  # how often each lock or semaphore can be taken: an open lock once
        self.inside = {}  # who is in at each read-write lock
        self.waiting = []  # the threads that wait: at which step, and the rest of their telling
        self._tell_threads(explanation.sites.root)
        self.apart = len(self.moments)  # where the telling of a procedure's body by itself begins, if there is one
        if self.refused and not any(same_step(moment.site, self.refused) for moment in self.moments):
            self._tell_alone([one for one in self.sites.procedures if one.line <= self.refused.line][-1])

    def _tell_alone(self, procedure):
        self.held, self.counts, self.inside = {Holder("thread", None): procedure.pre}, {}, {}
        self._tell_threads(procedure.parts["body"])
        self._remember(procedure)

    # ---- Threads: the telling of each stops at a step that may have to wait

    def _tell_threads(self, root):
        self._tell_on(self._tell(root))
        while self.waiting:
            open_now = [place for place, (site, _) in enumerate(self.waiting) if self._is_open(site)]
            _, telling = self.waiting.pop(open_now[0] if open_now else 0)
            self._tell_on(telling)

    def _tell_on(self, telling):
        """Tells a thread on, to its end or until it has to wait."""
        for site in telling:
            if not self._is_open(site):
                self.waiting.append((site, telling))
                return

    def _is_open(self, site):
        """Whether a step of WAITS can go ahead now."""
        if not self._has_maps(site):
            return True
        if site.word == "join":
            return bool(self._finished(site))
        if site.word in HOLDS:
            return self._inside(site).lets(site.word, self._places(site))
        return self.counts.get(self._keeper(site), 1) > 0

    # ---- One step: its parts, then itself

    def _tell(self, site, called=frozenset()):
        """`called` are the procedures in whose bodies the step stands."""
        if site.word == "if":
            yield from self._tell_choice(site, called)
            return
        if site.word == "while":
            self._act(site)
        for name, part in site.parts.items():
            if site.word == "spawn" and name == "e2":
                self._tell_on(self._tell_body(site, part, called))
            else:
                yield from self._tell(part, called)
        if site.word in WAITS:
            yield site
        if site.word == "call":
            yield from self._tell_call(site, called)
        elif site.word == "while":
            self._set(Holder("thread", site.thread), site.post)
        elif site.word != "spawn":
            self._act(site)

    def _tell_call(self, site, called):
        self._remember(site)
        if site.number not in called:
            yield from self._tell(body_of(site, self.sites), called | {site.number})
        self._set(Holder("thread", site.thread), site.post)

    def _tell_choice(self, site, called):
        own, before, ends = Holder("thread", site.thread), (self.held, self.counts, self.inside), []
        self._remember(site)
        for part in site.parts.values():
            self.held, self.counts, self.inside = map(dict, before)
            yield from self._tell(part, called)
            ends.append((self.held, self.counts, self.inside))
        self.held, self.counts, self.inside = max(
            ends, key=lambda end: sum(sum(had) for holder, had in end[0].items() if holder != own))
        self._set(own, site.post)

    def _tell_body(self, site, body, called):
        own = Holder("thread", site.body)
        self._set(own, site.start)
        self._act(site)
        yield from self._tell(body, called)
        self.held.pop(own, None)
        identifier = self.made_at(site.parts["e1"])
        if self._has_maps(site):
            self._set(Holder("identifier", identifier, site.body), self._load(site))

    def _act(self, site):
        """The step's own effect: on the thread as its row says, on others by its word."""
        self._set(Holder("thread", site.thread), site.post)
        effect = {
            "newlock": self._opens, "unlock": self._opens, "lock": self._closes, "join": self._joined,
            "newsem": self._counts_none, "post": self._counts_up, "wait": self._counts_down, "newrwlock": self._keeps_whole,
            **dict.fromkeys(HOLDS, self._holds),
        }.get(site.word)
        if effect and self._has_maps(site):
            effect(site)
        self._remember(site)

    def _remember(self, site):
        if site.word not in SILENT or same_step(site, self.refused):
            self.moments.append(Moment(site, {holder: numbers for holder, numbers in self.held.items() if any(numbers)}))

    # ---- Effects on locks, semaphores and identifiers

    def _opens(self, site):
        """An open lock keeps the out that it was made with, whatever type a step shows."""
        lock = self._keeper(site)
        made = self.all[lock.number - 2].type
        own = made if self.split.types[made].kind == "lock" else acted_on(site).type
        self.counts[lock] = 1
        self._set(lock, self.split.map_in(own, self.map_names(own)[-1]))

    def _closes(self, site):
        lock = self._keeper(site)
        self.counts[lock] = 0
        self._set(lock, (0,) * self.split.locations)

    def _counts_none(self, site):
        self.counts[self._keeper(site)] = 0

    def _counts_up(self, site):
        semaphore = self._keeper(site)
        self.counts[semaphore] = self.counts.get(semaphore, 0) + 1
        self._set(semaphore, tuple(a + b for a, b in zip(self._of(semaphore), self._load(site))))

    def _counts_down(self, site):
        semaphore = self._keeper(site)
        self.counts[semaphore] = max(0, self.counts.get(semaphore, 1) - 1)
        self._set(semaphore, tuple(max(0, a - b) for a, b in zip(self._of(semaphore), self._load(site))))

    def _keeps_whole(self, site):
        self._set(self._keeper(site), self._load(site, -1))

    def _holds(self, site):
        """A hold is taken from a read-write lock or given back to it, and with it r or w."""
        lock, share = self._keeper(site), self._load(site, -1 if site.word in WRITES else 0)
        self.inside[lock] = self._inside(site).after(site.word)
        sign = -1 if site.word in TAKES else 1
        self._set(lock, tuple(max(0, a + sign * b) for a, b in zip(self._of(lock), share)))

    def _inside(self, site):
        return self.inside.get(self._keeper(site), Inside())

    def _places(self, site):
        """How many reading places the read-write lock that a step names was made with."""
        return self.all[self._keeper(site).number - 2].number

    def _joined(self, site):
        for holder in self._finished(site)[:1]:
            self.held.pop(holder)

    def _finished(self, site):
        """The shares that wait for a join on this identifier."""
        identifier = self.made_at(acted_on(site))
        return [holder for holder in self.held if holder.kind == "identifier" and holder.number == identifier]

    # ---- What is held, and what a part stands for

    def _of(self, holder):
        return self.held.get(holder, (0,) * self.split.locations)

    def _set(self, holder, numbers):
        self.held[holder] = numbers

    def _keeper(self, site):
        """The lock, semaphore or read-write lock that a step makes or names; a refused step may name another kind of thing."""
        named = acted_on(site)
        kind = self.split.types[named.type].kind
        return Holder(kind if kind in ("sem", "rwlock") else "lock", self.made_at(named))

    def _has_maps(self, site):
        """Whether the type that a step acts on has a map, which it may lack if the step is refused."""
        return bool(self.map_names(acted_on(site).type))

    def map_names(self, number):
        return KINDS[self.split.types[number].kind].maps()

    def _load(self, site, place=0):
        """The first map in the type that a step acts on, or the last."""
        number = acted_on(site).type
        return self.split.map_in(number, self.map_names(number)[place])

    def made_at(self, site):
        """The line where the thing that a part stands for was made, as far as the sheets show it."""
        made = origin(site)
        if made.word in MAKERS:
            return made.line
        alike = [one.line for one in self.all if one.word in MAKERS and self.split.agree(one.type, site.type)]
        return alike[0] if alike else made.line


def same_step(site, other):
    """Whether two sites are one step of the sheet: a body has a copy of it for each call."""
    return other is not None and site.line == other.line


def origin(site):
    """The step whose value a part has, followed through variables, first parts of choices and cells to what they were made with."""
    if site.word == "var" and site.binder.word == "let":
        return origin(site.binder.parts["e1"])
    if site.word == "let":
        return origin(site.parts["e2"])
    if site.word == "if":
        return origin(site.parts["e1"])
    if site.word == "read":
        cell = origin(site.parts["part"])
        return origin(cell.parts["part"]) if cell.word == "ref" else site
    return site
