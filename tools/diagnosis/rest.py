"""Where the rest of a location is at the step that no after-map can help: who has it, where it comes back, and by which line of
the split it was handed over. It is told as the picture of tools/explain tells it, one telling of the job among others."""
from explanation.drawing.holders import Telling
from explanation.formatting import listed
from explanation.refusals import SPLIT
from explanation.sites import acted_on

# The steps that take from each kind of holder, and how that is said.
NOUNS = {"lock": "lock", "sem": "semaphore", "rwlock": "read-write lock"}
TAKING = {"identifier": ("join",), "thread": ("join",), "lock": ("lock",), "sem": ("wait",), "rwlock": ("rdlock", "wrlock")}
MOST = 6  # lines in a row


def rest_of(explanation):
    """Who holds the rest of the location, a sentence or two each; empty if the telling does not come to the step."""
    telling = Telling(explanation)
    moments = _up_to(telling.moments, explanation.site)
    if not moments:
        return []
    rest = Rest(telling, explanation)
    held = [(holder, numbers[explanation.location]) for holder, numbers in moments[-1].held.items()]
    told = [words for holder, number in held if number and holder != rest.own for words in rest.told(holder, number)]
    return told + [words for one, other in zip(moments, moments[1:]) for words in rest.lost(one, other)]


def _up_to(moments, site):
    """The moments up to the step. What a round of a loop lacks is seen at its end, behind its last step."""
    within = _lines_of(site) if site.word == "while" else {site.line}
    places = [place for place, moment in enumerate(moments) if moment.site.line in within]
    if not places:
        return []
    return moments[:(places[-1] if site.word == "while" else places[0]) + 1]


def _lines_of(site):
    return {site.line}.union(*(_lines_of(part) for part in site.parts.values()))


class Rest:
    """The telling of a job, and the step and the location that it is asked about."""

    def __init__(self, telling, explanation):
        self._telling, self._sites, self._names = telling, explanation.sites, explanation.names
        self._split, self._site, self._location = explanation.sites.split, explanation.site, explanation.location
        self.own = next(iter(telling.held))._replace(kind="thread", number=explanation.site.thread, owner=0)

    def told(self, holder, number):
        """Who it is and by which line of the split, then where it comes back."""
        share = f"{self._amount(number)} of {self._names.place(self._location)}"
        spawn = self._spawn_of(holder)
        if holder.kind == "thread" and spawn is None:
            return [f"{self._names.thread(holder.number)} has {share}"]
        if holder.kind == "thread":
            who, by = f"{self._started(spawn)} has", self._start_of(spawn)
        elif holder.kind == "identifier":
            who, by = f"{self._started(spawn)} has ended and left", self._load_of(holder.number)
        else:
            who, by = f"the {NOUNS[holder.kind]} made on {self._names.line(holder.number)} has", self._load_of(holder.number)
        made = self._telling.made_at(spawn.parts["e1"]) if holder.kind == "thread" else holder.number
        return [f"{who} {share}: {by}", f"  {self._comes_back(holder, made)}"]

    def lost(self, before, after):
        """Which share nobody has any more after a moment, and by which line of the split it went."""
        whole, left = (sum(numbers[self._location] for numbers in moment.held.values()) for moment in (before, after))
        if left >= whole:
            return []
        place = self._names.place(self._location)
        gone = [holder for holder in before.held if holder.kind == "thread" and holder not in after.held and self._spawn_of(holder)]
        for holder in gone:
            spawn, had = self._spawn_of(holder), before.held[holder][self._location]
            made = self._telling.made_at(spawn.parts["e1"])
            kept = self._split.map_in(self._sites.at_line(made).type, "K")[self._location]
            if had > kept:
                return [f"{self._started(spawn)} ends with {self._amount(had)} of {place} and leaves {self._amount(kept)} for its"
                        f" join: {self._load_of(made)}", f"  {self._amount(had - kept)} is lost there"]
        return [f"{self._amount(whole - left)} of {place} is lost at {self._names.line(after.site.line)}, `{after.site.word}`:"
                f" its row is on line {after.site.row.line} of {SPLIT}"]

    def _amount(self, number):
        return self._split.fraction(number, self._location)

    def _spawn_of(self, holder):
        """The spawn of the thread whose share this is or was; None for the first thread, a caller, a lock or a semaphore."""
        return next((site for site in self._sites.all
                     if site.word == "spawn" and holder.thread() and site.body == holder.thread()), None)

    def _started(self, spawn):
        return f"{self._names.thread(spawn.body)}, started on {self._names.line(spawn.line)},"

    def _start_of(self, spawn):
        row = spawn.row
        map_line = "" if row.start is None else f", and map {row.start} on line {self._map_line(row.start)}"
        return f"its start is on line {row.line} of {SPLIT}{map_line}"

    def _load_of(self, made):
        """The line of the type that a thing was made with, and those of its maps."""
        kind = self._sites.at_line(made).type
        names = [name for name in ("K", "in", "out", "r", "w") if self._has(kind, name)]
        maps = dict.fromkeys(self._split.map_number(kind, name) for name in names)
        told = listed(f"map {number} on line {self._map_line(number)}" for number in maps)
        return f"its type is on line {2 + kind} of {SPLIT}, with {told}"

    def _has(self, kind, name):
        return name in self._telling.map_names(kind)

    def _map_line(self, number):
        return 2 + len(self._split.types) + number

    def _comes_back(self, holder, made):
        """The steps by which the thread of the failing step can get a share from a holder."""
        words = TAKING[holder.kind]
        own = [site.line for site in self._sites.all if site.word in words and site.thread == self._site.thread
               and self._telling.made_at(acted_on(site)) == made]
        verb = f"`{'` or `'.join(words)}`"
        before, behind = ([line for line in own if (line < self._site.line) == is_before] for is_before in (True, False))
        said = [f"{where} the failing step on {self._lines(lines)}" for where, lines in (("before", before), ("behind", behind)) if lines]
        return f"it comes back by {verb}, {listed(said)}" if said else f"it does not come back: this thread has no {verb} of it"

    def _lines(self, lines):
        if len(lines) == 1:
            return self._names.line(lines[0])
        shown = [f"{line}{self._names.source(line)}" for line in lines]
        return f"lines {listed(shown) if len(lines) <= MOST else f'{shown[0]} to {shown[-1]}, {len(lines)} times'}"
