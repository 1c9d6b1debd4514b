"""Where everything of the picture stands: threads across, then things; rows of steps down, then what they lead to."""
from typing import NamedTuple

from interpreter.machine import WAITS
from interpreter.program import FINISHED
from interpreter.wording import about

from .rows import columns_of, rows_of, standing

STEP, LETTER, BOLD = 17, 6.3, 7.1  # a line of text, and generous widths of a letter of 13 pixels
HEAD, SWITCH, END_GAP, FOOT = 62, 34, 40, 16
LEFT, GAP, PAD = 14, 22, 12
NUMBER = 26  # room for a program line's number
WIDTHS = [(2, 270), (3, 230), (4, 204), (5, 190)]
MOST_COLUMNS = 5  # of threads; if there are more, those that matter least share the last
THING, THING_GAP, MOST_THINGS, FEWER_THINGS = 92, 14, 6, 3  # fewer where threads share a column


class Laid(NamedTuple):
    """A row with its place."""

    row: object
    texts: list  # (program line or None, words)
    top: float
    bottom: float
    first: bool  # of its stretch


class Span(NamedTuple):
    """Something that lasts from one height to another."""

    words: str
    top: float
    bottom: float
    thread: int


def wrapped(words, room, letter=LETTER):
    """Words on lines of at most so many pixels. A word that is too long is cut."""
    most, lines = max(6, int(room / letter)), [""]
    for word in words.split(" "):
        word = word if len(word) <= most else word[:most - 1] + "…"
        if lines[-1] and len(lines[-1]) + 1 + len(word) > most:
            lines.append(word)
        else:
            lines[-1] = f"{lines[-1]} {word}".strip()
    return lines


class Layout:
    def __init__(self, shown, ending):
        self.shown, self.ending, self.naming = shown, ending, shown.naming
        rows = rows_of(shown.steps, shown.naming)
        self.threads, self.sharing = self._parted(rows)
        used = columns_of(rows, ending.cell)
        most = FEWER_THINGS if self.sharing else MOST_THINGS
        self.things, self.left_out = used[:most], used[most:]
        columns = len(self.threads) + bool(self.sharing)
        self.column = next(width for count, width in WIDTHS if columns <= count)
        self.things_x = LEFT + columns * (self.column + GAP) + GAP
        self.width = self.things_x + len(self.things) * (THING + THING_GAP) + 8
        self.laid, bottom = self._laid(rows)
        self.ends = self._ends()
        self.end_top = bottom + END_GAP
        self.end_bottom = self.end_top + 2 * STEP + max(2, *(len(texts) for texts, _ in self.ends.values())) * STEP + 4
        self.height = self.end_bottom + FOOT

    def _parted(self, rows):
        """The threads that have a column of their own, and those that share one: the threads that meet matter most, then those
        with the most rows."""
        threads = {row.thread for row in rows} | set(self.ending.numbers)
        count = {thread: sum(row.thread == thread for row in rows) for thread in threads}
        by_worth = sorted(count, key=lambda thread: (thread not in self.ending.numbers, -count[thread], thread))
        own = len(count) if len(count) <= MOST_COLUMNS else MOST_COLUMNS - 1
        return sorted(by_worth[:own]), sorted(by_worth[own:])

    # ---- Across

    def x(self, thread):
        column = self.threads.index(thread) if thread in self.threads else len(self.threads)
        return LEFT + column * (self.column + GAP)

    def middle(self, thread):
        return self.x(thread) + self.column / 2

    def thing_x(self, value):
        return self.things_x + self.things.index(value) * (THING + THING_GAP)

    # ---- Down

    def _laid(self, rows):
        laid, y, last = [], HEAD, None
        for row in rows:
            first = row.thread != last
            if first:
                y += SWITCH if last is not None else 8
            # A thread without a column of its own is named at each stretch.
            texts = [(None, f"{self.naming.thread(row.thread)}:")] if first and row.thread in self.sharing else []
            for line, words in row.lines:
                pieces = wrapped(words, self.column - 2 * PAD - NUMBER)
                texts += [(line if at == 0 else None, piece) for at, piece in enumerate(pieces)]
            laid.append(Laid(row, texts, y, y + len(texts) * STEP + 6, first))
            y, last = laid[-1].bottom, row.thread
        return laid, y

    def _ends(self):
        """For each thread that has not finished in the end: what it is about to do, on lines, and its program line."""
        ends, machine, state = {}, self.shown.machine, self.shown.state
        for thread in state.threads:
            if thread.point != FINISHED and thread.number in self.threads:
                line = machine.points[thread.point].line
                words = about(machine, state, thread, self.naming) + self.naming.names.source(line)
                letter = BOLD if thread.number in self.ending.numbers else LETTER
                ends[thread.number] = wrapped(words, self.column - 2 * PAD, letter), line
        return ends

    def stretches(self):
        """The rows of each stretch of one thread."""
        stretches = []
        for laid in self.laid:
            if laid.first:
                stretches.append([])
            stretches[-1].append(laid)
        return stretches

    def begun(self, thread):
        """The height at which a thread is started, and by whom; None for the first thread."""
        for laid in self.laid:
            if thread in laid.row.started:
                return laid.top + STEP * 0.75, laid.row.thread
        return HEAD - 12, None

    def finished(self, thread):
        """The height at which a thread has finished, or None."""
        return next((laid.bottom for laid in self.laid if laid.row.thread == thread and laid.row.finished), None)

    def waits(self, thread):
        """Where a thread waits while others take steps."""
        spans, last = [], None
        for before, laid in zip(self.laid, self.laid[1:]):
            words = self._waiting(thread, before.row.state) if laid.row.thread != thread else None
            if words is not None and words == last:
                spans[-1] = spans[-1]._replace(bottom=laid.bottom)
            elif words is not None:
                spans.append(Span(words, laid.top, laid.bottom, thread))
            last = words
        return spans

    def _waiting(self, thread, state):
        at, machine = state.at(thread), self.shown.machine
        if at is None or machine.standing(state, state.threads[at]) != WAITS:
            return None
        return about(machine, state, state.threads[at], self.naming)

    def holdings(self, value):
        """What a thing is like, from where to where, and after whose step."""
        spans = []
        for laid in self.laid:
            words = standing(laid.row.state, value, self.naming)
            if words is not None and (not spans or spans[-1].words != words or laid.row.touched.get(value) == "write"):
                if spans:
                    spans[-1] = spans[-1]._replace(bottom=laid.top)
                spans.append(Span(words, laid.top, self.end_bottom, laid.row.thread))
        return spans
