"""The picture: steps down, locations across, and in each location's column who holds how much of it.

What fits on a sheet of paper is drawn in one piece. Else it is drawn in parts, one below the other, each low enough for what is
left of a printed page; the head stands apart, so that every printed page can have it. Many locations make several such pictures,
each of as many columns as can be read.
"""
from html import escape
from textwrap import wrap
from typing import NamedTuple

from ..conditions import cell_location
from ..walk import in_words, touches
from .fills import KEEPERS, colour_of, fill_of, ink_on
from .holders import Holder, Telling, same_step
from .places import places

ROW, LINE, HEAD = 24, 17, 46
LINE_X, THREAD_X, STEP_X, COLUMNS_X = 40, 52, 150, 520
GAP = 26  # right of a column
INDENT, DEEPEST = 12, 8
ROWS_IN_A_PART = 10
EDGE = 3
# For so many columns at most: the width of each, and the room behind it for the names of narrow shares.
WIDTHS = [(1, 330, 140), (2, 240, 140), (4, 150, 110), (6, 110, 80)]
MOST_COLUMNS = 6
LETTER, BOLD = 5.9, 6.8  # generous widths of a letter of 12 pixels


class Span(NamedTuple):
    """One holder's share in a column, over rows of a part that follow one another."""

    holder: Holder
    left: int
    number: int
    first: int
    last: int
    above: bool  # it goes on in the part above, or below
    below: bool


class Picture:
    """For a desk's screen and for paper: the words of a step stand left of the columns."""

    row, columns_x, widths = ROW, COLUMNS_X, WIDTHS

    def __init__(self, explanation):
        self.explanation = explanation
        self.names = explanation.names
        self.sites = explanation.sites
        self.split = explanation.sites.split
        telling = Telling(explanation)
        self.moments, self.apart = telling.moments, len(telling.moments) - telling.apart
        # Where a sheet gives out more than there is, the column has room for that too.
        totals = [max(map(sum, zip(*moment.held.values())), default=0) for moment in self.moments]
        self.most = max([self.split.denominator, *totals])
        self.holders = list(dict.fromkeys(holder for moment in self.moments for holder in moment.held))
        self.shown = [p for p in range(self.split.locations) if self._is_shown(p)] or [0]
        self.folded = [p for p in range(self.split.locations) if p not in self.shown]
        self.blocks = [self.shown[first:first + MOST_COLUMNS] for first in range(0, len(self.shown), MOST_COLUMNS)]
        self.column, self.beside = next(widths for most, *widths in self.widths if len(self.blocks[0]) <= most)
        self.places = {location: places(self.moments, location) for location in self.shown}
        self.x = {}
        self.width = max(map(self._place_columns, self.blocks))

    def _is_shown(self, location):
        """Whether something moves a location or touches it, or the refusal is about it."""
        root = self.sites.root
        states = [{Holder("thread", 0): root.pre}, *(moment.held for moment in self.moments)]
        had = [{holder: numbers[location] for holder, numbers in state.items() if numbers[location]} for state in states]
        touched = any(self._access(moment.site) == location for moment in self.moments)
        return touched or any(one != had[0] for one in had) or (self.explanation.site and location == self.explanation.location)

    def _place_columns(self, block):
        """Where each column stands: behind one with narrow shares there is room for their names. Returns the width of all."""
        at = self.columns_x
        for location in block:
            self.x[location] = at
            narrow = any(not self._label(location, place) for row in self.places[location] for place in row)
            at += self.column + GAP + self.beside * narrow
        return at + 10

    # ---- The parts

    def height(self):
        """How high the picture is with all steps below one head."""
        return HEAD + sum(map(self._row_height, self.moments))

    def _row_height(self, moment):
        return self.row + LINE * (len(self._told(moment.site)) - 1)

    def whole(self, block):
        """The picture in one piece."""
        label = "who holds how much of each location, step by step"
        return "\n".join([
            f'<svg viewBox="0 0 {self.width} {self.height()}" preserveAspectRatio="xMidYMin" role="img" aria-label="{label}">',
            self.head(block, 0),
            self._part(block, 0, self.moments, HEAD), "</svg>"])

    def _opening(self, height, label, top):
        """The beginning of an SVG by itself; or of one inside another, so far from its top."""
        inside = "" if top is None else f' y="{top}" width="{self.width}" height="{height}"'
        return f'<svg viewBox="0 0 {self.width} {height}"{inside} role="img" aria-label="{label}">'

    def head(self, block, top=None):
        """The names of some columns, and their scale."""
        pieces = [self._opening(HEAD, "the locations", top)]
        whole = self._scaled(self.split.denominator)
        for location in block:
            x = self.x[location]
            pieces += [
                text("location", x, 20, self.names.place(location), self.column), text("scale", x, 38, "0", 20),
                text("scale", x + whole, 38, "the whole", 80, "end")]
        return "\n".join(pieces + ["</svg>"])

    def parts(self, block):
        """All steps with some columns, as SVG texts to be put one below the other."""
        starts = range(0, len(self.moments), ROWS_IN_A_PART)
        return [self._part(block, start, self.moments[start:start + ROWS_IN_A_PART]) for start in starts]

    def _part(self, block, start, moments, top=None):
        tops = [0]
        for moment in moments:
            tops.append(tops[-1] + self._row_height(moment))
        label = f"steps {start + 1} to {start + len(moments)} of {len(self.moments)}: who holds how much of each location"
        pieces = [self._opening(tops[-1], label, top)]
        for row, moment in enumerate(moments):
            pieces += self._band(tops[row], tops[row + 1], start + row, moment)
        for location in block:
            pieces += self._column(location, start, tops)
        for top, bottom, moment in zip(tops, tops[1:], moments):
            pieces += [*self._step(top, moment), *self._touch(block, self._bar(top, bottom), moment)]
            pieces += self._refusal(block, top, bottom, moment)
        return "\n".join(pieces + ["</svg>"])

    # ---- Rows

    def _band(self, top, bottom, row, moment):
        kind = "refused" if self._is_refused(moment.site) else "even" if row % 2 else "odd"
        return [f'<rect class="band {kind}" x="0" y="{top}" width="{self.width}" height="{bottom - top}"/>']

    def _step(self, top, moment):
        site, middle, left = moment.site, top + 16, self._left(moment.site)
        kind, letter = ("step refused", BOLD) if self._is_refused(site) else ("step", LETTER)
        return [
            text("line", LINE_X, middle, str(site.line), LINE_X, "end"),
            f'<circle cx="{THREAD_X + 6}" cy="{middle - 4}" r="5" fill="{colour_of(Holder("thread", site.thread))}"/>',
            text("thread", THREAD_X + 16, middle, self.names.thread(site.thread), STEP_X - THREAD_X - 20),
            *(text(kind, left, middle + LINE * number, words, self._room(site), letter=letter)
              for number, words in enumerate(self._told(site))),
        ]

    def _left(self, site):
        return STEP_X + INDENT * min(site.nest, DEEPEST)

    def _room(self, site):
        """The room for a step in words."""
        return self.columns_x - self._left(site) - 20

    def _bar(self, top, _bottom):
        """The middle of the line of a row on which the bars have their labels and touches stand."""
        return top + ROW / 2

    def _bars_top(self, top, _bottom):
        """Where the bars of a row are seen from on."""
        return top

    def _words(self, site):
        return in_words(site, self.sites, self.names) + self.names.source(site.line)

    def _told(self, site):
        """A step in words, on one line; the refused one whole, with what is false there, in as many lines as it takes."""
        words = self._words(site)
        if not self._is_refused(site):
            return [words]
        letters = int(self._room(site) / BOLD)
        sums = [line for words in self.explanation.numbers for line in _broken(words.replace("`", ""), letters)]
        return wrap(words, letters) + sums

    def _is_refused(self, site):
        return same_step(site, self.explanation.site) and self.explanation.number > 0

    # ---- Columns

    def _scaled(self, number):
        return number * self.column / self.most

    def _column(self, location, start, tops):
        x, whole = self.x[location], self._scaled(self.split.denominator)
        pieces = [f'<rect class="free" x="{x}" y="0" width="{whole:.1f}" height="{tops[-1]}"/>']
        spans = self._spans(location, start, len(tops) - 1)
        for span in spans:
            pieces += self._share(location, span, tops)
        pieces.append(f'<line class="whole" x1="{x + whole:.1f}" x2="{x + whole:.1f}" y1="0" y2="{tops[-1]}"/>')
        return pieces + self._narrow(location, spans, tops)

    def _spans(self, location, start, rows):
        """The shares of a column, each drawn once over all the rows of the part in which it stays where it is."""
        open_spans, done, told = {}, [], [set(), *map(set, self.places[location]), set()]
        for row in range(rows):
            now = told[start + row + 1]
            for place in [place for place in open_spans if place not in now]:
                done.append((place, open_spans.pop(place), row - 1))
            for place in now:
                open_spans.setdefault(place, row)
        done += [(place, first, rows - 1) for place, first in open_spans.items()]
        return [
            Span(*place, first, last, first == 0 and place in told[start], last == rows - 1 and place in told[start + rows + 1])
            for place, first, last in sorted(done, key=lambda span: (span[1], span[0].left))]

    def _share(self, location, span, tops):
        # A share that goes on has its edge outside of the part, where it is not seen.
        top, bottom = tops[span.first] - EDGE * span.above, tops[span.last + 1] + EDGE * span.below
        left, width = self.x[location] + self._scaled(span.left), self._scaled(span.number)
        pieces = [
            f'<rect class="share {span.holder.kind}" x="{left:.1f}" y="{top}" width="{width:.1f}" height="{bottom - top}"'
            f' fill="{fill_of(span.holder)}"/>'
        ]
        label = self._label(location, span)
        if label:
            kind = f"share-label {ink_on(span.holder)}"
            y = self._bar(tops[span.first], tops[span.first + 1]) + 4
            pieces.append(text(kind, left + 6, y, label, width - 8, letter=BOLD))
        return pieces

    def _label(self, location, share):
        """What is written on a share: as much as it has room for; nothing if it is too narrow."""
        amount, name = self.split.fraction(share.number, location), self.holder_name(share.holder)
        room = self._scaled(share.number) - 10
        return next((label for label in (f"{name} {amount}", name) if len(label) * BOLD <= room), None)

    def _narrow(self, location, spans, tops):
        """The shares too narrow for words: named right of the column where they begin, with a line from each."""
        pieces, end = [], self.x[location] + self._scaled(self.most)
        narrow = [span for span in spans if not span.above and not self._label(location, span)]
        for first in sorted({span.first for span in narrow}):
            here = [span for span in narrow if span.first == first]
            y = tops[first] + 12
            for span in here:
                middle = self.x[location] + self._scaled(span.left + span.number / 2)
                pieces.append(f'<path class="leader" d="M{middle:.1f} {y}H{end + 8:.1f}"/>')
                pieces.append(f'<circle class="leader" cx="{middle:.1f}" cy="{y}" r="1.8"/>')
            named = [(self.holder_name(span.holder), self.split.fraction(span.number, location)) for span in here]
            whole, short = ", ".join(map(" ".join, named)), ", ".join(name for name, _ in named)
            words = whole if len(whole) * LETTER <= self.beside else short
            pieces.append(text("beside", end + 11, tops[first] + 16, words, self.beside))
        return pieces

    def holder_name(self, holder):
        if holder.kind in KEEPERS:
            return self._made_name(holder)
        return self.names.thread(holder.thread())

    def _made_name(self, keeper):
        """The name of a lock, semaphore or read-write lock: that of the variable that its let binds, or its line."""
        for site in self.sites.all:
            if site.word == "let" and site.parts["e1"].line == keeper.number:
                return self.names.variable(site.number)
        return f"{KEEPERS[keeper.kind]} of {self.names.line(keeper.number)}"

    def folded_in_words(self):
        """Each location that is not drawn, with who has it all the while."""
        held = {Holder("thread", 0): self.sites.root.pre}
        for location in self.folded:
            had = [f"{self.holder_name(who)} {self.split.fraction(numbers[location], location)}" for who, numbers in held.items()
                   if numbers[location]]
            yield f"{self.names.place(location)} ({', '.join(had) or 'nobody has any'})"

    # ---- What a step touches, and what was refused

    def _access(self, site):
        """The location that a read or write touches; None for other words, or where its part is no cell."""
        return cell_location(site, self.split) if touches(site, self.split) else None

    def _touch(self, block, middle, moment):
        location = self._access(moment.site)
        if location not in block:
            return []
        kind = "write" if moment.site.word == "write" else "read"
        return [f'<circle class="touch {kind}" cx="{self.x[location] - 12}" cy="{middle}" r="5"/>']

    def _refusal(self, block, top, bottom, moment):
        if not self._is_refused(moment.site):
            return []
        pieces = [f'<rect class="refusal" x="1" y="{top + 1}" width="{self.width - 2}" height="{bottom - top - 2}"/>']
        if self.explanation.number in (30, 32, 33, 41) and self.explanation.location in block:
            x, whole, first = self.x[self.explanation.location], self._scaled(self.split.denominator), self._bars_top(top, bottom)
            pieces.append(f'<rect class="wanted" x="{x}" y="{first + 3}" width="{whole:.1f}" height="{bottom - first - 6}"/>')
        return pieces


def _broken(words, letters):
    """Words as lines of so many letters. A sum that does not fit behind its location stands below it, in one piece if it can."""
    place, colon, told = words.partition(": ")
    pieces = [words] if len(words) <= letters or not colon else [f"{place}:", told]
    return [line for piece in pieces for line in wrap(piece, letters)]


def text(kind, x, y, words, room, anchor="start", letter=LETTER):
    """A line of text, cut to the room it has."""
    most = int(room / letter)
    words = words if len(words) <= most else words[:max(1, most - 1)] + "…"
    return f'<text class="{kind}" x="{x:.1f}" y="{y:.1f}" text-anchor="{anchor}" data-room="{room:.0f}">{escape(words)}</text>'
