"""The picture of an order: each stretch of a thread a box, each switch an arrow, beside them what the cells and locks hold."""
from html import escape
from typing import NamedTuple

from explanation.drawing.fills import ink_on_thread, thread_colour
from interpreter.machine import CELL, LOCK, SEM, kind

from .layout import BOLD, NUMBER, PAD, STEP, SWITCH, THING, Layout, wrapped

STRIP = 46  # the heads above each part
# How high the picture may be, for its width, to fit on one upright sheet; how high the first of several parts and the others.
WHOLE, FIRST_PART, NEXT_PART = 1.35, 1.05, 1.3


class Piece(NamedTuple):
    """A piece of the picture, with the heights that it reaches."""

    top: float
    bottom: float
    markup: str
    whole: bool = False  # it is drawn only where it fits

    def is_in(self, top, bottom):
        if self.whole:
            return top <= self.top and self.bottom <= bottom
        return self.bottom >= top and self.top <= bottom


# ---- Pieces


def text(kind_of, x, y, words, anchor="start"):
    markup = f'<text class="{kind_of}" x="{x:.1f}" y="{y:.1f}" text-anchor="{anchor}">{escape(words)}</text>'
    return Piece(y - 10, y + 3, markup, True)


def box(how, x, top, width, bottom, round_by=6):
    """A rectangle; `how` has its look."""
    size = f'width="{width:.1f}" height="{bottom - top:.1f}" rx="{round_by}"'
    return Piece(top, bottom, f'<rect {how} x="{x:.1f}" y="{top:.1f}" {size}/>')


def across(how, start, end, y):
    return Piece(y, y, f'<path {how} d="M{start:.1f} {y:.1f}H{end:.1f}"/>')


def down(how, x, top, bottom):
    return Piece(top, bottom, f'<path {how} d="M{x:.1f} {top:.1f}V{bottom:.1f}"/>')


def dot(how, x, y, radius):
    return Piece(y, y, f'<circle {how} cx="{x:.1f}" cy="{y:.1f}" r="{radius}"/>')


class Picture:
    def __init__(self, shown, ending):
        self.layout, self.ending, self.naming = Layout(shown, ending), ending, shown.naming
        self.width, self.height = self.layout.width, self.layout.height

    def colour(self, thread):
        return thread_colour(self.naming.spawn_of(thread))

    def ink_on(self, thread):
        return ink_on_thread(self.naming.spawn_of(thread))

    # ---- The whole

    def svgs(self):
        """The picture, in parts if it does not fit on one sheet; each has the heads above it."""
        pieces = [*self._things(), *self._lifelines(), *self._stretches(), *self._waits(), *self._switches(), *self._end()]
        windows = self._windows()
        return [self._part(pieces, at, top, bottom) for at, (top, bottom) in enumerate(zip(windows, windows[1:]))]

    def _part(self, pieces, at, top, bottom):
        label = escape(self.ending.sentence() if at == 0 else "the picture goes on")
        width, height = f"{self.width:.0f}", f"{bottom - top:.0f}"
        return "\n".join([
            f'<svg viewBox="0 0 {width} {STRIP + bottom - top:.0f}" preserveAspectRatio="xMidYMin" role="img" aria-label="{label}"'
            f' style="min-width:{0.7 * self.width:.0f}px;max-width:{1.3 * self.width:.0f}px">',
            f'<svg y="{STRIP}" width="{width}" height="{height}" viewBox="0 {top:.0f} {width} {height}">',
            *(piece.markup for piece in pieces if piece.is_in(top, bottom)), "</svg>",
            *(piece.markup for piece in self._heads()), "</svg>"])

    def _windows(self):
        """The heights between which the parts are, each cut above a row."""
        cuts, most = [STRIP], self.height if self.height <= WHOLE * self.width else FIRST_PART * self.width
        for before, laid in zip(self.layout.laid, [*self.layout.laid[1:], None]):
            end = self.layout.height if laid is None else laid.bottom
            if end - cuts[-1] > most and before.bottom > cuts[-1] + STEP:
                cuts.append(before.bottom + 1)
                most = NEXT_PART * self.width
        return [*cuts, self.height]

    def _heads(self):
        pieces = []
        for thread in self.layout.threads:
            x, name = self.layout.x(thread), wrapped(self.naming.thread(thread), self.layout.column - 20, 8.2)[0]
            pieces += [
                box(f'fill="{self.colour(thread)}"', x, 8, self.layout.column, 42),
                text(f"head {self.ink_on(thread)}", x + self.layout.column / 2, 31, name, "middle")]
        for thread in self.layout.sharing[:1]:
            x, name = self.layout.x(thread), f"{len(self.layout.sharing)} others"
            pieces += [
                box('class="others"', x, 8, self.layout.column, 42), text("head", x + self.layout.column / 2, 31, name, "middle")]
        for value in self.layout.things:
            x, name = self.layout.thing_x(value), wrapped(self.naming.thing(value), THING, BOLD)
            top = 22 if len(name) > 1 else 31
            pieces += [text("thing", x + THING / 2, top + at * 15, piece, "middle") for at, piece in enumerate(name[:2])]
        return pieces

    # ---- Threads

    def _lifelines(self):
        pieces = []
        for thread in self.layout.threads:
            (begun, by), done = self.layout.begun(thread), self.layout.finished(thread)
            x, ink = self.layout.middle(thread), f'stroke="{self.colour(thread)}"'
            pieces.append(down(f'class="life" {ink}', x, begun, done or self.layout.end_top - 2))
            if done:
                pieces += [
                    across(f'class="ended" {ink}', x - 22, x + 22, done + 5), text("note", x - 28, done + 12, "finished", "end")]
            if by is not None:
                start = self.layout.x(by) + (self.layout.column if self.layout.x(by) < x else 0)
                pieces += [across(f'class="spawn" {ink}', start, x, begun), dot(f'fill="{self.colour(thread)}"', x, begun, 5)]
        return pieces

    def _stretches(self):
        """A box for each stretch of steps of one thread, its steps in it."""
        pieces = []
        for stretch in self.layout.stretches():
            thread = stretch[0].row.thread
            x, ink, top, bottom = self.layout.x(thread), self.colour(thread), stretch[0].top - 4, stretch[-1].bottom + 2
            pieces += [
                box('class="stretch"', x, top, self.layout.column, bottom),
                box(f'fill="{ink}" fill-opacity="0.10" stroke="{ink}" stroke-width="1.6"', x, top, self.layout.column, bottom)]
            for laid in stretch:
                pieces += self._steps(laid, x)
        return pieces

    def _steps(self, laid, x):
        pieces = []
        for place, (line, words) in enumerate(laid.texts):
            y = laid.top + (place + 1) * STEP - 3
            if line is not None:
                pieces.append(text("line", x + PAD + NUMBER - 9, y, str(line), "end"))
            pieces.append(text("step", x + PAD + NUMBER, y, words))
        return pieces

    def _waits(self):
        """A striped bar wherever a thread waits while others go on, with what it waits for."""
        pieces = []
        for thread in self.layout.threads:
            x = self.layout.middle(thread)
            for span in self.layout.waits(thread):
                top, bottom = span.top - 4, span.bottom + 2
                pieces.append(box(f'class="waits" stroke="{self.colour(thread)}"', x - 5, top, 10, bottom, 5))
                texts = wrapped(span.words, self.layout.column / 2 - 14)[:int((bottom - top) // 15)]
                pieces += [text("waiting", x + 10, top + 13 + at * 15, piece) for at, piece in enumerate(texts)]
        return pieces

    def _switches(self):
        """An arrow from the end of each stretch to the next."""
        pieces, stretches = [], self.layout.stretches()
        for count, (before, after) in enumerate(zip(stretches, stretches[1:]), 1):
            one, other = (self.layout.middle(stretch[0].row.thread) for stretch in (before, after))
            top, tip = before[-1].bottom + 2, after[0].top
            level, side = top + (SWITCH - 6) / 2, (one + other) / 2
            pieces += [
                Piece(top, tip, f'<path class="switch" d="M{one:.1f} {top:.1f}V{level:.1f}H{other:.1f}V{tip - 12:.1f}"/>'
                                f'<path class="tip" d="M{other - 6:.1f} {tip - 13:.1f}h12l-6 8z"/>'),
                box('class="plate"', side - 33, level - 9, 66, level + 9, 9),
                text("plate", side, level + 4, f"switch {count}", "middle")]
        return pieces

    # ---- Things

    def _things(self):
        pieces = []
        for value in self.layout.things:
            x = self.layout.thing_x(value)
            for span in self.layout.holdings(value):
                pieces += self._holding(value, x, span)
            for laid in self.layout.laid:
                how = laid.row.touched.get(value)
                if how in ("read", "write"):
                    ink, y = self.colour(laid.row.thread), laid.top + STEP * 0.65
                    start = self.layout.x(laid.row.thread) + self.layout.column
                    pieces += [
                        across(f'class="reach" stroke="{ink}"', start, x, y),
                        dot(f'stroke="{ink}" stroke-width="2" fill="{ink if how == "write" else "#fff"}"', x, y, 6)]
        return pieces

    def _holding(self, value, x, span):
        """What a thing is like for a while; a lock that is taken has the colour of its taker."""
        taken = kind(value) == LOCK and span.words == "taken" or kind(value) not in (CELL, SEM) and span.words == "writing"
        words = f"{span.words} by {self.naming.thread(span.thread)}" if taken else span.words
        look = f'fill="{self.colour(span.thread)}" fill-opacity="0.85"' if taken else 'class="holds"'
        kind_of = f"taken {self.ink_on(span.thread)}" if taken else "value" if kind(value) in (CELL, SEM) else "soft"
        texts = wrapped(words, THING - 8, BOLD)[:max(1, int((span.bottom - span.top) // STEP))]
        return [box(look, x, span.top, THING, span.bottom, 0),
                *(text(kind_of, x + THING / 2, span.top + 16 + at * 15, piece, "middle") for at, piece in enumerate(texts))]

    # ---- What it leads to

    def _end(self):
        top, bottom, pieces = self.layout.end_top, self.layout.end_bottom, []
        if self.ending.cell is not None:
            pieces += self._meeting(top, bottom)
        for thread, (texts, line) in self.layout.ends.items():
            x, marked, ink = self.layout.x(thread), thread in self.ending.numbers, self.colour(thread)
            pieces += [
                box('class="about"' if marked else f'class="other" stroke="{ink}"', x, top, self.layout.column, bottom),
                text("about-name", x + PAD, top + STEP + 2, self.naming.thread(thread)),
                text("line", x + self.layout.column - PAD, top + STEP + 2, f"line {line}", "end")]
            pieces += [
                text("about" if marked else "soft", x + PAD, top + (at + 2) * STEP + 4, piece) for at, piece in enumerate(texts)]
        return pieces

    def _meeting(self, top, bottom):
        """The two threads and the cell that they meet at."""
        cell_x, level = self.layout.thing_x(self.ending.cell), (top + bottom) / 2
        left = min(self.layout.x(number) for number in self.ending.numbers)
        where = wrapped(f"on {self.naming.thing(self.ending.cell)}", THING - 6, BOLD)[0]
        return [
            box('class="alarm"', left - 8, top - 12, cell_x + THING + 16 - left, bottom + 12, 10),
            across('class="collide"', left + self.layout.column, cell_x - 2, level),
            box('class="burst"', cell_x, top, THING, bottom),
            text("race", cell_x + THING / 2, level + 1, "RACE", "middle"),
            text("race-on", cell_x + THING / 2, level + 18, where, "middle")]
