"""The picture for a telephone: the words of a step stand above its bars, so that both are seen without moving the picture."""
from .fills import colour_of
from .holders import Holder
from .picture import BOLD, LETTER, LINE, Picture, text

STRIP, BARS = 20, 18  # of a row: its words, and its bars
LINE_X, WORDS_X, WIDTH = 24, 44, 384


class Narrow(Picture):
    row, columns_x, widths = STRIP + BARS, 20, [(1, 330, 0), (2, 150, 0), (3, 92, 0), (6, 34, 0)]

    def _step(self, top, moment):
        site, lines = moment.site, self._told(moment.site)
        refused = self._is_refused(site)
        kind, letter = ("step refused", BOLD) if refused else ("step", LETTER)
        return [
            f'<rect class="band {"refused" if refused else "even"}" x="0" y="{top}" width="{self.width}"'
            f' height="{STRIP + LINE * (len(lines) - 1)}"/>',
            text("line", LINE_X, top + 14, str(site.line), LINE_X, "end"),
            f'<circle cx="{LINE_X + 10}" cy="{top + 10}" r="5" fill="{colour_of(Holder("thread", site.thread))}"/>',
            *(text(kind, WORDS_X, top + 14 + LINE * number, words, self._room(site), letter=letter)
              for number, words in enumerate(lines))]

    def _room(self, site):
        return WIDTH - WORDS_X

    def _bar(self, _top, bottom):
        return bottom - BARS / 2

    def _bars_top(self, _top, bottom):
        return bottom - BARS

    def _words(self, site):
        return f"{self.names.thread(site.thread)}: {super()._words(site)}"

    def _narrow(self, location, spans, tops):
        """No room beside a column: a narrow share goes by its colour."""
        return []
