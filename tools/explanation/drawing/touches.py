"""Who touches what, as a table of the page: a row a cell, with its touches by thread and the locks held there."""
from html import escape

from ..touching import Words, parted
from .fills import thread_colour


def table(explanation):
    """The table; nothing if no step touches a cell."""
    (shared, alone), words = parted(explanation.sites), Words(explanation)
    rows = [piece for cell in shared for piece in _row(cell, words)]
    return [
        '<section class="touches">', "<h2>Who touches what, and holding which locks</h2>",
        *(['<table class="touches"><tbody>', *rows, "</tbody></table>"] if rows else []),
        *([f'<p class="order">{escape(words.alone(alone))}</p>'] if alone else []), "</section>"] if shared or alone else []


def _row(cell, words):
    bare = cell.bare()
    return [
        f'<tr><th>{escape(words.cell(cell))}</th><td>', *(_touch(touch, touch in bare, words) for touch in cell.touches),
        f'<div class="guard{" lacks" * bool(bare)}">{escape(words.guard(cell))}</div></td></tr>']


def _touch(touch, is_bare, words):
    mark = f'<i style="background:{thread_colour(touch.thread)}"></i>'
    who = f"{escape(words.names.thread(touch.thread))} {touch.word}s, {escape(words.names.line(touch.line))}"
    return f'<span class="of-cell{" bare" * is_bare}">{mark}{who}: <em>{escape(words.held(touch))}</em></span>'
