"""One page that needs nothing else: the answer in words, who touches what, and the picture with its legend, on one sheet of A4
if they fit; and the walk, if it is asked for, on sheets of its own."""
from html import escape
from pathlib import Path

from common.pages import begins, opening

from ..refusals import REFUSALS
from ..report import alarm, condition_line, maps_of
from ..touching import parted
from ..walk import map_heads, past_the_lack, preface, strides
from .fills import KEEPERS, colour_of, fill_of, patterns
from .foot import made
from .holders import Holder
from .narrow import Narrow
from .picture import Picture
from .touches import table

TOOL = "explain"
# In millimetres of A4: its width, what a header, a legend and a foot leave of its height, what the words of a refusal and each
# touch take of that; and how small the picture may become.
ACROSS, SHEET, WORDS, TOUCH, SMALLEST = 188, 205, 48, 2, 0.7
BEGINS = begins(TOOL)
BADGES = {
    "ACCEPT": ("accepted", "ACCEPTED"), "FILLED": ("accepted", "FILLED"), "UNREAD": ("none", "NOT READ"),
    "FAILED": ("none", "NO ANSWER")}
ORDER = "This is one order of many. It is told so that each thread goes as far as it can before another is told on."
APART = "The rows of the caller, at the end, are the body of the refused procedure by itself, from what it starts with."

STYLE = Path(__file__).with_name("style.css").read_text(encoding="utf-8")


def text(title, explanation, words_of_foot="", walks=False):
    """The page of one pair."""
    picture = Picture(explanation) if explanation.sites else None
    is_sheet = picture is None or _fits(picture, explanation)
    pieces = [
        *opening(TOOL), f"<title>{escape(title)}: {escape(explanation.answer)}</title>", f"<style>{STYLE}</style>", "</head>",
        "<body>",
        f'<main class="{"sheet" if is_sheet else "sheets"}">', *_header(title, explanation), *_told(explanation),
    ]
    if picture:
        pieces += [*table(explanation), *_picture(picture, is_sheet)]
    pieces += [
        f"<footer><p>The answer is {explanation.program}'s. The numbers beside it are worked out again from the two sheets by"
        " explain, which judges nothing.</p>", *made(words_of_foot), "</footer>", "</main>",
        *(_walk(explanation) if walks and picture else []), "</body>", "</html>", ""]
    return "\n".join(pieces)


def _fits(picture, explanation):
    """Whether all but the walk can be read on one sheet: what is left below the words is enough for the picture, made a little
    smaller if need be."""
    touches = sum(len(cell.touches) for cell in parted(explanation.sites)[0])
    left = SHEET - WORDS * bool(explanation.number) - TOUCH * touches
    return len(picture.blocks) == 1 and SMALLEST * picture.height() * ACROSS / picture.width <= left


# ---- The answer in words


def _header(title, explanation):
    kind, badge = ("refused", "DISAGREEMENT") if explanation.disagrees else BADGES.get(explanation.answer, ("refused", "REFUSED"))
    return [
        "<header>", f"<div><h1>{escape(title)}</h1>", f'<p class="meaning">{escape(explanation.meaning)}</p></div>',
        f'<div><div class="badge {kind}">{badge}</div><div class="answer">{escape(explanation.answer)}</div></div>', "</header>",
        *(f'<p class="alarm">{escape(line)}</p>' for line in alarm(explanation) if line),
    ]


def _told(explanation):
    if explanation.answer in ("ACCEPT", "FILLED") and not explanation.unseen:
        return []
    left = [f'<div class="place">{escape(line)}</div>' for line in explanation.unseen + explanation.place]
    if explanation.site:
        left.append(f"<p>This step is taken by <b>{escape(explanation.names.thread(explanation.site.thread))}</b>.</p>")
    if explanation.condition:
        left.append(f"<h3>{escape(condition_line(explanation))}</h3>")
        left.append(f"<div>That is: {marked(explanation.condition.plain)}.</div>")
    left += [f'<div class="false">{marked(line)}</div>' for line in explanation.numbers]
    maps = [f'<tr><td>{escape(name)}</td><td class="map">{escape(value)}</td></tr>' for name, value in maps_of(explanation)]
    left += ['<table class="maps"><tbody>', *maps, "</tbody></table>"] if maps else []
    right = _list("Likely cause", explanation.causes) + _list("What usually helps", explanation.helps)
    if explanation.number in REFUSALS:
        right.append(f"<h3>Who looks first</h3><div>{escape(explanation.owner)}</div>")
    return ['<section class="told">', "<div>", *left, "</div>", "<div>", *right, "</div>", "</section>"]


def _list(title, lines):
    return [f"<h3>{title}</h3>", "<ul>", *(f"<li>{marked(line)}</li>" for line in lines), "</ul>"] if lines else []


def marked(words):
    """Words with `code` in backquotes."""
    pieces = escape(words).split("`")
    return "".join(f"<code>{piece}</code>" if place % 2 else piece for place, piece in enumerate(pieces))


# ---- The picture


def _picture(picture, is_sheet):
    explanation = picture.explanation
    folded = ", ".join(picture.folded_in_words())
    return [
        f'<svg class="patterns" aria-hidden="true">{patterns(picture.holders + _threads(picture))}</svg>',
        "<h2>Who holds how much</h2>", f'<p class="order">{ORDER}</p>', *_legend(picture),
        *([f'<p class="order">Not drawn, since nothing moves or touches it: {escape(folded)}.</p>'] if folded else []),
        *([f'<p class="order">{APART}</p>'] if picture.apart else []),
        *(_whole(picture) if is_sheet else [piece for block in picture.blocks for piece in _columns(picture, block)]),
        *(f'<p class="order">{escape(line)}</p>' for line in [past_the_lack(explanation)] if line),
    ]


def _whole(picture):
    """The picture in one piece, for a desk and for a telephone."""
    kinds = {"for-desk": picture, "for-phone": Narrow(picture.explanation)}
    return [f'<figure class="{kind}">{one.whole(one.blocks[0])}</figure>' for kind, one in kinds.items()]


def _columns(picture, block):
    return [
        '<figure><table class="picture">', f"<thead><tr><th>{picture.head(block)}</th></tr></thead>", "<tbody>",
        *(f"<tr><td>{part}</td></tr>" for part in picture.parts(block)), "</tbody></table></figure>"]


def _threads(picture):
    """The threads that are named, whether or not they ever hold anything."""
    named = {moment.site.thread for moment in picture.moments} | {
        holder.thread() for holder in picture.holders if holder.kind not in KEEPERS}
    return [Holder("thread", thread) for thread in sorted(named, key=lambda thread: -1 if thread is None else thread)]


def _legend(picture):
    kinds = {holder.kind for holder in picture.holders}
    rows = [(_swatch(thread), escape(picture.holder_name(thread))) for thread in _threads(picture)]
    if "lock" in kinds:
        rows.append((_swatch(Holder("lock", 0)), "kept in a lock that is open"))
    if "sem" in kinds:
        rows.append((_swatch(Holder("sem", 0)), "kept in a semaphore: its count times what a wait gets"))
    if "rwlock" in kinds:
        rows.append((_swatch(Holder("rwlock", 0)), "kept in a read-write lock: what its readers or its writer left there"))
    if "identifier" in kinds:
        owner = next(holder.owner for holder in picture.holders if holder.kind == "identifier")
        rows.append((_swatch(Holder("identifier", 0, owner)), "kept for an identifier: that thread's share until it is joined"))
    rows.append((_mark('<rect class="free" x="1" y="1" width="24" height="14"/>'), "nobody's"))
    rows.append((_mark('<circle class="touch read" cx="13" cy="8" r="5"/>'), "reads here: needs some"))
    rows.append((_mark('<circle class="touch write" cx="13" cy="8" r="5"/>'), "writes here: needs the whole"))
    if picture.explanation.number:
        wanted = _mark('<rect class="wanted" x="2" y="2" width="22" height="12"/>')
        rows.append((wanted, "the refused step, at the location at fault"))
    return ['<ul class="legend">', *(f"<li>{swatch}<span>{words}</span></li>" for swatch, words in rows), "</ul>"]


def _swatch(holder):
    return _mark(f'<rect x="1" y="1" width="24" height="14" fill="{fill_of(holder)}" stroke="{colour_of(holder)}"/>')


def _mark(shape):
    return f'<svg viewBox="0 0 26 16" aria-hidden="true">{shape}</svg>'


# ---- The walk


def _sums(stride):
    return f'<br/><span class="sums">{escape(stride.sums)}</span>' if stride.sums else ""


def _walk(explanation):
    heads = ["line", "thread", "step", "row", *map_heads(explanation), "in words"]
    head, rows = "".join(f"<th>{name}</th>" for name in heads), []
    for stride in strides(explanation):
        site = stride.site
        colour = colour_of(Holder("thread", site.thread))
        cells = [
            f'<td class="number">{site.line}</td>',
            f'<td class="thread"><i style="background:{colour}"></i>{escape(explanation.names.thread(site.thread))}</td>',
            f'<td class="step">{"  " * site.depth}{site.word},{site.number}</td>',
            f'<td class="row">{escape(stride.row)}</td>', *(f'<td class="map">{escape(cell)}</td>' for cell in stride.maps),
            f"<td>{escape(stride.words + explanation.names.source(site.line))}{_sums(stride)}</td>",
        ]
        kinds = " ".join(kind for kind, is_so in (("refused", stride.refused), ("apart", stride.apart)) if is_so)
        rows.append(f'<tr class="{kinds}">{"".join(cells)}</tr>' if kinds else f"<tr>{''.join(cells)}</tr>")
    kind = "walk wide" if len(heads) < 7 else "walk"
    return [
        '<section class="walk-section">', "<h2>The walk, step by step</h2>", f"<p>{escape(preface(explanation))}</p>",
        f'<table class="{kind}"><thead><tr>{head}</tr></thead><tbody>', *rows, "</tbody></table>", "</section>"]
