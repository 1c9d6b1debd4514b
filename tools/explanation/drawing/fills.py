"""How the holders in a picture are told apart: by a colour, and where colours run out by marks beside it.

A thread has one of eight colours; the ninth thread has the first colour again with one dot in each tile, the seventeenth with
two, and so on. What no running thread has is a pattern.
"""
# Dark and light in turn, so that neighbours stay apart for most eyes and in grey; red is kept for the refusal.
THREADS = ["#22538f", "#e2a233", "#2b8159", "#d9b9e4", "#73215a", "#32a5c8", "#85562c", "#cedc86"]
DARK = {0, 2, 4, 6}
# What keeps rights and is no thread: what it is called if no variable has it.
KEEPERS = {"lock": "lock", "sem": "semaphore", "rwlock": "read-write lock"}
KEPT = "#8b8f99"
MARKS = {
    "lock": f'<path d="M0 8L8 0M-2 2L2 -2M6 10L10 6" stroke="{KEPT}" stroke-width="1.4"/>',
    "sem": f'<circle cx="4" cy="4" r="1.8" fill="{KEPT}"/>',
    "rwlock": f'<path d="M0 2H8M0 6H8" stroke="{KEPT}" stroke-width="1.4"/>',
}


def thread_colour(number):
    """None stands for whoever calls a procedure."""
    return KEPT if number is None else THREADS[number % len(THREADS)]


def ink_on_thread(number):
    """How words are written on a thread's colour: white or dark."""
    return "on-dark" if number % len(THREADS) in DARK else "on-light"


def colour_of(holder):
    return KEPT if holder.kind in KEEPERS else thread_colour(holder.thread())


def fill_of(holder):
    """The colour of a running thread that has it alone, else the pattern that patterns() makes for the holder."""
    if holder.kind in KEEPERS:
        return f"url(#{holder.kind})"
    if holder.kind == "thread" and (holder.number is None or holder.number < len(THREADS)):
        return colour_of(holder)
    return f"url(#{holder.kind}-{holder.thread()})"


def ink_on(holder):
    """How words are written on a holder's share: white, dark, or dark with a white edge where there is a pattern."""
    if holder.kind != "thread" or holder.number is None or holder.number >= len(THREADS):
        return "on-pattern"
    return ink_on_thread(holder.number)


def patterns(holders):
    """The patterns of these holders: a lock's is hatched, a semaphore's dotted, a read-write lock's ruled like a book, a share that
    is kept for an identifier striped in its thread's colour."""
    made = [_pattern(kind, 8, f'<rect width="8" height="8" fill="#e4e5e9"/>{mark}') for kind, mark in MARKS.items()]
    threads = sorted({(holder.kind, holder.thread()) for holder in holders if holder.thread() is not None})
    for kind, thread in threads:
        colour, dots = thread_colour(thread), _dots(thread // len(THREADS))
        if kind == "identifier":
            made.append(_pattern(f"identifier-{thread}", 18, _stripes(colour) + dots))
        elif thread >= len(THREADS):
            made.append(_pattern(f"thread-{thread}", 18, f'<rect width="18" height="18" fill="{colour}"/>{dots}'))
    return f"<defs>{''.join(made)}</defs>"


def _pattern(name, size, marks):
    return f'<pattern id="{name}" width="{size}" height="{size}" patternUnits="userSpaceOnUse">{marks}</pattern>'


def _stripes(colour):
    lines = "".join(f"M{x} 0L{x + 18} 18" for x in (-18, -9, 0, 9))
    return (f'<rect width="18" height="18" fill="#fff"/><rect width="18" height="18" fill="{colour}" opacity="0.25"/>'
            f'<path d="{lines}" stroke="{colour}" stroke-width="2"/>')


def _dots(count):
    """So many white dots with a dark edge, in rows of four."""
    places = [(2.6 + 4.2 * (dot % 4), 3 + 5.5 * (dot // 4)) for dot in range(count)]
    return "".join(
        f'<circle cx="{x:.1f}" cy="{y:.1f}" r="1.7" fill="#fff" stroke="#1d2330" stroke-width="0.5"/>' for x, y in places)
