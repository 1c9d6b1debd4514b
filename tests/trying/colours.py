"""The colours of threads, measured: words on them can be read, and no two look alike, to whatever eyes; neighbours not in grey either."""
from itertools import combinations

from checks import check
from explanation.drawing.fills import DARK, THREADS

INK, WHITE = "#1d2330", "#ffffff"
READABLE = 4.5  # the contrast of words, by WCAG 2
APART = 10  # where black to white is 100, in the CIE's L*a*b*: what can just be seen is 2.3
IN_GREY = 20  # the same for the lightness of neighbours
# What is seen without one sort of cone, on linear red, green and blue (Machado, Oliveira and Fernandes 2009).
EYES = {
    "all cones": ((1, 0, 0), (0, 1, 0), (0, 0, 1)),
    "no red cones": ((0.152286, 1.052583, -0.204868), (0.114503, 0.786281, 0.099216), (-0.003882, -0.048116, 1.051998)),
    "no green cones": ((0.367322, 0.860646, -0.227968), (0.280085, 0.672501, 0.047413), (-0.011820, 0.042940, 0.968881)),
    "no blue cones": ((1.255528, -0.076749, -0.178779), (-0.078411, 0.930809, 0.147602), (0.004733, 0.691367, 0.303900)),
}


def linear(colour):
    parts = [int(colour[at:at + 2], 16) / 255 for at in (1, 3, 5)]
    return [part / 12.92 if part <= 0.04045 else ((part + 0.055) / 1.055) ** 2.4 for part in parts]


def light(colour):
    return sum(part * weight for part, weight in zip(linear(colour), (0.2126, 0.7152, 0.0722)))


def contrast(one, other):
    dark, bright = sorted([light(one), light(other)])
    return (bright + 0.05) / (dark + 0.05)


def lab(colour, eyes):
    """The colour as these eyes see it, in L*a*b*."""
    seen = [min(1, max(0, sum(weight * part for weight, part in zip(row, linear(colour))))) for row in eyes]
    rows = (0.4124, 0.3576, 0.1805), (0.2126, 0.7152, 0.0722), (0.0193, 0.1192, 0.9505)
    x, y, z = (_root(sum(weight * part for weight, part in zip(row, seen)) / white) for row, white in zip(rows, (0.9505, 1, 1.089)))
    return 116 * y - 16, 500 * (x - y), 200 * (y - z)


def _root(part):
    return part ** (1 / 3) if part > 0.008856 else 7.787 * part + 16 / 116


def distance(one, other, eyes):
    return sum((a - b) ** 2 for a, b in zip(lab(one, eyes), lab(other, eyes))) ** 0.5


def check_colours():
    faint = [colour for at, colour in enumerate(THREADS) if contrast(colour, WHITE if at in DARK else INK) < READABLE]
    check("words on the colours of threads", faint, [])
    for name, eyes in EYES.items():
        close = [(a, b, round(distance(a, b, eyes))) for a, b in combinations(THREADS, 2) if distance(a, b, eyes) < APART]
        check(f"the colours of threads, with {name}", close, [])
    grey = [lab(colour, EYES["all cones"])[0] for colour in THREADS]
    close = [at for at, lightness in enumerate(grey) if abs(lightness - grey[at - 1]) < IN_GREY]
    check("the colours of neighbours, in grey", close, [])
