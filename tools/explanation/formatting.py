"""How bytes, names, numbers and maps are shown to a person."""
import os

LONGEST = 72
FEW = 3  # locations whose fractions fit on one line


def visible(name):
    """A file's name with a backslash, and all that does not print, as the bytes \\xNN that they are."""
    if name.isprintable() and "\\" not in name:
        return name
    return "".join(
        letter if letter.isprintable() and letter != "\\" else "".join(f"\\x{byte:02x}" for byte in os.fsencode(letter))
        for letter in name)


def shown(text):
    """Bytes of a line as they stand, what does not print as \\xNN, cut when long."""
    whole = "".join(chr(byte) if 32 <= byte < 127 and byte != 92 else f"\\x{byte:02x}" for byte in text)
    return whole if len(whole) <= LONGEST else whole[:LONGEST] + f".. ({len(text)} bytes)"


def grouped(number):
    """A number with commas between thousands."""
    return f"{number:,}"


def fractions(numbers, split):
    """A map, one fraction a location."""
    return ", ".join(split.fraction(number, location) for location, number in enumerate(numbers))


def listed(items):
    """a, b and c"""
    items = list(items)
    return " and ".join(filter(None, [", ".join(items[:-1]), *items[-1:]]))
