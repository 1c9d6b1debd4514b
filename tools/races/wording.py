"""Small words."""
from explanation.formatting import grouped


def counted(number, what):
    return f"{grouped(number)} {what}" + ("" if number == 1 else "es" if what.endswith("ch") else "s")


def capital(words):
    return words[:1].upper() + words[1:]
