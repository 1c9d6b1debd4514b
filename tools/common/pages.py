"""How every page of the tools begins: with the name of the tool that made it, by which a newer one may replace it."""


def opening(tool):
    """The lines of a page up to its title."""
    return [
        "<!DOCTYPE html>", '<html lang="en">', "<head>", '<meta charset="utf-8"/>',
        f'<meta name="generator" content="racecheck {tool}"/>', '<meta name="viewport" content="width=device-width"/>']


def begins(tool):
    return "\n".join(opening(tool)).encode()
