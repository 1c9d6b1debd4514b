"""How a tool starts and ends: its help and version, and in one line with status 2 what it cannot do."""
import os
import sys
import traceback

from .version import TOOLS, version


class Failure(Exception):
    """What a tool cannot do, in words for the person who started it."""


class Usage(Exception):
    """Arguments that a tool does not take: what is wrong with them."""


def run(words, main):
    """Ends with the status that `main` returns for the arguments. `words` are the tool's own, for --help."""
    name = os.path.basename(sys.argv[0])
    sys.stderr = sys.stderr or open(os.devnull, "w")
    try:
        status = _status(name, words, main, sys.argv[1:])
    except Usage as error:
        say(f"{name}: {str(error) or 'these arguments are not taken'}\n{usage_in(words)}\n{name} --help says more.")
        status = 2
    except (Failure, OSError) as error:
        say(f"{name}: {error}")
        status = 2
    except KeyboardInterrupt:
        say(f"{name}: stopped")
        status = 2
    except Exception as error:  # 1 or 3 would say something about a pair
        say(f"{name}: failed by a fault of its own: {fault(error)}")
        status = 2
    # Output that could not be written is reported above; Python's own attempt at it on the way out would change the status.
    os._exit(status)


def _status(name, words, main, arguments):
    if arguments in (["-h"], ["--help"]):
        tell([words])
        return 0
    if arguments == ["--version"]:
        tell([f"{name}, racecheck's tools {version()}"])
        return 0
    return main(arguments)


def called(tool):
    """How another tool is started: by its name where it is installed, else by its place in the repository."""
    return tool if (TOOLS.parent / "bin").is_dir() else f"{TOOLS.name}/{tool}"


def usage_in(words):
    """The paragraph of a tool's words that says how it is started."""
    return next(paragraph for paragraph in words.split("\n\n") if paragraph.startswith("usage: "))


def fault(error):
    """An error of the tools themselves: what it is and where."""
    place = traceback.extract_tb(error.__traceback__)[-1:]
    where = "".join(f" at {os.path.basename(frame.filename)} line {frame.lineno}" for frame in place)
    return f"{type(error).__name__}: {error}{where}"


def tell(lines):
    """Writes lines to standard output, in UTF-8 whatever the language of the place."""
    if sys.stdout is None:
        raise Failure("there is no standard output")
    try:
        sys.stdout.reconfigure(encoding="utf-8", errors="backslashreplace")
        print("\n".join(lines), flush=True)
    except BrokenPipeError:  # whoever reads has seen enough, as head has; what else is to be done is done
        pass
    except OSError as error:
        raise Failure(f"cannot write to standard output: {error.strerror}") from error


def say(words, end="\n"):
    """Tells the person something beside the output. What is to be done is done even if nobody can listen."""
    try:
        print(words, end=end, file=sys.stderr, flush=True)
    except OSError:
        pass


def options(arguments, flags=(), valued=()):
    """The options given, each with True or its value, and the other arguments in their order."""
    given, others, rest = {}, [], list(arguments)
    while rest:
        argument = rest.pop(0)
        if argument in flags:
            given[argument] = True
        elif argument in valued and rest:
            given[argument] = file_name(rest.pop(0))
        elif argument in valued:
            raise Usage(f"{argument} wants a value behind it")
        elif argument.startswith("-") and argument != "-":
            raise Usage(f"there is no option {argument}")
        else:
            others.append(file_name(argument))
    return given, others


def take(others, *names, least=None):
    """The arguments beside the options, which go by these names; None for those behind the least so many that are not given."""
    if len(others) > len(names):
        raise Usage(f"one argument too many: {others[len(names)]}")
    if len(others) < (len(names) if least is None else least):
        raise Usage(f"{names[len(others)]} is missing")
    return [*others, *[None] * (len(names) - len(others))]


def file_name(name):
    """A file's or folder's name as it was given. A dash is none: it would make a file of that name."""
    if name == "-":
        raise Failure("- is not taken as a file's name; /dev/stdout is standard output")
    return name
