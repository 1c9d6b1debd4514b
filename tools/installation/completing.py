"""Completion for bash, of what the tools say of themselves: options behind a dash, files behind an option that wants one, else
folders."""
from .helping import options_of, tools

SCRIPT = """# Completion of racecheck's tools for bash.
_racecheck_tools() {{
    local word=${{COMP_WORDS[COMP_CWORD]}} before=${{COMP_WORDS[COMP_CWORD - 1]}} options valued
    case ${{COMP_WORDS[0]##*/}} in
{cases}
    esac
    if [[ " $valued " == *" $before:FILE "* ]]; then
        mapfile -t COMPREPLY < <(compgen -f -- "$word")
    elif [[ " $valued " == *" $before:"[N-S]" "* ]]; then
        COMPREPLY=()
    elif [[ $word == -* ]]; then
        mapfile -t COMPREPLY < <(compgen -W "$options" -- "$word")
    else
        mapfile -t COMPREPLY < <(compgen -d -- "$word")
    fi
}}
complete -o filenames -o default -F _racecheck_tools {names}
"""


def completion():
    """The script."""
    completed = [tool for tool in tools() if tool != "install"]  # a system has an `install` of its own
    return SCRIPT.format(cases="\n".join(map(_case, completed)), names=" ".join(completed))


def _case(tool):
    options = options_of(tool)
    valued = " ".join(f"{option}:{what}" for option, what in options.items() if what)
    return f"    {tool}) options='{' '.join(options)}' valued='{valued}' ;;"
