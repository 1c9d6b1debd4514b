#!/usr/bin/env python3
"""The parts of bench/trial that are text: a program that reaches every entry, its libraries, and the entries exported."""

import re
import sys

# Each entry with what the program hands it.
ENTRIES = {
    "racecheck_check": "b\"P\", b\"C\", &mut work, &mut a, &mut b, &mut c",
    "racecheck_drill": "0, &mut first, &mut second, &mut a, &mut b, &mut c",
    "racecheck_fill": "b\"P\", b\"C\", &mut work, &mut first, &mut a, &mut b, &mut c",
    "racecheck_replay": "b\"P\", b\"0\", &mut work, &mut d, &mut a, &mut b, &mut e, &mut f, &mut c, &mut g",
    "racecheck_replay_begin": "b\"P\", &mut job, &mut work, &mut run",
    "racecheck_replay_more": "&job, &mut work, &mut run, b\"0\"",
    "racecheck_replay_told": "&run, &mut d, &mut a, &mut b, &mut e, &mut f, &mut c, &mut g",
}
LOCALS = [("work", "[0u32; 16]"), ("job", "[0u32; 16]"), ("run", "[0u64; 16]"), ("first", "[0u8; 16]"), ("second", "[0u8; 16]")]
LOCALS += [(name, "0u32") for name in "abcg"] + [(name, "0u64") for name in "def"]


# The kit's libraries below std, each with those that it uses.
KIT = {
    "std": "core io libc os std_alloc std_collections std_heap std_io",
    "std_io": "core io libc os std_alloc",
    "core": "",
    "io": "core libc",
    "libc": "core",
    "os": "core io libc",
    "std_alloc": "core",
    "std_collections": "core std_alloc",
    "std_heap": "core libc",
}


def program():
    """The crate `entries_c` with a main that calls every entry."""
    lines = [f"    let mut {name} = {value};" for name, value in LOCALS]
    lines += [f"    {name}({handed});" for name, handed in ENTRIES.items()]
    with open("crates/entries_c/src/lib.rt", encoding="utf-8") as file:
        return "\n".join([file.read(), "fn main() {", *lines, "}", ""])


def libraries(kit):
    """Every crate that `entries` reaches, in the order of crates.txt, and the kit's own."""
    with open("crates.txt", encoding="utf-8") as file:
        rows = [line.split("#")[0].split(":") for line in file if ":" in line.split("#")[0]]
    below = {name.split()[0]: rest.split() for name, rest in rows}
    reached, left = set(), ["entries"]
    while left:
        name = left.pop()
        if name in below and name not in reached:
            reached.add(name)
            left += below[name]
    own = [f"--lib {name}:{','.join(['core', 'std', *below[name]])}=crates/{name}/src/lib.rt" for name in below if name in reached]
    return " ".join([*own, *(f"--lib {name}:{','.join(uses.split())}={kit}/{name}/src/lib.rt" for name, uses in KIT.items())])


# What `rt try` adds to a program: calls that stop it at a fault, and bytes that stand where nothing has been stored.
ADDED = re.compile(r"^  call void @(\"rattle-llvm-checks::|llvm\.memset[^\n]* i8 -86, ).*\n", re.M)


def export(module):
    functions = re.split(r"(?m)(?=^define )", ADDED.sub("", module))
    main = re.compile(r"define [^\n]*@(\"trial::main\"|main)\(")
    # behind a main that goes stands what the next function is told by
    module = "".join(part[part.index("\n}\n") + 3 :] if main.match(part) else part for part in functions)
    for name in ENTRIES:
        module = module.replace(f'define internal noundef i32 @"trial::{name}"(', f"define noundef i32 @{name}(")
    return module


if __name__ == "__main__":
    wanted = sys.argv[1]
    if wanted == "export":
        sys.stdout.write(export(sys.stdin.read()))
    else:
        sys.stdout.write(program() if wanted == "program" else libraries(sys.argv[2]))
