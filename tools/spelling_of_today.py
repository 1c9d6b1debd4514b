#!/usr/bin/env python3
"""Brings the names of this repository's definitions and lemmas to the spelling of today's Rattle.

Run once, from the root of the repository, after port.py: `python3 tools/spelling_of_today.py`.
Words are in snake case: `workSize` becomes `work_size`, `map-keeps` becomes `map_keeps`. Types, modules, constructors and
what begins with a capital letter keep their names, and so do functions of src/, strings, names of the library and the names
that Rattle makes for the goals of a proof (in a proof's folder, what stands behind a dot).
The names between backticks of docs/ follow. Must-fail edits are not turned here.
"""
import re
import sys
from pathlib import Path

ROOT = Path("crates")
PAGES = sorted(Path("docs").rglob("*.md"))
# A name of antt: letters, digits, primes, subscripts and dashes between them.
NAME = re.compile(r"(?<![\w'-])[^\W\d][\w']*(?:-[\w']+)*(?![\w'-])")
STRING = re.compile(r'b?"(?:[^"\\]|\\.)*"|b?\'(?:[^\'\\\n]|\\.)\'(?!\w)')
DECLARED = re.compile(r"^\s*(?:(?:unfoldable|abbrev|pub|data|record|ruleset|abstract)\s+)*([^\W\d][\w'-]*)(?:\s+[{(].*?)?\s+:(?:\s|$)")
LIBRARY = ("std", "core", "libc", "os", "io")
# Lemmas whose name port.py brought to snake case, where a definition in scope comes to the same name.
LEMMAS = {
    "spec.proofs.Earlier": "by_number",
    "workspace.proofs.Shown": "row_type",
    "text_theory.proofs.Canonical": "on_line",
    "fill_theory.proofs.Placed": "map_at",
    "lexer.proofs.Fields": "with_byte",
    "lexer.proofs.LineNumbers": "with_rest",
    "trace.proofs.Lines": "first_field",
    "replay_machine.proofs.Marks": "still_open",
    "replay_simulation.proofs.Making": "same_kind",
}


def snake(name):
    """`claimsOf` becomes `claims_of`, `isP2Sheet` `is_p2_sheet`, `holding-derives` `holding_derives`."""
    name = name.replace("-", "_")
    if not ("a" <= name[0] <= "z"):
        return name
    name = re.sub(r"(?<=[a-z0-9₀-₉'])([A-Z]+)(?=[a-z0-9_']|$)", lambda m: "_" + m.group(1).lower(), name)
    return re.sub(r"[A-Z]", lambda m: m.group(0).lower(), name)


def is_camel(name):
    return "a" <= name[0] <= "z" and re.search("[A-Z]", name)


def of_function(path):
    """Whether a proof file is in the folder of a function, where Rattle's own names stand."""
    parts = path.parts
    return "proofs" in parts and path.name in ("Proof.antt", "Invariants.antt", "Answers.antt")


def pieces(text):
    """The text as (kind, piece): code, string or comment."""
    at = 0
    pattern = re.compile(r'b?"(?:[^"\\\n]|\\.)*"|--[^\n]*|//[^\n]*')
    for found in pattern.finditer(text):
        yield "code", text[at:found.start()]
        yield ("string" if found.group().endswith('"') and not found.group().startswith(("--", "//")) else "comment"), found.group()
        at = found.end()
    yield "code", text[at:]


def library_names(text):
    """The names that a file has from the library, which keep their spelling."""
    names = set()
    for found in re.finditer(r"\buse ([\w'◌+-]+(?:\.[\w'◌+-]+)*)\.\{([^}]*)\}", text):
        path = found.group(1).split(".")
        if path[0] != "Rattle" or path[1] in LIBRARY:
            for item in found.group(2).split(","):
                names.update(item.split(" as ")[0].split())
    return names


def declared(files):
    """The dashed names that the files of definitions and lemmas declare, and those of their records' fields."""
    names = set()
    for path in files:
        own = of_function(path)
        for kind, piece in pieces(path.read_text()):
            if kind != "code":
                continue
            for line in piece.split("\n"):
                mixfix = re.match(r"^\s*(?:(?:unfoldable|abbrev|pub|syntax)\s+)*(\S*◌\S*)\s.*:", line)
                if mixfix:
                    names.update(part for part in mixfix.group(1).split("◌") if "-" in part and NAME.fullmatch(part))
                found = DECLARED.match(line)
                if not found or "-" not in found.group(1):
                    continue
                name = found.group(1)
                if own and re.search(r":\s+(?:tie|goal)\.", line):
                    continue
                names.add(name)
    return names


def targets(files):
    """The names in snake case that definitions have or come to, which a lemma may not have too."""
    names = set()
    for path in files:
        for kind, piece in pieces(path.read_text()):
            if kind == "code":
                names.update(snake(name) for name in NAME.findall(piece) if "-" not in name and (is_camel(name) or "_" in name))
    return names


def renamings(antt):
    """Each dashed name that is declared, with its name in snake case; a lemma that would have its definition's name ends in `_lem`."""
    taken = targets(antt)
    return {name: snake(name) + ("_lem" if snake(name) in taken else "") for name in declared(antt)}


def module_of(path):
    return ".".join(path.with_suffix("").parts[1:])


def lemmas_of(path, text):
    """The lemmas of the table that this file declares or imports."""
    return {
        lemma
        for module, lemma in LEMMAS.items()
        if module_of(path) == module or re.search(r"use Rattle\.%s\.\{[^}]*\b%s\b" % (re.escape(module), lemma), text)
    }


def turned(path, text, names):
    kept = library_names(text)
    own = of_function(path)
    lemmas = lemmas_of(path, text)
    present = {name for kind, piece in pieces(text) if kind == "code" for name in NAME.findall(piece)}
    present |= {snake(name) for name in present if "-" not in name}
    antt = path.suffix == ".antt"

    def word(found):
        name = found.group()
        before = found.string[found.start() - 1:found.start()]
        if name in lemmas and before != ".":
            return name + "_lem"
        if "-" not in name:
            return snake(name) if is_camel(name) and name not in kept else name
        if own and before == ".":
            return "-".join(snake(part) if is_camel(part) else part for part in name.split("-"))
        if name in names and name not in kept:
            return names[name]
        local = antt and not own and before != "." and name not in kept
        if local and "a" <= name[0] <= "z" and snake(name) not in present:
            return snake(name)
        return "-".join(snake(part) if is_camel(part) else part for part in name.split("-")) if own else name

    def comment(found):
        name = found.group()
        return snake(name) if is_camel(name) else name

    def quoted(found):
        return NAME.sub(lambda m: names.get(m.group(), m.group()), found.group())

    out = []
    for kind, piece in pieces(text):
        if kind == "code":
            piece = NAME.sub(word, piece)
        elif kind == "comment":
            piece = re.sub(r"`[^`\n]*`", quoted, NAME.sub(comment, piece))
        out.append(piece)
    return "".join(out)


def on_page(name, names, words):
    """A name between backticks on a page: a definition's, or a lemma's."""
    if name in names:
        return names[name]
    plain = snake(name)
    return plain if (is_camel(name) or "-" in name) and plain in words and name not in words else name


def main():
    antt = [p for p in sorted(ROOT.rglob("*.antt")) if "out" not in p.parts]
    rust = [p for p in sorted(ROOT.rglob("*.rt")) if "out" not in p.parts]
    names = renamings(antt)
    for path in antt + rust:
        text = path.read_text()
        new = turned(path, text, names)
        if new != text:
            path.write_text(new)
    words = {name for path in antt for name in NAME.findall(path.read_text())}
    for path in PAGES:
        text = path.read_text()
        new = re.sub(r"`[^`\n]*`", lambda span: NAME.sub(lambda m: on_page(m.group(), names, words), span.group()), text)
        if new != text:
            path.write_text(new)


if __name__ == "__main__":
    main()
