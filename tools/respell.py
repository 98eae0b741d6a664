#!/usr/bin/env python3
"""Brings this repository's own definitions and lemmas to snake case, after port.py of the Rattle kit has run.

    python3 tools/respell.py           at the top of the repository, once: rewrites crates/ in place
    python3 tools/respell.py --list    prints each old name with the new one, and writes nothing

A name is declared in a file of specs/ or in a file of lemmas of proofs/: as a definition, a lemma, a field or a constructor. It
turns where it begins with a small letter and has a hyphen or a capital: `waitingOf` becomes `waiting_of`, `which-told` becomes
`which_told`. Where a lemma would get the name of a definition it gets `_lem` after it. A file that takes a name of the same
spelling from the kit's library keeps that name, and a file that declares one in proofs/F turns it there alone. The names that Rattle makes (goals, steps) are no names of the repository's own and stay. So do
the functions of src/, what C calls, strings, inputs and outputs: only clauses and `ghost use` lines of src/ turn.
"""

import pathlib
import re
import sys

ROOT = pathlib.Path(__file__).resolve().parent.parent
TOKEN = re.compile(r"[A-Za-z0-9_'ℓκα-ωΑ-Ω₀-₉ℕℤ-]+")
DECLARED = re.compile(r"^\s*(?:(?:abbrev|unfoldable|pub)\s+)*([a-z][A-Za-z0-9_'-]*)((?:\s+[a-z][A-Za-z0-9_'-]*)*)(?:\s+\{[^}]*\}|\s+\([^)]*\))*\s+:\s", re.M)
GOAL = re.compile(r"^\s*(?:(?:abbrev|unfoldable|pub)\s+)*([a-z][A-Za-z0-9_'-]*)\s+:\s+(?:tie|goal)\.", re.M)
USE = re.compile(r"\buse\s+([^\s;{}]+)(?:\.\{([^}]*)\})?")
COMMENT = re.compile(r"(--[^\n]*|//[^\n]*)")

# Names whose snake form another name has already: a field in src/, or a word of the library.
OTHER = {"bodySize": "body_size_of", "tagSize": "tag_size_of", "tag-size": "tag_size_lem", "tag-length": "tag_length_lem", "slice-ty": "records_ty"}


def snake(name):
    """The name in snake case."""
    return re.sub(r"(?<=[a-z0-9'])([A-Z])", lambda m: "_" + m[1].lower(), name).replace("-", "_")


def turns(name):
    """Whether a declared name is spelled the old way."""
    return name[0].islower() and snake(name) != name


def declared(text):
    """The names that a file declares."""
    code = COMMENT.sub("", text)
    found = set()
    for match in DECLARED.finditer(code):
        found.add(match[1])
        found.update(match[2].split())
    return found


def from_elsewhere(text):
    """The names that a file takes from outside this repository."""
    crates = {path.name for path in (ROOT / "crates").iterdir()}
    found = set()
    for path, names in USE.findall(text):
        parts = path.split(".")
        if parts[0] == "Rattle" and len(parts) > 1 and parts[1] in crates:
            continue
        for name in (names or "").split(","):
            found.add(name.split(" as ")[-1].strip())
    return found


def respelled(text, names):
    """The text with the names turned: in code as whole words, in comments between backticks or where a capital shows them."""

    def one(match):
        # Behind a dot it is a step of the code or a field, never one of the lemmas of OTHER.
        if match[0] in OTHER and "-" in match[0] and match.string[: match.start()].endswith("."):
            return snake(match[0])
        return names.get(match[0], match[0])

    def in_code(part):
        return TOKEN.sub(one, part)

    def in_comment(part):
        part = re.sub(r"`[^`]*`", lambda m: in_code(m[0]), part)
        return TOKEN.sub(lambda m: names.get(m[0], m[0]) if "-" not in m[0] else m[0], part)

    pieces = COMMENT.split(text)
    return "".join(in_comment(piece) if i % 2 else in_code(piece) for i, piece in enumerate(pieces))


def main(arguments):
    everything = sorted((ROOT / "crates").glob("*/*/**/*.antt"))
    lemmas = [path for path in everything if path.name != "Proof.antt"]
    found = set().union(*(declared(path.read_text()) for path in lemmas))
    names = {name: OTHER.get(name, snake(name)) for name in found if turns(name)}
    taken = {name for name in found if not turns(name)} | {names[name] for name in names if "-" not in name}
    for name in names:
        if "-" in name and names[name] in taken and name not in OTHER:
            names[name] += "_lem"
    if arguments == ["--list"]:
        for name in sorted(names):
            print(name, names[name])
        return
    if arguments:
        sys.exit(__doc__)
    others = sorted((ROOT / "crates").glob("*/src/**/*.rt")) + sorted((ROOT / "crates").glob("*/must-fail/*.edit"))
    for path in everything + others:
        text = path.read_text()
        here = dict(names)
        if path.name == "Proof.antt":
            goals = set(GOAL.findall(text))
            for name in declared(text) - goals:
                if turns(name):
                    here[name] = snake(name)
            for name in goals:
                here.pop(name, None)
        for name in from_elsewhere(text):
            here.pop(name, None)
        new = respelled(text, here)
        if new != text:
            path.write_text(new)


if __name__ == "__main__":
    main(sys.argv[1:])
