#!/usr/bin/env python3
"""Whether each file of crates/*/specs and crates/*/proofs/Proved says what it is, and holds no more than that.

    python3 tests/definitions.py [CRATES]    looks through the crates of the repository, or of another folder

The first line of a file, but for Lib.antt and what only names modules, begins in one of three ways, below proofs/Proved in the last:

    -- Believed:    definitions that a reader has to believe: it states no law
    -- Private:     what private functions ask and promise: it states no law either
    -- Proved:      laws with their proofs: it makes no public definition

A law is known by its type, which ends in an equality or its contrary, an equivalence, an order, an absurdity, or the name of facts: of a
predicate, which makes a type of its arguments, or of a record or data type whose parts state facts. Everything else with a type is a
definition. The parts of a record or of a data type are no laws: they are what a definition says."""
import pathlib
import re
import sys

ROOT = pathlib.Path(__file__).resolve().parent.parent
KINDS = ("Believed", "Private", "Proved")
NODE = re.compile(r"(?:(?:--.*|(?:pub )?mod \w+)?\n)*")
PUBLIC_DEFINITION = re.compile(r"\s*(abbrev pub|unfoldable pub|pub record|pub data)\b")
SIGNATURE = re.compile(r"(?:abbrev |unfoldable )?(?:pub )?(\S+)(?: \{[^}]*\}| \([^)]*\))* : (.*)")
LAW = re.compile(r"[≡≢↔≤⊥]|(?<!\S)<(?!\S)")
PART = re.compile(r"(?<=\s)(?:pub )?([^\W\d][\w']*) : ")


def statements(text):
    """Each statement of a file, the content of a module too, with the number of its first line: a line and those further in."""
    first, column, words = 0, 0, ""
    for number, line in enumerate(text.splitlines(), 1):
        content = line.strip()
        if not content or content.startswith("--"):
            continue
        depth = len(line) - len(line.lstrip())
        if words and depth > column:
            words += " " + content
        else:
            yield first, words
            first, column, words = number, depth, content
        if words.startswith("module ") and words.endswith(" where"):
            words = ""
    yield first, words


def end_of(type):
    """What a type ends in."""
    return type.rsplit("→", 1)[-1].strip()


def is_predicate(type):
    """Whether a type is a predicate's: that of what makes a type of its arguments."""
    return "→" in type and end_of(type) == "Type 0"


def states_fact(type, facts):
    """Whether a type ends in a fact, for known names of facts. Before a name may stand the value that has it, as in `w.Held`."""
    end = end_of(type)
    return LAW.search(end) is not None or end.lstrip("(").split(" ")[0].rsplit(".", 1)[-1] in facts


def names_of_facts(texts):
    """The names of the predicates, and of the records and data types whose parts speak of facts."""
    facts, parts = set(), {}
    for text in texts:
        for _, statement in statements(text):
            named = re.match(r"(?:pub )?(?:record|data) (\S+)(.*)", statement)
            if named:
                pieces = PART.split(named[2])
                parts[named[1]] = pieces[::2]
                facts.update(name for name, type in zip(pieces[1::2], pieces[2::2]) if is_predicate(type))
                facts.update([named[1]] if LAW.search(named[2]) or is_predicate(pieces[0].removesuffix(" where ")) else [])
            elif (found := declared(statement)) and is_predicate(found[1]):
                facts.add(found[0])
    while more := {name for name in parts.keys() - facts if any(states_fact(type, facts) for type in parts[name])}:
        facts |= more
    return facts


def declared(statement):
    """The name and the type that a statement declares, or None."""
    found = SIGNATURE.fullmatch(statement)
    return found.groups() if found and not statement.startswith(("pub record ", "pub data ", "record ", "data ")) else None


def is_law(type, facts):
    """Whether a declaration of this type is a law."""
    return not end_of(type).endswith("Type 0") and states_fact(type, facts)


def faults(text, facts, kinds):
    """What is wrong with a file of one of these kinds, each with its line."""
    kind = next((kind for kind in kinds if text.startswith(f"-- {kind}: ")), None)
    if kind is None:
        yield 1, "the first line does not begin with " + " or ".join(f"'-- {kind}: '" for kind in kinds)
    elif kind == "Proved":
        for number, line in enumerate(text.splitlines(), 1):
            if PUBLIC_DEFINITION.match(line):
                yield number, f"a proved file makes a public definition: {line.strip()}"
        for number, statement in statements(text):
            found = declared(statement)
            if found and statement.startswith("pub ") and not is_law(found[1], facts):
                yield number, f"a proved file makes a public definition: {found[0]}"
    else:
        for number, statement in statements(text):
            found = declared(statement)
            if found and is_law(found[1], facts):
                yield number, f"a {kind.lower()} file states a law: {found[0]}"


def main(arguments):
    if len(arguments) > 1:
        sys.exit(__doc__)
    crates = pathlib.Path(arguments[0]) if arguments else ROOT / "crates"
    kinds = {path: KINDS for path in sorted(crates.glob("*/specs/**/*.antt")) if path.name != "Lib.antt"}
    kinds |= {path: KINDS[-1:] for path in sorted(crates.glob("*/proofs/Proved/**/*.antt")) if not NODE.fullmatch(path.read_text())}
    texts = {path: path.read_text() for path in kinds}
    facts = names_of_facts(texts.values())
    found = [
        f"{path.relative_to(crates.parent)}:{number}: {fault}"
        for path, text in texts.items()
        for number, fault in faults(text, facts, kinds[path])
    ]
    if found or not texts:
        sys.exit("\n".join(found) or f"{crates} has no specs")
    print(f"definitions: {len(texts)} files, each as its first line says")


if __name__ == "__main__":
    main(sys.argv[1:])
