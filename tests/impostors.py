#!/usr/bin/env python3
"""Whether every impostor is refused for itself, and whether docs/PROMISES.md names them all.

    python3 tests/impostors.py [CRATE..]    looks at the impostors of every crate, or of these

An edit under crates/NAME/must-fail starts with a line for each impostor that it makes:

    # IMPOSTOR, in FUNCTION: what is wrong with it
    # IMPOSTOR, in a definition, against LAW: what is wrong with it

where FUNCTION is the one whose text it changes, and LAW the law that refuses what it makes of a definition. rt refuses an edit as soon as
one function is not proved, and says no more than the first reason. So that one edit can hold impostors of several functions, this has rt
check the functions of each edit, in copies of the crates that begin with the work that checks have kept here, and wants to see each of
them not proved for a reason of its own: not because it calls another that is not proved, and not because its proof cites a name that the
edit took away; and of an edit of a definition, the law refused for itself too.
"""

import concurrent.futures
import os
import pathlib
import queue
import re
import shutil
import subprocess
import sys
import tempfile

ROOT = pathlib.Path(__file__).resolve().parent.parent
HEAD = re.compile(r"# (\w+), in (?:([A-Za-z_0-9:]+)|a definition, against ([\w-]+)): .+")
NAME_GONE = re.compile(r"has no field|is not in scope|has no `|, was not checked: ")
MOST_CHECKS = 4  # at the same time: each takes a processor, and 1 to 3 GB


def impostors(edit):
    """The impostors of an edit, each with its function, or with the law that refuses it."""
    lines = [line for line in edit.read_text().splitlines() if line.startswith("#")]
    found = [HEAD.fullmatch(line) for line in lines]
    if not found or None in found:
        sys.exit(f"{edit.relative_to(ROOT)}: each comment must read '# IMPOSTOR, in FUNCTION: ..' or '# IMPOSTOR, in a definition, against LAW: ..'")
    return [match.groups() for match in found]


def copied(one, other):
    """Copies a file. What was proved is linked, where it can be: a check puts another file in the place of such a one, and changes none."""
    try:
        if one.endswith(".oantt"):
            return os.link(one, other)
    except OSError:
        pass
    return shutil.copy2(one, other)


def copy_crates(place):
    """The crates, with what rt has kept of their checks, as a repository of its own."""
    place.mkdir()
    shutil.copy(ROOT / "crates.txt", place)
    for part in ("src", "specs", "proofs", "out/rlib", "out/incremental"):
        for folder in ROOT.glob(f"crates/*/{part}"):
            shutil.copytree(folder, place / folder.relative_to(ROOT), copy_function=copied)
    return place


class Unfit(Exception):
    """An edit that does not fit the text."""


def edited(edit, crate):
    """The text of each file of the crate that an edit changes."""
    texts = {}
    for line in edit.read_text().split("\n"):
        word, _, rest = line.partition(": ")
        if word == "file":
            path = crate / rest
            if not path.is_file():
                raise Unfit(f"there is no file {rest}")
            texts.setdefault(path, path.read_text())
        elif word == "old":
            old = rest
        elif word in ("new", "new:"):
            if texts[path].count(old) != 1:
                raise Unfit(f"this does not stand once in {path.relative_to(crate)}: {old}")
            texts[path] = texts[path].replace(old, rest)
    return texts


def log_of(edit, places):
    """What rt says of the functions of an edit, or of the whole crate where it changes a definition, in one of the places."""
    made, place = impostors(edit), places.get()
    try:
        crate = place / edit.parent.parent.relative_to(ROOT)
        texts = edited(edit, crate)
        were = {path: path.read_text() for path in texts}
        for path, text in texts.items():
            path.write_text(text)
        only = [] if any(law for _, _, law in made) else [word for _, function, _ in made for word in ("--only", function)]
        ran = subprocess.run(["rt", "check", "--jobs", "1", *only], cwd=crate, stdout=subprocess.PIPE, stderr=subprocess.STDOUT, text=True)
        for path, text in were.items():
            path.write_text(text)
        return ran.stdout
    except Unfit as why:
        return str(why)
    finally:
        places.put(place)


def logs_of(edits):
    """The log of each edit. Where no check of a crate has left its work, one is made first, with which those of the edits begin."""
    for crate in sorted({edit.parent.parent for edit in edits}):
        if not (crate / "out/incremental").is_dir():
            subprocess.run(["rt", "check"], cwd=crate, stdout=subprocess.DEVNULL)
    count = min(MOST_CHECKS, os.cpu_count() or 1)
    with tempfile.TemporaryDirectory() as room, concurrent.futures.ThreadPoolExecutor(count) as pool:
        places = queue.Queue()
        for place in range(count):
            places.put(copy_crates(pathlib.Path(room) / str(place)))
        return dict(zip(edits, pool.map(lambda edit: log_of(edit, places), edits)))


def refused_itself(log, crate, function):
    """Whether a log says of a function that it has no proof, for a reason of its own."""
    verdict = re.search(rf"^fn {crate}::{function}: (not proved|no proof: )(?!.*it calls ).*$", log, re.MULTILINE)
    if verdict is None or verdict[1] != "not proved":
        return verdict is not None
    reasons = re.findall(rf"^\./proofs/{function.replace('::', '/')}/\w+\.antt:.*: error: .*$", log, re.MULTILINE)
    return any(not NAME_GONE.search(reason) for reason in reasons)


def refused_by(log, law):
    """Whether a log refuses a law, and not because it cites another that is refused."""
    return re.search(rf": error: `{re.escape(law)}`: (?!.*was not admitted)", log) is not None


def said_of(log, name):
    """What a log says of a function or a law, or else its last line."""
    form = re.compile(rf"^fn \w+::{name}: |^\./proofs/{name.replace('::', '/')}/.*: error: |: error: .*`{name}`")
    lines = [line for line in log.splitlines() if form.search(line)]
    return "".join("\n    " + line[:300] for line in lines or log.splitlines()[-1:])


def listed():
    """What docs/PROMISES.md says of each crate: the impostors in its tables, and all names between backticks in its section. What
    stands in no crate's own section is said of the programs."""
    in_tables, in_section = set(), set()
    crate, column = "", None
    for line in (ROOT / "docs/PROMISES.md").read_text().splitlines():
        if line.startswith("## "):
            crate = line[3:]
        cells = [cell.strip() for cell in line.strip("|").split("|")] if line.startswith("|") else []
        if not cells:
            column = None
        elif "impostors" in cells:
            column = cells.index("impostors")
        elif column is not None:
            in_tables.update((crate, name) for name in re.findall(r"`(\w+)`", cells[column]))
        section = crate if (ROOT / "crates" / crate).is_dir() else "inspect"
        in_section.update((section, name) for name in re.findall(r"`(\w+)`", line))
    return in_tables, in_section


def main(crates):
    edits = [edit for edit in sorted(ROOT.glob("crates/*/must-fail/*.edit")) if not crates or edit.parent.parent.name in crates]
    tried, of_definitions, faults = set(), set(), []
    for edit, log in logs_of(edits).items():
        crate = edit.parent.parent.name
        for name, function, law in impostors(edit):
            tried.add((crate, name))
            if law:
                of_definitions.add((crate, name))
                if not refused_by(log, law):
                    faults.append(f"{edit.relative_to(ROOT)}: {name}: {law} is not refused for itself{said_of(log, law)}")
            elif not refused_itself(log, crate, function):
                faults.append(f"{edit.relative_to(ROOT)}: {name}: {function} is not refused for itself{said_of(log, function)}")
    in_tables, in_section = listed()
    faults += [f"docs/PROMISES.md does not name {crate}'s impostor {name}" for crate, name in sorted(tried - in_section)]
    faults += [f"docs/PROMISES.md names {crate}'s impostor {name}, which no edit makes" for crate, name in sorted(in_tables - tried)
               if not crates or crate in crates]
    if faults:
        sys.exit("\n".join(faults))
    print(f"impostors: {len(tried - of_definitions)}, each refused for itself, and {len(of_definitions)} wrong definitions")


if __name__ == "__main__":
    main(sys.argv[1:])
