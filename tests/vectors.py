#!/usr/bin/env python3
"""What the program crates/vectors must write, by a second program that shares nothing with the crates.

    python3 tests/vectors.py            writes the expected output
    python3 tests/vectors.py --check    compares it with crates/vectors/stdout

Each layer has a part of its own beside this file. Before it writes or compares anything the program holds every part to the
published values and to Python's own library."""
import pathlib
import sys

sys.dont_write_bytecode = True  # tests/ holds sources only
import derive_vectors
import hash_vectors
import tag_vectors
from hash_vectors import hold

ROOT = pathlib.Path(__file__).resolve().parent.parent
PLACE = "crates/vectors/stdout"
PARTS = [hash_vectors, tag_vectors, derive_vectors]


def check(made):
    """Holds the file to these lines."""
    expected = ROOT / PLACE
    hold(expected.exists(), f"{PLACE} is missing: python3 tests/vectors.py > {PLACE}")
    found = expected.read_text().splitlines(keepends=True)
    if found != made:
        first = next((i for i, (x, y) in enumerate(zip(found, made)) if x != y), min(len(found), len(made)))
        hold(False, f"{PLACE} differs from what tests/vectors.py makes, first in line {first + 1}")


def main(arguments):
    if arguments not in ([], ["--check"]):
        sys.exit(__doc__)
    for part in PARTS:
        part.hold_to_others()
    made = [line + "\n" for part in PARTS for line in part.lines()]
    if arguments:
        check(made)
    else:
        sys.stdout.writelines(made)


if __name__ == "__main__":
    main(sys.argv[1:])
