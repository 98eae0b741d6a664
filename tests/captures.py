#!/usr/bin/env python3
"""Captures, PRKs and what `inspect` must write of them, by a second program that shares nothing with the crates.

    python3 tests/captures.py            writes tests/captures/, examples/ and what crates/inspect is run on
    python3 tests/captures.py --check    compares all with what is there, and the excerpt in README.md with what is expected
    python3 tests/captures.py --run      runs ./tirmuzzle inspect on them, on random captures, and as README.md says

A folder of tests/captures/ has a case: `capture` and `prk`, of which one may be missing, and `expected`, whose last line also gives the
exit status that ./tirmuzzle must have."""
import pathlib
import random
import re
import subprocess
import sys
import tempfile

sys.dont_write_bytecode = True  # tests/ holds sources only
import capture_rules
import report_rules as rules
from report_cases import big, made, site, with_byte

ROOT = pathlib.Path(__file__).resolve().parent.parent
CASES = "tests/captures"
PRK_32, PRK_64 = bytes(range(100, 132)), bytes(range(64))
RANDOM_CAPTURES, SEED = 60, 14


def signed(sites=(site(b"ab"),), prk=PRK_64, **fields):
    """A report whose tag matches under the keys that come of the PRK."""
    tenant, machine, hash = fields.get("tenant", 7), fields.get("machine", 258), fields.get("hash", 1)
    digest = rules.DIGEST_BYTES[hash]
    _, keys = rules.keys(hash, prk, tenant, machine, 2 * digest)
    return made(sites, key=keys[:digest], **fields)


def differing(report):
    """The report with a bit of its tag changed."""
    return with_byte(report, len(report) - 1, 1)


def demonstration():
    """Good reports under both hashes, a retry with a raised attempt, a tag that differs, a label that is too long, and more good ones
    after these."""
    heap = [site(b"heap:parse_request", 917504, 112), site(b"heap:cache_insert", 4194304, 1024)]
    first = dict(tenant=1204, machine=9007199254740993, number=4711, memory=17179869184)
    other = dict(hash=2, tenant=88, machine=3405691582, number=12, memory=68719476736)
    return b"".join(
        [
            signed(heap, send_time=1762000000000, **first),
            signed([site(b"arena:session", 65536, 3)], send_time=1762000003125, **other),
            signed(heap, send_time=1762000030000, attempt=1, **first),
            differing(signed(heap, send_time=1762000060000, **{**first, "number": 4712})),
            signed([site(bytes(49))], send_time=1762000061000, **first),
            signed((), send_time=1762000090000, **{**first, "number": 4713}),
            signed([site(b"arena:session", 131072, 6)], send_time=1762000063125, attempt=1, **{**other, "number": 13}),
        ]
    )


def retries(hash):
    """A report sent once, then again and again: later with a raised attempt, with the attempt alone raised, later with the same
    attempt, and byte for byte."""
    first = signed(hash=hash)
    again = [
        signed(hash=hash, send_time=send_time, attempt=attempt)
        for send_time, attempt in ((61000, 1), (1000, 255), (121000, 0))
    ]
    return b"".join([first, *again, first])


def each_refusal(hash):
    """A report for each number that reading gives, with a good one after each."""
    tag = bytes(rules.TAG_BYTES[hash])
    refused = [
        made(version=2, hash=hash),
        made(hash=3, tag=tag),
        made((), hash=2, tag=bytes(16)),
        made([site(b"a")] * 2, stated=65, hash=hash),
        made([site(b"", length=0)], hash=hash),
        made([site(b"ab")], left=b"x", hash=hash),
        made([site(b"ab")], cut=1, hash=hash),
        made([site(b"a", 2**63)] * 2, hash=hash),
    ]
    return b"".join(report + signed(hash=hash, number=i) for i, report in enumerate(refused))


def cases():
    """The name, the capture and the PRK of each case; None for a file that is not there."""
    good, good_512 = signed(), signed(hash=2)
    largest = [site(bytes([i]) * 48, 2**58 - 1, i) for i in range(64)]
    extreme = dict(tenant=2**32 - 1, machine=2**64 - 1, number=2**64 - 1, send_time=2**64 - 1, attempt=255, memory=2**64 - 1)
    most = signed([site(b"a", 2**64 - 1)], **extreme)
    yield "empty", b"", PRK_64
    yield "missing-capture", None, PRK_64
    yield "missing-prk", good, None
    yield "long-prk", good, bytes(4096)
    yield "longest-prk", signed(prk=bytes(4095)), bytes(4095)
    yield "line-end-after-prk", good, PRK_64 + b"\n"
    yield "short-prk", good_512 + signed(prk=PRK_32) + good_512, PRK_32
    yield "empty-prk", good + good_512, b""
    yield "other-prk", good + good_512, PRK_64[::-1]
    yield "refusals-1", each_refusal(1), PRK_64
    yield "refusals-2", each_refusal(2), PRK_64
    yield "retries", retries(1) + retries(2), PRK_64
    yield "smallest-and-largest", signed(()) + signed(largest, hash=2) + good, PRK_64
    yield "largest-sum", most, PRK_64
    yield "sum-over", most + signed([site(b"a", 1)]) + good, PRK_64
    yield "sum-of-others", differing(most) + signed([site(b"a", 1)]), PRK_64
    yield "cut-in-count", good + good_512[:3], PRK_64
    yield "cut-after-count", good + good_512[:4], PRK_64
    yield "cut-before-end", good + good_512[:-1], PRK_64
    yield "one-byte", b"\0", PRK_64
    yield "wild-zeros", good + bytes(8) + good, PRK_64
    yield "too-short", b"".join(big(count, 4) + bytes(count) + good for count in (1, 2, 41, 56)), PRK_64
    yield "wild-long", good + big(3978, 4) + bytes(3978) + good, PRK_64
    yield "wild-longest", big(2**32 - 1, 4) + good, PRK_64


def files():
    """Every file that is stored, by its place."""
    stored = {}
    for name, capture, prk in cases():
        text, _ = capture_rules.expected(capture, prk)
        for file, content in (("capture", capture), ("prk", prk), ("expected", text.encode())):
            if content is not None:
                stored[f"{CASES}/{name}/{file}"] = content
    shown, _ = capture_rules.expected(demonstration(), PRK_64)
    for folder in ("examples", "crates/inspect/data"):
        stored[f"{folder}/capture.bin"] = demonstration()
        stored[f"{folder}/prk.bin"] = PRK_64
    stored["crates/inspect/args"] = b"capture.bin\nprk.bin\n"
    stored["crates/inspect/stdout"] = shown.encode()
    return stored


def hold(holds, what):
    if not holds:
        sys.exit(f"tests/captures.py: {what}")


def readme_part(form, what):
    """The first part of README.md of this form."""
    found = re.search(form, (ROOT / "README.md").read_text(), re.MULTILINE | re.DOTALL)
    hold(found, f"README.md has no {what}")
    return found[1]


def hold_excerpt():
    """Holds the excerpt in README.md to what is expected of the demonstration. In it `..` stands for what is left out of a line, a line
    of its own for any number of lines, and columns are as wide as they have to be."""
    shown, _ = capture_rules.expected(demonstration(), PRK_64)
    left, gap = shown.splitlines(), False
    for line in readme_part(r"^```text\n(.*?)^```$", "excerpt").splitlines():
        if line == "..":
            gap = True
            continue
        form = " *" + " +".join(re.escape(word).replace(r"\.\.", ".*") for word in line.split()) + " *"
        while gap and left and not re.fullmatch(form, left[0]):
            left.pop(0)
        hold(left and re.fullmatch(form, left.pop(0)), f"./tirmuzzle inspect does not write this line where README.md has it: {line}")
        gap = False
    hold(gap or not left, "./tirmuzzle inspect writes more at the end than README.md has")


def check():
    """Holds each file to what is made here, and finds those that are not made here."""
    hold_excerpt()
    made_here = files()
    for place, content in made_here.items():
        path = ROOT / place
        hold(path.exists() and path.read_bytes() == content, f"{place} is not what is made here: python3 tests/captures.py")
    for folder in (CASES, "crates/inspect/data"):
        for path in (ROOT / folder).rglob("*"):
            hold(path.is_dir() or str(path.relative_to(ROOT)) in made_here, f"{path.relative_to(ROOT)} is not made here")


def write():
    for place, content in files().items():
        (ROOT / place).parent.mkdir(parents=True, exist_ok=True)
        (ROOT / place).write_bytes(content)


def damaged(capture, chance):
    """The capture with a byte changed, cut out or put in, or its end cut off."""
    at, kind = chance.randrange(len(capture)), chance.randrange(8)
    if kind == 0:
        return capture[:at]
    if kind == 1:
        return capture[:at] + capture[at + 1 :]
    if kind == 2:
        return capture[:at] + chance.randbytes(1) + capture[at:]
    return with_byte(capture, at, 1 << chance.randrange(8))


def random_capture(chance):
    """Reports of random fields and sites, most of them with a byte changed after the count, and at times damaged as a whole."""
    reports = []
    for _ in range(chance.randrange(1, 40)):
        sites = [site(chance.randbytes(chance.randrange(1, 49)), chance.getrandbits(60)) for _ in range(chance.randrange(4))]
        report = signed(sites, hash=chance.choice((1, 2)), tenant=chance.getrandbits(32), machine=chance.getrandbits(64))
        if chance.randrange(3):
            report = with_byte(report, chance.randrange(4, len(report)), 1 << chance.randrange(8))
        reports.append(report)
    capture = b"".join(reports)
    return damaged(capture, chance) if chance.randrange(2) else capture


def run_one(command, folder, name, capture, prk):
    """Holds what ./tirmuzzle writes, and its status, to what is expected."""
    text, status = capture_rules.expected(capture, prk)
    ran = subprocess.run(command, cwd=folder, capture_output=True)
    hold(ran.stdout == text.encode(), f"{name}: ./tirmuzzle writes something else:\n{ran.stdout.decode()}{ran.stderr.decode()}")
    hold(ran.returncode == status, f"{name}: the exit status is {ran.returncode}, not {status}")


def run():
    """Every case, and random captures, each in a folder of its own outside the repository; and README's first command."""
    chance = random.Random(SEED)
    randoms = [(f"random capture {i}", random_capture(chance), PRK_64) for i in range(RANDOM_CAPTURES)]
    shown = [*cases(), *randoms]
    for name, capture, prk in shown:
        with tempfile.TemporaryDirectory() as folder:
            for file, content in (("a capture", capture), ("prk", prk)):
                if content is not None:
                    (pathlib.Path(folder) / file).write_bytes(content)
            run_one([ROOT / "tirmuzzle", "inspect", "a capture", "prk"], folder, name, capture, prk)
    command = readme_part(r"^    (\./tirmuzzle [^\n]*)", "command that starts with ./tirmuzzle")
    run_one(["sh", "-c", command], ROOT, command, demonstration(), PRK_64)
    print(f"captures: {len(shown)} and README's command shown as they must be, seed {SEED}")


def main(arguments):
    actions = {"": write, "--check": check, "--run": run}
    if len(arguments) > 1 or "".join(arguments) not in actions:
        sys.exit(__doc__)
    actions["".join(arguments)]()


if __name__ == "__main__":
    main(sys.argv[1:])
