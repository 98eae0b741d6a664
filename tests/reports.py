#!/usr/bin/env python3
"""What the programs crates/report_vectors and crates/stream_vectors read and must write, by a second program that shares nothing with
the crates.

    python3 tests/reports.py            writes the cases and the expected output, stdin and stdout in the folder of each program
    python3 tests/reports.py --check    compares them with what is there

The cases are records, one after the other: a byte that says the kind, and then, with numbers' highest bytes first and each string
of bytes after its length in four, for report_vectors

    1  report, how many places in 1 byte, the places in 8 bytes each; answered by read, and by site and label at each place
    2  report, tag key; answered by check
    3  report, fingerprint key, size of the output in 4 bytes; answered by fingerprint
    4  number of the hash in 4 bytes, PRK, tenant in 4, machine in 8, size of the output in 4; answered by keys
    5  number of the hash in 4 bytes, tenant in 4, machine, report number and send time in 8 each, attempt in 1, memory in 8; labels;
       lengths of labels in 4 each, live bytes in 8 each and live blocks in 4 each, each list after how many there are in 4; tag key,
       size of the output in 4; answered by write, and where the report is written by check, by read, and by write once more from
       what read, site and label answer of it
    6  report, tag key, fingerprint key; answered by submit to a ledger of one free record, and then once more to the ledger after it,
       each with the number, 1 where the report is seen, and the record: 1 where it is used, its live bytes and its fingerprint

and for stream_vectors

    7  how many bytes are collected in 8 bytes, closed in 4, size of the buffer in 4, what it begins with, how many pieces in 1 byte, the
       pieces; answered by feed, to each piece and again to the rest of it as long as a feed uses some bytes and leaves others, each
       with the number and the case, the bytes used and the length, the state, and the buffer up to its last byte that is not a5

An output, and the rest of a stream's buffer, holds bytes a5 beforehand; an output is written as it is after the call. Before it
writes or compares anything the program holds the rules to the worked values, to RFC 5869 and to the numbers that the cases were made
for."""
import collections
import pathlib
import re
import sys

sys.dont_write_bytecode = True  # tests/ holds sources only
import feed_cases
import report_cases
import report_rules as rules
import submit_cases
import write_cases
from report_cases import KEY, hold, made

ROOT = pathlib.Path(__file__).resolve().parent.parent

# The cases of each program.
PROGRAMS = dict(report_vectors=(report_cases, write_cases, submit_cases), stream_vectors=(feed_cases,))

WORKED_BEFORE_TAG = """
    00 00 00 48 01 01 00 00 00 07 00 00 00 00 00 00 01 02 00 00 00 00 00 00 00 09 00 00 00 00 00 00 03 e8 00
    00 00 00 00 80 00 00 00 00 01 02 61 62 00 00 00 00 00 00 10 00 00 00 00 02"""
WORKED_HEADING = (1, 7, 258, 9, 1000, 0, 2**31)
WORKED_INFO = "00 0e 01 01 00 00 00 07 00 00 00 00 00 00 01 02"

# RFC 5869, test case 1: the PRK, the info and the first 32 bytes that come of them.
RFC_PRK = "077709362c2e32df0ddc3f0dc47bba6390b6c73bb50f9c3122ec844ad7c2b3e5"
RFC_INFO = "f0f1f2f3f4f5f6f7f8f9"
RFC_KEY = "3cb25f25faacd57a90434f64d0362f2a2d2d0a90cf1a5a4c5db02d56ecc4c5bf"

# The numbers that each call must reach, at least twice. 3 would take a key of 2^61 bytes, and 10, 19 and 20 of a submission another
# ledger.
READ_NUMBERS = (0, 2, 11, 12, 13, 14, 15, 16)
NUMBERS = dict(
    read=READ_NUMBERS, site=READ_NUMBERS + (17,), check=READ_NUMBERS + (1, 21), fingerprint=READ_NUMBERS + (6, 21), keys=(0, 2, 6, 7),
    write=(0, 2, 6, 13, 14, 15, 16, 18, 21), submit=READ_NUMBERS + (1, 21), feed=READ_NUMBERS + (6, 10),
)


def hold_to_document():
    """The rules and the reports made here against the worked values."""
    worked = made()
    hold(worked[:-16] == bytes.fromhex(WORKED_BEFORE_TAG), "the worked report has other bytes")
    hold(rules.read(worked) == (0, [72, 1, 1, 7, 258, 9, 1000, 0, 2**31, 1, 4096]), "the worked report is read otherwise")
    written = rules.write(WORKED_HEADING, b"ab", [2], [4096], [2], KEY, len(worked))
    hold(written == (0, 76, worked), "the worked report is written otherwise")
    hold(rules.key_info(1, 7, 258) == bytes.fromhex(WORKED_INFO), "the worked info has other bytes")
    hold(len(rules.fingerprint_message(worked)) == 47, "the worked report's fingerprint is of another message")
    hold(len(made(())) == 61, "the smallest report has another size")
    hold(len(made([report_cases.site(bytes(48))] * 64, hash=2)) == 3981, "the largest report has another size")
    derived = rules.expand_to_digest(1, bytes.fromhex(RFC_PRK), bytes.fromhex(RFC_INFO))
    hold(derived == bytes.fromhex(RFC_KEY), "a derived key is not RFC 5869's")


def hold_to_numbers(lines):
    """Every number that a call can answer is reached at least twice."""
    reached = collections.Counter(re.match(r"(\w+).*?: (\d+)", line).groups() for line in lines)
    for call, numbers in NUMBERS.items():
        for number in numbers:
            hold(reached[call, str(number)] >= 2, f"{call} answers {number} fewer than two times")
    hold(len(reached) == sum(map(len, NUMBERS.values())), "a call answers a number that is not its own")


def check(files):
    """Holds each file to what is made here."""
    for place, content in files.items():
        hold((ROOT / place).exists(), f"{place} is missing: python3 tests/reports.py")
        found = (ROOT / place).read_bytes()
        if found != content:
            first = next((i for i, (x, y) in enumerate(zip(found, content)) if x != y), min(len(found), len(content)))
            line = content.count(b"\n", 0, first) + 1
            hold(False, f"{place} differs from what tests/reports.py makes, first at byte {first}, in line {line}")


def main(arguments):
    if arguments not in ([], ["--check"]):
        sys.exit(__doc__)
    hold_to_document()
    all_lines, files = [], {}
    for program, modules in PROGRAMS.items():
        cases = [case for module in modules for case in module.cases()]
        lines = [line for _, answers in cases for line in answers]
        all_lines += lines
        files[f"crates/{program}/stdin"] = b"".join(record for record, _ in cases)
        files[f"crates/{program}/stdout"] = "".join(line + "\n" for line in lines).encode()
    hold_to_numbers(all_lines)
    if arguments:
        check(files)
    else:
        for place, content in files.items():
            (ROOT / place).write_bytes(content)


if __name__ == "__main__":
    main(sys.argv[1:])
