#!/usr/bin/env python3
"""Cases for the programs that call the library from outside, with the answers of tests/outside/answers.py.

    python3 tests/outside/cases.py FILE [SEED]    writes the cases to FILE and prints how many gave each number

The cases are the same in every run with the same seed. The file has, with numbers' lowest bytes first: 8 bytes "TIRMUZZL", the seed
in 8, how many cases in 4, and then the cases one after the other, each as

    4   the call, its place in CALLS below
    4   the number that it must answer
    56  the numbers that it takes, 8 bytes each, in the order of the C parameters, then zeros up to seven
    60  the inputs, in the order of the C parameters, up to five
    12  the ledger that a report is submitted to
    24  the outputs, up to two: the second is what length, seen or total points to
        then, buffer by buffer in this order, the elements that the file gives

with 12 bytes for a buffer, all of them 0 where the call has none: how many bytes an element has (1, 4, 8, or 48 of a record), how
many elements there are, and how many the file gives. Of an input it gives all; of a ledger all as they are before the call, and then
all as they must be after it; and of an output those that the call must write: from the first on, and none where it must write nothing.
The others must stay as they were.

A caller hands an empty buffer over as NULL and as a pointer by turns, so that no case says which."""
import collections
import itertools
import pathlib
import random
import struct
import sys

sys.dont_write_bytecode = True  # tests/ holds sources only
sys.path.insert(0, str(pathlib.Path(__file__).resolve().parent.parent))
import answers
import ledger_cases
import report_rules
from report_cases import (
    FAULTS, FREE_FIELDS, KEY, LAYOUT, MOST_REPORT_BYTES, WORKED, big, counted, faulty, made, of_length, site, with_byte,
)
from report_rules import BLOCK_BYTES, DIGEST_BYTES, HASHES, TAG_BYTES, full_tag

SEED = 20180

CALLS = (
    "digest", "tag", "verify", "extract", "expand",
    "report_fingerprint", "report_keys", "report_check", "report_read", "report_site", "report_write",
    "ledger_submit", "ledger_total",
)
# The numbers that each call can be brought to answer here. 3 and 4 take some 2^61 bytes, and are left to limits.c.
READING = (0, 2, 11, 12, 13, 14, 15, 16)
NUMBERS = dict(
    digest=(0, 2, 6), tag=(0, 2, 5, 6), verify=(0, 1, 2, 5, 6), extract=(0, 2, 6), expand=(0, 2, 7, 8, 9),
    report_fingerprint=READING + (6, 21), report_keys=(0, 2, 6, 7), report_check=READING + (1, 21), report_read=READING + (6,),
    report_site=READING + (17, 6), report_write=(0, 2, 6, 13, 14, 15, 16, 18, 21),
    ledger_submit=READING + (1, 10, 19, 20, 21), ledger_total=(0, 10),
)
# How many buffers each call takes, inputs, ledger and output together.
BUFFERS = dict(
    digest=2, tag=3, verify=3, extract=3, expand=3,
    report_fingerprint=3, report_keys=2, report_check=2, report_read=2, report_site=2, report_write=6,
    ledger_submit=4, ledger_total=1,
)
# How many numbers, inputs and outputs a case has in the file.
MOST_NUMBERS, MOST_INPUTS, MOST_OUTPUTS = 7, 5, 2

UNKNOWN_HASHES = (0, 3, 4, 255, 256, 257, 258, 2**16 + 1, 2**31, 2**31 + 1, 2**32 - 1)
LENGTHS = range(301)
LONG_LENGTHS = (1000, 4097, 20000)
LONGEST_LENGTHS = (65535, 65536, 2**20 - 1, 2**20)
BEYOND_32_BITS = (2**32, 2**32 + 16, 2**32 + 32, 2**63, 2**64 - 1)

# An input, a ledger or an output: the bytes of an element, how many elements there are, and the bytes of those that the file gives.
Buffer = collections.namedtuple("Buffer", "size count given")
NO_BUFFER = Buffer(0, 0, b"")
Case = collections.namedtuple("Case", "call answer numbers inputs outputs ledger", defaults=[NO_BUFFER])
# Sites as report_write takes them.
Columns = collections.namedtuple("Columns", "labels lengths live blocks")


def hold(holds, what):
    if not holds:
        sys.exit(f"tests/outside/cases.py: {what}")


def of_bytes(content):
    return Buffer(1, len(content), content)


def of_numbers(numbers, size):
    return Buffer(size, len(numbers), answers.in_words(numbers, size))


def of_ledgers(*ledgers):
    """A ledger, or the same before and after a call."""
    given = b"".join(ledger_cases.spelled(record) for ledger in ledgers for record in ledger)
    return Buffer(ledger_cases.RECORD_BYTES, len(ledgers[0]), given)


def case(call, answered, numbers, inputs, places=None, size=1):
    """A case whose inputs are bytes, and whose output, where there is one, has places of so many bytes."""
    answer, written = answered
    outputs = [] if places is None else [Buffer(size, places, written or b"")]
    return Case(call, answer, numbers, list(map(of_bytes, inputs)), outputs)


def digest(hash, message, size=None):
    size = DIGEST_BYTES[hash] if size is None else size
    return case("digest", answers.digest(hash, message, size), [hash], [message], size)


def tag(hash, key, message, length, size=None):
    size = length if size is None else size
    return case("tag", answers.tag(hash, key, message, length, size), [hash, length], [key, message], size)


def verify(hash, key, message, length, presented):
    return case("verify", answers.verify(hash, key, message, length, presented), [hash, length], [key, message, presented])


def extract(hash, salt, material, size=None):
    size = DIGEST_BYTES[hash] if size is None else size
    return case("extract", answers.extract(hash, salt, material, size), [hash], [salt, material], size)


def expand(hash, prk, info, size):
    return case("expand", answers.expand(hash, prk, info, size), [hash], [prk, info], size)


def keys(hash, prk, tenant, machine, size):
    return case("report_keys", answers.report_keys(hash, prk, tenant, machine, size), [hash, tenant, machine], [prk], size)


def fingerprint(report, key, size=32):
    return case("report_fingerprint", answers.report_fingerprint(report, key, size), [], [report, key], size)


def check(report, key):
    return case("report_check", answers.report_check(report, key), [], [report, key])


def read(report, places=11):
    return case("report_read", answers.report_read(report, places), [], [report], places, 8)


def site_at(report, place, places=4):
    return case("report_site", answers.report_site(report, place, places), [place], [report], places, 8)


def write(heading, columns, key=KEY, size=MOST_REPORT_BYTES, made_for=None):
    """The case of writing a report; where it was made for a number, the rules are held to that."""
    answer, written, length = answers.report_write(heading, *columns, key, size)
    hold(made_for in (None, answer), f"a report to be written, made for {made_for}, answers {answer}")
    labels, lengths, live, blocks = columns
    inputs = [of_bytes(labels), of_numbers(lengths, 4), of_numbers(live, 8), of_numbers(blocks, 4), of_bytes(key)]
    return Case("report_write", answer, heading, inputs, [Buffer(1, size, written or b""), of_numbers([length], 8)])


def write_again(report, key, size=None):
    """The case of writing what a report with a right tag reads as, which gives the report itself unless the key or the output is too
    short."""
    _, fields = report_rules.read(report)
    places = range(fields[9])
    numbers = [report_rules.site(report, place)[1] for place in places]
    labels = b"".join(report_rules.label(report, place)[1] for place in places)
    columns = Columns(labels, *([each[i] for each in numbers] for i in (1, 2, 3)))
    again = write(fields[2:9], columns, key, len(report) if size is None else size)
    hold((again.answer == 21) == (len(key) < 16), "a key that is too short is taken, or another one is not")
    hold(again.answer in (18, 21) or again.outputs[0].given == report, "a report read and written again is another")
    return again


def submit(submission):
    inputs = [of_bytes(submission.report), of_bytes(submission.tag_key), of_bytes(submission.fingerprint_key)]
    outputs = [NO_BUFFER, of_numbers([submission.seen], 4)]
    return Case("ledger_submit", submission.number, [], inputs, outputs, of_ledgers(submission.ledger, submission.after))


def total(asked):
    return Case("ledger_total", asked.number, [], [of_ledgers(asked.ledger)], [NO_BUFFER, of_numbers([asked.total], 8)])


def block_edges(hash):
    """Lengths around the ends of blocks, and around where the mark and the length field still fit into one."""
    block = BLOCK_BYTES[hash]
    field = block // 8
    for blocks in (3, 4, 5, 8, 9, 16, 17, 33):
        for back in (field + 2, field + 1, field, 1, 0, -1):
            yield blocks * block - back


def digests(source):
    for hash, size in DIGEST_BYTES.items():
        for length in (*LENGTHS, *block_edges(hash), *LONG_LENGTHS, *LONGEST_LENGTHS):
            yield digest(hash, source.randbytes(length))
        for length in (0, 1, 55, 64, 111, 128):
            for wrong in (0, 1, size - 1, size + 1, 96 - size, 2 * size):
                yield digest(hash, source.randbytes(length), wrong)
        for byte in (b"\0", b"\xff", b"\x80"):
            for length in range(1, 130):
                yield digest(hash, byte * length)
    for hash in UNKNOWN_HASHES:
        for length in (0, 3):
            for size in (0, 31, 32, 64):
                yield digest(hash, source.randbytes(length), size)


def tags(source):
    for hash, longest in DIGEST_BYTES.items():
        shortest = answers.SHORTEST_TAG[hash]
        for length in LENGTHS:
            drawn = source.randint(shortest, longest)
            yield tag(hash, source.randbytes(length), source.randbytes(source.randrange(200)), drawn)
            yield tag(hash, source.randbytes(source.randrange(150)), source.randbytes(length), drawn)
        for length in block_edges(hash):
            yield tag(hash, source.randbytes(length), source.randbytes(length), longest)
        for length in LONG_LENGTHS:
            yield tag(hash, source.randbytes(32), source.randbytes(length), longest)
            yield tag(hash, source.randbytes(length), source.randbytes(32), longest)
        for length in range(70):
            for size in sorted({0, max(length, 1) - 1, length, length + 1, longest}):
                yield tag(hash, b"key", source.randbytes(3), length, size)
        for length in BEYOND_32_BITS:
            for size in (0, length % 2**32 % 100, longest):
                yield tag(hash, b"key", b"message", length, size)
    for hash in UNKNOWN_HASHES:
        for length in (0, 15, 16, 32, 65):
            for size in sorted({0, length, length + 1}):
                yield tag(hash, b"key", b"message", length, size)


def verifications(source):
    for hash, longest in DIGEST_BYTES.items():
        shortest = answers.SHORTEST_TAG[hash]
        for length in LENGTHS:
            drawn = source.randint(shortest, longest)
            key, message = source.randbytes(length), source.randbytes(source.randrange(200))
            yield verify(hash, key, message, drawn, full_tag(hash, key, message)[:drawn])
            yield verify(hash, key, message, drawn, source.randbytes(drawn))
            key, message = source.randbytes(source.randrange(150)), source.randbytes(length)
            yield verify(hash, key, message, drawn, full_tag(hash, key, message)[:drawn])
        for length in (*block_edges(hash), *LONG_LENGTHS):
            key, message = source.randbytes(32), source.randbytes(length)
            yield verify(hash, key, message, longest, full_tag(hash, key, message))
        key, message = source.randbytes(40), source.randbytes(20)
        full, other = full_tag(hash, key, message), full_tag(3 - hash, key, message)
        for length in range(shortest, longest + 1):
            right = full[:length]
            yield verify(hash, key, message, length, right)
            for at in range(length):
                for bit in range(8) if length in (shortest, longest) else (source.randrange(8),):
                    yield verify(hash, key, message, length, with_byte(right, at, 1 << bit))
            for wrong in (bytes(length), full[-length:], other[:length], right[::-1]):
                yield verify(hash, key, message, length, wrong.ljust(length, b"\0"))
            for size in sorted({0, 1, length - 1, length + 1, longest, 2 * length}):
                yield verify(hash, key, message, length, (full + full)[:size])
        for length in (*range(shortest), *range(longest + 1, longest + 10), *BEYOND_32_BITS):
            for size in sorted({0, length % 2**32 % 100, shortest}):
                yield verify(hash, key, message, length, (full + full)[:size])
    for hash in UNKNOWN_HASHES:
        for length in (0, 16, 32, 65):
            for size in (0, length):
                yield verify(hash, b"key", b"message", length, bytes(size))


def extractions(source):
    for hash, size in DIGEST_BYTES.items():
        for length in LENGTHS:
            yield extract(hash, source.randbytes(length), source.randbytes(source.randrange(150)))
            yield extract(hash, source.randbytes(source.randrange(150)), source.randbytes(length))
            yield extract(hash, b"", source.randbytes(length))
        for length in LONG_LENGTHS:
            yield extract(hash, source.randbytes(length), source.randbytes(32))
            yield extract(hash, source.randbytes(16), source.randbytes(length))
        yield extract(hash, bytes(size), b"material")  # the salt that stands for an empty one
        for wrong in (0, 1, size - 1, size + 1, 96 - size, 2 * size):
            for salt, material in ((b"", b""), (b"salt", b"material")):
                yield extract(hash, salt, material, wrong)
    for hash in UNKNOWN_HASHES:
        for size in (0, 32, 33, 64):
            for salt, material in ((b"", b""), (b"salt", b"material")):
                yield extract(hash, salt, material, size)


def expansions(source):
    for hash, size in DIGEST_BYTES.items():
        most = 255 * size
        for length in LENGTHS:
            yield expand(hash, source.randbytes(size), source.randbytes(source.randrange(40)), length)
            yield expand(hash, source.randbytes(size), source.randbytes(length), source.randrange(130))
            yield expand(hash, source.randbytes(length), source.randbytes(10), source.randrange(1, 80))
        for blocks in (9, 127, 128, 254):
            for length in (blocks * size - 1, blocks * size, blocks * size + 1):
                yield expand(hash, source.randbytes(size), b"info", length)
        for length in (most - 1, most):
            yield expand(hash, source.randbytes(size), b"info", length)
        for prk in (0, size - 1, size, size + 1, 300):
            for info in (0, 1, 1022, 1023, 1024, 1025, 2000):
                for length in (0, 1, most + 1, most + size):
                    yield expand(hash, source.randbytes(prk), source.randbytes(info), length)
    for hash in UNKNOWN_HASHES:
        for prk, info, length in ((0, 0, 0), (64, 4, 64), (31, 1025, 8161), (64, 1025, 16321), (64, 4, 16321)):
            yield expand(hash, source.randbytes(prk), source.randbytes(info), length)


def key_pairs(source):
    for hash, size in DIGEST_BYTES.items():
        for length in LENGTHS:
            for places in (2 * size - 1, 2 * size, 2 * size + 1):
                yield keys(hash, source.randbytes(length), source.getrandbits(32), source.getrandbits(64), places)
        for places in (0, 1, size, 96 - size, 192 - 2 * size, 4 * size):
            for length in (0, size - 1, size):
                yield keys(hash, source.randbytes(length), 7, 258, places)
        prk = source.randbytes(size)
        for tenant in (0, 1, 0x01020304, 2**31, 2**32 - 1):
            for machine in (0, 1, 0x05060708090A0B0C, 2**32, 2**63, 2**64 - 1):
                yield keys(hash, prk, tenant, machine, 2 * size)
    for hash in UNKNOWN_HASHES:
        for length, places in ((0, 0), (31, 64), (32, 64), (64, 128), (64, 127)):
            yield keys(hash, source.randbytes(length), 7, 258, places)


def drawn_sites(source, count, longest=48):
    """Sites whose live bytes never add up to too much."""
    return [
        site(source.randbytes(source.randint(1, longest)), source.getrandbits(source.choice((8, 33, 57))), source.getrandbits(32))
        for _ in range(count)
    ]


def drawn_report(source, hash, sites, key):
    fields = {name: source.getrandbits(8 * LAYOUT[name]) for name in FREE_FIELDS}
    return made(sites, hash=hash, key=key, **fields)


def heading(**changed):
    """The fields of the worked report that report_write takes, but for what is changed."""
    fields = {**WORKED, **changed}
    return [fields[name] for name in LAYOUT if name != "version"]


def drawn_columns(source, lengths, labels_length=None):
    """Sites with labels of these lengths, though of so many bytes in all where that is said; their live bytes never add up to too
    much."""
    labels = source.randbytes(sum(lengths) if labels_length is None else labels_length)
    return Columns(labels, lengths, [source.getrandbits(57) for _ in lengths], [source.getrandbits(32) for _ in lengths])


def written_length(hash, lengths):
    return 45 + sum(lengths) + 13 * len(lengths) + TAG_BYTES[hash]


def asked(source, report, key):
    """Every call on a report, good or damaged, the site at a place that is often there."""
    yield read(report)
    yield site_at(report, source.choice((0, 0, 1, 1, 2, 3)))
    yield check(report, key)
    yield fingerprint(report, key)


def good_reports(source):
    """Reports of every number of sites, asked for places and with buffers on both sides of their limits."""
    for hash in HASHES:
        for count in range(65):
            key = source.randbytes(DIGEST_BYTES[hash])
            report = drawn_report(source, hash, drawn_sites(source, count), key)
            yield from asked(source, report, key)
            yield check(with_byte(report, source.randrange(len(report) - TAG_BYTES[hash], len(report)), 1), key)
            for place in sorted({0, max(count, 1) - 1, count, count + 1, 63, 64, 2**32, 2**64 - 1}):
                yield site_at(report, place)
            for places in (0, 3, 5):
                yield site_at(report, source.randrange(max(count, 1)), places)
                yield site_at(report, count, places)
            for places in (0, 1, 10, 12, 22):
                yield read(report, places)
            for size in (0, 16, 31, 33, 64):
                yield fingerprint(report, key, size)
            for size in (0, len(report) - 1, len(report), len(report) + 1, MOST_REPORT_BYTES):
                yield write_again(report, key, size)
        smallest = made((), hash=hash)
        hold(len(smallest) == {1: 61, 2: 77}[hash], "the smallest report has another size")
        largest = made([site(bytes([i + 1]) * 48, 2**58 - 1, i) for i in range(64)], hash=hash)
        hold(len(largest) == {1: 3965, 2: 3981}[hash], "the largest report has another size")
        for place in range(66):
            yield site_at(largest, place)
        for report in (smallest, largest):
            yield from asked(source, report, KEY)
            yield write_again(report, KEY)


def report_keys_of_every_length(source):
    """Tags and fingerprints under keys of every length, also those that are too short; and the same with a bit of the tag changed, or
    with a zero after the key."""
    for hash in HASHES:
        sites = drawn_sites(source, 2, 8)
        for length in LENGTHS:
            key = source.randbytes(length)
            report = drawn_report(source, hash, sites, key)
            yield check(report, key)
            yield check(report, key + b"\0")
            yield fingerprint(report, key)
            yield write_again(report, key)
        tag_start = len(report) - TAG_BYTES[hash]
        for at in range(tag_start, len(report)):
            for bit in range(8):
                yield check(with_byte(report, at, 1 << bit), key)


def short_report_keys(source):
    """Keys on both sides of the shortest, where that is all that is refused, and beside what is refused before it and after it."""
    for hash in HASHES:
        columns = drawn_columns(source, [5, 6])
        whole, over = written_length(hash, columns.lengths), columns._replace(live=[2**64 - 1, 1])
        for length in range(18):
            key = source.randbytes(length)
            report = drawn_report(source, hash, drawn_sites(source, 1), key)
            yield check(with_byte(report, len(report) - 1, 1), key)
            yield check(report[:-1], key)
            for size in (0, 31, 32, 33):
                yield fingerprint(report, key, size)
                yield fingerprint(report[:-1], key, size)
            refused = 21 if length < 16 else None
            for size, number in ((whole, refused or 0), (whole - 1, refused or 18), (0, refused or 18)):
                yield write(heading(hash=hash), columns, key, size, number)
                yield write(heading(hash=hash), over, key, size, 16)


def damaged_reports(source):
    """Every byte changed, every length, and every few bytes more, with the count as it was and with a right one."""
    for hash in HASHES:
        for count in (1, 2):
            key = source.randbytes(DIGEST_BYTES[hash])
            report = drawn_report(source, hash, drawn_sites(source, count, 5), key)
            for at in range(len(report)):
                for change in sorted({1, 2, 128, 255, source.randrange(1, 256)}):
                    yield from asked(source, with_byte(report, at, change), key)
            longer = [report + source.randbytes(more) for more in (1, 2, 4, 13, 16, 32, 256)]
            for other in [report[:length] for length in range(len(report))] + longer:
                yield from asked(source, other, key)
                if len(other) >= 4:
                    yield from asked(source, counted(other), key)
            for off in (1, 4, 255, 256, 2**16, 2**24, 2**31):
                for wrong in (len(report) - 4 + off, len(report) - 4 - off):
                    yield from asked(source, big(wrong % 2**32, 4) + report[4:], key)
            yield from asked(source, report[3::-1] + report[4:], key)


def two_damages(source):
    for hash in HASHES:
        for one in FAULTS:
            for other in FAULTS:
                yield from asked(source, faulty(hash, {one, other}), KEY)
            # A fault comes before a buffer of the wrong size, a place that is not there and a key that is too short.
            report = faulty(hash, {one})
            yield from (read(report, places) for places in (0, 10, 12))
            yield from (site_at(report, place, places) for place in (0, 2, 2**64 - 1) for places in (0, 3, 5))
            yield from (fingerprint(report, key, size) for key in (KEY, KEY[:15]) for size in (0, 31, 32, 33))
            yield check(report, KEY[:15])
        for _ in range(400):
            report = drawn_report(source, hash, drawn_sites(source, source.randrange(4), 4), KEY)
            for _ in range(2):
                kind = source.randrange(4)
                if kind == 0:
                    report = counted(report[: source.randrange(61, len(report) + 1)])
                elif kind == 1:
                    report = counted(report + source.randbytes(source.randint(1, 40)))
                else:
                    at = source.choice((4, 5, 43, 44, 45, 46, 60, source.randrange(len(report)), source.randrange(len(report))))
                    report = with_byte(report, min(at, len(report) - 1), source.choice((1, 2, 3, 64, source.randrange(1, 256))))
            yield from asked(source, report, KEY)


def noise(source):
    """Bytes that are no report, and such with a right count, version and hash, so that more of them is looked at."""
    for length in (*range(0, 130), 200, 1000, 3980, 3981, 3982, 4096, 70000):
        content = source.randbytes(length)
        yield from asked(source, content, KEY)
        if length >= 4:
            yield from asked(source, counted(content), KEY)
        if length >= 61:
            sites = big(source.choice((0, 1, 2, 3, 64, 65)), 2)
            for hash in HASHES:
                yield from asked(source, counted(content[:4] + bytes([1, hash]) + content[6:43] + sites + content[45:]), KEY)
    for length in (61, 76, 77, 78):
        for hash in (0, 1, 2, 3):
            for version in (0, 1, 2):
                yield from asked(source, of_length(length, hash=hash, version=version), KEY)


def sums(source):
    """Live bytes that just fit into 64 bits, and one more; then sums that are too large in other ways."""
    most, half = 2**64 - 1, 2**63
    fitting = [[most], [most, 0], [most - 1, 1], [half, half - 1], [0, most], [1] * 62 + [most - 62]]
    too_large = [[1, most], [half, half], [most] * 2, [most] * 64, [2**58] * 64, [half, half, most]]
    for hash in HASHES:
        for live in fitting + [live + [1] for live in fitting] + [[2**58] * 63 + [2**58 - 1]] + too_large:
            yield from asked(source, made([site(b"s", size) for size in live], hash=hash), KEY)
            yield write(heading(hash=hash), Columns(b"s" * len(live), [1] * len(live), live, [2] * len(live)))


def written_fields(source):
    """Each field at its limits and between, then all of them, with labels of every byte."""
    columns = Columns(bytes(range(256)), [48] * 5 + [16], [1, 2, 3, 4, 5, 6], [6, 5, 4, 3, 2, 2**32 - 1])
    for hash in HASHES:
        for name in FREE_FIELDS:
            bits = 8 * LAYOUT[name]
            for value in (0, 1, 2 ** (bits - 1), 2**bits - 2, 2**bits - 1, int.from_bytes(bytes(range(1, bits // 8 + 1)), "big")):
                yield write(heading(hash=hash, **{name: value}), columns, made_for=0)
        for byte in (b"\0", b"\xff", b"\x80"):
            yield write(heading(hash=hash, **{name: int.from_bytes(byte * LAYOUT[name], "big") for name in FREE_FIELDS}), columns)
    for hash in UNKNOWN_HASHES:
        for lengths in ([], [1], [48] * 64):
            yield write(heading(hash=hash), drawn_columns(source, lengths), made_for=2)


def written_buffers(source):
    """Outputs on both sides of what the report takes, from none to more than the largest."""
    for hash, tag_bytes in TAG_BYTES.items():
        for lengths in ([], [1], [48], [1, 48], [48] * 64):
            columns = drawn_columns(source, lengths)
            whole = written_length(hash, lengths)
            for size in sorted({0, 1, 45, whole - tag_bytes - 1, whole - tag_bytes, whole - 1}):
                yield write(heading(hash=hash), columns, KEY, size, 18)
            for size in (whole, whole + 1, whole + tag_bytes, whole + 200, 70000):
                yield write(heading(hash=hash), columns, KEY, size, 0)


def unequal_columns(source):
    """Each column longer and shorter than the others, all three unequal, and counts whose low bits are equal."""
    for hash, count, *steps in (
        (1, 0, 1, 256), (2, 0, 1), (1, 1, 1, 256, 65536), (2, 1, 1), (1, 2, 1, 64), (2, 2, 1, 256),
        (1, 63, 1, 2), (2, 63, 1), (1, 64, 1, 256), (2, 64, 1), (1, 65, 1), (2, 65, 1, 256),
    ):
        fields = heading(hash=hash)
        columns = drawn_columns(source, [2] * count)
        yield write(fields, columns, made_for=13 if count > 64 else 0)
        for step in steps:
            longer = drawn_columns(source, [2] * (count + step))
            for some, others in ((columns, longer), (longer, columns)):
                yield write(fields, some._replace(labels=others.labels, lengths=others.lengths), made_for=6)
                yield write(fields, some._replace(live=others.live), made_for=6)
                yield write(fields, some._replace(blocks=others.blocks), made_for=6)
        yield write(fields, columns._replace(live=columns.live + [1], blocks=columns.blocks + [1, 2]), made_for=6)
    for hash in HASHES:
        for count in (65, 66, 128, 256, 257, 320, 65537):
            yield write(heading(hash=hash), drawn_columns(source, [1] * count), made_for=13)


def written_label_lengths(source):
    """Label lengths on both sides of their limits, in each place; then such that are wider than a byte, with as many bytes of labels
    as the lowest byte says, and such whose sum passes 2^32."""
    for hash in HASHES:
        for place in range(3):
            for length in (0, 1, 2, 47, 48, 49, 128, 255, 256, 257, 304, 2**16 + 1):
                lengths = [length if at == place else 5 + at for at in range(3)]
                yield write(heading(hash=hash), drawn_columns(source, lengths), made_for=0 if 1 <= length <= 48 else 14)
            for length in (256, 257, 304, 2**16 + 1, 2**24 + 1, 2**31, 2**31 + 1, 2**32 - 1):
                lengths = [length if at == place else 5 + at for at in range(3)]
                yield write(heading(hash=hash), drawn_columns(source, lengths, sum(each % 256 for each in lengths)), made_for=14)
        for lengths in ([2**32 - 1, 1], [2**32 - 1, 6], [2**31] * 2, [2**31, 2**31, 5], [2**26] * 64):
            yield write(heading(hash=hash), drawn_columns(source, lengths, sum(lengths) % 2**32), made_for=14)


def written_labels(source):
    """Labels of fewer and of more bytes than their lengths add up to."""
    for hash in HASHES:
        for lengths in ([], [1], [48], [1, 48], [5, 6, 7], [48] * 64):
            whole = sum(lengths)
            for length in sorted({0, 1, max(whole, 1) - 1, whole + 1, whole + 48, whole + 2**8, 2**16, whole + 2**16} - {whole}):
                yield write(heading(hash=hash), drawn_columns(source, lengths, length), made_for=15)


# What can be wrong with a report to be written, in the order of the checks that find it, with the numbers.
WRITING_FAULTS = dict(hash=2, unequal=6, many=13, length=14, labels=15, sum=16, key=21, short=18)


def faulty_write(source, hash, faults):
    """A report to be written with these faults."""
    lengths = [source.randint(1, 48) for _ in range(65 if "many" in faults else 3)]
    if "length" in faults:
        lengths[source.randrange(len(lengths))] = source.choice((0, 49))
    columns = drawn_columns(source, lengths, sum(lengths) + source.choice((-1, 1)) if "labels" in faults else None)
    if "sum" in faults:
        columns = columns._replace(live=[2**64 - 1] + columns.live[1:-1] + [1])
    if "unequal" in faults:
        name = source.choice(("lengths", "live", "blocks"))
        column = getattr(columns, name)
        columns = columns._replace(**{name: source.choice((column[1:], column + column[:1]))})
    size = written_length(hash, lengths)
    if "short" in faults:
        size -= source.choice((1, TAG_BYTES[hash], size))
    key = KEY[: source.choice((0, 1, 15))] if "key" in faults else KEY
    number = next((number for fault, number in WRITING_FAULTS.items() if fault in faults), 0)
    return write(heading(hash=hash + 2 if "hash" in faults else hash), columns, key, size, number)


def two_faults_of_writing(source):
    """Every two faults at once, each with all that come after it, and each alone."""
    names = list(WRITING_FAULTS)
    for hash in HASHES:
        for _ in range(8):
            yield from (faulty_write(source, hash, faults) for faults in itertools.combinations(names, 2))
            yield from (faulty_write(source, hash, names[place:]) for place in range(len(names) + 1))
            yield from (faulty_write(source, hash, [name]) for name in names)


def drawn_writes(source):
    for _ in range(400):
        fields = {name: source.getrandbits(source.randrange(1, 8 * LAYOUT[name] + 1)) for name in FREE_FIELDS}
        lengths = [source.choice((1, 2, 48, source.randint(1, 48))) for _ in range(source.randrange(9))]
        key = source.randbytes(source.randrange(16, 200))
        yield write(heading(hash=source.choice((1, 2)), **fields), drawn_columns(source, lengths), key, source.randrange(900))


def retries(source):
    """One report sent again and again, at any time and with any attempt: each sending has its own tag, and all have one fingerprint."""
    for hash in HASHES:
        key, sites = source.randbytes(DIGEST_BYTES[hash]), drawn_sites(source, 3)
        fields = {name: source.getrandbits(8 * LAYOUT[name]) for name in FREE_FIELDS}
        sent = [
            made(sites, hash=hash, key=key, **{**fields, "send_time": source.getrandbits(64), "attempt": attempt})
            for attempt in (0, 1, 2, 127, 128, 255)
        ]
        hold(len({answers.report_fingerprint(report, key, 32) for report in sent}) == 1, "a retry has another fingerprint")
        for report in sent:
            yield check(report, key)
            yield fingerprint(report, key)
            yield write_again(report, key)


def ledgers(source):
    for given in ledger_cases.cases(source):
        yield submit(given) if isinstance(given, ledger_cases.Submission) else total(given)


def all_cases(source):
    for part in (
        digests, tags, verifications, extractions, expansions, key_pairs, good_reports, report_keys_of_every_length, short_report_keys,
        damaged_reports, two_damages, noise, sums, written_fields, written_buffers, unequal_columns, written_label_lengths,
        written_labels, two_faults_of_writing, drawn_writes, retries, ledgers,
    ):
        yield from part(source)


def hold_to_numbers(cases):
    """Every number that a call can answer is reached at least twice, a report is new and seen at least twice, and each buffer of a call
    is empty at least once. Prints how often each number is."""
    reached = collections.Counter((case.call, case.answer) for case in cases)
    for call, numbers in NUMBERS.items():
        print(f"{call}: " + ", ".join(f"{number} {reached[call, number]} times" for number in sorted(numbers)))
        for number in numbers:
            hold(reached[call, number] >= 2, f"{call} answers {number} fewer than two times")
    hold(len(reached) == sum(map(len, NUMBERS.values())), "a call answers a number that is not its own")
    counting = [case.outputs[1].given for case in cases if case.call == "ledger_submit" and case.answer == 0]
    print(f"ledger_submit: new {counting.count(bytes(4))} times, seen {counting.count(bytes([1, 0, 0, 0]))} times")
    hold(min(map(counting.count, (bytes(4), bytes([1, 0, 0, 0])))) >= 2, "a report is new or seen fewer than two times")
    empty = collections.Counter()
    for case in cases:
        buffers = [buffer for buffer in [*case.inputs, case.ledger, *case.outputs[:1]] if buffer.size > 0]
        hold(len(buffers) == BUFFERS[case.call], f"a case of {case.call} has another number of buffers")
        empty.update((case.call, place) for place, buffer in enumerate(buffers) if buffer.count == 0)
    for call, buffers in BUFFERS.items():
        for place in range(buffers):
            hold(empty[call, place], f"buffer {place + 1} of {call} is never empty")


def filled_up(given, count, filling):
    return given + [filling] * (count - len(given))


def spelled(case):
    inputs, outputs = filled_up(case.inputs, MOST_INPUTS, NO_BUFFER), filled_up(case.outputs, MOST_OUTPUTS, NO_BUFFER)
    buffers = [*inputs, case.ledger, *outputs]
    head = struct.pack(f"<II{MOST_NUMBERS}Q", CALLS.index(case.call), case.answer, *filled_up(case.numbers, MOST_NUMBERS, 0))
    for size, count, given in buffers:
        head += struct.pack("<III", size, count, len(given) // max(size, 1))
    return head + b"".join(buffer.given for buffer in buffers)


def main(arguments):
    if len(arguments) not in (1, 2):
        sys.exit(__doc__)
    seed = int(arguments[1]) if len(arguments) == 2 else SEED
    cases = list(all_cases(random.Random(seed)))
    hold_to_numbers(cases)
    content = b"TIRMUZZL" + struct.pack("<QI", seed, len(cases)) + b"".join(map(spelled, cases))
    pathlib.Path(arguments[0]).write_bytes(content)
    print(f"{len(cases)} cases, {len(content)} bytes, seed {seed}")


if __name__ == "__main__":
    main(sys.argv[1:])
