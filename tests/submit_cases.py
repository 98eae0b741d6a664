"""The reports and keys that tests/reports.py has submitted, each as a record of bytes and the lines that answer it.

A report is submitted to a ledger of one free record, and once more to the ledger after it. Where a case was made for one number, it
says so, and the rules are held to that number too. Other ledgers, which a record of bytes cannot hand over, are left to
tests/ledger_cases.py."""
import ledger_rules as rules
from report_cases import (
    FAULTS, KEY, MOST_KEY_BYTES, MOST_REPORT_BYTES, agrees, faulty, hold, made, pattern, prefixed, site, with_byte,
)
from report_rules import HASHES

# Keys around the shortest that is taken, which has 16 bytes.
NONE, SHORT, SHORTEST = pattern(0), pattern(15), pattern(16)
SHORT_KEYS = NONE, SHORT
OTHER = bytes(range(33, 65))


def line(number, seen, ledger):
    [record] = ledger
    return f"submit: {number}, {seen}, {record.in_use} {record.live} {record.fingerprint.hex()}"


def submitting(report, tag_key, fingerprint_key, made_for):
    """The case of two submissions of one report: the second is seen where the first is new, and else refused with the same number."""
    first = rules.submit([rules.FREE], report, tag_key, fingerprint_key)
    second = rules.submit(first[2], report, tag_key, fingerprint_key)
    agrees(first[0], made_for, f"submission of {report.hex()}")
    hold(second == (first[0], int(first[0] == 0), first[2]), f"the second submission of {report.hex()} answers {second}")
    parts = prefixed(report, MOST_REPORT_BYTES), prefixed(tag_key, MOST_KEY_BYTES), prefixed(fingerprint_key, MOST_KEY_BYTES)
    return b"\6" + b"".join(parts), [line(*first), line(*second)]


def good_reports(hash):
    largest = made([site(bytes([i]) * 48, 2**58 - 1, i) for i in range(64)], hash=hash)
    for report in (made(hash=hash), made((), hash=hash), largest, made(hash=hash, send_time=61000, attempt=1)):
        yield submitting(report, KEY, OTHER, 0)
    # With the keys the other way round the tag differs, and one key may be both.
    yield submitting(made(hash=hash), OTHER, KEY, 1)
    yield submitting(made(hash=hash), KEY, KEY, 0)


def key_lengths(hash):
    """The tag is right under the tag key, so that only the keys' lengths refuse a report."""
    for tag_key in (*SHORT_KEYS, SHORTEST):
        for fingerprint_key in (*SHORT_KEYS, SHORTEST):
            short = tag_key in SHORT_KEYS or fingerprint_key in SHORT_KEYS
            yield submitting(made(hash=hash, key=tag_key), tag_key, fingerprint_key, 21 if short else 0)


def wrong_tags(hash):
    """The tag key's length comes before the tag, and the tag before the fingerprint key's length."""
    for key in (*SHORT_KEYS, SHORTEST, KEY):
        report = made(hash=hash, key=key)
        differing = with_byte(report, len(report) - 1, 1)
        for fingerprint_key in (*SHORT_KEYS, SHORTEST):
            yield submitting(differing, key, fingerprint_key, 21 if key in SHORT_KEYS else 1)


def faults(hash):
    """Reading comes before the keys."""
    for fault, number in FAULTS.items():
        for tag_key, fingerprint_key in ((KEY, OTHER), (SHORT, OTHER), (KEY, SHORT)):
            yield submitting(faulty(hash, [fault]), tag_key, fingerprint_key, number)


def cases():
    """Every case, as its record and its lines."""
    for hash in HASHES:
        for part in (good_reports, key_lengths, wrong_tags, faults):
            yield from part(hash)
