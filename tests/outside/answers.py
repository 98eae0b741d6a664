"""What each call of include/tirmuzzle.h answers, by the rules of docs/PROTOCOL.md.

Hashes and HMAC come from Python's own library and the rules on reports from tests/report_rules.py. Each function takes what the C
call takes, with the size of the output in place of the output, and gives the number and the output's content, which is None where
nothing is written. Numbers 3 and 4, which take keys and messages of some 2^61 bytes, are left to tests/outside/limits.c. The calls on a
ledger have no function here: tests/ledger_cases.py gives its cases with their answers."""
import report_rules
from report_rules import DIGEST_BYTES, HASHES, full_tag

SHORTEST_TAG = {1: 16, 2: 32}
MOST_INFO_BYTES = 1024
FIELD_PLACES, SITE_PLACES = 11, 4


def digest(number, message, size):
    if number not in HASHES:
        return 2, None
    if size != DIGEST_BYTES[number]:
        return 6, None
    return 0, HASHES[number](message).digest()


def tag_refusal(number, tag_length, size):
    """What tag and verify refuse alike."""
    if number not in HASHES:
        return 2
    if not SHORTEST_TAG[number] <= tag_length <= DIGEST_BYTES[number]:
        return 5
    return 6 if size != tag_length else 0


def tag(number, key, message, tag_length, size):
    refusal = tag_refusal(number, tag_length, size)
    return (refusal, None) if refusal else (0, full_tag(number, key, message)[:tag_length])


def verify(number, key, message, tag_length, presented):
    refusal = tag_refusal(number, tag_length, len(presented))
    return refusal or int(full_tag(number, key, message)[:tag_length] != presented), None


def extract(number, salt, material, size):
    if number not in HASHES:
        return 2, None
    if size != DIGEST_BYTES[number]:
        return 6, None
    return 0, full_tag(number, salt or bytes(DIGEST_BYTES[number]), material)


def expand(number, prk, info, size):
    if number not in HASHES:
        return 2, None
    if len(prk) < DIGEST_BYTES[number]:
        return 7, None
    if len(info) > MOST_INFO_BYTES:
        return 8, None
    if size > 255 * DIGEST_BYTES[number]:
        return 9, None
    made, block, place = b"", b"", 0
    while len(made) < size:
        place += 1
        block = full_tag(number, prk, block + info + bytes([place]))
        made += block
    return 0, made[:size]


def written(number, out):
    return number, None if number else out


def report_fingerprint(report, key, size):
    return written(*report_rules.fingerprint(report, key, size))


def report_keys(number, prk, tenant, machine, size):
    return written(*report_rules.keys(number, prk, tenant, machine, size))


def report_check(report, key):
    return report_rules.check(report, key), None


def in_words(numbers, size=8):
    """Numbers as the callers find them in the file of cases."""
    return b"".join(number.to_bytes(size, "little") for number in numbers)


def report_read(report, places):
    number, fields = report_rules.read(report)
    if number == 0 and places != FIELD_PLACES:
        number = 6
    return written(number, in_words(fields))


def report_site(report, place, places):
    number, site = report_rules.site(report, place)
    if number == 0 and places != SITE_PLACES:
        number = 6
    return written(number, in_words(site))


def report_write(heading, labels, lengths, live, blocks, key, size):
    """The length comes third: it is written where the call is refused too."""
    number, length, out = report_rules.write(heading, labels, lengths, live, blocks, key, size)
    return *written(number, out[:length]), length
