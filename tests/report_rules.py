"""The rules of docs/PROTOCOL.md on reports: reading, sites, writing, tags, fingerprints and the two keys.

HMAC comes from Python's own library, and everything else is written here from the document."""
import hashlib
import hmac

HASHES = {1: hashlib.sha256, 2: hashlib.sha512}
DIGEST_BYTES = {1: 32, 2: 64}
BLOCK_BYTES = {1: 64, 2: 128}
TAG_BYTES = {1: 16, 2: 32}
MOST_KEY_BYTES = 2**61 - 1
FEWEST_KEY_BYTES = 16  # of a report's key; a PRK has a rule of its own
MOST_LIVE_BYTES = 2**64 - 1

# Where each field stands and how many bytes it has: count, version, hash, tenant, machine, report number, send time, attempt,
# memory and number of sites.
FIELDS = [(0, 4), (4, 1), (5, 1), (6, 4), (10, 8), (18, 8), (26, 8), (34, 1), (35, 8), (43, 2)]
SITES_START = 45

UNTOUCHED = 0xA5  # fills every output beforehand, so that a refused call shows that it wrote nothing


def number_at(report, at, size):
    return int.from_bytes(report[at : at + size], "big")


def tag_start(report):
    return len(report) - TAG_BYTES[report[5]]


def sites_of(report):
    """The number of the first site check that fails, or 0, and the sites up to there, each as `site` answers it."""
    sites, at, end = [], SITES_START, tag_start(report)
    for _ in range(number_at(report, 43, 2)):
        if at == end:
            return 15, sites
        length = report[at]
        if length == 0 or length > 48:
            return 14, sites
        after = at + 1 + length + 8 + 4
        if after > end:
            return 15, sites
        sites.append((at + 1, length, number_at(report, after - 12, 8), number_at(report, after - 4, 4)))
        at = after
    return (0 if at == end else 15), sites


def opened(report):
    """The number with which reading ends, and the sites where it is 0."""
    if len(report) < 61 or number_at(report, 0, 4) != len(report) - 4:
        return 11, []
    if report[4] != 1:
        return 12, []
    if report[5] not in HASHES:
        return 2, []
    if report[5] == 2 and len(report) < 77:
        return 11, []
    if number_at(report, 43, 2) > 64:
        return 13, []
    number, sites = sites_of(report)
    if number == 0 and sum(live for _, _, live, _ in sites) > MOST_LIVE_BYTES:
        number = 16
    return number, [] if number else sites


def read(report):
    """The number, and the fields followed by the sum of live bytes."""
    number, sites = opened(report)
    if number:
        return number, [0] * 11
    return 0, [number_at(report, at, size) for at, size in FIELDS] + [sum(live for _, _, live, _ in sites)]


def site(report, place):
    """The number, and where the label starts, its length, the live bytes and the live blocks."""
    number, sites = opened(report)
    if number == 0 and place >= len(sites):
        number = 17
    return (number, (0, 0, 0, 0)) if number else (0, sites[place])


def label(report, place):
    """The number that `site` answers, and the label."""
    number, (start, length, _, _) = site(report, place)
    return number, report[start : start + length]


def full_tag(number, key, message):
    return hmac.new(key, message, HASHES[number]).digest()


def refusal_of_key(key):
    """The number of the first check that a report's key fails, or 0."""
    if len(key) > MOST_KEY_BYTES:
        return 3
    return 21 if len(key) < FEWEST_KEY_BYTES else 0


def check(report, tag_key):
    number = opened(report)[0] or refusal_of_key(tag_key)
    if number:
        return number
    presented = report[tag_start(report) :]
    return int(full_tag(report[5], tag_key, report[: tag_start(report)])[: len(presented)] != presented)


def refusal_of_columns(labels, lengths, live, blocks):
    """The number of the first check that the sites to be written fail, or 0."""
    if not len(lengths) == len(live) == len(blocks):
        return 6
    if len(lengths) > 64:
        return 13
    if any(length == 0 or length > 48 for length in lengths):
        return 14
    if sum(lengths) != len(labels):
        return 15
    return 16 if sum(live) > MOST_LIVE_BYTES else 0


def report_of(heading, labels, lengths, live, blocks, tag_key):
    """The report that nothing speaks against, with its tag."""
    hash, sites, at = heading[0], b"", 0
    for length, live_bytes, live_blocks in zip(lengths, live, blocks):
        label = labels[at : at + length]
        sites += bytes([length]) + label + live_bytes.to_bytes(8, "big") + live_blocks.to_bytes(4, "big")
        at += length
    count = SITES_START - 4 + len(sites) + TAG_BYTES[hash]
    fields = [count, 1, *heading, len(lengths)]
    before = b"".join(field.to_bytes(size, "big") for field, (_, size) in zip(fields, FIELDS, strict=True)) + sites
    return before + full_tag(hash, tag_key, before)[: TAG_BYTES[hash]]


def write(heading, labels, lengths, live, blocks, tag_key, size):
    """The number, the length of the report, and what an output of this size then holds.

    The heading is hash, tenant, machine, report number, send time, attempt and memory. The sites are all labels end to end, and for
    each site the length of its label, its live bytes and its live blocks."""
    untouched = bytes([UNTOUCHED]) * size
    if heading[0] not in HASHES:
        return 2, 0, untouched
    number = refusal_of_columns(labels, lengths, live, blocks) or refusal_of_key(tag_key)
    if number:
        return number, 0, untouched
    report = report_of(heading, labels, lengths, live, blocks, tag_key)
    if len(report) > size:
        return 18, 0, untouched
    return 0, len(report), report + untouched[len(report) :]


def fingerprint_message(report):
    """All but the count, the send time, the attempt and the tag."""
    return report[4:26] + report[35 : tag_start(report)]


def fingerprint(report, fingerprint_key, size):
    """The number, and what an output of this size then holds."""
    untouched = bytes([UNTOUCHED]) * size
    number = opened(report)[0] or refusal_of_key(fingerprint_key)
    if number:
        return number, untouched
    if size != 32:
        return 6, untouched
    return 0, full_tag(report[5], fingerprint_key, fingerprint_message(report))[:32]


def expand_to_digest(number, prk, info):
    """The PRK expanded to D bytes, which is T(1) and no more."""
    return full_tag(number, prk, info + b"\1")


def key_info(purpose, tenant, machine):
    return (14).to_bytes(2, "big") + bytes([1, purpose]) + tenant.to_bytes(4, "big") + machine.to_bytes(8, "big")


def keys(number, prk, tenant, machine, size):
    """The number, and what an output of this size then holds."""
    untouched = bytes([UNTOUCHED]) * size
    if number not in HASHES:
        return 2, untouched
    if len(prk) > MOST_KEY_BYTES:
        return 3, untouched
    if size != 2 * DIGEST_BYTES[number]:
        return 6, untouched
    if len(prk) < DIGEST_BYTES[number]:
        return 7, untouched
    return 0, b"".join(expand_to_digest(number, prk, key_info(purpose, tenant, machine)) for purpose in (1, 2))
