"""The reports, keys and sizes that tests/reports.py runs, each as a record of bytes and the lines that answer it.

Where a case was made for one number, it says so, and the rules are held to that number too."""
import itertools
import random
import sys

import report_rules as rules
from report_rules import BLOCK_BYTES, DIGEST_BYTES, HASHES, TAG_BYTES

# What a program with fixed arrays must have room for.
MOST_REPORT_BYTES, MOST_KEY_BYTES, MOST_OUTPUT_BYTES = 4096, 512, 256

LAYOUT = dict(version=1, hash=1, tenant=4, machine=8, number=8, send_time=8, attempt=1, memory=8)
WORKED = dict(version=1, hash=1, tenant=7, machine=258, number=9, send_time=1000, attempt=0, memory=2**31)
FREE_FIELDS = [name for name in LAYOUT if name not in ("version", "hash")]
# Every byte of the fields another.
MIXED = dict(
    tenant=0x01020304, machine=0x05060708090A0B0C, number=0x0D0E0F1011121314, send_time=0x15161718191A1B1C, attempt=0x1D,
    memory=0x1E1F202122232425,
)
LARGEST_64, LARGEST_32 = 2**64 - 1, 2**32 - 1

KEY = bytes(range(1, 33))
KEY_LENGTHS = (16, 17, 63, 64, 65, 127, 128, 129, 300)
SHORT_KEY_LENGTHS = (0, 1, 8, 14, 15)


def hold(holds, what):
    if not holds:
        sys.exit(f"tests/reports.py: {what}")


def big(number, size):
    return number.to_bytes(size, "big")


def pattern(length):
    return bytes(i % 251 + 1 for i in range(length))


def site(label, live=4096, blocks=2, length=None):
    """The bytes of a site; a length that is given stands for the label's own."""
    return bytes([len(label) if length is None else length]) + label + big(live, 8) + big(blocks, 4)


def made(sites=(site(b"ab"),), stated=None, off=0, left=b"", cut=0, tag=None, key=KEY, **changed):
    """The worked report but for what is changed: the number of sites stated, how far the count is off, the bytes left after the
    sites, how many bytes before the tag are cut off, and the tag."""
    fields = {**WORKED, **changed}
    between = b"".join(sites) + left
    between = between[: len(between) - cut]
    size = len(tag) if tag is not None else TAG_BYTES[fields["hash"]]
    count = (41 + len(between) + size + off) % 2**32
    head = b"".join(big(fields[name], width) for name, width in LAYOUT.items())
    before = big(count, 4) + head + big(len(sites) if stated is None else stated, 2) + between
    return before + (rules.full_tag(fields["hash"], key, before)[:size] if tag is None else tag)


def of_length(length, **changed):
    """So many bytes with a right count: a report without sites, cut off or with zeros after it."""
    return (big(max(length - 4, 0), 4) + made((), tag=bytes(length), **changed)[4:])[:length]


def with_byte(report, at, change):
    return report[:at] + bytes([report[at] ^ change]) + report[at + 1 :]


def counted(report):
    """The same with a right count."""
    return big(len(report) - 4, 4) + report[4:]


def prefixed(content, most):
    hold(len(content) <= most, f"{len(content)} bytes where a record has room for {most}")
    return big(len(content), 4) + content


def shown(content):
    return content.hex() or "empty"


def agrees(number, made_for, what):
    hold(made_for in (None, number), f"a {what} made for {made_for} answers {number}")


def read_line(report):
    number, fields = rules.read(report)
    return f"read: {number}, {' '.join(map(str, fields))}"


def site_line(report, place):
    number, answers = rules.site(report, place)
    labelled, label = rules.label(report, place)
    return f"site {place}: {number}, {' '.join(map(str, answers))}, label {labelled} {shown(label)}"


def reading(report, made_for=None, places=None):
    """The case of reading a report and asking for its sites at these places; without any, at those around its limits."""
    number, fields = rules.read(report)
    agrees(number, made_for, f"report {report.hex()}")
    if places is None:
        sites = fields[9]
        places = (0, 64) if number else sorted({0, max(sites, 1) - 1, sites, 64, 2**32, LARGEST_64})
    record = b"\1" + prefixed(report, MOST_REPORT_BYTES) + bytes([len(places)]) + b"".join(big(place, 8) for place in places)
    return record, [read_line(report)] + [site_line(report, place) for place in places]


def checking(report, key, made_for=None):
    number = rules.check(report, key)
    agrees(number, made_for, f"tag of {report.hex()}")
    return b"\2" + prefixed(report, MOST_REPORT_BYTES) + prefixed(key, MOST_KEY_BYTES), [f"check: {number}"]


def fingerprinting(report, key, size=32, made_for=None):
    number, out = rules.fingerprint(report, key, size)
    agrees(number, made_for, f"fingerprint of {report.hex()}")
    hold(size <= MOST_OUTPUT_BYTES, "a fingerprint's output is too large")
    record = b"\3" + prefixed(report, MOST_REPORT_BYTES) + prefixed(key, MOST_KEY_BYTES) + big(size, 4)
    return record, [f"fingerprint: {number}, {shown(out)}"]


def deriving(number, prk, size, made_for, tenant=7, machine=258):
    answered, out = rules.keys(number, prk, tenant, machine, size)
    agrees(answered, made_for, f"pair of keys for hash {number}, {len(prk)} and {size} bytes")
    hold(size <= MOST_OUTPUT_BYTES, "an output of keys is too large")
    record = b"\4" + big(number, 4) + prefixed(prk, MOST_KEY_BYTES) + big(tenant, 4) + big(machine, 8) + big(size, 4)
    return record, [f"keys: {answered}, {shown(out)}"]


def filled(byte):
    """The fields, every byte of them this one."""
    return {name: int.from_bytes(byte * LAYOUT[name], "big") for name in FREE_FIELDS}


def good_reports(hash):
    yield reading(made(hash=hash), 0)
    yield reading(made((), hash=hash), 0)
    every_length = [site(pattern(i % 48 + 1), live=i, blocks=64 - i) for i in range(64)]
    yield reading(made(every_length, hash=hash), 0, range(66))
    for byte, sites in ((b"\0", [site(bytes(48), 0, 0)]), (b"\xff", [site(b"\xff" * 48, LARGEST_64, LARGEST_32)])):
        yield reading(made(sites, hash=hash, tag=byte * TAG_BYTES[hash], **filled(byte)), 0)
    sites = [site(b"\0", 0, 0), site(b"\xff", 0x2627282930313233, 0x34353637)]
    yield reading(made(sites, hash=hash, **MIXED), 0)


def largest():
    report = made([site(bytes([i]) * 48, 2**58 - 1, i) for i in range(64)], hash=2)
    yield reading(report, 0)
    yield checking(report, KEY, 0)
    yield fingerprinting(report, KEY, 32, 0)


def lengths_and_counts(hash):
    smallest = 45 + TAG_BYTES[hash]
    for length in (0, 1, 3, 4, 6, 45, 60, 61, 62, 76, 77, 78):
        yield reading(of_length(length, hash=hash), 11 if length < smallest else 0 if length == smallest else 15)
    for off in (-1, 1, 4, -4, 2**8, 2**16, 2**24, 2**31):
        yield reading(made(off=off, hash=hash), 11)
    for count in (b"\xff" * 4, bytes(4), made(hash=hash)[3::-1]):
        yield reading(count + made(hash=hash)[4:], 11)


def versions_and_hashes(hash):
    for version in (0, 2, 129, 255):
        yield reading(made(version=version, hash=hash), 12)
    for other in (0, 3, 129, 255):
        yield reading(made(hash=other, tag=bytes(TAG_BYTES[hash])), 2)
    # With the other hash's tag there are bytes left, or the report is too short, or a site runs into the tag.
    tag = bytes(TAG_BYTES[3 - hash])
    yield reading(made(hash=hash, tag=tag), {1: 15, 2: 11}[hash])
    yield reading(made([site(b"ab")] * 2, hash=hash, tag=tag), 15)


def too_short_for_hash_2():
    for length in (61, 76):
        yield reading(of_length(length, hash=2, version=2), 12)
        yield reading(of_length(length, hash=3), 2)
        yield reading(of_length(length, hash=2, stated=65), 11)
        yield reading(of_length(length, hash=2, stated=1), 11)
        yield reading(of_length(length, hash=1, stated=65), 13)
    yield reading(of_length(60, hash=3, version=2), 11)
    yield reading(of_length(77, hash=2, stated=65), 13)


def numbers_of_sites(hash):
    yield reading(made([site(b"a")] * 65, hash=hash), 13)
    for stated, number in ((0, 15), (1, 15), (3, 15), (64, 15), (65, 13), (128, 13), (256, 13), (258, 13), (65535, 13)):
        yield reading(made([site(b"a")] * 2, stated=stated, hash=hash), number)
    yield reading(made([site(b"", length=0)], stated=65, hash=hash), 13)


def label_lengths(hash):
    for length in (0, 1, 2, 47, 48, 49, 255):
        number = 0 if 1 <= length <= 48 else 14
        labelled = site(pattern(length))
        yield reading(made([labelled], hash=hash), number)
        if length in (0, 48, 49):
            yield reading(made([labelled, site(b"ab")], hash=hash), number)
            yield reading(made([site(b"ab"), site(b"c"), labelled], hash=hash), number)
    # A length that is wrong and also runs into the tag, and one that only runs into it.
    for length, number in ((0, 14), (1, 15), (48, 15), (49, 14), (255, 14)):
        yield reading(made([bytes([length])], hash=hash), number)
        yield reading(made([site(b"ab", length=length), site(b"", length=0)], hash=hash), number)


def site_ends(hash):
    """Sites that end at every place around the tag, alone and after another."""
    size = TAG_BYTES[hash]
    whole = site(b"ab", 2**63, 2**31)
    for before, ends in (([], range(18)), ([site(b"c")], (0, 1, 3, 11, 14, 15, 16))):
        for end in ends:
            yield reading(made(before + [(whole + bytes(2))[:end]], hash=hash), 0 if end == len(whole) else 15)
    for left in (bytes(64), whole):
        yield reading(made([whole], left=left, hash=hash), 15)
    # What stands in the tag counts for nothing: neither a length 0, where another site should follow, nor a whole site.
    for end in (3, 7, 11, 14, 15):
        yield reading(made([whole[:end]], stated=2, hash=hash, tag=bytes(size)), 15)
    for sites in ([], [whole]):
        yield reading(made(sites, stated=len(sites) + 1, hash=hash, tag=site(pattern(size - 13))), 15)
    yield reading(made((), stated=1, hash=hash, tag=bytes(size)), 15)


# Live bytes of sites that add up to at most 2^64 - 1, and to more, with the number that comes back.
HALF, QUARTER = 2**63, 2**62
SUMS = (
    (0, LARGEST_64, 0), (0, LARGEST_64 - 1, 1), (0, HALF, HALF - 1), (0, 0, 0, LARGEST_64), (0, HALF, QUARTER, QUARTER - 1),
    (16, LARGEST_64, 1), (16, 1, LARGEST_64), (16, HALF, HALF), (16, HALF, QUARTER, QUARTER), (16, 0, 1, LARGEST_64),
    (16, LARGEST_64, 1, 5), (16, HALF, HALF, LARGEST_64), (16, LARGEST_64, LARGEST_64, 2), (16, *[LARGEST_64] * 3),
    (0, *[2**58] * 63, 2**58 - 1), (16, *[2**58] * 64),
)


def sums(hash):
    for number, *sizes in SUMS:
        yield reading(made([site(b"s", live) for live in sizes], hash=hash), number)
    overflowing = [site(b"s", LARGEST_64), site(b"s", 1)]
    yield reading(made(overflowing + [site(b"", length=0)], hash=hash), 14)
    yield reading(made(overflowing + [site(b"s")[:5]], hash=hash), 15)


# Faults in the order of the checks that find them, with their numbers.
FAULTS = dict(count=11, version=12, hash=2, stated=13, first=14, second=14, cut=15, left=15, sum=16)


def faulty(hash, faults):
    """A report of two sites with these faults; a cut of two bytes is one still where a byte is left too."""
    first = site(b"ab", LARGEST_64 if "sum" in faults else 4096, length=0 if "first" in faults else 2)
    second = site(b"cde", 1, length=49 if "second" in faults else 3)
    return made(
        [first, second], stated=65 if "stated" in faults else 2, off=int("count" in faults), cut=2 if "cut" in faults else 0,
        left=b"\0" if "left" in faults else b"", version=2 if "version" in faults else 1,
        hash=3 if "hash" in faults else hash, tag=bytes(TAG_BYTES[hash]),
    )


def orders(hash):
    """Every two faults, or under hash 2 each fault with all that come after it, and each one alone."""
    names = list(FAULTS)
    for faults in itertools.combinations(names, 2) if hash == 1 else (names[i:] for i in range(len(names) - 1)):
        yield reading(faulty(hash, faults), FAULTS[faults[0]])
    for fault, number in FAULTS.items():
        report = faulty(hash, [fault])
        yield reading(report, number)
        for key in (KEY, KEY[:15]):
            yield checking(report, key, number)
            yield fingerprinting(report, key, 32, number)
            yield fingerprinting(report, key, 31, number)


def tags(hash):
    size, other = TAG_BYTES[hash], 3 - hash
    worked = made(hash=hash)
    before = worked[:-size]
    for key in map(pattern, KEY_LENGTHS):
        report = made(hash=hash, key=key)
        yield checking(report, key, 0)
        # A zero after a key changes no tag where the key is shorter than a block, and a longer key's digest stands for it.
        yield checking(report, key + b"\0", int(len(key) >= BLOCK_BYTES[hash]))
        if len(key) > BLOCK_BYTES[hash]:
            yield checking(report, HASHES[hash](key).digest(), 0)
    for at, bit in ((-size, 1), (-size, 128), (-size // 2, 4), (-1, 1), (-1, 128)):
        yield checking(with_byte(worked, at % len(worked), bit), KEY, 1)
    for tag in (
        rules.full_tag(other, KEY, before)[:size], rules.full_tag(hash, KEY, before)[-size:], bytes(size),
        rules.full_tag(hash, KEY, before[4:])[:size], rules.full_tag(hash, KEY, rules.fingerprint_message(worked))[:size],
        made(hash=hash, send_time=1001)[-size:], made(hash=hash, attempt=1)[-size:],
    ):
        yield checking(before + tag, KEY, 1)
    for sites in ((), [site(pattern(48))] * 3):
        yield checking(made(sites, hash=hash), KEY, 0)
    # A key that is too short is refused whether the tag is right under it or not. With zeros after it the key is long enough, and the
    # tag is the same.
    for key in map(pattern, SHORT_KEY_LENGTHS):
        right = made(hash=hash, key=key)
        yield checking(right, key, 21)
        yield checking(with_byte(right, len(right) - 1, 1), key, 21)
        yield checking(right, key.ljust(16, b"\0"), 0)


def shifted(hash):
    """Two reports whose sites are the same bytes once the lengths of the labels are left out."""
    text = bytes(range(1, 29))
    return [made([bytes([n]) + text[: n + 12], bytes([4 - n]) + text[n + 12 :]], hash=hash) for n in (1, 3)]


def fingerprints(hash):
    worked = made(hash=hash)
    for size in (0, 31, 33, 64):
        yield fingerprinting(worked, KEY, size, 6)
    for key in map(pattern, KEY_LENGTHS):
        yield fingerprinting(worked, key, 32, 0)
    for key in map(pattern, SHORT_KEY_LENGTHS):
        for size in (32, 31, 33, 0):
            yield fingerprinting(worked, key, size, 21)
    # The send time, the attempt and the tag change nothing; the bytes just before and just after the first two do.
    resent = [made(hash=hash, send_time=LARGEST_64), *(made(hash=hash, send_time=61000, attempt=attempt) for attempt in (0, 1, 255))]
    same = [worked, *resent, made(hash=hash, tag=bytes(TAG_BYTES[hash])), *(with_byte(worked, at, 1) for at in (26, 33, 34))]
    different = [*(with_byte(worked, at, 1) for at in (25, 35)), made((), hash=hash), *shifted(hash)]
    hold(len({rules.fingerprint(report, KEY, 32) for report in same}) == 1, "a fingerprint depends on the send time, attempt or tag")
    distinct = {rules.fingerprint(report, KEY, 32) for report in [worked, *different]}
    hold(len(distinct) == 1 + len(different), "two fingerprints are the same")
    for report in same + different:
        yield fingerprinting(report, KEY, 32, 0)


def key_pairs(number):
    size, block = DIGEST_BYTES[number], BLOCK_BYTES[number]
    for length in (size, size + 1, block, block + 1, MOST_KEY_BYTES):
        yield deriving(number, pattern(length), 2 * size, 0)
    for length in (0, 1, size - 1):
        yield deriving(number, pattern(length), 2 * size, 7)
        yield deriving(number, pattern(length), 2 * size + 1, 6)
    for out in sorted({0, size, 2 * size - 1, 2 * size + 1, 2 * DIGEST_BYTES[3 - number]}):
        yield deriving(number, pattern(size), out, 6)
    for tenant in (0, 7, 0x01020304, LARGEST_32):
        for machine in (0, 258, 0x05060708090A0B0C, LARGEST_64):
            yield deriving(number, KEY * 2, 2 * size, 0, tenant, machine)


def unknown_hashes():
    for number in (0, 3, 255, 256, 257, 258, LARGEST_32):
        for length, size in ((64, 128), (32, 64), (0, 64), (64, 0)):
            yield deriving(number, pattern(length), size, 2)


def drawn_bytes(source, length):
    return bytes(source.getrandbits(8) for _ in range(length))


def drawn_sites(source):
    """Up to three sites, each as its label, its live bytes and its live blocks."""
    sites = []
    for _ in range(source.randrange(4)):
        label = drawn_bytes(source, source.choice((1, 2, 3, 5, 8, 48)))
        sites.append((label, source.getrandbits(source.choice((8, 33, 63, 64))), source.getrandbits(32)))
    return sites


def drawn_fields(source):
    return {name: source.getrandbits(source.randrange(1, 8 * LAYOUT[name] + 1)) for name in FREE_FIELDS}


def drawn_report(source):
    sites = [site(*drawn_site) for drawn_site in drawn_sites(source)]
    fields = drawn_fields(source)
    return made(sites, hash=source.choice((1, 2)), **fields)


def damaged(report, source):
    """The report with one kind of damage, or none."""
    change = source.randrange(1, 256)
    return source.choice((
        report,
        with_byte(report, source.randrange(45), change),
        with_byte(report, source.randrange(45, len(report)), change),
        with_byte(report, 44, source.choice((1, 2, 3))),
        with_byte(report, 45, source.choice((1, 3, 15, 32))),
        counted(report[: -source.randrange(1, 33)]),
        counted(report + drawn_bytes(source, source.randrange(1, 33))),
    ))


def drawn():
    """Cases from a source with a fixed seed, so that they are the same in every run."""
    source = random.Random(5869)
    for place in range(100):
        report = damaged(drawn_report(source), source)
        yield reading(report, places=range(4))
        if place % 3 == 0:
            yield checking(report, KEY)
            yield fingerprinting(report, KEY)


def cases():
    """Every case, as its record and its lines."""
    yield from largest()
    for hash in HASHES:
        for part in (
            good_reports, lengths_and_counts, versions_and_hashes, numbers_of_sites, label_lengths, site_ends, sums, orders, tags,
            fingerprints, key_pairs,
        ):
            yield from part(hash)
    yield from too_short_for_hash_2()
    yield from unknown_hashes()
    yield from drawn()
