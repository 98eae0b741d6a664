"""Ledgers, reports and keys on which the calls on a ledger are run, each with what tests/ledger_rules.py answers to it.

Where a case was made for one answer, it says so, and the rules are held to that answer too. A storm is a sequence of submissions to a
ledger that starts empty; the total after it must be what the rules count from the sequence alone. 3, which takes a key of 2^61 bytes, is
left to tests/outside/limits.c."""
import collections
import itertools
import sys

import ledger_rules as rules
from ledger_rules import FREE, Record
from report_cases import (
    FAULTS, FREE_FIELDS, HALF, KEY, KEY_LENGTHS, LARGEST_64, LAYOUT, QUARTER, SHORT_KEY_LENGTHS, WORKED, damaged, drawn_bytes,
    drawn_fields, drawn_sites, faulty, made, pattern, site, with_byte,
)
from report_rules import HASHES, TAG_BYTES, fingerprint_message, full_tag

# The tag key and the fingerprint key, unless a case says otherwise.
KEYS = KEY, bytes(range(33, 65))
RECORD_BYTES = 48

# A case: what is handed over, the answer, and of a submission the ledger after it.
Submission = collections.namedtuple("Submission", "ledger report tag_key fingerprint_key number seen after")
Total = collections.namedtuple("Total", "ledger number total")

# What a submission answers: its number, and 1 where the report is seen.
NEW, SEEN, UNSOUND, DIFFERS, FULL, OVER, SHORT = (0, 0), (0, 1), (10, 0), (1, 0), (19, 0), (20, 0), (21, 0)


def hold(holds, what):
    if not holds:
        sys.exit(f"tests/ledger_cases.py: {what}")


def submitted(ledger, report, made_for=None, keys=KEYS):
    number, seen, after = rules.submit(ledger, report, *keys)
    hold(made_for in (None, (number, seen)), f"a submission made for {made_for} answers {(number, seen)}: {ledger}, {report.hex()}")
    return Submission(ledger, report, *keys, number, seen, after)


def totalled(ledger, made_for=None):
    answer = rules.total(ledger)
    hold(made_for in (None, answer), f"a total made for {made_for} is {answer}: {ledger}")
    return Total(ledger, *answer)


def spelled(record):
    """The bytes of a record, with numbers' lowest bytes first."""
    return record.fingerprint + record.live.to_bytes(8, "little") + record.in_use.to_bytes(8, "little")


def with_record_byte(record, at, change):
    content = with_byte(spelled(record), at, change)
    return Record(content[:32], int.from_bytes(content[32:40], "little"), int.from_bytes(content[40:], "little"))


def tagged(hash, before, tag_key=KEY):
    return before + full_tag(hash, tag_key, before)[: TAG_BYTES[hash]]


def sent_again(source, report, tag_key=KEY):
    """The same report at another time and with another attempt, with a right tag."""
    hash = report[5]
    return tagged(hash, report[:26] + drawn_bytes(source, 9) + report[35 : -TAG_BYTES[hash]], tag_key)


def record_of(report):
    number, record = rules.judged(report, *KEYS)
    hold(number == 0, f"a report that should count is refused with {number}")
    return record


def would_be(report, fingerprint_key):
    """The record of a report under a fingerprint key, which may be too short."""
    return record_of(report)._replace(fingerprint=full_tag(report[5], fingerprint_key, fingerprint_message(report))[:32])


def holding(source, live):
    """Used records with these live bytes and drawn fingerprints."""
    return [Record(drawn_bytes(source, 32), each, 1) for each in live]


def drawn_used(source, count):
    """Used records whose live bytes do not add up to much."""
    return holding(source, [source.getrandbits(source.choice((1, 8, 33, 50))) for _ in range(count)])


def sizes(hash, source):
    """Ledgers of no record and of more, with every number of used ones: a report is new or finds no room, is seen when it is sent
    again, and then another is submitted; the smallest report, one whose tag differs, and none; and the report is seen in many
    places."""
    smallest, largest = made((), hash=hash), made([site(pattern(48), 2**57, i) for i in range(64)], hash=hash)
    for count, numbers in *((count, range(count + 1)) for count in range(6)), (64, (0, 1, 63, 64)), (300, (299, 300)):
        for used in numbers:
            ledger = drawn_used(source, used) + [FREE] * (count - used)
            first = submitted(ledger, made(hash=hash), NEW if used < count else FULL)
            again = submitted(first.after, sent_again(source, first.report), SEEN if used < count else FULL)
            yield from (first, again, submitted(again.after, largest, NEW if used + 1 < count else FULL))
            yield submitted(ledger, smallest, NEW if used < count else FULL)
            yield submitted(ledger, with_byte(smallest, len(smallest) - 1, 1), DIFFERS)
            yield submitted(ledger, b"", (11, 0))
            yield totalled(again.after)
            for place in range(used) if used < 6 else (0, used - 1):
                holding_it = ledger[:place] + [record_of(first.report)] + ledger[place + 1 :]
                yield submitted(holding_it, sent_again(source, first.report), SEEN)


def near_fingerprints(source, fingerprint):
    """Fingerprints that share all bytes but one with this one, or only the first eight, or all but them."""
    yield from (with_byte(fingerprint, at, change) for at in range(32) for change in (1, 128))
    yield fingerprint[:8] + drawn_bytes(source, 24)
    yield drawn_bytes(source, 8) + fingerprint[8:]


def other_fingerprints(hash, source):
    """Another fingerprint is another report's, however near it is: beside it the report is new, and then seen on either side of it."""
    report = made(hash=hash)
    own = record_of(report)
    for fingerprint in near_fingerprints(source, own.fingerprint):
        near = Record(fingerprint, 5, 1)
        yield submitted([near, FREE], report, NEW)
        yield submitted([near], report, FULL)
        yield submitted([near, own, FREE], sent_again(source, report), SEEN)
        yield submitted([own, near], sent_again(source, report), SEEN)
        yield totalled([own, near, FREE], (0, own.live + 5))


def other_reports(hash, source):
    """A report that differs in one field is seen where that is the send time or the attempt, and is new otherwise."""
    ledger = [record_of(made(hash=hash)), FREE]
    for name in FREE_FIELDS:
        for bit in (0, 8 * LAYOUT[name] - 1):
            report = made(hash=hash, **{name: WORKED[name] ^ 1 << bit})
            yield submitted(ledger, report, SEEN if name in ("send_time", "attempt") else NEW)
    for sites in ((), [site(b"ac")], [site(b"a")], [site(b"ab", 4097)], [site(b"ab", blocks=3)], [site(b"ab"), site(b"ab")]):
        yield submitted(ledger, made(sites, hash=hash), NEW)
    yield submitted(ledger, made(hash=3 - hash), NEW)


def key_lengths(hash, source):
    """Keys of many lengths, the shortest too. Under another tag key the tag differs, and under another fingerprint key a report that
    was counted is new."""
    for tag_key, fingerprint_key in itertools.product(map(pattern, KEY_LENGTHS), repeat=2):
        report, own = made(hash=hash, key=tag_key), (tag_key, fingerprint_key)
        first = submitted([FREE, FREE], report, NEW, own)
        yield first
        yield submitted(first.after, sent_again(source, report, tag_key), SEEN, own)
        yield submitted(first.after, report, DIFFERS, (tag_key + b"\1", fingerprint_key))
        yield submitted(first.after, report, NEW, (tag_key, fingerprint_key + b"\1"))
    yield submitted([FREE], made(hash=hash), DIFFERS, KEYS[::-1])


def short_keys(hash, source):
    """A tag key or a fingerprint key that is too short, or both, where the tag is right and where it is not; then keys of 16 bytes with
    the same block form, under which the report is new."""
    good = KEYS[1]
    for short in map(pattern, SHORT_KEY_LENGTHS):
        under, long_enough = made(hash=hash, key=short), short.ljust(16, b"\0")
        for ledger in ([FREE, FREE], [], holding(source, [5]), holding(source, [LARGEST_64]) + [FREE]):
            yield submitted(ledger, under, SHORT, (short, good))
            yield submitted(ledger, under, SHORT, (short, short))
            yield submitted(ledger, made(hash=hash), SHORT, (KEY, short))
        yield submitted([FREE], made(hash=hash), SHORT, (short, good))
        yield submitted([FREE], made(hash=hash), DIFFERS, (KEY[::-1], short))
        yield submitted([would_be(made(hash=hash), short), FREE], made(hash=hash), SHORT, (KEY, short))
        yield submitted([FREE], under, NEW, (long_enough, long_enough))


# Live bytes of used records and of a report, and whether that is entered or the sum would be too large.
SUMS = (
    ([], LARGEST_64, NEW), ([LARGEST_64], 0, NEW), ([LARGEST_64], 1, OVER), ([1], LARGEST_64 - 1, NEW), ([1], LARGEST_64, OVER),
    ([HALF], HALF - 1, NEW), ([HALF - 1], HALF, NEW), ([HALF], HALF, OVER), ([LARGEST_64], LARGEST_64, OVER),
    ([0, 0], LARGEST_64, NEW), ([QUARTER] * 3, QUARTER - 1, NEW), ([QUARTER] * 3, QUARTER, OVER), ([2**32 - 1], 1, NEW),
    ([2**58] * 63, 2**58 - 1, NEW), ([2**58] * 63, 2**58, OVER), ([HALF, HALF - 1], 1, OVER), ([HALF, HALF - 1], LARGEST_64, OVER),
)


def sums(hash, source):
    """Both sides of 2^64 - 1, with free records and with none, and where the report is seen. What is too large leaves room for what
    just fits."""
    for live, more, made_for in SUMS:
        used = holding(source, live)
        sites = [site(b"s", more)] if more % 2 else [site(b"s", more // 2), site(b"t", more - more // 2)]
        report = made(sites, hash=hash)
        fitting = made([site(b"s", LARGEST_64 - sum(live))], hash=hash, number=10)
        for free in (1, 3):
            first = submitted(used + [FREE] * free, report, made_for)
            yield from (first, totalled(first.after))
            if made_for == OVER:
                yield submitted(first.after, fitting, NEW)
        yield submitted(used, report, FULL)
        own = record_of(report)
        if used and sum(live[1:]) + more <= LARGEST_64:
            for ledger in ([own, *used[1:]], [*used[1:], own, FREE]):
                yield submitted(ledger, sent_again(source, report), SEEN)
                yield submitted(ledger + [FREE], made(sites, hash=hash, number=10))


def sound_ledgers(source):
    """Ledgers that look odd and are sound."""
    one, two = drawn_used(source, 2)
    yield from ([], [FREE], [FREE] * 40, [one], [one, FREE], [one, two], [one, two, FREE, FREE], drawn_used(source, 40))
    # A fingerprint of zeros is a fingerprint, and free records do not repeat it.
    for zero in (FREE._replace(in_use=1), FREE._replace(live=7, in_use=1)):
        yield from ([zero], [zero, FREE], [zero, FREE, FREE], [one, zero, FREE], [zero, one], [one, zero])
    yield holding(source, [0, 0, 0]) + [FREE]
    for near in near_fingerprints(source, one.fingerprint):
        other = Record(near, one.live, 1)
        yield from ([one, other, FREE], [one, two, other])
    for live in (
        [LARGEST_64], [LARGEST_64, 0], [0, LARGEST_64], [LARGEST_64 - 1, 1], [1, LARGEST_64 - 1], [HALF, HALF - 1], [QUARTER] * 3,
        [2**58] * 63 + [2**58 - 1], [1] * 40 + [LARGEST_64 - 40],
    ):
        yield from (holding(source, live), holding(source, live) + [FREE] * 2)


def with_holes(source):
    one, two, three = drawn_used(source, 3)
    yield from ([FREE, one], [one, FREE, two], [one, FREE, FREE, two, FREE], [FREE, one, two], [one, two, FREE, three])
    for place in (0, 1, 20, 39):
        ledger = drawn_used(source, 40)
        yield ledger[:place] + [FREE] + ledger[place:]
    yield [FREE] * 40 + [one]
    yield [FREE, FREE._replace(in_use=1)]


def with_stained_free_records(source):
    """A free record in which one byte is not zero, each in turn, and one whose in_use is not 0; where it is 1, the record is used."""
    one, two = drawn_used(source, 2)
    for at in range(RECORD_BYTES):
        for change in (2, 128) if at == 40 else (1, 128):
            stained = with_record_byte(FREE, at, change)
            yield from ([stained], [one, two, stained, FREE], [one, FREE, FREE, stained])
    for in_use in (0, 2, 3, 255, 256, 257, 2**16 + 1, 2**32, 2**32 + 1, 2**48 + 1, 2**63, 2**63 + 1, LARGEST_64):
        odd = one._replace(in_use=in_use)
        yield from ([odd], [odd, FREE], [two, odd], [odd, two], [two, odd, FREE])
        if in_use:
            yield from ([FREE._replace(in_use=in_use)], [two, FREE, FREE._replace(in_use=in_use)])


def with_repeated_fingerprints(source):
    """A fingerprint twice, next to each other and far apart, with the same live bytes and with others; and more often."""
    for apart in (1, 2, 3, 8, 40):
        one, *between = drawn_used(source, apart)
        for live in (one.live, one.live + 1, 0):
            other = one._replace(live=live)
            yield [one, *between, other]
            yield [*drawn_used(source, 2), one, *between, other, *drawn_used(source, 3), FREE]
        yield [one, *between, one, one, FREE]
    yield [FREE._replace(in_use=1)] * 2
    one, *others = drawn_used(source, 200)
    yield [one, *others, one]
    yield [*others, one, one, FREE]


def with_large_sums(source):
    for live in (
        [LARGEST_64, 1], [1, LARGEST_64], [HALF, HALF], [QUARTER] * 4, [2**58] * 64, [LARGEST_64] * 2, [LARGEST_64] * 3,
        [HALF, HALF, 5], [0, LARGEST_64, 0, 1], [1] * 40 + [LARGEST_64 - 39], [LARGEST_64, 2, HALF, HALF],
    ):
        yield from (holding(source, live), holding(source, live) + [FREE] * 2)


def lent_ledgers(hash, source):
    """Every kind of ledger, with a report that is new to it, one that it holds or one whose tag differs."""
    report = made(hash=hash)
    wrong = with_byte(report, len(report) - 1, 1)
    for ledger in sound_ledgers(source):
        yield totalled(ledger, (0, rules.sum_of(ledger)))
        yield submitted(ledger, report)
        yield submitted(ledger, wrong, DIFFERS)
    for kind in (with_holes, with_stained_free_records, with_repeated_fingerprints, with_large_sums):
        for ledger in kind(source):
            yield totalled(ledger, (10, 0))
            yield submitted(ledger, report, UNSOUND)
            yield source.choice((submitted([record_of(report), *ledger], report, UNSOUND), submitted(ledger, wrong, UNSOUND)))


def changed_ledgers(hash, source):
    """Every byte of a ledger changed, among them those of the record of the report that is submitted."""
    report = made(hash=hash)
    ledger = [*drawn_used(source, 1), record_of(report), FREE, FREE]
    for place, record in enumerate(ledger):
        for at in range(RECORD_BYTES):
            for change in sorted({1, 128, source.randrange(1, 256)}):
                changed = ledger[:place] + [with_record_byte(record, at, change)] + ledger[place + 1 :]
                yield submitted(changed, sent_again(source, report))


# What a submission can meet, in the order of the checks that find it, with the answers; reading has a number for each fault.
MEETINGS = dict(
    unsound=UNSOUND, reading=None, tag_key=SHORT, tag=DIFFERS, fingerprint_key=SHORT, seen=SEEN, full=FULL, over=OVER,
)


def meeting(source, hash, met, fault):
    """A submission that meets all of this at once, with this fault of reading where reading is among it."""
    tag_key, fingerprint_key = KEYS[0][: 15 if "tag_key" in met else None], KEYS[1][: 15 if "fingerprint_key" in met else None]
    good = made(hash=hash, key=tag_key)
    own = would_be(made(hash=hash), fingerprint_key)
    used = drawn_used(source, 2) + [own] * ("seen" in met)
    if "over" in met:
        missing = LARGEST_64 - rules.sum_of(used) - own.live
        used += holding(source, [missing + source.choice((1, 2, own.live))])
    source.shuffle(used)
    ledger = used + [FREE] * (0 if "full" in met else source.randint(1, 3))
    if "unsound" in met:
        ledger = source.choice(([used[0]], [used[0]._replace(in_use=2)], holding(source, [LARGEST_64, 1]))) + ledger
    report = tagged(hash, faulty(hash, {fault})[: -TAG_BYTES[hash]], tag_key) if "reading" in met else good
    if "tag" in met:
        report = with_byte(report, len(report) - source.randint(1, TAG_BYTES[hash]), 1 << source.randrange(8))
    first = next((name for name in MEETINGS if name in met), None)
    made_for = NEW if first is None else (FAULTS[fault], 0) if first == "reading" else MEETINGS[first]
    return submitted(ledger, report, made_for, (tag_key, fingerprint_key))


def orders(hash, source):
    """All that a submission can meet, in every combination, and reading with each of its faults."""
    for count in range(len(MEETINGS) + 1):
        for met in itertools.combinations(MEETINGS, count):
            for fault in FAULTS if "reading" in met else (None,):
                yield meeting(source, hash, met, fault)


def damaged_ledger(source, ledger):
    """The ledger with a record changed in a byte, freed, or replaced by another one, which may leave it sound."""
    if not ledger:
        return ledger
    place = source.randrange(len(ledger))
    changed = with_record_byte(ledger[place], source.randrange(RECORD_BYTES), source.randrange(1, 256))
    return ledger[:place] + [source.choice((changed, FREE, *ledger[:2]))] + ledger[place + 1 :]


def drawn_submission(source, hashes, machines):
    """A new report of one of the machines, and the keys. A machine is its two keys."""
    keys = source.choice(machines)
    sites = [site(*drawn_site) for drawn_site in drawn_sites(source)]
    return made(sites, hash=source.choice(hashes), key=keys[0], **drawn_fields(source)), keys


def altered(source, machines, report, keys):
    """The same submission damaged, with a key that may be another machine's, with a key that is too short, or as it was."""
    others = source.choice(machines)
    return source.choice((
        (damaged(report, source), keys), (report, (others[0], keys[1])), (report, (keys[0], others[1])),
        (report, (keys[0][:15], keys[1])), (report, (keys[0], keys[1][:15])), (report, keys),
    ))


def storm(source, hashes, count, steps):
    """Submissions one after the other to a ledger that starts empty, half of them retries of what was new or seen, each with its own
    time, attempt and right tag. Between them some are made to a damaged copy of the ledger, and are no part of the sequence."""
    machines = [(drawn_bytes(source, 32), drawn_bytes(source, 32)) for _ in range(3)]
    ledger, sequence, sent, answered = [FREE] * count, [], [], []
    for _ in range(steps):
        made_for = None
        if answered and source.randrange(2):
            report, keys = source.choice(answered)
            report, made_for = sent_again(source, report, keys[0]), SEEN
        elif sent and source.randrange(2):
            report, keys = altered(source, machines, *source.choice(sent))
        else:
            report, keys = drawn_submission(source, hashes, machines)
            sent.append((report, keys))
        if source.randrange(5) == 0:
            yield submitted(damaged_ledger(source, ledger), report, keys=keys)
        case = submitted(ledger, report, made_for, keys)
        yield case
        ledger = case.after
        sequence.append((report, *keys))
        if case.number == 0:
            answered.append((report, keys))
    yield totalled(ledger, (0, rules.counted(count, sequence)))


def storms(source):
    for hashes in ((1,), (2,), (1, 2)):
        for count, steps in (0, 20), (1, 30), (2, 40), (3, 60), (5, 80), (8, 100), (13, 120), (40, 120):
            yield from storm(source, hashes, count, steps)


def cases(source):
    """Every submission and every total. The same draws give the same cases."""
    for hash in HASHES:
        for part in (sizes, other_fingerprints, other_reports, key_lengths, short_keys, sums, lent_ledgers, changed_ledgers, orders):
            yield from part(hash, source)
    yield from storms(source)
