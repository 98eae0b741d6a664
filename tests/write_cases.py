"""The headings, sites, keys and sizes of which tests/reports.py has reports written, each as a record of bytes and the lines that
answer it.

Where a case was made for one number, it says so, and the rules are held to that number too. A report that is written must have the
bytes that tests/report_cases.py makes and a right tag, and come out the same when it is read and written again."""
import itertools
import random

import report_rules as rules
from report_cases import (
    FREE_FIELDS, KEY, KEY_LENGTHS, LARGEST_32, LARGEST_64, LAYOUT, MIXED, MOST_KEY_BYTES, MOST_REPORT_BYTES, SHORT_KEY_LENGTHS, SUMS,
    WORKED, agrees, big, drawn_bytes, drawn_fields, drawn_sites, filled, hold, made, pattern, prefixed, read_line, shown, site,
)
from report_rules import HASHES, TAG_BYTES

# What a program with fixed arrays must have room for in each list of numbers.
MOST_NUMBERS = 80

# The fields that are handed over and the columns of the sites' numbers, each with how many bytes a number has in a record. The hash
# has four there, so that it can be one for which a report has no room.
HEADING = dict(hash=4, **{name: LAYOUT[name] for name in FREE_FIELDS})
COLUMNS = dict(lengths=4, live=8, blocks=4)

WORKED_SITE = (b"ab", 4096, 2)
SHORT_SITE = (b"a", 1, 1)


def columns(sites):
    """The labels of sites end to end, and the columns of their numbers. A site is its label, its live bytes and its live blocks."""
    labels, live, blocks = zip(*sites) if sites else ((), (), ())
    return dict(labels=b"".join(labels), lengths=[len(label) for label in labels], live=list(live), blocks=list(blocks))


def listed(numbers, size):
    hold(len(numbers) <= MOST_NUMBERS, f"{len(numbers)} numbers where a record has room for {MOST_NUMBERS}")
    return big(len(numbers), 4) + b"".join(big(number, size) for number in numbers)


def written_again(report, key, size):
    """What writing answers to what reading answers."""
    _, fields = rules.read(report)
    sites = [(rules.label(report, place)[1], *rules.site(report, place)[1][2:]) for place in range(fields[9])]
    return rules.write(fields[2:9], **columns(sites), tag_key=key, size=size)


def lines(answer, key):
    """The line of an answer, and of a report that is written also those of its check, of its reading and of its writing again, which
    is the first line once more."""
    number, length, out = answer
    line = f"write: {number}, {length}, {shown(out)}"
    if number:
        return [line]
    report = out[:length]
    hold(rules.check(report, key) == 0, f"the report {report.hex()} is written with a wrong tag")
    hold(written_again(report, key, len(out)) == answer, f"the report {report.hex()} is another when it is written again")
    return [line, "check: 0", read_line(report), line]


def room(given):
    """How many bytes the report has; the tag is hash 1's where there is no such hash."""
    return 45 + len(given["labels"]) + 13 * len(given["lengths"]) + TAG_BYTES.get(given["hash"], TAG_BYTES[1])


def writing(sites=(WORKED_SITE,), made_for=None, longer=0, size=None, key=KEY, **changed):
    """The case of writing the worked report but for what is changed: its sites, its fields, and columns of the sites. The output is
    so many bytes longer than the report, or of a size that is given."""
    given = {**WORKED, **columns(sites), **changed}
    size = room(given) + longer if size is None else size
    hold(size <= MOST_REPORT_BYTES, "an output of a report is too large")
    heading = [given[name] for name in HEADING]
    handed = {name: given[name] for name in ("labels", *COLUMNS)}
    answer = rules.write(heading, **handed, tag_key=key, size=size)
    agrees(answer[0], made_for, f"report of {heading} and {handed} over {size} bytes")
    if answer[0] == 0:
        expected = made([site(*each) for each in sites], key=key, **changed)
        hold(answer[2][: answer[1]] == expected, f"the report {expected.hex()} is written otherwise")
    record = (
        b"\5" + b"".join(big(given[name], width) for name, width in HEADING.items()) + prefixed(given["labels"], MOST_REPORT_BYTES)
        + b"".join(listed(given[name], width) for name, width in COLUMNS.items()) + prefixed(key, MOST_KEY_BYTES) + big(size, 4)
    )
    return record, lines(answer, key)


def good_reports(hash):
    yield writing(made_for=0, hash=hash)
    yield writing((), 0, hash=hash)
    yield writing([(pattern(i % 48 + 1), i, 64 - i) for i in range(64)], 0, hash=hash)
    for byte, labelled in ((b"\0", (bytes(48), 0, 0)), (b"\xff", (b"\xff" * 48, LARGEST_64, LARGEST_32))):
        yield writing([labelled], 0, hash=hash, **filled(byte))
    yield writing([(b"\0", 0, 0), (b"\xff", 0x2627282930313233, 0x34353637)], 0, hash=hash, **MIXED)
    for key in map(pattern, KEY_LENGTHS):
        yield writing(made_for=0, hash=hash, key=key)


def largest(hash):
    sites = [(bytes([i]) * 48, 2**58 - 1, i) for i in range(64)]
    yield writing(sites, 0, hash=hash)
    yield writing(sites, 18, hash=hash, longer=-1)


def hashes():
    """The output has room for the report of either hash."""
    for hash in (0, 1, 2, 3, 255, 256, 257, 258, 2**16 + 1, 2**24 + 2, 2**31 + 1, LARGEST_32):
        yield writing(made_for=0 if hash in HASHES else 2, hash=hash, size=92)


def numbers_of_sites(hash):
    for count in (63, 64, 65, 66):
        yield writing([SHORT_SITE] * count, 0 if count <= 64 else 13, hash=hash)


def label_lengths(hash):
    for length in (0, 1, 2, 47, 48, 49, 255, 256, 257, 304):
        number = 0 if 1 <= length <= 48 else 14
        labelled = (pattern(length), 4096, 2)
        yield writing([labelled], number, hash=hash)
        if length in (0, 48, 49, 257):
            yield writing([labelled, WORKED_SITE], number, hash=hash)
            yield writing([WORKED_SITE, SHORT_SITE, labelled], number, hash=hash)
    # Lengths that no label of a record has; the second pair adds up to the labels' bytes where a sum wraps at 2^32.
    for lengths in ([LARGEST_32, 2], [LARGEST_32, 5], [2, 2**31], [2**16 + 2, 2]):
        yield writing([WORKED_SITE] * 2, 14, hash=hash, lengths=lengths)


def label_bytes(hash):
    for sites in ((), [WORKED_SITE], [WORKED_SITE, (pattern(48), 0, 0), SHORT_SITE], [SHORT_SITE] * 64):
        labels = columns(sites)["labels"]
        for other in sorted({labels[:-1], b"", labels + b"a", labels + bytes(256)} - {labels}):
            yield writing(sites, 15, hash=hash, labels=other)
    for lengths in ([1, 2], [2, 1], [3, 2], [2, 3], [48, 48]):
        yield writing([WORKED_SITE] * 2, 15, hash=hash, lengths=lengths)


def sums(hash):
    for number, *sizes in SUMS:
        yield writing([(b"s", live, 1) for live in sizes], number, hash=hash)


def resized(own, change):
    """Columns of short sites with so many numbers more or fewer, and labels of as many bytes as the lengths then add up to."""
    changed = {name: (own[name] + [1] * more)[: len(own[name]) + more] for name, more in change.items()}
    return dict(labels=b"a" * len(changed.get("lengths", own["lengths"])), **changed)


def unequal_columns(hash):
    """One column longer or shorter than the others, two of them, and one longer and another shorter."""
    changes = [{name: more} for name in COLUMNS for more in (1, -1)]
    changes += [dict.fromkeys(two, more) for two in itertools.combinations(COLUMNS, 2) for more in (1, -1)]
    changes += [{longer: 1, shorter: -1} for longer, shorter in itertools.permutations(COLUMNS, 2)]
    for count in (0, 1, 3):
        for change in changes if count else changes[0:6:2]:
            yield writing([SHORT_SITE] * count, 6, hash=hash, **resized(columns([SHORT_SITE] * count), change))
    for name in COLUMNS:
        yield writing([SHORT_SITE] * 64, 6, hash=hash, **resized(columns([SHORT_SITE] * 64), {name: 1}))


def short_keys(hash):
    for key in map(pattern, SHORT_KEY_LENGTHS):
        yield writing(made_for=21, hash=hash, key=key)
        yield writing((), 21, hash=hash, key=key)
        yield writing(made_for=21, hash=hash, key=key, longer=-1)
        yield writing([(b"s", LARGEST_64, 1), (b"s", 1, 1)], 16, hash=hash, key=key)


def output_sizes(hash):
    for sites in ((), [WORKED_SITE], [(pattern(48), 5, 6), SHORT_SITE, WORKED_SITE]):
        for longer in (0, 1, 100):
            yield writing(sites, 0, longer, hash=hash)
        for longer in (-1, -16, -TAG_BYTES[hash]):
            yield writing(sites, 18, longer, hash=hash)
        for size in (0, 1, 45, 60):
            yield writing(sites, 18, size=size, hash=hash)


# Faults in the order of the checks that find them, with their numbers. 3, just before 21, would take a key of 2^61 bytes.
FAULTS = dict(hash=2, column=6, sites=13, label=14, bytes=15, sum=16, key=21, size=18)


def faulty(hash, faults):
    """Two sites, or 65, to be written with these faults."""
    sites = [(b"ab", LARGEST_64 if "sum" in faults else 4096, 2), (pattern(49 if "label" in faults else 3), 1, 3)]
    sites += [(b"a", 0, 0)] * (63 if "sites" in faults else 0)
    own = columns(sites)
    return writing(
        sites, FAULTS[faults[0]], size=60 if "size" in faults else None, hash=3 if "hash" in faults else hash,
        key=KEY[:15] if "key" in faults else KEY,
        labels=own["labels"] + b"a" * ("bytes" in faults), blocks=own["blocks"][int("column" in faults) :],
    )


def orders(hash):
    """Every two faults, or under hash 2 each fault with all that come after it, and each one alone."""
    names = list(FAULTS)
    yield from (faulty(hash, [name]) for name in names)
    for faults in itertools.combinations(names, 2) if hash == 1 else (names[i:] for i in range(len(names) - 1)):
        yield faulty(hash, faults)


def damaged(own, source):
    """Another hash or another column, or none."""
    name = source.choice(list(COLUMNS))
    return source.choice((
        {}, {}, {}, {}, {},
        dict(hash=source.getrandbits(source.choice((2, 9, 32)))),
        {name: own[name] + [source.randrange(1, 49)]},
        {name: own[name][:-1]},
        dict(labels=own["labels"] + drawn_bytes(source, source.randrange(1, 49))),
        dict(labels=own["labels"][: -source.randrange(1, 49)]),
        dict(lengths=[source.choice((length, 0, 49)) for length in own["lengths"]]),
    ))


def drawn():
    """Cases from a source with a fixed seed, so that they are the same in every run."""
    source = random.Random(2104)
    for _ in range(100):
        sites, fields = drawn_sites(source), drawn_fields(source)
        changed = {**fields, "hash": source.choice((1, 2)), **damaged(columns(sites), source)}
        key = drawn_bytes(source, source.randrange(16, 160))
        yield writing(sites, longer=source.choice((0, 0, 0, -1, 1, 30)), key=key, **changed)


def cases():
    """Every case, as its record and its lines."""
    for hash in HASHES:
        for part in (
            good_reports, largest, numbers_of_sites, label_lengths, label_bytes, sums, unequal_columns, short_keys, output_sizes, orders,
        ):
            yield from part(hash)
    yield from hashes()
    yield from drawn()
