"""The states, buffers and pieces that tests/reports.py has fed to a stream, each as a record of bytes and the lines that answer it.

Where a case was made for some numbers, it says so, and the rules are held to them too. Far more cases are in tests/stream_cases.py."""
import stream_rules as rules
from report_cases import FAULTS, MOST_REPORT_BYTES, agrees, big, counted, faulty, made, of_length, prefixed, shown, site, with_byte
from report_rules import HASHES, UNTOUCHED
from stream_cases import CLOSED, IN_RANGE, OTHER_SIZES, OUT_OF_RANGE, counted_to, cut, pieces_of
from stream_rules import LARGEST_REPORT, MOST_COLLECTED

BEFORE = bytes([UNTOUCHED])


def line(fed):
    case = "refused" if fed.number else "whole" if fed.length else "more"
    return f"feed: {fed.number} {case}, {fed.used} {fed.length}, {fed.collected} {fed.closed}, {shown(fed.buffer.rstrip(BEFORE))}"


def feeding(pieces, made_for=None, beginning=b"", collected=None, closed=0, size=LARGEST_REPORT):
    """The case of feeding pieces; what the buffer begins with is collected unless something else is said."""
    collected = len(beginning) if collected is None else collected
    record = b"\7" + big(collected, 8) + big(closed, 4) + big(size, 4) + prefixed(beginning, size) + bytes([len(pieces)])
    record += b"".join(prefixed(piece, MOST_REPORT_BYTES) for piece in pieces)
    buffer, answers = beginning + BEFORE * (size - len(beginning)), []
    for piece in pieces:
        rest = True
        while rest:
            answers.append(rules.feed(collected, closed, buffer, piece))
            collected, closed, buffer, used = *answers[-1][3:], answers[-1].used
            piece, rest = piece[used:], 0 < used < len(piece)
    agrees([fed.number for fed in answers], made_for, f"stream {record.hex()}")
    return record, list(map(line, answers))


def totals():
    """Totals on both sides of the range: the fourth byte decides, and no byte after it is used where it closes the stream."""
    for total in (*IN_RANGE, *OUT_OF_RANGE):
        count, closes = counted_to(total), total in OUT_OF_RANGE
        yield feeding([count[:3], count[3:], b"", b"ab"], [0] + [11 if closes else 0] * 3)
        yield feeding([count + b"ab"], [11, 11] if closes else [0])
        yield feeding([count[2:] + b"a"], [11, 11] if closes else [0], count[:2])


def whole_reports():
    """The last byte of a report, one fewer and some more; a report that the reader refuses leaves the stream open."""
    bare = (of_length(size, hash=2) for size in (61, 76, 77))
    for report in (made(()), made(hash=2), *bare, with_byte(made(()), 4, 1)):
        [(number, _)] = rules.answers(report)
        yield feeding([report[:-1], b"", report[-1:], b""], [0, 0, number, 0])
        yield feeding([report + b"\0\0", b"\0"], [number, 0, 0])
        yield feeding([report[4:]], [number], report[:4])
    for hash in HASHES:
        for fault in FAULTS:
            report = counted(faulty(hash, [fault]))
            if rules.in_range(len(report)):
                yield feeding([report])
    largest = made([site(bytes([i]) * 48, 5, i) for i in range(64)], hash=2)
    yield feeding([largest], [0])
    yield feeding([largest[:3980], largest[3980:] + made(())], [0, 0, 0])


def streams():
    """One stream of two good reports, one that the reader refuses and a total that closes it, cut in many ways."""
    stream = made(()) + of_length(61, hash=2) + made(hash=2) + counted_to(60) + b"end"
    for size in (1, 4, 61, 62, 200, 4000):
        yield feeding(pieces_of(stream, size)[:255])
    for place in (0, 1, 3, 4, 5, 60, 61, 62, 65, 121, 122, 123):
        yield feeding(cut(stream, place, place))


def checks():
    """Each check beside those that come after it. A refused feed hands the state back, and a stream stays closed as it was."""
    smallest = made(())
    for closed in (0, *CLOSED):
        for collected in (3981, 2**32, 2**64 - 1):
            for size in (0, 3980, LARGEST_REPORT, 3982):
                yield feeding([smallest], [10], b"", collected, closed, size)
        for collected in (0, 61, MOST_COLLECTED):
            for size in OTHER_SIZES:
                yield feeding([smallest], [6], b"", collected, closed, size)
        for beginning, collected in ((smallest, 61), (smallest, 62), (counted_to(60), 4), (counted_to(3982), MOST_COLLECTED)):
            yield feeding([b"", smallest], [11 if closed else 10] * 2, beginning, collected, closed)
        yield feeding([smallest[60:]], [11 if closed else 0], smallest, 60, closed)


def cases():
    """Every case, as its record and its lines."""
    for part in (totals, whole_reports, streams, checks):
        yield from part()
