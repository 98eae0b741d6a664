"""States, buffers and pieces on which a stream is fed, each with what tests/stream_rules.py answers to it.

Where a case was made for one number, it says so, and the rules are held to that number too. A run feeds a stream piece by piece from the
fresh state, with the rest always fed again; whatever the pieces, its answers must be those that the rules give from the bytes alone."""
import collections
import sys

import stream_rules as rules
from report_cases import FAULTS, big, counted, drawn_bytes, faulty, made, of_length, site, with_byte
from report_rules import HASHES
from stream_rules import LARGEST_REPORT, MOST_COLLECTED

# A case: what is handed over, and what a feed answers to it.
Feed = collections.namedtuple("Feed", "collected closed buffer piece fed")

# How a feed comes out.
OUTCOMES = "more", "whole", "refused by the reader", "refused by the reader with 11", "closing", "refused by a check"

# Numbers that mean "closed", and counts that no stream has.
CLOSED = (1, 7, 256, 2**31, 2**32 - 1)
TOO_MANY = (3981, 3982, 4096, 2**16, 2**32, 2**32 + 3, 2**63, 2**64 - 1)
OTHER_SIZES = (0, 1, 4, 61, 3979, 3980, 3982, 4096)
# Totals on both sides of each end of the range, and such as would be in range if the sum wrapped or lost its upper bytes.
IN_RANGE = (61, 62, 76, 77, 255, 256, 260, 3980, 3981)
OUT_OF_RANGE = (4, 5, 59, 60, 3982, 3983, 4096, 2**16 + 61, 2**24 + 61, 2**31 + 61, 2**32 - 1, 2**32, 2**32 + 1, 2**32 + 3)


def hold(holds, what):
    if not holds:
        sys.exit(f"tests/stream_cases.py: {what}")


def fed(collected, closed, buffer, piece, made_for=None):
    answer = rules.feed(collected, closed, buffer, piece)
    hold(made_for in (None, answer.number), f"a feed made for {made_for} answers {answer.number}: {collected}, {closed}, {piece.hex()}")
    return Feed(collected, closed, buffer, piece, answer)


def outcome(case):
    answer = case.fed
    if answer.length > 0:
        return "whole" if answer.number == 0 else "refused by the reader with 11" if answer.number == 11 else "refused by the reader"
    if answer.number == 0:
        return "more"
    return "closing" if case.closed == 0 and answer.closed == 1 else "refused by a check"


def counted_to(total):
    """The four bytes that name a total."""
    return big(total - 4, 4)


def buffer_of(source, beginning=b""):
    return beginning + drawn_bytes(source, LARGEST_REPORT - len(beginning))


def run(source, pieces):
    """The feeds of a stream that is cut like this, in a buffer with any bytes."""
    collected, closed, buffer, found = 0, 0, buffer_of(source), []
    for piece in pieces:
        while True:
            case = fed(collected, closed, buffer, piece)
            yield case
            answer = case.fed
            collected, closed, buffer = answer.collected, answer.closed, answer.buffer
            if answer.number == 0 and answer.length == 0:
                hold(answer.used == len(piece), "more is wanted, and a rest is left")
                break
            found.append((answer.number, buffer[: answer.length]))
            if closed:
                break
            hold(answer.used > 0, "a report is whole, and no byte was used")
            piece = piece[answer.used :]
        if closed:
            break
    content = b"".join(pieces)
    hold(found == rules.answers(content), f"the answers to {content.hex()} depend on how it is cut: {[len(piece) for piece in pieces]}")


def cut(content, *places):
    return [content[start:end] for start, end in zip((0, *places), (*places, len(content)))]


def pieces_of(content, size):
    return [content[at : at + size] for at in range(0, len(content), size)]


def drawn_pieces(source, content, count):
    """A stream cut at drawn places, some of them the same, so that pieces are empty too."""
    places = sorted(source.choice((0, 1, 3, 4, 5, len(content), source.randint(0, len(content)))) for _ in range(count))
    return cut(content, *(min(place, len(content)) for place in places))


def short_streams(source):
    """Streams of some reports, good and damaged, with and without a total that closes them and bytes after it."""
    smallest, noise = made(()), drawn_bytes(source, 9)
    yield smallest + made(())[:30]
    yield made(hash=2) + smallest
    yield of_length(61, hash=2) + with_byte(smallest, 4, 1)
    yield counted_to(60) + noise
    yield smallest + counted_to(3982) + noise
    yield with_byte(smallest, 60, 1) + counted_to(2**32 + 3) + smallest


def cut_everywhere(source):
    """Each of them in two pieces, cut at every place, and in pieces of one size."""
    for stream in short_streams(source):
        for place in range(len(stream) + 1):
            yield from run(source, cut(stream, place))
    for stream in short_streams(source):
        for size in (1, 2, 3, 4, 5, 60, 61, 62, 64):
            yield from run(source, pieces_of(stream, size))


def drawn_streams(source):
    """Longer streams of good and damaged reports of both hashes, cut at drawn places."""
    for turn in range(60):
        reports = []
        for _ in range(source.randint(1, 6)):
            hash = source.choice(tuple(HASHES))
            kind = source.randrange(5)
            if kind == 0:
                reports.append(counted(faulty(hash, [source.choice(list(FAULTS))])))
            elif kind == 1:
                reports.append(of_length(source.choice((61, 70, 76, 77, 200)), hash=2))
            elif kind == 2:
                count = source.randint(0, 64)
                reports.append(made([site(drawn_bytes(source, source.randint(1, 48)), 5, 6) for _ in range(count)], hash=hash))
            else:
                reports.append(made(hash=hash, number=turn))
        if turn % 3 == 0:
            reports.insert(source.randint(0, len(reports)), counted_to(source.choice(OUT_OF_RANGE)))
        if turn % 4 == 0:
            reports.append(drawn_bytes(source, source.randint(1, 70)))
        yield from run(source, drawn_pieces(source, b"".join(reports), source.randint(0, 12)))
    largest = made([site(bytes([i]) * 48, i, i) for i in range(64)], hash=2)
    for size in (1000, 1327, 3980, 3981, 3982, 8000):
        yield from run(source, pieces_of(largest + largest + made(()), size))


def totals(source):
    """Totals on both sides of the range, told by the fourth byte: alone, with the bytes before it, and with bytes after it."""
    for total in (*IN_RANGE, *OUT_OF_RANGE):
        count, closes = counted_to(total), total in OUT_OF_RANGE
        for collected in range(4):
            for after in (b"", b"\0", drawn_bytes(source, 80)):
                buffer = buffer_of(source, count[:collected])
                yield fed(collected, 0, buffer, count[collected:] + after, 11 if closes else None)
            yield fed(collected, 0, buffer_of(source, count[:collected]), count[collected:3], 0)


def whole_reports(source):
    """A report's last byte, and the bytes around it."""
    reports = [made(()), made(hash=2), *(of_length(size, hash=2) for size in (61, 75, 76, 77)), *map(of_length, (61, 3980, 3981))]
    reports += [counted(faulty(hash, [fault])) for hash in HASHES for fault in FAULTS]
    for report in filter(lambda report: rules.in_range(len(report)), reports):
        size, [(number, _)] = len(report), rules.answers(report)
        for collected in sorted({0, 3, 4, 5, size - 2, size - 1}):
            buffer = buffer_of(source, report[:collected])
            yield fed(collected, 0, buffer, b"", 0)
            yield fed(collected, 0, buffer, report[collected:], number)
            yield fed(collected, 0, buffer, report[collected:] + report, number)
            if collected < size - 1:
                yield fed(collected, 0, buffer, report[collected:-1], 0)


def states(source):
    """Any state with any buffer: each check beside those that come after it."""
    smallest = made(())
    lost = [(total, collected) for total in OUT_OF_RANGE for collected in (4, 5, 61, MOST_COLLECTED)]
    lost += [(total, collected) for total in IN_RANGE[:-1] for collected in (total, min(total + 1, MOST_COLLECTED), MOST_COLLECTED)]
    for closed in (0, *CLOSED):
        for piece in (b"", smallest):
            for collected in TOO_MANY:
                for size in (*OTHER_SIZES, LARGEST_REPORT):
                    yield fed(collected, closed, drawn_bytes(source, size), piece, 10)
            for collected in (0, 3, 4, 61, MOST_COLLECTED):
                for size in OTHER_SIZES:
                    yield fed(collected, closed, drawn_bytes(source, size), piece, 6)
            for total, collected in lost:
                yield fed(collected, closed, buffer_of(source, counted_to(total)), piece, 11 if closed else 10)
            for collected in (0, 1, 3, 4, 60):
                yield fed(collected, closed, buffer_of(source, smallest), piece, 11 if closed else None)
    for _ in range(300):
        collected = source.choice((source.randrange(8), source.randrange(MOST_COLLECTED + 2)))
        total = source.choice((source.randint(4, 130), source.randint(3000, 4100), source.getrandbits(32) + 4))
        piece = drawn_bytes(source, source.choice((0, 1, 3, 70, 4000)))
        yield fed(collected, source.choice((0, 0, 0, 1, 2**31)), buffer_of(source, counted_to(total)), piece)


def cases(source):
    for part in (totals, whole_reports, states, cut_everywhere, drawn_streams):
        yield from part(source)
