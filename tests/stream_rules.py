"""The rules of docs/PROTOCOL.md on streams: one feed, byte by byte, and the answers to a stream from its bytes alone.

Reading a whole report comes from tests/report_rules.py, and everything else is written here from the document."""
import collections

import report_rules

SMALLEST_REPORT, LARGEST_REPORT = 61, 3981
MOST_COLLECTED = 3980

# The number, how many bytes of the piece were used, the length of a whole report, and the state and the buffer after the feed.
Fed = collections.namedtuple("Fed", "number used length collected closed buffer")


def total_of(content):
    return int.from_bytes(content[:4], "big") + 4


def in_range(total):
    return SMALLEST_REPORT <= total <= LARGEST_REPORT


def feed(collected, closed, buffer, piece):
    def refused(number):
        return Fed(number, 0, 0, collected, closed, buffer)

    if collected > MOST_COLLECTED:
        return refused(10)
    if len(buffer) != LARGEST_REPORT:
        return refused(6)
    if closed == 0 and collected >= 4 and not (in_range(total_of(buffer)) and collected < total_of(buffer)):
        return refused(10)
    if closed != 0:
        return refused(11)
    now = bytearray(buffer)
    for used, byte in enumerate(piece, 1):
        now[collected] = byte
        collected += 1
        if collected == 4 and not in_range(total_of(now)):
            return Fed(11, used, 0, 0, 1, bytes(now))
        if collected >= 4 and collected == total_of(now):
            return Fed(report_rules.read(bytes(now[:collected]))[0], used, collected, 0, 0, bytes(now))
    return Fed(0, len(piece), 0, collected, 0, bytes(now))


def answers(content):
    """The answers other than "more" to a stream, each as a number and the bytes of its report, up to the one that closes it."""
    found = []
    while len(content) >= 4:
        total = total_of(content)
        if not in_range(total):
            return found + [(11, b"")]
        if len(content) < total:
            return found
        found.append((report_rules.read(content[:total])[0], content[:total]))
        content = content[total:]
    return found
