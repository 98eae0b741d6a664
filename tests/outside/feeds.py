#!/usr/bin/env python3
"""Feeds for the programs that feed streams from outside, with the answers of tests/stream_rules.py.

    python3 tests/outside/feeds.py FILE [SEED]    writes the feeds to FILE and prints how many gave each number, and how they came out

The feeds are the same in every run with the same seed. The file has, with numbers' lowest bytes first: 8 bytes "TIRMUZZF", the seed in
8, how many feeds in 4, and then the feeds one after the other, each as

    4   the number that it must answer
    4   how many bytes the piece has
    4   how many bytes the buffer has
    16  collected, before the feed and after it, in 8 bytes each
    8   closed, before the feed and after it, in 4 bytes each
    8   used, after the feed
    8   length, after the feed
        then the piece, the buffer before the feed, and the buffer after it

A caller hands an empty buffer over as NULL and as a pointer by turns, so that no feed says which."""
import collections
import pathlib
import random
import struct
import sys

sys.dont_write_bytecode = True  # tests/ holds sources only
sys.path.insert(0, str(pathlib.Path(__file__).resolve().parent.parent))
import stream_cases

SEED = 20180
# The numbers that a feed can be brought to answer.
NUMBERS = (0, 2, 6, 10, 11, 12, 13, 14, 15, 16)


def hold(holds, what):
    if not holds:
        sys.exit(f"tests/outside/feeds.py: {what}")


def hold_to_numbers(feeds):
    """Every number is reached at least twice, a feed comes out in each way at least twice, and each buffer is empty at least once. Prints
    how often each is."""
    reached = collections.Counter(feed.fed.number for feed in feeds)
    print("stream_feed: " + ", ".join(f"{number} {reached[number]} times" for number in NUMBERS))
    hold(min(reached[number] for number in NUMBERS) >= 2, "a number is answered fewer than two times")
    hold(len(reached) == len(NUMBERS), "a feed answers a number that is not its own")
    outcomes = collections.Counter(map(stream_cases.outcome, feeds))
    print("stream_feed: " + ", ".join(f"{outcome} {outcomes[outcome]} times" for outcome in stream_cases.OUTCOMES))
    hold(min(outcomes[outcome] for outcome in stream_cases.OUTCOMES) >= 2, "a feed comes out in some way fewer than two times")
    hold(any(not feed.piece for feed in feeds), "the piece is never empty")
    hold(any(not feed.buffer for feed in feeds), "the buffer is never empty")


def spelled(feed):
    after = feed.fed
    state = feed.collected, after.collected, feed.closed, after.closed
    head = struct.pack("<IIIQQIIQQ", after.number, len(feed.piece), len(feed.buffer), *state, after.used, after.length)
    return head + feed.piece + feed.buffer + after.buffer


def main(arguments):
    if len(arguments) not in (1, 2):
        sys.exit(__doc__)
    seed = int(arguments[1]) if len(arguments) == 2 else SEED
    feeds = list(stream_cases.cases(random.Random(seed)))
    hold_to_numbers(feeds)
    content = b"TIRMUZZF" + struct.pack("<QI", seed, len(feeds)) + b"".join(map(spelled, feeds))
    pathlib.Path(arguments[0]).write_bytes(content)
    print(f"{len(feeds)} feeds, {len(content)} bytes, seed {seed}")


if __name__ == "__main__":
    main(sys.argv[1:])
