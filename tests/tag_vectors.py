"""The HMAC part of tests/vectors.py.

HMAC is written here from FIPS 198-1 over the hashes of tests/hash_vectors.py, and keyed states, numbers and refusals from
docs/PROTOCOL.md. It is held to the tags that RFC 4231 prints and to Python's hmac module."""
import hashlib
import hmac

import hash_vectors
from hash_vectors import HASHES, MOST_BYTES, UNTOUCHED, State, answer, hold

# The test cases of RFC 4231: key, message, the tag of SHA-256 and that of SHA-512. The fifth prints 16 bytes of each.
CASES = [
    (b"\x0b" * 20, b"Hi There",
     "b0344c61d8db38535ca8afceaf0bf12b881dc200c9833da726e9376c2e32cff7",
     "87aa7cdea5ef619d4ff0b4241a1d6cb02379f4e2ce4ec2787ad0b30545e17cde"
     "daa833b7d6b8a702038b274eaea3f4e4be9d914eeb61f1702e696c203a126854"),
    (b"Jefe", b"what do ya want for nothing?",
     "5bdcc146bf60754e6a042426089575c75a003f089d2739839dec58b964ec3843",
     "164b7a7bfcf819e2e395fbe73b56e0a387bd64222e831fd610270cd7ea250554"
     "9758bf75c05a994a6d034f65f8f0e6fdcaeab1a34d4a6b4b636e070a38bce737"),
    (b"\xaa" * 20, b"\xdd" * 50,
     "773ea91e36800e46854db8ebd09181a72959098b3ef8c122d9635514ced565fe",
     "fa73b0089d56a284efb0f0756c890be9b1b5dbdd8ee81a3655f83e33b2279d39"
     "bf3e848279a722c806b485a47e67c807b946a337bee8942674278859e13292fb"),
    (bytes(range(1, 26)), b"\xcd" * 50,
     "82558a389a443c0ea4cc819899f2083a85f0faa3e578f8077a2e3ff46729665b",
     "b0ba465637458c6990e5a8c5f61d4af7e576d97ff94b872de76f8050361ee3db"
     "a91ca5c11aa25eb4d679275cc5788063a5f19741120c4f2de2adebeb10a298dd"),
    (b"\x0c" * 20, b"Test With Truncation",
     "a3b6167473100ee06e0c796c2955552b",
     "415fad6271580a531d4179bc891d87a6"),
    (b"\xaa" * 131, b"Test Using Larger Than Block-Size Key - Hash Key First",
     "60e431591ee0b67f0d8a26aacbf5b77f8e0bc6213728c5140546040f0ee37f54",
     "80b24263c7c1a3ebb71493c1dd7be8b49b46d1f41b4aeec1121b013783f8f352"
     "6b56d037e05f2598bd0fd2215d6a1e5295e64f73f63f0aec8b915a985d786598"),
    (b"\xaa" * 131,
     b"This is a test using a larger than block-size key and a larger than block-size data. "
     b"The key needs to be hashed before being used by the HMAC algorithm.",
     "9b09ffa71b942fcb27635fbcd5b0e944bfdc63644f0713938a7f51535c3a35e2",
     "e37b6a775dc87dbaa4dfa9f96e5e3ffddebd71f8867289865df5a32d20cdc944"
     "b6022cac3c4982b10d5eeb55c3e4de15134676fb6de0446065c97440fa8c6a58"),
]

# The tag lengths that each hash gives.
LENGTHS = {1: range(16, 33), 2: range(32, 65)}

KEY, MESSAGE = b"Jefe", b"abc"


def name(hash):
    return f"HMAC-{hash.name}"


def number_of(hash):
    return next(number for number, other in HASHES.items() if other is hash)


def digest(number, message):
    refusal, made = hash_vectors.digest(number, message, HASHES[number].size)
    hold(refusal == 0, "a digest is refused")
    return made


def block_form(number, key):
    """The key with zeros after it up to a block; a longer key's digest."""
    block = HASHES[number].block
    return (digest(number, key) if len(key) > block else key).ljust(block, b"\0")


def pad(number, key, byte):
    return bytes(x ^ byte for x in block_form(number, key))


def whole_tag(number, key, message):
    """The full tag as the standard's equation has it."""
    inside = digest(number, pad(number, key, 0x36) + message)
    return digest(number, pad(number, key, 0x5C) + inside)


class Keyed:
    """A keyed state of work in pieces (docs/PROTOCOL.md), which no call changes."""

    def __init__(self, inner, tag_length, outer):
        self.hash, self.inner, self.tag_length, self.outer = inner.hash, inner, tag_length, list(outer)

    def sound(self):
        return (
            self.inner.sound()
            and self.inner.count >= self.hash.block
            and all(x < 2**self.hash.width for x in self.outer)
            and self.tag_length in LENGTHS[number_of(self.hash)]
        )

    def same(self, other):
        return self.inner.same(other.inner) and (self.tag_length, self.outer) == (other.tag_length, other.outer)

    def full(self):
        """The full tag of a sound one, of which its tag is the beginning."""
        _, inside = hash_vectors.finish(self.inner, self.hash.size)
        _, outer = hash_vectors.update(State(self.hash, self.outer, self.hash.block, b""), inside)
        return hash_vectors.finish(outer, self.hash.size)[1]

    def __str__(self):
        words = " ".join(f"{x:016x}" for x in self.outer)
        return f"HMAC-{self.inner}, outer words {words}, tag length {self.tag_length}"


def start(number, key, tag_length):
    refusal = 2 if number not in HASHES else 5 if tag_length not in LENGTHS[number] else 0
    if refusal:
        return refusal, Keyed(State(HASHES[1], [0] * 8, 0, b""), 0, [0] * 8)
    hash = HASHES[number]
    inner, _ = hash.after(hash.first, pad(number, key, 0x36))
    outer, _ = hash.after(hash.first, pad(number, key, 0x5C))
    return 0, Keyed(State(hash, inner, hash.block, b""), tag_length, outer)


def update(keyed, piece):
    if not keyed.sound():
        return 10, keyed
    refusal, inner = hash_vectors.update(keyed.inner, piece)
    return refusal, Keyed(inner, keyed.tag_length, keyed.outer)


def refused(keyed, size):
    """The number with which a tag in so many bytes is refused, or 0."""
    if not keyed.sound():
        return 10
    return 0 if size == keyed.tag_length else 6


def tag(keyed, size):
    """The number, and what an output of this size then holds."""
    refusal = refused(keyed, size)
    return refusal, bytes([UNTOUCHED]) * size if refusal else keyed.full()[: keyed.tag_length]


def verify(keyed, presented):
    refusal = refused(keyed, len(presented))
    return refusal or int(presented != keyed.full()[: keyed.tag_length])


def taken(number, key, message, tag_length):
    refusal, keyed = start(number, key, tag_length)
    return (refusal, keyed) if refusal else update(keyed, message)


def message_refused(number, key, message, tag_length, size):
    """The number with which a whole message is refused, or 0: the list of docs/PROTOCOL.md, and no work in pieces."""
    if number not in HASHES:
        return 2
    if len(key) > MOST_BYTES:
        return 3
    if tag_length not in LENGTHS[number]:
        return 5
    if len(message) > MOST_BYTES - HASHES[number].block:
        return 4
    return 0 if size == tag_length else 6


def tag_message(number, key, message, tag_length, size):
    refusal = message_refused(number, key, message, tag_length, size)
    return refusal, bytes([UNTOUCHED]) * size if refusal else whole_tag(number, key, message)[:tag_length]


def verify_message(number, key, message, tag_length, presented):
    refusal = message_refused(number, key, message, tag_length, len(presented))
    return refusal or int(presented != whole_tag(number, key, message)[:tag_length])


def pattern(length):
    return bytes(i % 251 + 1 for i in range(length))


def hold_to_library(number, key, message):
    known = hmac.new(key, message, {1: hashlib.sha256, 2: hashlib.sha512}[number]).digest()
    what = f"{name(HASHES[number])} of {len(message)} bytes under a key of {len(key)}"
    hold(whole_tag(number, key, message) == known, f"{what} is not that of the hmac module")
    _, keyed = taken(number, key, message, len(known))
    hold(tag(keyed, len(known)) == (0, known), f"{what} differs in pieces")


def hold_to_others():
    """The tags made here against RFC 4231's and the hmac module's."""
    for number, hash in HASHES.items():
        for length in (0, 1, hash.block - 1, hash.block, hash.block + 1, 300):
            hold_to_library(number, pattern(length), MESSAGE)
            hold_to_library(number, KEY, pattern(length))
    for place, (key, message, *published) in enumerate(CASES, 1):
        for number, printed in zip(HASHES, published):
            hold_to_library(number, key, message)
            known = bytes.fromhex(printed)
            ours = whole_tag(number, key, message)[: len(known)]
            hold(ours == known, f"{name(HASHES[number])} of case {place} is not RFC 4231's")
            hold(len(known) == (16 if place == 5 else HASHES[number].size), f"case {place} has a tag of another length")


def changed(tag, places):
    return bytes(x ^ (i in places) for i, x in enumerate(tag))


def with_last(keyed, byte):
    """The same with another byte at the last place, where none waits."""
    inner = keyed.inner
    waiting = inner.waiting[:-1] + bytes([byte])
    return Keyed(State(inner.hash, inner.words, inner.count, waiting), keyed.tag_length, keyed.outer)


def with_length(keyed, tag_length):
    """The same with another tag length."""
    return Keyed(keyed.inner, tag_length, keyed.outer)


def back(refusal, given, handed):
    return f"{refusal}, {'the same' if handed.same(given) else 'another'} state"


def case_lines(number, place, key, message):
    hash = HASHES[number]
    size = 16 if (number, place) == (1, 5) else hash.size
    head = f"{name(hash)} of RFC 4231's case {place},"
    _, made = tag_message(number, key, message, size, size)
    yield f"{head} in one call: {answer(*tag_message(number, key, message, size, size))}"
    yield f"{head} verified: {verify_message(number, key, message, size, made)}"
    wrong = changed(made, [0])
    yield f"{head} verified with the first byte changed: {verify_message(number, key, message, size, wrong)}"
    middle = len(message) // 2
    _, half = update(start(number, key, size)[1], message[:middle])
    unsound = with_last(half, 1)
    refusal, handed = update(unsound, message[middle:])
    _, whole = update(with_last(handed, 0), message[middle:])
    way = "cut in the middle with a refused piece between"
    yield f"{head} {way}: {back(refusal, unsound, handed)}, then {answer(*tag(whole, size))}"
    _, keyed = start(number, key, size)
    for byte in message:
        _, keyed = update(keyed, bytes([byte]))
    yield f"{head} byte by byte: {answer(*tag(keyed, size))}"
    yield f"{head} the tag of the first half: {answer(*tag(half, size))}"
    _, whole = update(half, message[middle:])
    yield f"{head} the tag after the second half: {answer(*tag(whole, size))}"


def cases(number):
    for place, (key, message, *_) in enumerate(CASES, 1):
        yield from case_lines(number, place, key, message)


def tag_lines(keyed, size):
    """The tag in so many bytes, and its comparison with itself and with one that differs in the last byte."""
    refusal, made = tag(keyed, size)
    yield f"  tag: {answer(refusal, made)}"
    yield f"  verify: {verify(keyed, made)}"
    yield f"  verify with the last byte changed: {verify(keyed, changed(made, [size - 1]))}"


def piece_line(keyed, piece):
    refusal, after = update(keyed, piece)
    return f"  update, length {len(piece)}: {back(refusal, keyed, after)}", after


def piece_lines(keyed, piece):
    """A piece between the keyed states before and after it, and the tags that it leads to."""
    yield str(keyed)
    line, keyed = piece_line(keyed, piece)
    yield line
    yield str(keyed)
    yield from tag_lines(keyed, keyed.tag_length)


def going_on(keyed, size):
    yield "  sound" if keyed.sound() else "  not sound"
    yield from tag_lines(keyed, size)
    line, after = piece_line(keyed, MESSAGE)
    yield line
    yield from tag_lines(after, size)


def starts():
    for number in (0, 1, 2, 3, 4294967295):
        refusal, keyed = start(number, KEY, 32)
        yield f"start for hash {number}: {refusal}, {keyed}"
        yield from going_on(keyed, 32)
        yield f'  tag_message of "abc": {answer(*tag_message(number, KEY, MESSAGE, 32, 32))}'
        yield f'  verify_message of "abc" with zeros: {verify_message(number, KEY, MESSAGE, 32, bytes(32))}'
        refusal, keyed = start(number, KEY, 1)
        yield f"  for tags of length 1: {refusal}, {keyed}"


# Tag lengths on both sides of each range, and the largest number.
EDGES = (0, 1, 15, 16, 17, 31, 32, 33, 63, 64, 65, 66, 2**64 - 1)


def lengths(number):
    """A start for each tag length."""
    for tag_length in EDGES:
        refusal, keyed = start(number, KEY, tag_length)
        yield f"start for hash {number} and tags of length {tag_length}: {refusal}, {keyed}"
        yield from going_on(keyed, min(tag_length, 66))


def own(number, count, tag_length):
    """A keyed state that no call made, with words of its own."""
    return Keyed(hash_vectors.own(HASHES[number], count), tag_length, range(9, 17))


def state_lengths(number):
    """Such states with each tag length, sound where it is in range."""
    for tag_length in EDGES:
        keyed = own(number, 200, tag_length)
        yield str(keyed)
        yield from going_on(keyed, min(tag_length, 66))


def keys(number):
    """Keys of lengths around a block's."""
    hash = HASHES[number]
    for length in (0, 1, 63, 64, 65, 127, 128, 129, 300):
        key = pattern(length)
        made = tag_message(number, key, MESSAGE, hash.size, hash.size)
        yield f'{name(hash)} of "abc" under a key of length {length}: {answer(*made)}'
        refusal, keyed = start(number, key, hash.size)
        yield f"  start: {refusal}, {keyed}"
        yield from going_on(keyed, hash.size)


def states(number):
    """Zeros but for a count, one waiting byte, the last word and the last outer word."""
    for count, place, word, outer in [
        (0, None, 0, 0),
        (63, None, 0, 0),
        (64, None, 0, 0),
        (127, None, 0, 0),
        (128, None, 0, 0),
        (64, 0, 0, 0),
        (128, 0, 0, 0),
        (130, 1, 0, 0),
        (130, 2, 0, 0),
        (130, 64, 0, 0),
        (130, 127, 0, 0),
        (191, 62, 0, 0),
        (191, 63, 0, 0),
        (255, 126, 0, 0),
        (255, 127, 0, 0),
        (128, None, 2**32 - 1, 0),
        (128, None, 2**32, 0),
        (128, None, 2**64 - 1, 0),
        (128, None, 0, 2**32 - 1),
        (128, None, 0, 2**32),
        (128, None, 0, 2**64 - 1),
        (2**32 - 1, None, 0, 0),
        (2**32, None, 0, 0),
        (MOST_BYTES - 1, None, 0, 0),
        (MOST_BYTES, None, 0, 0),
        (MOST_BYTES + 1, None, 0, 0),
        (2**64 - 1, None, 0, 0),
    ]:
        waiting = b"" if place is None else bytes(place) + b"\1"
        hash = HASHES[number]
        keyed = Keyed(State(hash, [0] * 7 + [word], count, waiting), hash.size, [0] * 7 + [outer])
        yield str(keyed)
        yield from going_on(keyed, hash.size)


def limit(number):
    """One byte before the most that may be hashed. A tag length that is out of range is refused before the bytes are. Then pieces of
    several blocks that end there, and one byte past it."""
    hash = HASHES[number]
    keyed = own(number, MOST_BYTES - 1, hash.size)
    yield str(keyed)
    line, keyed = piece_line(keyed, b"ab")
    yield line
    line, keyed = piece_line(keyed, b"a")
    yield line
    yield str(keyed)
    yield from tag_lines(keyed, hash.size)
    line, keyed = piece_line(keyed, b"a")
    yield line
    line, keyed = piece_line(keyed, b"")
    yield line
    yield from tag_lines(keyed, hash.size)
    keyed = with_length(keyed, 1)
    yield str(keyed)
    line, keyed = piece_line(keyed, b"a")
    yield line
    yield from tag_lines(keyed, hash.size)
    for before, length in ((300, 300), (299, 300), (255, 255), (255, 256)):
        yield from piece_lines(own(number, MOST_BYTES - before, hash.size), pattern(length))


def large_counts(number):
    """One byte, and several blocks, after each large count."""
    for count in hash_vectors.LARGE_COUNTS:
        for piece in (b"a", pattern(300)):
            yield from piece_lines(own(number, count, HASHES[number].size), piece)


def sizes(number):
    """Tag lengths inside and outside their range, each with the sizes of the output."""
    _, full = taken(number, KEY, MESSAGE, HASHES[number].size)
    for tag_length, outputs in [
        (0, (0, 16)),
        (1, (1,)),
        (15, (15, 16)),
        (16, (0, 15, 16, 17, 32)),
        (17, (17,)),
        (31, (31, 32)),
        (32, (0, 31, 32, 33, 64)),
        (33, (32, 33, 34)),
        (63, (63,)),
        (64, (32, 63, 64, 65)),
        (65, (64, 65)),
    ]:
        for size in outputs:
            head = f'{name(HASHES[number])} of "abc", tag length {tag_length}, into {size} bytes'
            yield f"{head}: {answer(*tag_message(number, KEY, MESSAGE, tag_length, size))}"
            yield f"  for hash 3: {answer(*tag_message(3, KEY, MESSAGE, tag_length, size))}"
            refusal, keyed = taken(number, KEY, MESSAGE, tag_length)
            yield f"  by start and tag: {refusal}, then {answer(*tag(keyed, size))}"
            keyed = with_length(full, tag_length)
            yield f"  by tag of a state with this length put in: {answer(*tag(keyed, size))}"
            yield f"  by tag of a state that is not sound: {answer(*tag(with_last(keyed, 1), size))}"


def comparison(number):
    """Presented tags: the length of the tag, and how many bytes are presented, of which how many first ones are unchanged."""
    _, whole = taken(number, KEY, MESSAGE, HASHES[number].size)
    full = whole.full().ljust(66, bytes([UNTOUCHED]))
    for tag_length, rows in [
        (0, [(0, 0)]),
        (1, [(1, 1)]),
        (15, [(15, 15), (16, 16)]),
        (16, [(0, 0), (1, 1), (15, 15), (16, 0), (16, 15), (16, 16), (17, 17), (32, 32)]),
        (31, [(31, 31)]),
        (32, [(0, 0), (16, 16), (31, 31), (32, 0), (32, 16), (32, 31), (32, 32), (33, 33), (64, 64)]),
        (33, [(32, 32), (33, 33)]),
        (64, [(32, 32), (63, 63), (64, 16), (64, 32), (64, 63), (64, 64), (65, 64)]),
        (65, [(65, 64)]),
    ]:
        for size, unchanged in rows:
            presented = changed(full[:size], range(unchanged, size))
            head = f'{name(HASHES[number])} of "abc", tag length {tag_length}'
            head += f", presented {size} bytes, the first {unchanged} unchanged"
            yield f"{head}: {verify_message(number, KEY, MESSAGE, tag_length, presented)}"
            yield f"  for hash 3: {verify_message(3, KEY, MESSAGE, tag_length, presented)}"
            refusal, keyed = taken(number, KEY, MESSAGE, tag_length)
            yield f"  by start and verify: {refusal}, then {verify(keyed, presented)}"
            keyed = with_length(whole, tag_length)
            yield f"  by verify of a state with this length put in: {verify(keyed, presented)}"
            yield f"  by verify of a state that is not sound: {verify(with_last(keyed, 1), presented)}"


def lines():
    yield from starts()
    for number in HASHES:
        yield from cases(number)
        yield from lengths(number)
        yield from keys(number)
        yield from states(number)
        yield from state_lengths(number)
        yield from limit(number)
        yield from large_counts(number)
        yield from sizes(number)
        yield from comparison(number)
