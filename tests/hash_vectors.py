"""The hash part of tests/vectors.py.

SHA-256 and SHA-512 are written here from FIPS 180-4, and states, numbers and refusals from docs/PROTOCOL.md. They are held to the
digests that NIST published and to Python's hashlib."""
import functools
import hashlib
import math
import sys

MOST_BYTES = 2**61 - 1
LARGEST_BLOCK = 128
UNTOUCHED = 0xA5

# The two messages of more than one block in FIPS 180-4's examples.
LONG_256 = b"abcdbcdecdefdefgefghfghighijhijkijkljklmklmnlmnomnopnopq"
LONG_512 = (
    b"abcdefghbcdefghicdefghijdefghijkefghijklfghijklmghijklmn"
    b"hijklmnoijklmnopjklmnopqklmnopqrlmnopqrsmnopqrstnopqrstu"
)

# Digests as NIST published them: hash, message, digest.
PUBLISHED = [
    (1, b"", "e3b0c442 98fc1c14 9afbf4c8 996fb924 27ae41e4 649b934c a495991b 7852b855"),
    (1, b"abc", "ba7816bf 8f01cfea 414140de 5dae2223 b00361a3 96177a9c b410ff61 f20015ad"),
    (1, LONG_256, "248d6a61 d20638b8 e5c02693 0c3e6039 a33ce459 64ff2167 f6ecedd4 19db06c1"),
    (1, b"a" * 1000000, "cdc76e5c 9914fb92 81a1c7e2 84d73e67 f1809a48 a497200e 046d39cc c7112cd0"),
    (2, b"", "cf83e1357eefb8bd f1542850d66d8007 d620e4050b5715dc 83f4a921d36ce9ce"
             "47d0d13c5d85f2b0 ff8318d2877eec2f 63b931bd47417a81 a538327af927da3e"),
    (2, b"abc", "ddaf35a193617aba cc417349ae204131 12e6fa4e89a97ea2 0a9eeee64b55d39a"
                "2192992a274fc1a8 36ba3c23a3feebbd 454d4423643ce80e 2a9ac94fa54ca49f"),
    (2, LONG_512, "8e959b75dae313da 8cf4f72814fc143f 8f7779c6eb9f7fa1 7299aeadb6889018"
                  "501d289e4900f7e4 331b99dec4b5433a c7d329eeb6dd2654 5e96e55b874be909"),
    (2, b"a" * 1000000, "e718483d0ce76964 4e2e42c7bc15b463 8e1f98b13b204428 5632a803afa973eb"
                        "de0ff244877ea60a 4cb0432ce577c31b eb009c5c2c49aa2e 4eadb217ad8cc09b"),
]


def hold(fact, what):
    if not fact:
        sys.exit(f"vectors: {what}")


def primes(count):
    """The first primes."""
    found = []
    n = 2
    while len(found) < count:
        if all(n % p for p in found):
            found.append(n)
        n += 1
    return found


def cube_root(n):
    """The largest whole number whose cube is at most n."""
    low, high = 0, 1 << (n.bit_length() // 3 + 1)
    while low < high:
        middle = (low + high + 1) // 2
        if middle**3 <= n:
            low = middle
        else:
            high = middle - 1
    return low


class Hash:
    """What FIPS 180-4 says of one hash."""

    def __init__(self, name, width, rounds, big0, big1, small0, small1):
        self.name, self.width, self.rounds = name, width, rounds
        self.big0, self.big1, self.small0, self.small1 = big0, big1, small0, small1
        self.word = width // 8
        self.block = 16 * self.word
        self.size = 8 * self.word
        self.mask = 2**width - 1
        # the first bits after the point of the cube and square roots of the first primes
        self.k = [cube_root(p << 3 * width) & self.mask for p in primes(rounds)]
        self.first = [math.isqrt(p << 2 * width) & self.mask for p in primes(8)]

    def rotated(self, x, n):
        return x >> n | x << self.width - n

    def big(self, x, amounts):
        a, b, c = amounts
        return (self.rotated(x, a) ^ self.rotated(x, b) ^ self.rotated(x, c)) & self.mask

    def small(self, x, amounts):
        a, b, c = amounts
        return (self.rotated(x, a) ^ self.rotated(x, b) ^ x >> c) & self.mask

    def step(self, words, block):
        """The chaining words after a block (sections 6.2.2 and 6.4.2)."""
        w = [int.from_bytes(block[i : i + self.word], "big") for i in range(0, self.block, self.word)]
        for t in range(16, self.rounds):
            mixed = self.small(w[t - 2], self.small1) + w[t - 7] + self.small(w[t - 15], self.small0) + w[t - 16]
            w.append(mixed & self.mask)
        a, b, c, d, e, f, g, h = words
        for t in range(self.rounds):
            t1 = h + self.big(e, self.big1) + (e & f ^ ~e & g) + self.k[t] + w[t]
            t2 = self.big(a, self.big0) + (a & b ^ a & c ^ b & c)
            a, b, c, d, e, f, g, h = t1 + t2 & self.mask, a, b, c, d + t1 & self.mask, e, f, g
        return [x + y & self.mask for x, y in zip(words, (a, b, c, d, e, f, g, h))]

    def after(self, words, data):
        """The chaining words after the whole blocks of the data, and the bytes left after them."""
        whole = len(data) - len(data) % self.block
        for at in range(0, whole, self.block):
            words = self.step(words, data[at : at + self.block])
        return words, data[whole:]

    def padding(self, count):
        """What follows a message of count bytes (section 5.1)."""
        field = 2 * self.word
        zeros = next(n for n in range(self.block) if (count + 1 + n + field) % self.block == 0)
        return b"\x80" + bytes(zeros) + (8 * count).to_bytes(field, "big")

    def spelled(self, words):
        return b"".join(x.to_bytes(self.word, "big") for x in words)


HASHES = {
    1: Hash("SHA-256", 32, 64, (2, 13, 22), (6, 11, 25), (7, 18, 3), (17, 19, 10)),
    2: Hash("SHA-512", 64, 80, (28, 34, 39), (14, 18, 41), (1, 8, 7), (19, 61, 6)),
}


class State:
    """A state of work in pieces (docs/PROTOCOL.md), which no call changes."""

    def __init__(self, hash, words, count, waiting):
        self.hash, self.words, self.count, self.waiting = hash, list(words), count, bytes(waiting).ljust(LARGEST_BLOCK, b"\0")

    def waiting_count(self):
        return self.count % self.hash.block

    def sound(self):
        return (
            self.count <= MOST_BYTES
            and not any(self.waiting[self.waiting_count() :])
            and all(x < 2**self.hash.width for x in self.words)
        )

    def same(self, other):
        return vars(self) == vars(other)

    def __str__(self):
        words = " ".join(f"{x:016x}" for x in self.words)
        return f"{self.hash.name} state, words {words}, count {self.count}, waiting {self.waiting.hex()}"


# A state is never changed, so a call made twice may answer from memory.
@functools.cache
def start(number):
    if number not in HASHES:
        return 2, State(HASHES[1], [0] * 8, 0, b"")
    return 0, State(HASHES[number], HASHES[number].first, 0, b"")


@functools.cache
def update(state, piece):
    if not state.sound():
        return 10, state
    if state.count + len(piece) > MOST_BYTES:
        return 4, state
    words, left = state.hash.after(state.words, state.waiting[: state.waiting_count()] + piece)
    return 0, State(state.hash, words, state.count + len(piece), left)


def finish(state, size):
    """The number, and what an output of this size then holds."""
    if not state.sound():
        return 10, bytes([UNTOUCHED]) * size
    if size != state.hash.size:
        return 6, bytes([UNTOUCHED]) * size
    words, left = state.hash.after(state.words, state.waiting[: state.waiting_count()] + state.hash.padding(state.count))
    hold(not left, "the padding fills no block")
    return 0, state.hash.spelled(words)


def digest(number, message, size):
    refusal, state = start(number)
    if refusal == 0:
        refusal, state = update(state, message)
    if refusal == 0:
        return finish(state, size)
    return refusal, bytes([UNTOUCHED]) * size


def hold_to_others():
    """The digests made here against NIST's and hashlib's."""
    library = {1: hashlib.sha256, 2: hashlib.sha512}
    for number, hash in HASHES.items():
        for length in range(2 * hash.block + 2):
            message = bytes(i * 7 % 256 for i in range(length))
            known = library[number](message).digest()
            hold(digest(number, message, hash.size) == (0, known), f"{hash.name} of {length} bytes is not hashlib's")
    for number, message, published in PUBLISHED:
        hash, known = HASHES[number], bytes.fromhex(published)
        hold(library[number](message).digest() == known, f"hashlib's {hash.name} of {len(message)} bytes is not NIST's")
        hold(digest(number, message, hash.size) == (0, known), f"{hash.name} of {len(message)} bytes is not NIST's")


def answer(number, output):
    return f"{number}, {output.hex()}"


def in_pieces(size):
    return lambda m: [m[i : i + size] for i in range(0, len(m), size)]


def cut(place):
    return lambda m: [m[: place(len(m))], m[place(len(m)) :]]


WAYS = [
    ("in one piece", lambda m: [m]),
    ("cut at 0", cut(lambda n: 0)),
    ("cut at 1", cut(lambda n: 1)),
    ("cut in the middle", cut(lambda n: n // 2)),
    ("cut before the last byte", cut(lambda n: max(n - 1, 0))),
    ("byte by byte", in_pieces(1)),
    ("in pieces of 7", in_pieces(7)),
    ("in halves with an empty piece between", lambda m: [m[: len(m) // 2], b"", m[len(m) // 2 :]]),
]


def taken(number, pieces):
    """The end of a message in pieces."""
    _, state = start(number)
    for piece in pieces:
        _, state = update(state, piece)
    return finish(state, state.hash.size)


def message_lines(number, name, message, ways):
    head = f"{HASHES[number].name} of {name}, length {len(message)}"
    yield f"{head}, in one call: {answer(*digest(number, message, HASHES[number].size))}"
    for way, pieces in ways:
        yield f"{head}, {way}: {answer(*taken(number, pieces(message)))}"


def pattern(length):
    return bytes(i % 251 for i in range(length))


def messages(number):
    """The published messages, and a fixed pattern at lengths around the edges of a block."""
    yield from message_lines(number, "the empty message", b"", WAYS)
    yield from message_lines(number, '"abc"', b"abc", WAYS)
    yield from message_lines(number, "the message of two blocks", {1: LONG_256, 2: LONG_512}[number], WAYS)
    few = [WAYS[0], ("in pieces of 1000", in_pieces(1000))]
    yield from message_lines(number, "a million letters a", b"a" * 1000000, few)
    for length in (0, 1, 55, 56, 63, 64, 65, 111, 112, 119, 120, 127, 128, 129, 255, 256, 257):
        yield from message_lines(number, "the pattern", pattern(length), WAYS)


def piece_line(state, piece):
    refusal, after = update(state, piece)
    return f"  update, length {len(piece)}: {refusal}, {'the same' if after.same(state) else 'another'} state", after


def end_line(state):
    return f"  finish: {answer(*finish(state, state.hash.size))}"


def starts():
    for number in (0, 1, 2, 3, 4294967295):
        refusal, state = start(number)
        yield f"start for hash {number}: {refusal}, {state}"
        line, state = piece_line(state, b"abc")
        yield line
        yield end_line(state)
        yield f'  digest of "abc": {answer(*digest(number, b"abc", 32))}'


def states(hash):
    """Zeros but for a count, one waiting byte and the last word."""
    for count, place, word in [
        (0, None, 0),
        (0, 0, 0),
        (0, 64, 0),
        (0, 127, 0),
        (3, 2, 0),
        (3, 3, 0),
        (63, 62, 0),
        (63, 63, 0),
        (64, 0, 0),
        (127, 126, 0),
        (127, 127, 0),
        (0, None, 2**32 - 1),
        (0, None, 2**32),
        (0, None, 2**64 - 1),
        (2**32 - 1, None, 0),
        (2**32, None, 0),
        (MOST_BYTES - 1, None, 0),
        (MOST_BYTES, None, 0),
        (MOST_BYTES + 1, None, 0),
        (2**64 - 1, None, 0),
    ]:
        state = State(hash, [0] * 7 + [word], count, b"" if place is None else bytes(place) + b"\1")
        yield str(state)
        yield "  sound" if state.sound() else "  not sound"
        yield end_line(state)
        line, after = piece_line(state, b"abc")
        yield line
        yield end_line(after)


def own(hash, count):
    """A sound state with words of its own."""
    return State(hash, range(1, 9), count, bytes(range(1, count % hash.block + 1)))


def piece_lines(state, piece):
    """A piece, with the states before and after it."""
    yield str(state)
    line, state = piece_line(state, piece)
    yield line
    yield str(state)
    yield end_line(state)


def runs(hash):
    """Pieces that make whole blocks with what waits: the count before, the blocks, zero included, and the bytes left over."""
    for count, blocks, left in [
        (0, 0, 0),
        (0, 0, 1),
        (0, 1, 0),
        (0, 1, 1),
        (0, 2, 0),
        (0, 3, 1),
        (1, 1, 0),
        (1, 1, 1),
        (1, 2, 0),
        (1, 3, 0),
        (1, 3, 1),
        (63, 1, 0),
        (63, 2, 1),
        (127, 1, 0),
        (127, 2, 1),
        (127, 3, 0),
    ]:
        state = own(hash, count)
        yield from piece_lines(state, pattern(blocks * hash.block + left)[state.waiting_count() :])


def limit(hash):
    """One byte before the most that may be hashed; then pieces of several blocks that end there, and one byte past it."""
    state = own(hash, MOST_BYTES - 1)
    yield str(state)
    line, state = piece_line(state, b"ab")
    yield line
    line, state = piece_line(state, b"a")
    yield line
    yield str(state)
    yield end_line(state)
    line, state = piece_line(state, b"a")
    yield line
    line, state = piece_line(state, b"")
    yield line
    yield end_line(state)
    for before, length in ((385, 385), (384, 385), (383, 383), (383, 384)):
        yield from piece_lines(own(hash, MOST_BYTES - before), pattern(length))


# Counts that are about to pass what a smaller number can hold, of bytes or of bits. A block of either hash ends at the third.
LARGE_COUNTS = (2**29 - 1, 2**31 - 1, 2**32 - LARGEST_BLOCK, 2**32 - 1, 2**60 - 1)


def large_counts(hash):
    """One byte, and several blocks, after each of these counts."""
    for count in LARGE_COUNTS:
        for piece in (b"a", pattern(385)):
            yield from piece_lines(own(hash, count), piece)


def sizes(number, hash):
    """Outputs of other sizes than a digest's."""
    _, state = update(start(number)[1], b"abc")
    unsound = State(hash, [0] * 8, 0, b"\1")
    for size in (0, 31, 32, 33, 63, 64, 65):
        yield f'{hash.name} of "abc" into {size} bytes: {answer(*digest(number, b"abc", size))}'
        yield f"  for hash 3: {answer(*digest(3, b'abc', size))}"
        yield f"  by finish: {answer(*finish(state, size))}"
        yield f"  by finish of a state that is not sound: {answer(*finish(unsound, size))}"


def going_on(hash):
    for count in (0, 1, 64, 128, 1000):
        state = own(hash, count)
        yield str(state)
        yield end_line(state)
        for piece in (b"abc", b"def"):
            line, state = piece_line(state, piece)
            yield line
            yield end_line(state)


def lines():
    yield from starts()
    for number, hash in HASHES.items():
        yield from messages(number)
        yield from runs(hash)
        yield from states(hash)
        yield from limit(hash)
        yield from large_counts(hash)
        yield from sizes(number, hash)
        yield from going_on(hash)
