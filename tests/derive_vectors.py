"""The HKDF part of tests/vectors.py.

HKDF is written here from RFC 5869 over the HMAC of tests/tag_vectors.py, and numbers and refusals from docs/PROTOCOL.md. It is held
to the keys that RFC 5869 prints and to Python's hmac module."""
import hashlib
import hmac

import tag_vectors
from hash_vectors import HASHES, MOST_BYTES, UNTOUCHED, hold

MATERIAL = b"\x0b" * 22

# RFC 5869, appendix A: salt, material, info, length, PRK and OKM of SHA-256.
CASES = [
    (bytes(range(13)), MATERIAL, bytes(range(0xF0, 0xFA)), 42,
     "077709362c2e32df0ddc3f0dc47bba6390b6c73bb50f9c3122ec844ad7c2b3e5",
     "3cb25f25faacd57a90434f64d0362f2a2d2d0a90cf1a5a4c5db02d56ecc4c5bf34007208d5b887185865"),
    (bytes(range(0x60, 0xB0)), bytes(range(0x50)), bytes(range(0xB0, 0x100)), 82,
     "06a6b88c5853361a06104c9ceb35b45cef760014904671014a193f40c15fc244",
     "b11e398dc80327a1c8e7f78c596a49344f012eda2d4efad8a050cc4c19afa97c59045a99cac7827271cb41c65e590e09"
     "da3275600c2f09b8367793a9aca3db71cc30c58179ec3e87c14c01d5c1f3434f1d87"),
    (b"", MATERIAL, b"", 42,
     "19ef24a32c717b167f33a91d6f648bdf96596776afdb6377ac434c1c293ccb04",
     "8da4e775a563c18f715f802a063c5a31b8a11f5c5ee1879ec3454e5f3c738d2d9d201395faa4b61a96c8"),
]


def extract(number, salt, material, size):
    """The number, and what an output of this size then holds."""
    untouched = bytes([UNTOUCHED]) * size
    if number not in HASHES:
        return 2, untouched
    hash = HASHES[number]
    if len(salt) > MOST_BYTES:
        return 3, untouched
    if len(material) > MOST_BYTES - hash.block:
        return 4, untouched
    if size != hash.size:
        return 6, untouched
    return 0, tag_vectors.whole_tag(number, salt or bytes(hash.size), material)


def expand(number, key, info, size):
    """The number, and what an output of this size then holds."""
    untouched = bytes([UNTOUCHED]) * size
    if number not in HASHES:
        return 2, untouched
    hash = HASHES[number]
    if len(key) > MOST_BYTES:
        return 3, untouched
    if len(key) < hash.size:
        return 7, untouched
    if len(info) > 1024:
        return 8, untouched
    if size > 255 * hash.size:
        return 9, untouched
    made, block = b"", b""
    for i in range(1, (size + hash.size - 1) // hash.size + 1):
        block = tag_vectors.whole_tag(number, key, block + info + bytes([i]))
        made += block
    return 0, made[:size]


def hold_to_others():
    """The keys made here against RFC 5869's and the hmac module's."""
    for salt, material, info, length, prk, okm in CASES:
        hold(extract(1, salt, material, 32) == (0, bytes.fromhex(prk)), "a PRK is not RFC 5869's")
        hold(expand(1, bytes.fromhex(prk), info, length) == (0, bytes.fromhex(okm)), "an OKM is not RFC 5869's")
    for number, library in ((1, hashlib.sha256), (2, hashlib.sha512)):
        size = HASHES[number].size
        known, block = b"", b""
        key = hmac.new(b"salt", MATERIAL, library).digest()
        for i in range(1, 256):
            block = hmac.new(key, block + b"info" + bytes([i]), library).digest()
            known += block
        hold(extract(number, b"salt", MATERIAL, size) == (0, key), "a PRK is not that of the hmac module")
        hold(expand(number, key, b"info", 255 * size) == (0, known), "an OKM is not that of the hmac module")


def line(call, answered):
    number, out = answered
    shown = out.hex() if len(out) <= 100 else "SHA-256 " + hashlib.sha256(out).hexdigest()
    return f"  {call}: {number}, {len(out)} bytes: {shown}"


def derive(number, salt, material, info, size):
    answered = extract(number, salt, material, HASHES[number].size)
    yield line("extract", answered)
    yield line("expand", expand(number, answered[1], info, size))


def lines():
    for place, (salt, material, info, length, _, _) in enumerate(CASES, 1):
        yield f"RFC 5869, case {place}"
        yield from derive(1, salt, material, info, length)
    for number, hash in HASHES.items():
        yield f"hash {number}"
        for size in (0, 1, hash.size - 1):
            yield from derive(number, b"salt", MATERIAL, b"info", size)
        yield from derive(number, b"", MATERIAL, b"", hash.size)
        for size in (hash.size + 1, 255 * hash.size, 255 * hash.size + 1):
            yield from derive(number, b"salt", MATERIAL, b"info", size)
    for number, size in ((1, 32), (2, 64), (0, 32), (3, 64)):
        for length, info in ((size, 1024), (size, 1025), (size - 1, 1025), (65, 0)):
            yield line("expand", expand(number, b"\x0b" * length, b"\x1f" * info, 50))
        for out in (size - 1, size + 1):
            yield line("extract", extract(number, b"salt", b"material", out))
