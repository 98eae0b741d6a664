#!/usr/bin/env python3
"""Prints what tests/outside/long.c must print, with Python's own hashes and HMAC.

Its long buffers are never held here: they are fed to a hash in chunks. A key longer than a block stands for its digest (FIPS 198-1), so
a long key is hashed in the same way, and its digest is the key from there on."""
import hashlib
import hmac
import pathlib
import sys

sys.dont_write_bytecode = True  # tests/ holds sources only
sys.path.insert(0, str(pathlib.Path(__file__).resolve().parent.parent))
import report_rules

TURN, CHUNK = 2**32, 2**20
HEAD = bytes((7 * i + 1) % 256 for i in range(300))
MORE = bytes((11 * i + 5) % 256 for i in range(300))
KEY_MORE = 20


def fed(hash, more):
    """A hash or HMAC of Python's after the first 2^32 bytes, and this many of those that follow them."""
    hash.update(HEAD + bytes(CHUNK - len(HEAD)))
    for _ in range(TURN // CHUNK - 1):
        hash.update(bytes(CHUNK))
    hash.update(MORE[:more])
    return hash


def main():
    print(f"digest under SHA-256: {fed(hashlib.sha256(), len(MORE)).hexdigest()}")
    hash = fed(hashlib.sha512(), KEY_MORE)
    key = hash.digest()
    hash.update(MORE[KEY_MORE:])
    other_key = hash.digest()
    print(f"digest under SHA-512: {other_key.hex()}")
    print(f"tag: {fed(hmac.new(key, digestmod='sha512'), len(MORE)).hexdigest()}")
    report = report_rules.report_of((2, 7, 258, 9, 1000, 0, 2**30), b"abc", [2, 1], [5, 6], [3, 4], key)
    print(f"report: {report.hex()}")
    print(f"fingerprint: {report_rules.fingerprint(report, other_key, 32)[1].hex()}")
    print("live bytes 11, in use 1, seen 0")


if __name__ == "__main__":
    main()
