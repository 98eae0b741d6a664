#!/usr/bin/env python3
"""Prints what examples/agent.c must print, by the rules of tests/outside/answers.py and tests/report_rules.py."""
import pathlib
import sys

sys.dont_write_bytecode = True  # tests/ holds sources only
sys.path.insert(0, str(pathlib.Path(__file__).resolve().parent.parent))
import answers
import report_rules
from report_cases import made, site

# The fields in the order of docs/PROTOCOL.md but for the report's number, which is printed first.
FIELD_NAMES = ("count", "version", "hash", "tenant", "machine", "send time", "attempt", "memory", "sites", "live bytes")

_, prk = answers.extract(1, b"a salt that is no secret", b"the secret of this installation", 32)
_, keys = answers.report_keys(1, prk, 7, 258, 64)
tag_key, fingerprint_key = keys[:32], keys[32:]
fingerprints = set()
for send_time, attempt in ((1000, 0), (61000, 1)):
    sites = [site(b"cache.c:42", 1048576, 16), site(b"queue.c:7", 3000, 3)]
    report = made(sites, key=tag_key, tenant=7, machine=258, number=9, send_time=send_time, attempt=attempt, memory=2**30)
    _, fields = report_rules.read(report)
    _, fingerprint = answers.report_fingerprint(report, fingerprint_key, 32)
    fingerprints.add(fingerprint)
    number = fields.pop(5)
    named = zip(FIELD_NAMES, fields, strict=True)
    print(f"report {number}, " + ", ".join(f"{name} {value}" for name, value in named))
    for place in range(len(sites)):
        _, (start, length, live, blocks) = report_rules.site(report, place)
        print(f"  {report[start : start + length].decode()}, live bytes {live}, live blocks {blocks}")
    print(f"  tag: {report[-16:].hex()}")
    print(f"  fingerprint: {fingerprint.hex()}")
print("sent again: " + ("the same fingerprint" if len(fingerprints) == 1 else "another fingerprint"))
