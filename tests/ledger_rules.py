"""The rules of docs/PROTOCOL.md on the ledger: when it is sound, what a submission answers and leaves, its total, and what a sequence
of submissions counts.

A ledger is a list of records. The rules on reports come from tests/report_rules.py, and everything else is written here from the
document."""
import collections

import report_rules
from report_rules import MOST_LIVE_BYTES

Record = collections.namedtuple("Record", "fingerprint live in_use")
FREE = Record(bytes(32), 0, 0)


def used_of(ledger):
    return [record for record in ledger if record.in_use == 1]


def sum_of(records):
    return sum(record.live for record in records)


def sound(ledger):
    """The used records stand first, the others are all zero, no fingerprint stands twice, and the sum fits."""
    used = used_of(ledger)
    in_place = ledger == used + [FREE] * (len(ledger) - len(used))
    return in_place and len({record.fingerprint for record in used}) == len(used) and sum_of(used) <= MOST_LIVE_BYTES


def judged(report, tag_key, fingerprint_key):
    """The number of the first check that the report and its keys fail, or 0, and the record of a report that passes all of them."""
    number = report_rules.check(report, tag_key)
    if number:
        return number, None
    number, fingerprint = report_rules.fingerprint(report, fingerprint_key, 32)
    if number:
        return number, None
    _, fields = report_rules.read(report)
    return 0, Record(fingerprint, fields[10], 1)


def submit(ledger, report, tag_key, fingerprint_key):
    """The number, 1 where the report is seen and else 0, and the ledger after it."""
    if not sound(ledger):
        return 10, 0, ledger
    number, record = judged(report, tag_key, fingerprint_key)
    if number:
        return number, 0, ledger
    used = used_of(ledger)
    if any(other.fingerprint == record.fingerprint for other in used):
        return 0, 1, ledger
    if len(used) == len(ledger):
        return 19, 0, ledger
    if sum_of(used) + record.live > MOST_LIVE_BYTES:
        return 20, 0, ledger
    return 0, 0, used + [record] + ledger[len(used) + 1 :]


def total(ledger):
    """The number, and the sum of the used records."""
    return (0, sum_of(used_of(ledger))) if sound(ledger) else (10, 0)


def counted(count, submissions):
    """What submissions count in an empty ledger of so many records, from their sequence alone. Each is a report, its tag key and its
    fingerprint key."""
    taken, live = set(), 0
    for submission in submissions:
        number, record = judged(*submission)
        if number == 0 and record.fingerprint not in taken and len(taken) < count and live + record.live <= MOST_LIVE_BYTES:
            taken.add(record.fingerprint)
            live += record.live
    return live
