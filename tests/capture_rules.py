"""What `inspect` writes of a capture and a PRK, by the rules of docs/PROTOCOL.md, and the exit status of ./tirmuzzle for it."""
import report_rules as rules

SMALLEST, LARGEST = 61, 3981  # of reports
MOST_PRK_BYTES = 4095

# The exit statuses, by the first words of the last line.
STATUSES = {"end": 0, "usage": 2, "unreadable": 3, "cut off": 4, "wild length": 5}

MEANINGS = {
    0: "tag matches",
    1: "1 tag differs",
    2: "2 no hash has the number that it names",
    7: "7 PRK shorter than a digest of its hash",
    11: "11 too short, or count not length less four",
    12: "12 version is not 1",
    13: "13 more than 64 sites",
    14: "14 label length 0 or over 48",
    15: "15 sites do not end where the tag starts",
    16: "16 live bytes add up to over 2^64 - 1",
}
WIDTHS = (20, 10, 20, 20, 7, 20, 5, 20, 20)
NAMES = ("offset", "tenant", "machine", "report", "attempt", "send time (ms)", "sites", "live bytes", "machine memory")


def line(columns, verdict, fingerprint):
    numbers = " ".join(str(column).rjust(width) for column, width in zip(columns, WIDTHS))
    return f"{numbers} {verdict:44} {fingerprint}"


def judged(report, prk):
    """The number, the columns after the offset, the live bytes and the fingerprint."""
    number, (_, _, hash, tenant, machine, report_number, sent, attempt, memory, sites, live) = rules.read(report)
    if number:
        return number, ["-"] * 8, 0, "-"
    columns = [tenant, machine, report_number, attempt, sent, sites, live, memory]
    digest = rules.DIGEST_BYTES[hash]
    number, keys = rules.keys(hash, prk, tenant, machine, 2 * digest)
    if number:
        return number, columns, 0, "-"
    _, fingerprint = rules.fingerprint(report, keys[digest:], 32)
    return rules.check(report, keys[:digest]), columns, live, fingerprint.hex()


def size_at(capture, at):
    return rules.number_at(capture, at, 4) + 4


def ending(capture, at):
    """Nothing where a report stands next, and else the last line."""
    left = len(capture) - at
    if left == 0:
        return "end: the capture is empty" if at == 0 else f"end: the capture was read to its end, {at} bytes"
    if left < 4:
        return f"cut off: the report at byte {at} is cut off inside its count, after {left} of 4 bytes"
    size = size_at(capture, at)
    if size == 4 or size > LARGEST:
        return (
            f"wild length: the count at byte {at} makes a report of {size} bytes, and one has {SMALLEST} to {LARGEST} (11); "
            f"the {left} bytes from there on are not shown"
        )
    if left < size:
        return f"cut off: the report at byte {at} has {size} bytes by its count, and the capture ends after {left} of them"
    return None


def prk_line(prk):
    odd = "" if len(prk) in (32, 64) else ", neither 32 nor 64: is it the PRK alone, with no line end?"
    return f"PRK of {len(prk)} bytes{odd}"


def totals(numbers, live):
    over = live > rules.MOST_LIVE_BYTES
    return [
        "",
        f"reports: {len(numbers)}",
        f"tag matches: {numbers.count(0)}",
        f"tag differs: {numbers.count(1)}",
        f"refused: {sum(number > 1 for number in numbers)}",
        "live bytes where the tag matches, retries counted as often as sent: "
        + (f"over {rules.MOST_LIVE_BYTES} (2^64 - 1)" if over else str(live)),
    ]


def inspected(capture, prk):
    """The lines, for a capture and a PRK of which either may be missing."""
    if prk is None:
        return ["unreadable: the PRK cannot be opened: there is no such file"]
    if len(prk) > MOST_PRK_BYTES:
        return [f"unreadable: the PRK has more than {MOST_PRK_BYTES} bytes"]
    if capture is None:
        return ["unreadable: the capture cannot be opened: there is no such file"]
    lines, numbers, sum_live, at = [prk_line(prk), line(NAMES, "verdict", "fingerprint")], [], 0, 0
    while (last := ending(capture, at)) is None:
        report = capture[at : at + size_at(capture, at)]
        number, columns, live, fingerprint = judged(report, prk)
        lines.append(line([at, *columns], MEANINGS[number], fingerprint))
        numbers.append(number)
        sum_live += live if number == 0 else 0
        at += len(report)
    return lines + totals(numbers, sum_live) + [last]


def expected(capture, prk):
    """The text, and the exit status."""
    lines = inspected(capture, prk)
    return "".join(each + "\n" for each in lines), STATUSES[lines[-1].split(":")[0]]
