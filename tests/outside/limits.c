/* Calls the library on both sides of the limits near 2^61 - 1 bytes, with reports and labels that are 4 GiB or 2^61 bytes longer than
 * they say themselves, and with keys of reports on both sides of the shortest. Every call is refused. What is too long or too short is
 * not read, and neither is the longest or the shortest key where something else is refused.
 *
 * No machine can lend 2^61 bytes. So these lengths come with the address of memory that is shorter and may not be read, but for the
 * beginning of a report just before it: C's side of the header is broken on purpose, and a call that reads on ends the program. */
#define _DEFAULT_SOURCE
#include "tirmuzzle.h"

#include <stdio.h>
#include <stdlib.h>
#include <string.h>
#include <sys/mman.h>

#define MOST (((size_t)1 << 61) - 1)
#define LONGER ((size_t)1 << 32)
enum { PAGE = 1 << 16, OUT = 2 * TIRMUZZLE_SHA512_DIGEST, FILLING = 0xa5 };
enum { SHORTEST = TIRMUZZLE_SHORTEST_REPORT_KEY };
enum { SITES = 2 };           /* of the report that would be written */
enum { FREE, USED, UNSOUND }; /* in_use of a ledger's only record: the ledger is empty, full, or not sound */

static const uint8_t abc[] = {'a', 'b', 'c'}, key[] = {'k', 'e', 'y'};
static const uint8_t report_key[SHORTEST] = {'r', 'e', 'p', 'o', 'r', 't'}, other_key[SHORTEST] = {'o', 't', 'h', 'e', 'r'};
static const size_t short_keys[] = {0, 1, SHORTEST - 1};
enum { SHORT_KEYS = sizeof short_keys / sizeof *short_keys };
static uint8_t *unreadable, out[OUT], long_out[255 * TIRMUZZLE_SHA512_DIGEST + 1];
static uint64_t words[TIRMUZZLE_FIELDS];
static int calls;

static void require(int holds, const char *what)
{
    if (!holds) {
        fprintf(stderr, "limits: %s\n", what);
        exit(1);
    }
}

/* A refused call answers its number, and the output is as it was. */
static void refuses(const char *what, uint32_t expected, uint32_t answer)
{
    if (answer != expected)
        fprintf(stderr, "limits: answered %lu, expected %lu\n", (unsigned long)answer, (unsigned long)expected);
    require(answer == expected, what);
    for (size_t i = 0; i < OUT; i++)
        require(out[i] == FILLING, what);
    for (size_t i = 0; i < TIRMUZZLE_FIELDS; i++)
        require(words[i] == 0, what);
    calls++;
}

/* One byte too many, alone and beside a later refusal; and the most bytes beside a later refusal, which is then the answer. What is
 * extracted from may have a block less than the most. */
static void refused_lengths(uint32_t hash, size_t digest, size_t block)
{
    size_t over = MOST + 1, message = over - block, info = 1024 + 1;
    refuses("digest", 4, tirmuzzle_digest(hash, unreadable, over, out, digest));
    refuses("digest, and a wrong size", 4, tirmuzzle_digest(hash, unreadable, over, out, 1));
    refuses("tag, key", 3, tirmuzzle_tag(hash, unreadable, over, abc, 3, digest, out, digest));
    refuses("verify, key", 3, tirmuzzle_verify(hash, unreadable, over, abc, 3, digest, unreadable, digest));
    refuses("extract, salt", 3, tirmuzzle_extract(hash, unreadable, over, abc, 3, out, digest));
    refuses("extract, salt and material", 3, tirmuzzle_extract(hash, unreadable, over, unreadable, message, out, digest));
    refuses("extract, material and a wrong size", 4, tirmuzzle_extract(hash, key, 3, unreadable, message, out, 1));
    refuses("extract, material", 4, tirmuzzle_extract(hash, key, 3, unreadable, message, out, digest));
    refuses("extract, material under no salt", 4, tirmuzzle_extract(hash, NULL, 0, unreadable, message, out, digest));
    refuses("expand, PRK", 3, tirmuzzle_expand(hash, unreadable, over, abc, 3, out, digest));
    refuses("expand, PRK and info", 3, tirmuzzle_expand(hash, unreadable, over, unreadable, info, out, digest));
    refuses("expand, longest PRK and info", 8, tirmuzzle_expand(hash, unreadable, MOST, unreadable, info, out, digest));
    refuses("expand, longest PRK and output", 9, tirmuzzle_expand(hash, unreadable, MOST, abc, 3, long_out, 255 * digest + 1));
    for (size_t i = 0; i < sizeof long_out; i++)
        require(long_out[i] == 0, "expand, longest PRK and output");
    refuses("keys, PRK", 3, tirmuzzle_report_keys(hash, unreadable, over, 7, 258, out, 2 * digest));
    refuses("keys, PRK and a wrong size", 3, tirmuzzle_report_keys(hash, unreadable, over, 7, 258, out, 1));
    refuses("keys, longest PRK and a wrong size", 6, tirmuzzle_report_keys(hash, unreadable, MOST, 7, 258, out, 1));
    refuses("no hash, and too long", 2, tirmuzzle_digest(hash + 2, unreadable, over, out, digest));
    refuses("no hash, and too long a key", 2, tirmuzzle_tag(hash + 2, unreadable, over, abc, 3, digest, out, digest));
}

/* A tag length that is out of range, beside a message on both sides of its limit and far past it, and beside a key on both sides: 3
 * comes before 5, and 5 before 4 and 6. Nothing is read. */
static void refused_bad_tag_length(uint32_t hash, size_t block, size_t tag_length)
{
    size_t over = MOST + 1, size = tag_length < OUT ? tag_length : OUT, other = size + 1 < OUT ? size + 1 : 0;
    const size_t messages[] = {MOST - block, over - block, over};
    for (size_t i = 0; i < sizeof messages / sizeof *messages; i++) {
        size_t message = messages[i];
        refuses("tag, message and tag length", 5, tirmuzzle_tag(hash, key, 3, unreadable, message, tag_length, out, size));
        refuses("tag, message, tag length and size", 5, tirmuzzle_tag(hash, key, 3, unreadable, message, tag_length, out, other));
        refuses("tag, key, message and tag length", 3,
                tirmuzzle_tag(hash, unreadable, over, unreadable, message, tag_length, out, size));
        refuses("tag, longest key, message and tag length", 5,
                tirmuzzle_tag(hash, unreadable, MOST, unreadable, message, tag_length, out, size));
        refuses("tag, no hash, message and tag length", 2, tirmuzzle_tag(0, key, 3, unreadable, message, tag_length, out, size));
        refuses("verify, message and tag length", 5, tirmuzzle_verify(hash, key, 3, unreadable, message, tag_length, unreadable, size));
        refuses("verify, message, tag length and size", 5,
                tirmuzzle_verify(hash, key, 3, unreadable, message, tag_length, unreadable, other));
        refuses("verify, key, message and tag length", 3,
                tirmuzzle_verify(hash, unreadable, over, unreadable, message, tag_length, unreadable, size));
        refuses("verify, longest key, message and tag length", 5,
                tirmuzzle_verify(hash, unreadable, MOST, unreadable, message, tag_length, unreadable, size));
        refuses("verify, no hash, message and tag length", 2,
                tirmuzzle_verify(0, key, 3, unreadable, message, tag_length, unreadable, size));
    }
}

/* A tag length at an end of its range, beside a message that is too long: 4 comes before 6. */
static void refused_good_tag_length(uint32_t hash, size_t block, size_t tag_length)
{
    size_t over = MOST + 1;
    const size_t messages[] = {over - block, over};
    for (size_t i = 0; i < sizeof messages / sizeof *messages; i++) {
        size_t message = messages[i];
        refuses("tag, message", 4, tirmuzzle_tag(hash, key, 3, unreadable, message, tag_length, out, tag_length));
        refuses("tag, message and size", 4, tirmuzzle_tag(hash, key, 3, unreadable, message, tag_length, out, tag_length - 1));
        refuses("tag, key and message", 3, tirmuzzle_tag(hash, unreadable, over, unreadable, message, tag_length, out, tag_length));
        refuses("verify, message", 4, tirmuzzle_verify(hash, key, 3, unreadable, message, tag_length, unreadable, tag_length));
        refuses("verify, message and size", 4,
                tirmuzzle_verify(hash, key, 3, unreadable, message, tag_length, unreadable, tag_length - 1));
        refuses("verify, key and message", 3,
                tirmuzzle_verify(hash, unreadable, over, unreadable, message, tag_length, unreadable, tag_length));
    }
}

/* Tag lengths on both sides of each end of the range. */
static void refused_tag_lengths(uint32_t hash, size_t digest, size_t block)
{
    const size_t bad[] = {0, 1, digest / 2 - 1, digest + 1, OUT, (size_t)-1}, good[] = {digest / 2, digest};
    for (size_t i = 0; i < sizeof bad / sizeof *bad; i++)
        refused_bad_tag_length(hash, block, bad[i]);
    for (size_t i = 0; i < sizeof good / sizeof *good; i++)
        refused_good_tag_length(hash, block, good[i]);
}

/* What a submission that is refused answers. It leaves the ledger as it was, and writes 0 to seen. */
static uint32_t submitting(uint64_t in_use, const uint8_t *report, size_t report_length, const uint8_t *tag_key,
                           size_t tag_key_length, const uint8_t *fingerprint_key, size_t fingerprint_key_length)
{
    struct tirmuzzle_record record = {{0}, 0, in_use}, before = record;
    uint32_t seen = UINT32_MAX;
    uint32_t answer = tirmuzzle_ledger_submit(&record, 1, report, report_length, tag_key, tag_key_length, fingerprint_key,
                                              fingerprint_key_length, &seen);
    require(seen == 0, "submit, seen");
    require(memcmp(&record, &before, sizeof record) == 0, "submit, ledger");
    return answer;
}

/* The smallest report under a key that is too long or too short; then as the beginning of one that is 4 GiB, or 2^61 bytes, longer than
 * its count says, and of which no more can be read. */
static void refused_reports(void)
{
    static const uint8_t start[] = {0, 0, 0, TIRMUZZLE_SMALLEST_REPORT - 4, 1, TIRMUZZLE_SHA256};
    uint8_t report[TIRMUZZLE_SMALLEST_REPORT] = {0};
    uint8_t *beginning = unreadable - sizeof report;
    const size_t over = MOST + 1, lengths[] = {LONGER + sizeof report, over + sizeof report};
    memcpy(report, start, sizeof start);
    memcpy(beginning, report, sizeof report);
    refuses("check, key", 3, tirmuzzle_report_check(report, sizeof report, unreadable, over));
    refuses("fingerprint, key", 3, tirmuzzle_report_fingerprint(report, sizeof report, unreadable, over, out, 32));
    refuses("fingerprint, key and a wrong size", 3, tirmuzzle_report_fingerprint(report, sizeof report, unreadable, over, out, 1));
    refuses("fingerprint, longest key and a wrong size", 6,
            tirmuzzle_report_fingerprint(report, sizeof report, unreadable, MOST, out, 1));
    refuses("fingerprint, shortest key and a wrong size", 6,
            tirmuzzle_report_fingerprint(report, sizeof report, unreadable, SHORTEST, out, 1));
    for (size_t i = 0; i < SHORT_KEYS; i++) {
        size_t shorter = short_keys[i];
        refuses("check, short key", 21, tirmuzzle_report_check(report, sizeof report, unreadable, shorter));
        refuses("check, short key and a short report", 11, tirmuzzle_report_check(report, sizeof report - 1, unreadable, shorter));
        refuses("fingerprint, short key", 21, tirmuzzle_report_fingerprint(report, sizeof report, unreadable, shorter, out, 32));
        refuses("fingerprint, short key and a wrong size", 21,
                tirmuzzle_report_fingerprint(report, sizeof report, unreadable, shorter, out, 1));
        refuses("fingerprint, short key and a short report", 11,
                tirmuzzle_report_fingerprint(report, sizeof report - 1, unreadable, shorter, out, 32));
    }
    for (size_t i = 0; i < sizeof lengths / sizeof *lengths; i++) {
        size_t longer = lengths[i];
        refuses("read, longer", 11, tirmuzzle_report_read(beginning, longer, words, TIRMUZZLE_FIELDS));
        refuses("site, longer", 11, tirmuzzle_report_site(beginning, longer, 0, words, TIRMUZZLE_SITE_NUMBERS));
        refuses("check, longer", 11, tirmuzzle_report_check(beginning, longer, report_key, SHORTEST));
        refuses("fingerprint, longer", 11, tirmuzzle_report_fingerprint(beginning, longer, report_key, SHORTEST, out, 32));
        refuses("submit, longer", 11, submitting(FREE, beginning, longer, report_key, SHORTEST, report_key, SHORTEST));
        refuses("submit, longer, and an unsound ledger", 10,
                submitting(UNSOUND, beginning, longer, report_key, SHORTEST, report_key, SHORTEST));
    }
}

/* Keys that are too long for a submission, each alone, and beside earlier and later refusals; then the longest keys, which are not
 * read where something is refused before them. */
static void refused_long_submissions(const uint8_t *report, size_t length)
{
    size_t over = MOST + 1;
    refuses("submit, tag key", 3, submitting(FREE, report, length, unreadable, over, report_key, SHORTEST));
    refuses("submit, both keys", 3, submitting(FREE, report, length, unreadable, over, unreadable, over));
    refuses("submit, tag key and a full ledger", 3, submitting(USED, report, length, unreadable, over, report_key, SHORTEST));
    refuses("submit, tag key and a short report", 11, submitting(FREE, report, length - 1, unreadable, over, report_key, SHORTEST));
    refuses("submit, tag key and an unsound ledger", 10, submitting(UNSOUND, report, length, unreadable, over, report_key, SHORTEST));
    refuses("submit, fingerprint key", 3, submitting(FREE, report, length, report_key, SHORTEST, unreadable, over));
    refuses("submit, fingerprint key and a full ledger", 3, submitting(USED, report, length, report_key, SHORTEST, unreadable, over));
    refuses("submit, fingerprint key and another tag", 1, submitting(FREE, report, length, other_key, SHORTEST, unreadable, over));
    refuses("submit, fingerprint key and a short report", 11,
            submitting(FREE, report, length - 1, report_key, SHORTEST, unreadable, over));
    refuses("submit, fingerprint key and an unsound ledger", 10,
            submitting(UNSOUND, report, length, report_key, SHORTEST, unreadable, over));
    refuses("submit, longest keys and a short report", 11, submitting(FREE, report, length - 1, unreadable, MOST, unreadable, MOST));
    refuses("submit, tag key, longest fingerprint key", 3, submitting(FREE, report, length, unreadable, over, unreadable, MOST));
    refuses("submit, longest fingerprint key and another tag", 1,
            submitting(FREE, report, length, other_key, SHORTEST, unreadable, MOST));
}

/* Keys that are too short for a submission, each alone, beside the other one too short or too long, and beside earlier and later
 * refusals. */
static void refused_short_submissions(const uint8_t *report, size_t length, size_t shorter)
{
    size_t over = MOST + 1;
    refuses("submit, short tag key", 21, submitting(FREE, report, length, unreadable, shorter, report_key, SHORTEST));
    refuses("submit, short keys", 21, submitting(FREE, report, length, unreadable, shorter, unreadable, shorter));
    refuses("submit, short tag key and long fingerprint key", 21,
            submitting(FREE, report, length, unreadable, shorter, unreadable, over));
    refuses("submit, long tag key and short fingerprint key", 3,
            submitting(FREE, report, length, unreadable, over, unreadable, shorter));
    refuses("submit, short tag key and a full ledger", 21, submitting(USED, report, length, unreadable, shorter, report_key, SHORTEST));
    refuses("submit, short tag key and a short report", 11,
            submitting(FREE, report, length - 1, unreadable, shorter, report_key, SHORTEST));
    refuses("submit, short tag key and an unsound ledger", 10,
            submitting(UNSOUND, report, length, unreadable, shorter, report_key, SHORTEST));
    refuses("submit, short fingerprint key", 21, submitting(FREE, report, length, report_key, SHORTEST, unreadable, shorter));
    refuses("submit, short fingerprint key and a full ledger", 21,
            submitting(USED, report, length, report_key, SHORTEST, unreadable, shorter));
    refuses("submit, short fingerprint key and another tag", 1,
            submitting(FREE, report, length, other_key, SHORTEST, unreadable, shorter));
    refuses("submit, short fingerprint key and a short report", 11,
            submitting(FREE, report, length - 1, report_key, SHORTEST, unreadable, shorter));
    refuses("submit, short fingerprint key and an unsound ledger", 10,
            submitting(UNSOUND, report, length, report_key, SHORTEST, unreadable, shorter));
}

static void refused_submissions(uint32_t hash)
{
    uint8_t report[TIRMUZZLE_LARGEST_REPORT];
    uint64_t length;
    require(tirmuzzle_report_write(hash, 7, 258, 9, 1000, 0, 1 << 30, NULL, 0, NULL, 0, NULL, 0, NULL, 0, report_key, SHORTEST,
                                   report, sizeof report, &length) == TIRMUZZLE_DONE,
            "a report without sites");
    refused_long_submissions(report, length);
    for (size_t i = 0; i < SHORT_KEYS; i++)
        refused_short_submissions(report, length, short_keys[i]);
}

/* An unsound ledger is refused before a byte of the report or of a key is read. */
static void refused_ledger(void)
{
    refuses("submit, an unsound ledger and nothing to read", 10,
            submitting(UNSOUND, unreadable, TIRMUZZLE_LARGEST_REPORT, unreadable, MOST, unreadable, MOST));
    refuses("submit, an unsound ledger and more that is refused", 10,
            submitting(UNSOUND, unreadable, MOST, unreadable, MOST + 1, unreadable, MOST + 1));
}

/* What writing a report answers, of two sites with these live bytes each and these labels, under a key that is not read. */
static uint32_t writing(uint32_t hash, uint64_t live, const uint8_t *labels, size_t labels_length, size_t key_length,
                        size_t out_length)
{
    static const uint32_t label_lengths[SITES] = {2, 1}, live_blocks[SITES] = {3, 4};
    uint64_t live_bytes[SITES] = {live, live}, length = UINT64_MAX;
    uint32_t answer = tirmuzzle_report_write(hash, 7, 258, 9, 1000, 0, 1 << 30, labels, labels_length, label_lengths, SITES,
                                             live_bytes, SITES, live_blocks, SITES, unreadable, key_length, out, out_length, &length);
    require(length == 0, "write, length");
    return answer;
}

/* A key that is too long or too short to write a report, alone, beside earlier refusals and beside the later one; then labels that are
 * 4 GiB, or 2^61 bytes, longer than their lengths say. */
static void refused_writing(uint32_t hash)
{
    size_t over = MOST + 1;
    refuses("write, key", 3, writing(hash, 5, abc, 3, over, OUT));
    refuses("write, key and live bytes", 16, writing(hash, (uint64_t)1 << 63, abc, 3, over, OUT));
    refuses("write, key and labels", 15, writing(hash, 5, abc, 2, over, OUT));
    refuses("write, key and a short buffer", 3, writing(hash, 5, abc, 3, over, 1));
    refuses("write, longest key and a short buffer", 18, writing(hash, 5, abc, 3, MOST, 1));
    refuses("write, key and no hash", 2, writing(hash + 2, 5, abc, 3, over, OUT));
    refuses("write, shortest key and a short buffer", 18, writing(hash, 5, abc, 3, SHORTEST, 1));
    for (size_t i = 0; i < SHORT_KEYS; i++) {
        size_t shorter = short_keys[i];
        refuses("write, short key", 21, writing(hash, 5, abc, 3, shorter, OUT));
        refuses("write, short key and live bytes", 16, writing(hash, (uint64_t)1 << 63, abc, 3, shorter, OUT));
        refuses("write, short key and labels", 15, writing(hash, 5, abc, 2, shorter, OUT));
        refuses("write, short key and a short buffer", 21, writing(hash, 5, abc, 3, shorter, 1));
        refuses("write, short key and no hash", 2, writing(hash + 2, 5, abc, 3, shorter, OUT));
    }
    refuses("write, longer labels", 15, writing(hash, 5, unreadable, LONGER + 3, SHORTEST, OUT));
    refuses("write, longest labels", 15, writing(hash, 5, unreadable, over + 3, SHORTEST, OUT));
}

int main(void)
{
    uint8_t *mapping = mmap(NULL, PAGE + LONGER, PROT_NONE, MAP_PRIVATE | MAP_ANONYMOUS | MAP_NORESERVE, -1, 0);
    require(mapping != MAP_FAILED, "no room for a mapping of 4 GiB");
    require(mprotect(mapping, PAGE, PROT_READ | PROT_WRITE) == 0, "no page before the memory that may not be read");
    unreadable = mapping + PAGE;
    memset(out, FILLING, OUT);
    refused_lengths(TIRMUZZLE_SHA256, TIRMUZZLE_SHA256_DIGEST, 64);
    refused_lengths(TIRMUZZLE_SHA512, TIRMUZZLE_SHA512_DIGEST, 128);
    refused_tag_lengths(TIRMUZZLE_SHA256, TIRMUZZLE_SHA256_DIGEST, 64);
    refused_tag_lengths(TIRMUZZLE_SHA512, TIRMUZZLE_SHA512_DIGEST, 128);
    refused_reports();
    refused_writing(TIRMUZZLE_SHA256);
    refused_writing(TIRMUZZLE_SHA512);
    refused_submissions(TIRMUZZLE_SHA256);
    refused_submissions(TIRMUZZLE_SHA512);
    refused_ledger();
    printf("%d calls, of lengths at 2^61, of reports and labels that are too long, and of keys that are too short\n", calls);
    return 0;
}
