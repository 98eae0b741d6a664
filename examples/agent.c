/* What an agent does with Tirmuzzle: it makes the keys of its machine, writes a leak report of two sites with its tag, and sends it
 * again later with a raised attempt, under another tag and the same fingerprint. The collector's calls stand beside, to show what it
 * makes of it.
 *
 * Link it with libtirmuzzle.a. */
#include "tirmuzzle.h"

#include <stdio.h>
#include <stdlib.h>
#include <string.h>

enum { TENANT = 7, MACHINE = 258, REPORT_NUMBER = 9, MEMORY = 1 << 30, SITES = 2 };
enum { KEY = TIRMUZZLE_SHA256_REPORT_KEY, TAG = TIRMUZZLE_SHA256_REPORT_TAG };

struct report {
    uint8_t bytes[TIRMUZZLE_LARGEST_REPORT];
    uint64_t length;
};

/* Every call answers a number; an agent that goes on after a refusal would send what is in a buffer by chance. */
static void require(uint32_t answer, const char *what)
{
    if (answer != TIRMUZZLE_DONE) {
        fprintf(stderr, "agent: %s is refused with %lu\n", what, (unsigned long)answer);
        exit(1);
    }
}

/* The report as it is sent at this time, with this attempt and its tag: the labels of both sites end to end, and three numbers for
 * each site. */
static void write_report(struct report *report, uint64_t send_time, uint8_t attempt, const uint8_t *tag_key)
{
    static const uint8_t labels[] = "cache.c:42" "queue.c:7";
    static const uint32_t label_lengths[SITES] = {10, 9}, live_blocks[SITES] = {16, 3};
    static const uint64_t live_bytes[SITES] = {1048576, 3000};
    require(tirmuzzle_report_write(TIRMUZZLE_SHA256, TENANT, MACHINE, REPORT_NUMBER, send_time, attempt, MEMORY, labels,
                                   sizeof labels - 1, label_lengths, SITES, live_bytes, SITES, live_blocks, SITES, tag_key, KEY,
                                   report->bytes, sizeof report->bytes, &report->length),
            "the report");
}

static void print_bytes(const char *what, const uint8_t *bytes, size_t length)
{
    printf("%s: ", what);
    for (size_t i = 0; i < length; i++)
        printf("%02x", bytes[i]);
    printf("\n");
}

static void print_field(const char *what, uint64_t number)
{
    printf(", %s %llu", what, (unsigned long long)number);
}

static void print_site(const struct report *report, uint64_t place)
{
    uint64_t site[TIRMUZZLE_SITE_NUMBERS];
    require(tirmuzzle_report_site(report->bytes, report->length, place, site, TIRMUZZLE_SITE_NUMBERS), "a site");
    printf("  %.*s", (int)site[TIRMUZZLE_SITE_LABEL_LENGTH], (const char *)report->bytes + site[TIRMUZZLE_SITE_LABEL_START]);
    print_field("live bytes", site[TIRMUZZLE_SITE_LIVE_BYTES]);
    print_field("live blocks", site[TIRMUZZLE_SITE_LIVE_BLOCKS]);
    printf("\n");
}

/* What the collector makes of a report: it checks the tag before it believes a field, and tells reports apart by fingerprints. */
static void take(const struct report *report, const uint8_t *tag_key, const uint8_t *fingerprint_key, uint8_t *fingerprint)
{
    uint64_t fields[TIRMUZZLE_FIELDS];
    require(tirmuzzle_report_check(report->bytes, report->length, tag_key, KEY), "the check");
    require(tirmuzzle_report_read(report->bytes, report->length, fields, TIRMUZZLE_FIELDS), "reading");
    require(tirmuzzle_report_fingerprint(report->bytes, report->length, fingerprint_key, KEY, fingerprint, TIRMUZZLE_FINGERPRINT),
            "the fingerprint");
    printf("report %llu", (unsigned long long)fields[TIRMUZZLE_FIELD_REPORT_NUMBER]);
    print_field("count", fields[TIRMUZZLE_FIELD_COUNT]);
    print_field("version", fields[TIRMUZZLE_FIELD_VERSION]);
    print_field("hash", fields[TIRMUZZLE_FIELD_HASH]);
    print_field("tenant", fields[TIRMUZZLE_FIELD_TENANT]);
    print_field("machine", fields[TIRMUZZLE_FIELD_MACHINE]);
    print_field("send time", fields[TIRMUZZLE_FIELD_SEND_TIME]);
    print_field("attempt", fields[TIRMUZZLE_FIELD_ATTEMPT]);
    print_field("memory", fields[TIRMUZZLE_FIELD_MEMORY]);
    print_field("sites", fields[TIRMUZZLE_FIELD_SITES]);
    print_field("live bytes", fields[TIRMUZZLE_FIELD_LIVE_BYTES]);
    printf("\n");
    for (uint64_t place = 0; place < fields[TIRMUZZLE_FIELD_SITES]; place++)
        print_site(report, place);
    print_bytes("  tag", report->bytes + report->length - TAG, TAG);
    print_bytes("  fingerprint", fingerprint, TIRMUZZLE_FINGERPRINT);
}

int main(void)
{
    static const uint8_t material[] = "the secret of this installation", salt[] = "a salt that is no secret";
    uint8_t prk[TIRMUZZLE_SHA256_DIGEST], keys[TIRMUZZLE_SHA256_REPORT_KEYS];
    require(tirmuzzle_extract(TIRMUZZLE_SHA256, salt, sizeof salt - 1, material, sizeof material - 1, prk, sizeof prk), "the PRK");
    /* tirmuzzle_expand makes the same keys, one by one; this call builds the info for both, and leaves nothing to get wrong. */
    require(tirmuzzle_report_keys(TIRMUZZLE_SHA256, prk, sizeof prk, TENANT, MACHINE, keys, sizeof keys), "the pair of keys");
    const uint8_t *tag_key = keys, *fingerprint_key = keys + KEY;

    struct report report;
    uint8_t first[TIRMUZZLE_FINGERPRINT], again[TIRMUZZLE_FINGERPRINT];
    write_report(&report, 1000, 0, tag_key);
    take(&report, tag_key, fingerprint_key, first);
    write_report(&report, 61000, 1, tag_key);
    take(&report, tag_key, fingerprint_key, again);
    printf("sent again: %s\n", memcmp(first, again, sizeof first) == 0 ? "the same fingerprint" : "another fingerprint");
    return 0;
}
