/* Measures the stack that each call takes, in the x86-64 code of the archive, and holds it to what docs/LIMITS.md says.
 *
 * A call runs in a thread, on a stack that the thread filled with one byte before; the deepest byte that changed says how far the
 * call went. The bytes are counted from the frame of the thread's own function, so that the call's return address and its arguments
 * are among them. Each call takes what leads it deepest: keys longer than a block, messages and outputs of many blocks, the largest
 * report, a tag that differs, and a ledger of many records, whose bytes would not fit into what its calls may take. */
#define _DEFAULT_SOURCE
#include "tirmuzzle.h"

#include <pthread.h>
#include <stdio.h>
#include <stdlib.h>
#include <string.h>
#include <sys/mman.h>

enum { STACK = 1 << 17, MARGIN = 128, KEY = 300, MESSAGE = 5000, INFO = 1024, LONGEST_OUTPUT = 255 * TIRMUZZLE_SHA512_DIGEST };
enum { SITES = TIRMUZZLE_MOST_SITES, LAST_SITE = SITES - 1, LABELS = SITES * TIRMUZZLE_LONGEST_LABEL };
enum { RECORDS = 1000, LAST_RECORD = RECORDS - 1 };

static uint8_t key[KEY], message[MESSAGE], out[LONGEST_OUTPUT], report[TIRMUZZLE_LARGEST_REPORT], labels[LABELS];
static uint8_t good_report[TIRMUZZLE_LARGEST_REPORT];
static uint32_t label_lengths[SITES], live_blocks[SITES];
static uint64_t live_bytes[SITES], total_live_bytes;
static struct tirmuzzle_record records[RECORDS];
static const uint8_t no_tag[TIRMUZZLE_SHA512_DIGEST];
static uint8_t *stack; /* the lowest byte of the thread's stack */
static uint64_t words[TIRMUZZLE_FIELDS], report_length;
static size_t digest_length, keys_length;
static uint32_t hash, seen;
static uint8_t stream[TIRMUZZLE_LARGEST_REPORT];

static uint32_t digest(void) { return tirmuzzle_digest(hash, message, MESSAGE, out, digest_length); }
static uint32_t tag(void) { return tirmuzzle_tag(hash, key, KEY, message, MESSAGE, digest_length, out, digest_length); }
static uint32_t verify(void) { return tirmuzzle_verify(hash, key, KEY, message, MESSAGE, digest_length, no_tag, digest_length); }
static uint32_t extract(void) { return tirmuzzle_extract(hash, key, KEY, message, MESSAGE, out, digest_length); }
static uint32_t expand(void) { return tirmuzzle_expand(hash, key, KEY, message, INFO, out, 255 * digest_length); }
static uint32_t fingerprint(void) { return tirmuzzle_report_fingerprint(report, report_length, key, KEY, out, TIRMUZZLE_FINGERPRINT); }
static uint32_t keys(void) { return tirmuzzle_report_keys(hash, key, KEY, 7, 258, out, keys_length); }
static uint32_t check(void) { return tirmuzzle_report_check(report, report_length, key, KEY); }
static uint32_t read(void) { return tirmuzzle_report_read(report, report_length, words, TIRMUZZLE_FIELDS); }
static uint32_t site(void) { return tirmuzzle_report_site(report, report_length, LAST_SITE, words, TIRMUZZLE_SITE_NUMBERS); }
static uint32_t total(void) { return tirmuzzle_ledger_total(records, RECORDS, &total_live_bytes); }

/* Writes the largest report under the hash: the most sites, each with the longest label. */
static uint32_t write(void)
{
    return tirmuzzle_report_write(hash, 7, 258, 9, 1000, 0, 1 << 30, labels, LABELS, label_lengths, SITES, live_bytes, SITES,
                                  live_blocks, SITES, key, KEY, report, TIRMUZZLE_LARGEST_REPORT, &report_length);
}

/* Submits the report to a ledger whose last record is free, where it is new, and then with a tag that differs. */
static uint32_t submit(void)
{
    static const struct tirmuzzle_record free_record;
    records[LAST_RECORD] = free_record;
    uint32_t answer = tirmuzzle_ledger_submit(records, RECORDS, good_report, report_length, key, KEY, key, KEY, &seen);
    if (answer != TIRMUZZLE_DONE || seen)
        return answer;
    return tirmuzzle_ledger_submit(records, RECORDS, report, report_length, key, KEY, key, KEY, &seen);
}

/* Feeds the report to a new stream: a first piece that ends within the count, and then all that is left. */
static uint32_t feed(void)
{
    uint64_t collected = 0, used, length;
    uint32_t closed = 0, answer = tirmuzzle_stream_feed(&collected, &closed, stream, sizeof stream, report, 3, &used, &length);
    if (answer != TIRMUZZLE_DONE || length > 0)
        return TIRMUZZLE_STATE_NOT_SOUND;
    answer = tirmuzzle_stream_feed(&collected, &closed, stream, sizeof stream, report + 3, report_length - 3, &used, &length);
    return length == report_length ? answer : TIRMUZZLE_STATE_NOT_SOUND;
}

/* Each call, the number that it answers here, and the most bytes of stack that docs/LIMITS.md allows it. */
static const struct {
    const char *name;
    uint32_t (*call)(void);
    uint32_t answer;
    size_t limit;
} calls[] = {
    {"tirmuzzle_tag", tag, 0, 4312},
    {"tirmuzzle_verify", verify, 1, 4440},
    {"tirmuzzle_extract", extract, 0, 4360},
    {"tirmuzzle_expand", expand, 0, 4792},
    {"tirmuzzle_report_write", write, 0, 4584},
    {"tirmuzzle_report_fingerprint", fingerprint, 0, 4312},
    {"tirmuzzle_digest", digest, 0, 2360},
    {"tirmuzzle_report_keys", keys, 0, 4848},
    {"tirmuzzle_report_check", check, 1, 4488},
    {"tirmuzzle_report_read", read, 0, 512},
    {"tirmuzzle_report_site", site, 0, 512},
    {"tirmuzzle_ledger_submit", submit, 1, 4728},
    {"tirmuzzle_ledger_total", total, 0, 512},
    {"tirmuzzle_stream_feed", feed, 0, 512},
};
enum { CALLS = sizeof calls / sizeof calls[0] };

static void require(int holds, const char *what)
{
    if (!holds) {
        fprintf(stderr, "stack: %s\n", what);
        exit(2);
    }
}

/* What one call took on a stack filled with a byte. */
struct measure {
    size_t call;
    uint8_t filling;
    uint32_t answer;
    size_t bytes;
};

/* MARGIN leaves the frame at work alone, so that no call is measured with less. */
static void *on_own_stack(void *pointer)
{
    struct measure *measure = pointer;
    uint8_t here;
    const uint8_t *volatile start = &here;
    for (uint8_t *at = stack; at < start - MARGIN; at++)
        *at = measure->filling;
    measure->answer = calls[measure->call].call();
    const uint8_t *deepest = stack;
    while (*deepest == measure->filling)
        deepest++;
    measure->bytes = (size_t)(start - deepest);
    return NULL;
}

/* The largest report under the hash, as it is and with a tag that differs in a bit. */
static void build_report(void)
{
    require(write() == TIRMUZZLE_DONE, "the largest report is refused");
    memcpy(good_report, report, sizeof report);
    report[report_length - 1] ^= 1;
}

/* A ledger in which all records but the last are used. Their fingerprints differ in their last bytes alone. */
static void build_ledger(void)
{
    for (size_t i = 0; i < LAST_RECORD; i++) {
        records[i].fingerprint[TIRMUZZLE_FINGERPRINT - 2] = (uint8_t)(i >> 8);
        records[i].fingerprint[TIRMUZZLE_FINGERPRINT - 1] = (uint8_t)i;
        records[i].live_bytes = i;
        records[i].in_use = 1;
    }
}

/* The bytes of stack that a call takes, where the stack is filled with this byte. */
static size_t measured(size_t call, uint8_t filling)
{
    struct measure measure = {call, filling, 0, 0};
    pthread_attr_t attributes;
    pthread_t thread;
    require(pthread_attr_init(&attributes) == 0 && pthread_attr_setstack(&attributes, stack, STACK) == 0, "no stack for a thread");
    require(pthread_create(&thread, &attributes, on_own_stack, &measure) == 0, "no thread");
    require(pthread_join(thread, NULL) == 0 && pthread_attr_destroy(&attributes) == 0, "the thread does not end");
    require(measure.answer == calls[call].answer, "a call answers another number");
    return measure.bytes;
}

int main(void)
{
    int over = 0;
    stack = mmap(NULL, STACK, PROT_READ | PROT_WRITE, MAP_PRIVATE | MAP_ANONYMOUS, -1, 0);
    require(stack != MAP_FAILED, "out of memory");
    for (int i = 0; i < SITES; i++)
        label_lengths[i] = TIRMUZZLE_LONGEST_LABEL;
    build_ledger();
    for (size_t call = 0; call < CALLS; call++) {
        size_t most = 0;
        for (hash = TIRMUZZLE_SHA256; hash <= TIRMUZZLE_SHA512; hash++) {
            digest_length = hash == TIRMUZZLE_SHA256 ? TIRMUZZLE_SHA256_DIGEST : TIRMUZZLE_SHA512_DIGEST;
            keys_length = hash == TIRMUZZLE_SHA256 ? TIRMUZZLE_SHA256_REPORT_KEYS : TIRMUZZLE_SHA512_REPORT_KEYS;
            build_report();
            measured(call, 0); /* not counted: the loader may still have to look up memcpy, on the same stack */
            size_t one = measured(call, 0x5a), other = measured(call, 0xab);
            most = one > most ? one : most;
            most = other > most ? other : most;
        }
        printf("%-28s %5lu bytes of stack, at most %lu\n", calls[call].name, (unsigned long)most, (unsigned long)calls[call].limit);
        over |= most > calls[call].limit;
    }
    require(!over, "a call takes more stack than docs/LIMITS.md says");
    printf("%d calls, each within the stack that docs/LIMITS.md says\n", CALLS);
    return 0;
}
