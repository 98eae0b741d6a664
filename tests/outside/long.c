/* Calls the library with more than 2^32 bytes at once, of which a length, a place or a count that was cut to 32 bits would lose some,
 * and prints what comes back.
 *
 *     long hashes     digests and a tag
 *     long reports    a report that is written and submitted under long keys
 *
 * tests/outside/long.py prints what both must print. All long buffers are the same mapping, and a call reads it once for each. Its pages
 * are zeros that take no room, but for bytes at its beginning and others from 2^32 on: a call that went on at the beginning there, or
 * stopped, would not answer the same, or would not end. */
#define _DEFAULT_SOURCE
#include "tirmuzzle.h"

#include <stdio.h>
#include <stdlib.h>
#include <string.h>
#include <sys/mman.h>

#define TURN ((size_t)1 << 32)
enum { MARKED = 300, MESSAGE_MORE = 300, KEY_MORE = 20, SITES = 2, OUT = TIRMUZZLE_LARGEST_REPORT };

static uint8_t *bytes, out[OUT];

static void require(int holds, const char *what)
{
    if (!holds) {
        fprintf(stderr, "long: %s\n", what);
        exit(1);
    }
}

static void show(const char *what, const uint8_t *shown, size_t length)
{
    printf("%s: ", what);
    for (size_t i = 0; i < length; i++)
        printf("%02x", shown[i]);
    printf("\n");
}

static void show_digest(const char *what, uint32_t hash, size_t digest)
{
    require(tirmuzzle_digest(hash, bytes, TURN + MESSAGE_MORE, out, digest) == TIRMUZZLE_DONE, what);
    show(what, out, digest);
}

static void show_tag(void)
{
    require(tirmuzzle_tag(TIRMUZZLE_SHA512, bytes, TURN + KEY_MORE, bytes, TURN + MESSAGE_MORE, TIRMUZZLE_SHA512_DIGEST, out,
                          TIRMUZZLE_SHA512_DIGEST) == TIRMUZZLE_DONE,
            "tag");
    show("tag", out, TIRMUZZLE_SHA512_DIGEST);
}

/* A report under a long key, and then submitted under that one and another. */
static void show_report(void)
{
    static const uint8_t labels[] = {'a', 'b', 'c'};
    static const uint32_t label_lengths[SITES] = {2, 1}, live_blocks[SITES] = {3, 4};
    static const uint64_t live_bytes[SITES] = {5, 6};
    struct tirmuzzle_record record = {{0}, 0, 0};
    uint64_t length;
    uint32_t seen;
    require(tirmuzzle_report_write(TIRMUZZLE_SHA512, 7, 258, 9, 1000, 0, 1 << 30, labels, sizeof labels, label_lengths, SITES,
                                   live_bytes, SITES, live_blocks, SITES, bytes, TURN + KEY_MORE, out, OUT,
                                   &length) == TIRMUZZLE_DONE,
            "write");
    show("report", out, length);
    require(tirmuzzle_ledger_submit(&record, 1, out, length, bytes, TURN + KEY_MORE, bytes, TURN + MESSAGE_MORE, &seen) ==
                TIRMUZZLE_DONE,
            "submit");
    show("fingerprint", record.fingerprint, sizeof record.fingerprint);
    printf("live bytes %lu, in use %lu, seen %lu\n", (unsigned long)record.live_bytes, (unsigned long)record.in_use,
           (unsigned long)seen);
}

int main(int count, char **arguments)
{
    int hashes = count == 2 && strcmp(arguments[1], "hashes") == 0, reports = count == 2 && strcmp(arguments[1], "reports") == 0;
    require(hashes || reports, "usage: long hashes | long reports");
    bytes = mmap(NULL, TURN + MESSAGE_MORE, PROT_READ | PROT_WRITE, MAP_PRIVATE | MAP_ANONYMOUS | MAP_NORESERVE, -1, 0);
    require(bytes != MAP_FAILED, "no room for a mapping of 4 GiB");
    for (size_t i = 0; i < MARKED; i++)
        bytes[i] = (uint8_t)(7 * i + 1);
    for (size_t i = 0; i < MESSAGE_MORE; i++)
        bytes[TURN + i] = (uint8_t)(11 * i + 5);
    if (hashes) {
        show_digest("digest under SHA-256", TIRMUZZLE_SHA256, TIRMUZZLE_SHA256_DIGEST);
        show_digest("digest under SHA-512", TIRMUZZLE_SHA512, TIRMUZZLE_SHA512_DIGEST);
        show_tag();
    } else {
        show_report();
    }
    return 0;
}
