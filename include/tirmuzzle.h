/* Tirmuzzle for C99 and C++: hashes, tags and derived keys of a leak-report aggregator. docs/PROTOCOL.md has the rules.
 *
 * Link with libtirmuzzle.a, which is code for Linux on x86-64.
 *
 * Every call answers one of the numbers below: that of the first check in its list that fails, or else TIRMUZZLE_DONE. A refused call
 * writes to no buffer. No call keeps a pointer, allocates memory or has state, so calls may run at the same time, but for other calls
 * on a ledger while a report is submitted to it.
 *
 * A buffer is a pointer and how many elements it holds; NULL with 0 is an empty one. A buffer of bytes may start at any address, but
 * one of 32-bit numbers must be aligned for uint32_t, and one of 64-bit numbers or of records for uint64_t. Inputs may overlap each
 * other. If an output, or a ledger that is submitted to, overlaps any other buffer of the same call, the behaviour is undefined.
 *
 * A pointer with no count beside it is no buffer: it leads to one number that a call answers beside its own, and that is always
 * written, with 0 where the call is refused. It must not be NULL, must be aligned for its type, and the number must not overlap any
 * buffer of the same call.
 *
 * tirmuzzle_stream_feed, which reads whole reports out of a stream, differs from this in part; what stands before it says how.
 *
 * A call uses up to some 5 KiB of the caller's stack, as far as was measured. docs/LIMITS.md has the bytes of each call, and what a
 * signal handler that runs on a stack of its own has to see to.
 */
#ifndef TIRMUZZLE_H
#define TIRMUZZLE_H

#include <stddef.h>
#include <stdint.h>

#ifdef __cplusplus
extern "C" {
#endif

/* The numbers that come back. */
enum {
    TIRMUZZLE_DONE = 0,                       /* done, or the tag matches */
    TIRMUZZLE_TAG_DIFFERS = 1,                /* the tag differs */
    TIRMUZZLE_UNKNOWN_HASH = 2,               /* the number names no hash */
    TIRMUZZLE_KEY_TOO_LONG = 3,               /* key, salt or PRK over 2^61 - 1 bytes */
    TIRMUZZLE_MESSAGE_TOO_LONG = 4,           /* more than 2^61 - 1 bytes to hash; for a tag the key's block counts */
    TIRMUZZLE_TAG_LENGTH_OUT_OF_RANGE = 5,    /* a tag has 16 to 32 bytes under hash 1, 32 to 64 under hash 2 */
    TIRMUZZLE_WRONG_SIZE = 6,                 /* a presented tag, or an output of a fixed size, of another size; or sites to be
                                                 written, in buffers of unequal length */
    TIRMUZZLE_PRK_TOO_SHORT = 7,              /* PRK shorter than a digest */
    TIRMUZZLE_INFO_TOO_LONG = 8,              /* info over 1,024 bytes */
    TIRMUZZLE_OUTPUT_TOO_LONG = 9,            /* output over 255 digests */
    TIRMUZZLE_STATE_NOT_SOUND = 10,           /* a ledger is not sound; or a state of work in pieces, which has no call here */
    TIRMUZZLE_WRONG_REPORT_LENGTH = 11,       /* report too short, or its count is not its length less four */
    TIRMUZZLE_UNKNOWN_VERSION = 12,           /* the report's version is not 1 */
    TIRMUZZLE_TOO_MANY_SITES = 13,            /* more than 64 sites */
    TIRMUZZLE_LABEL_LENGTH_OUT_OF_RANGE = 14, /* a label of 0 or more than 48 bytes */
    TIRMUZZLE_SITES_MISPLACED = 15,           /* a site reaches into the tag, or bytes stand between the last site and the tag; or
                                                 the labels to be written do not have as many bytes as their lengths add up to */
    TIRMUZZLE_SUM_TOO_LARGE = 16,             /* live bytes of more than 2^64 - 1 in all */
    TIRMUZZLE_NO_SUCH_SITE = 17,              /* no site at that place */
    TIRMUZZLE_BUFFER_TOO_SHORT = 18,          /* a buffer too short for the report to be written */
    TIRMUZZLE_LEDGER_FULL = 19,               /* the ledger has no free record */
    TIRMUZZLE_TOTAL_TOO_LARGE = 20,           /* the live bytes in the ledger would be more than 2^64 - 1 in all */
    TIRMUZZLE_KEY_TOO_SHORT = 21              /* the tag key or the fingerprint key of a report, under 16 bytes */
};

/* The hashes, and the bytes of their digests. */
enum {
    TIRMUZZLE_SHA256 = 1,
    TIRMUZZLE_SHA512 = 2,
    TIRMUZZLE_SHA256_DIGEST = 32,
    TIRMUZZLE_SHA512_DIGEST = 64
};

/* Sizes in bytes, but for the number of sites, of reports and of what is made from them. */
enum {
    TIRMUZZLE_SMALLEST_REPORT = 61,  /* under SHA-256; under SHA-512 it has 77 bytes */
    TIRMUZZLE_LARGEST_REPORT = 3981, /* under SHA-512; under SHA-256 it has 3,965 bytes */
    TIRMUZZLE_MOST_SITES = 64,
    TIRMUZZLE_LONGEST_LABEL = 48,
    TIRMUZZLE_SHA256_REPORT_TAG = 16,
    TIRMUZZLE_SHA512_REPORT_TAG = 32,
    TIRMUZZLE_FINGERPRINT = 32,
    TIRMUZZLE_SHORTEST_REPORT_KEY = 16, /* of a tag key or a fingerprint key that a call takes */
    TIRMUZZLE_SHA256_REPORT_KEY = 32,   /* of a machine's tag key, and of its fingerprint key, as tirmuzzle_report_keys makes them */
    TIRMUZZLE_SHA512_REPORT_KEY = 64,
    TIRMUZZLE_SHA256_REPORT_KEYS = 64, /* of both together, as tirmuzzle_report_keys writes them */
    TIRMUZZLE_SHA512_REPORT_KEYS = 128
};

/* The places of what tirmuzzle_report_read writes, and how many there are. */
enum {
    TIRMUZZLE_FIELD_COUNT = 0,
    TIRMUZZLE_FIELD_VERSION = 1,
    TIRMUZZLE_FIELD_HASH = 2,
    TIRMUZZLE_FIELD_TENANT = 3,
    TIRMUZZLE_FIELD_MACHINE = 4,
    TIRMUZZLE_FIELD_REPORT_NUMBER = 5,
    TIRMUZZLE_FIELD_SEND_TIME = 6,
    TIRMUZZLE_FIELD_ATTEMPT = 7,
    TIRMUZZLE_FIELD_MEMORY = 8,
    TIRMUZZLE_FIELD_SITES = 9,
    TIRMUZZLE_FIELD_LIVE_BYTES = 10,
    TIRMUZZLE_FIELDS = 11
};

/* The places of what tirmuzzle_report_site writes, and how many there are. */
enum {
    TIRMUZZLE_SITE_LABEL_START = 0,
    TIRMUZZLE_SITE_LABEL_LENGTH = 1,
    TIRMUZZLE_SITE_LIVE_BYTES = 2,
    TIRMUZZLE_SITE_LIVE_BLOCKS = 3,
    TIRMUZZLE_SITE_NUMBERS = 4
};

/* A record of a ledger: the fingerprint of a report that was counted, and its live bytes. It is used where in_use is 1, and free
 * otherwise. */
struct tirmuzzle_record {
    uint8_t fingerprint[TIRMUZZLE_FINGERPRINT];
    uint64_t live_bytes;
    uint64_t in_use;
};

/* It has no padding: a compiler that lays it out otherwise refuses this type. */
typedef char tirmuzzle_record_has_48_bytes[sizeof(struct tirmuzzle_record) == 48 ? 1 : -1];

/* ---- For agents ---- */

/* The first tag_length bytes of the HMAC of a message. The key may have any length up to 2^61 - 1 bytes, also none: 21 is for the keys
 * of reports alone. out has exactly tag_length bytes.
 * Refuses with 2, 3, 5, 4, 6, in this order: tag_length is checked with the key, before the message. */
uint32_t tirmuzzle_tag(uint32_t hash, const uint8_t *key, size_t key_length, const uint8_t *message, size_t message_length,
                       size_t tag_length, uint8_t *out, size_t out_length);

/* Whether a presented tag is the message's, of exactly tag_length bytes: 0 where it is, 1 where it is not.
 * Refuses with 2, 3, 5, 4, 6, in this order, as tirmuzzle_tag does; 1 is the last check of all. tag_length is the length that the
 * caller's protocol requires: where no earlier check fails, a tag of any other length gets 6, never 0 or 1. */
uint32_t tirmuzzle_verify(uint32_t hash, const uint8_t *key, size_t key_length, const uint8_t *message, size_t message_length,
                          size_t tag_length, const uint8_t *tag, size_t presented_length);

/* HKDF's extract: a PRK of a digest's bytes from a salt, which may be empty, and input key material. out has a digest's bytes.
 * Refuses with 2, 3, 4, 6, in this order. */
uint32_t tirmuzzle_extract(uint32_t hash, const uint8_t *salt, size_t salt_length, const uint8_t *ikm, size_t ikm_length,
                           uint8_t *out, size_t out_length);

/* HKDF's expand: as many bytes as out has, which may be none. Refuses with 2, 3, 7, 8, 9, in this order. */
uint32_t tirmuzzle_expand(uint32_t hash, const uint8_t *prk, size_t prk_length, const uint8_t *info, size_t info_length,
                          uint8_t *out, size_t out_length);

/* Reading a report. Every call below that takes one reads it first, with these checks in this order; tirmuzzle_ledger_submit alone
 * looks at its ledger before that:
 *
 *     11  it has fewer than 61 bytes, or its count is not its length less four
 *     12  its version is not 1
 *      2  its hash is not 1 or 2
 *     11  under hash 2, it has fewer than 77 bytes
 *     13  it has more than 64 sites
 *         for each site in turn:
 *     15      no byte is left before the tag for the length of its label
 *     14      that length is 0 or more than 48
 *     15      the site reaches into the tag
 *     15  bytes are left between the last site and the tag
 *     16  the live bytes of all sites add up to more than 2^64 - 1
 *
 * The tag plays no part in it. What else a call refuses, it refuses only then. */

/* The fingerprint of a report, which its send time, its attempt and its tag do not change, under the fingerprint key as it is lent.
 * out has TIRMUZZLE_FINGERPRINT bytes. Refuses as reading does, then with 3, 21, 6. */
uint32_t tirmuzzle_report_fingerprint(const uint8_t *report, size_t report_length, const uint8_t *fingerprint_key,
                                      size_t fingerprint_key_length, uint8_t *out, size_t out_length);

/* Writing a report from its fields and sites, with its tag under the tag key as it is lent. The count, the version and the number
 * of sites are the call's own to make. The sites come as all labels end to end, and three buffers with a number for each site: how
 * many bytes its label has, its live bytes, its live blocks. The report stands at the beginning of out, and what out has after it
 * stays as it was; TIRMUZZLE_LARGEST_REPORT bytes are enough for any report. length is always written: how many bytes the report
 * has, or 0 where the call is refused. C cuts a wider number to the width of its parameter before the call can see it: an agent that
 * counts its attempts in an int has to stop at 255.
 *
 * To send a report again, write it with the same fields and sites, and change its send time and its attempt alone: it then keeps its
 * fingerprint, by which the collector knows it. A new report needs a new report number, even where all else is the same.
 *
 * Refuses, in this order, with
 *
 *      2  hash is not 1 or 2
 *      6  the three buffers of numbers are of unequal length
 *     13  there are more than 64 sites
 *     14  a label's length is 0 or more than 48
 *     15  labels does not have as many bytes as the lengths add up to
 *     16  the live bytes of all sites add up to more than 2^64 - 1
 *      3  the tag key has more than 2^61 - 1 bytes
 *     21  the tag key has fewer than 16 bytes
 *     18  out is too short for the report */
uint32_t tirmuzzle_report_write(uint32_t hash, uint32_t tenant, uint64_t machine, uint64_t report_number, uint64_t send_time,
                                uint8_t attempt, uint64_t memory, const uint8_t *labels, size_t labels_length,
                                const uint32_t *label_lengths, size_t label_lengths_count, const uint64_t *live_bytes,
                                size_t live_bytes_count, const uint32_t *live_blocks, size_t live_blocks_count,
                                const uint8_t *tag_key, size_t tag_key_length, uint8_t *out, size_t out_length, uint64_t *length);

/* ---- For the collector ---- */

/* The digest of a message. out has a digest's bytes. Refuses with 2, 4, 6, in this order. */
uint32_t tirmuzzle_digest(uint32_t hash, const uint8_t *message, size_t message_length, uint8_t *out, size_t out_length);

/* The tag key of a machine, then its fingerprint key, from a PRK. out has exactly the bytes of both keys,
 * TIRMUZZLE_SHA256_REPORT_KEYS or TIRMUZZLE_SHA512_REPORT_KEYS. Refuses with 2, 3, 6, 7, in this order. */
uint32_t tirmuzzle_report_keys(uint32_t hash, const uint8_t *prk, size_t prk_length, uint32_t tenant, uint64_t machine, uint8_t *out,
                               size_t out_length);

/* Whether the tag at the end of a report is that of all bytes before it, under the tag key as it is lent: 0 where it is, 1 where it is
 * not. Refuses as reading does, then with 3, 21; 1 is the last check of all. */
uint32_t tirmuzzle_report_check(const uint8_t *report, size_t report_length, const uint8_t *tag_key, size_t tag_key_length);

/* Every field of a report and the sum of its live bytes; fields has TIRMUZZLE_FIELDS places. Refuses as reading does, then with 6. */
uint32_t tirmuzzle_report_read(const uint8_t *report, size_t report_length, uint64_t *fields, size_t fields_count);

/* The site at a place, counted from 0: where its label starts in the report, the label's length, live bytes, live blocks; site has
 * TIRMUZZLE_SITE_NUMBERS places. Refuses as reading does, then with 17, 6. */
uint32_t tirmuzzle_report_site(const uint8_t *report, size_t report_length, uint64_t place, uint64_t *site, size_t site_count);

/* The ledger, which counts each report once. It is a buffer of records, and one of n records, which may be 0, starts as n * 48 zero
 * bytes. The host keeps it from call to call, on disk too if it likes: the numbers of a record are in the machine's own byte order,
 * and the fingerprint is bytes. Records are never freed; a host that needs more room puts zero bytes of further records after the
 * others, and the longer ledger holds the same. While a report is submitted to a ledger, no other call on it may run.
 *
 * A ledger is sound when
 *
 *     its used records stand first
 *     its free records are all zero
 *     no two used records have the same fingerprint
 *     the live bytes of its used records add up to at most 2^64 - 1
 *
 * One that starts as zeros stays sound. Each call makes sure of it anew, so that its time grows with the square of the number of used
 * records; docs/LIMITS.md has figures. */

/* Submits a report to a ledger, with both keys of its machine as they are lent. A report that is new is entered in the first free
 * record, with its fingerprint and the sum of its live bytes. One whose fingerprint stands in a used record is seen, and changes
 * nothing, also where no record is free or the sum would pass 2^64 - 1. seen is always written: 1 where the report is seen, and 0 where
 * it is new or the call is refused. Every refusal, 1 too, leaves the records as they were.
 *
 * A retry is known by its fingerprint alone. An agent that sends a report again as tirmuzzle_report_write says is counted once; where it
 * measures its memory or its sites anew for the retry, the report has another fingerprint and counts a second time. So does one that
 * is submitted under a fingerprint key of another block form.
 *
 * Refuses, in this order, with
 *
 *     10  the ledger is not sound
 *         the numbers of reading
 *      3  the tag key has more than 2^61 - 1 bytes
 *     21  the tag key has fewer than 16 bytes
 *      1  the tag differs
 *      3  the fingerprint key has more than 2^61 - 1 bytes
 *     21  the fingerprint key has fewer than 16 bytes
 *     19  the report is not seen, and no record is free
 *     20  the report is not seen, and the live bytes of the ledger and of the report add up to more than 2^64 - 1 */
uint32_t tirmuzzle_ledger_submit(struct tirmuzzle_record *records, size_t records_count, const uint8_t *report, size_t report_length,
                                 const uint8_t *tag_key, size_t tag_key_length, const uint8_t *fingerprint_key,
                                 size_t fingerprint_key_length, uint32_t *seen);

/* The sum of the live bytes of a ledger's used records: those of each report that was counted, once. total is always written, with 0
 * where the call is refused. Refuses with 10 where the ledger is not sound. */
uint32_t tirmuzzle_ledger_total(const struct tirmuzzle_record *records, size_t records_count, uint64_t *total);

/* Reports that come in pieces of any size, as from a socket. For each stream the host keeps a buffer of TIRMUZZLE_LARGEST_REPORT bytes
 * and its state: collected, how many bytes of the report on its way stand at the beginning of the buffer, and closed, which is 0 where
 * the stream is open and any other number where it is closed. A new stream has 0 in both, and any bytes in its buffer. Between feeds the
 * host changes none of the three.
 *
 * A feed differs from the other calls in this: it has refusals that write, those of a whole report and that of a total out of range.
 * collected and closed lead to numbers that are read and moved on, and none of the four numbers may overlap another. If the buffer of a
 * stream overlaps any other buffer of the same call, the behaviour is undefined. Two feeds of one stream must not run at the same time.
 * TIRMUZZLE_WRONG_SIZE is also for the buffer of a stream, TIRMUZZLE_STATE_NOT_SOUND for its state, and TIRMUZZLE_WRONG_REPORT_LENGTH for
 * a report on its way of fewer than 61 or more than 3,981 bytes, and for a stream that is closed. */

/* Feeds a piece, which may be empty, to a stream. Bytes of it are copied to the buffer, after those that are collected, up to the end of
 * the report on its way, and collected and closed are moved on. used and length are always written: how many bytes of the piece were
 * used, and the length of a whole report, which then stands at the beginning of the buffer until the next feed. Other bytes of the
 * buffer stay. What comes back is
 *
 *     a length above 0    a whole report, with the number that reading answers to it: 0, or a refusal of this one report. Its tag was
 *                         not looked at. collected is 0 again, and the stream goes on with the byte after it: feed the rest of the
 *                         piece again.
 *     0, with length 0    more is wanted: all of the piece was used.
 *     11, with length 0   the stream is closed, by this feed or before. One closes where the total of the report on its way, which is
 *                         the number of its first four bytes plus 4, is under 61 or over 3,981: nothing tells where the next report
 *                         would start. No byte after the fourth is used, collected is 0 and closed is 1.
 *     10 and 6            nothing was done.
 *
 * So a host takes the reports of a piece like this, and has used all of it where number is 0 in the end:
 *
 *     do {
 *         number = tirmuzzle_stream_feed(&collected, &closed, buffer, TIRMUZZLE_LARGEST_REPORT, piece, piece_length, &used, &length);
 *         piece += used;
 *         piece_length -= used;
 *         if (length > 0)
 *             take(buffer, length, number);
 *     } while (length > 0);
 *
 * However a stream is cut into pieces that are fed like this, the same reports come out, with the same numbers, up to the 11 that closes
 * it. Refuses, in this order, with
 *
 *     10  more than 3,980 bytes are collected
 *      6  the buffer has not 3,981 bytes
 *     10  the stream is open, and at least four bytes are collected whose total is out of range, or already reached
 *     11  the stream is closed
 *
 * and uses nothing then: used and length are 0, the buffer is not written, and collected and closed are written with what they held.
 * After these checks 11 closes the stream, or a whole report gets the number of reading, as above. */
uint32_t tirmuzzle_stream_feed(uint64_t *collected, uint32_t *closed, uint8_t *buffer, size_t buffer_length, const uint8_t *piece,
                               size_t piece_length, uint64_t *used, uint64_t *length);

#ifdef __cplusplus
}
#endif

#endif
