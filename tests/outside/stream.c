/* Takes reports out of a stream by the loop that include/tirmuzzle.h gives for it, with the stream cut into pieces of every size. What
 * comes out must be the reports that went in, each with the number that reading answers to it, up to the total that closes the
 * stream. */
#include "tirmuzzle.h"

#include <stdio.h>
#include <stdlib.h>
#include <string.h>

enum { REPORTS = 5, CLOSING = 4, MOST_BYTES = REPORTS * 200 + CLOSING + 1 };

/* The reports that go in, one after the other, where each starts and the number that reading answers to it; and how many came out. */
static uint8_t stream[MOST_BYTES];
static size_t stream_length, starts[REPORTS + 1];
static uint32_t numbers[REPORTS];
static size_t taken;

static void require(int holds, const char *what)
{
    if (!holds) {
        fprintf(stderr, "stream: %s\n", what);
        exit(1);
    }
}

/* Puts a report with one site after the others, and damages it by changing a byte. */
static void put(size_t place, uint32_t hash, size_t at, uint8_t change)
{
    static const uint8_t label[] = {'s', 'i', 't', 'e'}, key[TIRMUZZLE_SHORTEST_REPORT_KEY] = {'k', 'e', 'y'};
    const uint32_t label_length = sizeof label, live_blocks = 2;
    const uint64_t live_bytes = 4096;
    uint64_t length, fields[TIRMUZZLE_FIELDS];
    uint8_t *report = stream + stream_length;
    starts[place] = stream_length;
    require(tirmuzzle_report_write(hash, 7, 258, place, 1000, 0, 1 << 30, label, sizeof label, &label_length, 1, &live_bytes, 1,
                                   &live_blocks, 1, key, sizeof key, report, MOST_BYTES - stream_length, &length) == TIRMUZZLE_DONE,
            "a report is not written");
    report[at] ^= change;
    numbers[place] = tirmuzzle_report_read(report, length, fields, TIRMUZZLE_FIELDS);
    stream_length += length;
    starts[place + 1] = stream_length;
}

static void take(const uint8_t *report, uint64_t length, uint32_t number)
{
    require(taken < REPORTS, "a report comes out that did not go in");
    require(length == starts[taken + 1] - starts[taken], "a report comes out with another length");
    require(memcmp(report, stream + starts[taken], length) == 0, "another report comes out");
    require(number == numbers[taken], "a report comes out with another number");
    taken++;
}

/* The stream in pieces of one size, from the fresh state. */
static void feed_pieces(size_t size)
{
    static uint8_t buffer[TIRMUZZLE_LARGEST_REPORT];
    uint64_t collected = 0, used, length;
    uint32_t closed = 0, number = TIRMUZZLE_DONE;
    taken = 0;
    for (size_t at = 0; at < stream_length && closed == 0; at += size) {
        const uint8_t *piece = stream + at;
        size_t piece_length = stream_length - at < size ? stream_length - at : size;
        do {
            number = tirmuzzle_stream_feed(&collected, &closed, buffer, TIRMUZZLE_LARGEST_REPORT, piece, piece_length, &used, &length);
            piece += used;
            piece_length -= used;
            if (length > 0)
                take(buffer, length, number);
        } while (length > 0);
    }
    require(taken == REPORTS, "a report does not come out");
    require(number == TIRMUZZLE_WRONG_REPORT_LENGTH && closed == 1 && collected == 0, "the stream is not closed");
}

int main(void)
{
    static const uint8_t closing[CLOSING] = {0, 0, 0, TIRMUZZLE_SMALLEST_REPORT - 5};
    put(0, TIRMUZZLE_SHA256, 0, 0);
    put(1, TIRMUZZLE_SHA512, 4, 1);
    put(2, TIRMUZZLE_SHA256, 5, 2);
    put(3, TIRMUZZLE_SHA512, 0, 0);
    put(4, TIRMUZZLE_SHA256, 45, 64);
    memcpy(stream + stream_length, closing, CLOSING);
    stream_length += CLOSING + 1;
    for (size_t size = 1; size <= stream_length; size++)
        feed_pieces(size);
    printf("%d reports out of a stream that was cut in %lu ways\n", REPORTS, (unsigned long)stream_length);
    return 0;
}
