/* Feeds streams pieces and buffers that are 4 GiB, 2^61 bytes or more by what is said of them. What is refused is not read, and of a piece
 * no byte is read that is not used.
 *
 * No machine can lend 2^61 bytes. So these lengths come with the address of memory that is shorter and may not be read, but for the
 * beginning of a piece just before it: C's side of the header is broken on purpose, and a call that reads on ends the program. */
#define _DEFAULT_SOURCE
#include "tirmuzzle.h"

#include <stdio.h>
#include <stdlib.h>
#include <string.h>
#include <sys/mman.h>

#define MOST (((size_t)1 << 61) - 1)
#define LONGER ((size_t)1 << 32)
enum { PAGE = 1 << 16 };

static uint8_t *unreadable;
static int calls;

static void require(int holds, const char *what)
{
    if (!holds) {
        fprintf(stderr, "stream limits: %s\n", what);
        exit(1);
    }
}

static void answers(const char *what, uint32_t expected, uint32_t answer)
{
    if (answer != expected)
        fprintf(stderr, "stream limits: answered %lu, expected %lu\n", (unsigned long)answer, (unsigned long)expected);
    require(answer == expected, what);
    calls++;
}

/* What a feed answers. Where a check refuses it, used and length are 0 and the state is as it was; the buffer may not be read. */
static uint32_t feeding(uint64_t collected, uint32_t closed, size_t buffer_length, size_t piece_length)
{
    uint64_t collected_after = collected, used = UINT64_MAX, length = UINT64_MAX;
    uint32_t closed_after = closed;
    uint32_t answer = tirmuzzle_stream_feed(&collected_after, &closed_after, unreadable, buffer_length, unreadable + PAGE, piece_length,
                                            &used, &length);
    require(used == 0 && length == 0, "feed, used and length");
    require(collected_after == collected && closed_after == closed, "feed, state");
    return answer;
}

/* Neither the buffer nor the piece is read where too many bytes are collected, where the buffer has another size, and where the stream
 * is closed, whatever lengths they are said to have. */
static void refused_feeds(void)
{
    enum { BUFFER = TIRMUZZLE_LARGEST_REPORT, MOST_COLLECTED = BUFFER - 1 };
    static const size_t pieces[] = {0, 1, LONGER, MOST, MOST + 1, (size_t)-1};
    static const size_t buffers[] = {0, BUFFER - 1, BUFFER + 1, LONGER + BUFFER, MOST + 1 + BUFFER, (size_t)-1};
    for (size_t i = 0; i < sizeof pieces / sizeof *pieces; i++) {
        for (size_t k = 0; k < sizeof buffers / sizeof *buffers; k++) {
            answers("feed, collected and size", 10, feeding(BUFFER, 0, buffers[k], pieces[i]));
            answers("feed, most collected and size", 6, feeding(MOST_COLLECTED, 0, buffers[k], pieces[i]));
            answers("feed, size and closed", 6, feeding(0, 1, buffers[k], pieces[i]));
        }
        answers("feed, collected", 10, feeding(BUFFER, 0, BUFFER, pieces[i]));
        answers("feed, collected and closed", 10, feeding((uint64_t)1 << 61, 1, BUFFER, pieces[i]));
        answers("feed, closed", 11, feeding(MOST_COLLECTED, 7, BUFFER, pieces[i]));
    }
}

/* A piece of which so many bytes can be read, at its beginning, though it is said to be far longer: the feed uses all of them, and reads
 * no other. */
static void fed_no_further(const uint8_t *bytes, size_t readable, size_t piece_length, uint32_t expected, uint32_t expected_closed)
{
    static uint8_t buffer[TIRMUZZLE_LARGEST_REPORT];
    uint8_t *piece = unreadable - readable;
    uint64_t collected = 0, used = 0, length = 0;
    uint32_t closed = 0;
    memcpy(piece, bytes, readable);
    answers("feed, a longer piece", expected,
            tirmuzzle_stream_feed(&collected, &closed, buffer, sizeof buffer, piece, piece_length, &used, &length));
    require(used == readable && collected == 0 && closed == expected_closed, "feed, a longer piece, used and state");
    require(length == (closed ? 0 : readable) && memcmp(buffer, bytes, readable) == 0, "feed, a longer piece, buffer");
}

static void fed_longer_pieces(void)
{
    static const uint8_t out_of_range[] = {0, 0, 0, TIRMUZZLE_SMALLEST_REPORT - 5};
    static const uint8_t start[] = {0, 0, 0, TIRMUZZLE_SMALLEST_REPORT - 4, 1, TIRMUZZLE_SHA256};
    static const size_t lengths[] = {LONGER, MOST, MOST + 1, (size_t)-1};
    uint8_t report[TIRMUZZLE_SMALLEST_REPORT] = {0};
    memcpy(report, start, sizeof start);
    for (size_t i = 0; i < sizeof lengths / sizeof *lengths; i++) {
        fed_no_further(report, sizeof report, lengths[i], 0, 0);
        fed_no_further(out_of_range, sizeof out_of_range, lengths[i], 11, 1);
    }
}

int main(void)
{
    uint8_t *mapping = mmap(NULL, PAGE + LONGER, PROT_NONE, MAP_PRIVATE | MAP_ANONYMOUS | MAP_NORESERVE, -1, 0);
    require(mapping != MAP_FAILED, "no room for a mapping of 4 GiB");
    require(mprotect(mapping, PAGE, PROT_READ | PROT_WRITE) == 0, "no page before the memory that may not be read");
    unreadable = mapping + PAGE;
    refused_feeds();
    fed_longer_pieces();
    printf("%d feeds, of pieces and buffers that are too long, and of pieces that go on after what is used\n", calls);
    return 0;
}
