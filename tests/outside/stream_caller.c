/* Feeds a stream from C on every feed of a file that tests/outside/feeds.py made, and compares the number, each byte of the buffer and of
 * the numbers beside it, and that the piece is as it was.
 *
 *     stream_caller FILE [--case N]
 *
 * Each feed runs once for each way of lending memory: inside a larger block with known bytes around it, in a heap block of the exact
 * size, and with memory that may not be touched right after it or right before it. Under valgrind, what valgrind finds is a failure of
 * the feed at work. The first failure ends the program. */
#define _DEFAULT_SOURCE
#include "tirmuzzle.h"

#include <signal.h>
#include <stdio.h>
#include <stdlib.h>
#include <string.h>
#include <sys/mman.h>
#include <valgrind/valgrind.h>

/* What a feed is lent: the piece; what it changes, which is the buffer of the stream and the two numbers of its state; and the two numbers
 * that it answers beside its own. */
enum { PIECE, BUFFER, COLLECTED, CLOSED, USED, LENGTH, LENT };
static const char *const names[LENT] = {"piece", "buffer", "collected", "closed", "used", "length"};
enum { FILE_HEAD = 20, HEAD = 52, AROUND = 64, UNTOUCHABLE = 65536 };

/* How memory is lent. */
enum { BETWEEN_KNOWN_BYTES, EXACT_BLOCK, BEFORE_UNTOUCHABLE, AFTER_UNTOUCHABLE, WAYS };
static const char *const ways[WAYS] = {
    "between known bytes", "in a block of its size", "before untouchable memory", "after untouchable memory",
};

/* One of them: the bytes of an element, how many bytes there are, what they are before the feed, or NULL where the file does not say, and
 * what they must be after it. */
struct part {
    size_t size, length;
    const uint8_t *before, *after;
};

struct lent {
    uint8_t *block, *start;
    size_t block_length;
};

static unsigned long long seed;
static unsigned long place;     /* of the feed at work in the file, counted from 0 */
static uint32_t expected;       /* the number that it must answer */
static struct part parts[LENT]; /* what it is lent, for a report when the program is stopped */
static uint64_t words[2 + 2];   /* collected before and after it, used and length */
static uint32_t halves[2];      /* closed before and after it */
static int way;
static uint8_t *rooms[LENT]; /* for each part room with untouchable memory on both sides */
static size_t room_length;

static void require(int holds, const char *what)
{
    if (!holds) {
        fprintf(stderr, "stream_caller: %s\n", what);
        exit(2);
    }
}

static uint64_t little(const uint8_t *bytes, int count)
{
    uint64_t number = 0;
    while (count-- > 0)
        number = number << 8 | bytes[count];
    return number;
}

static void print_bytes(const char *what, const char *name, const uint8_t *bytes, size_t length)
{
    fprintf(stderr, "  %s %s, %lu bytes: ", name, what, (unsigned long)length);
    for (size_t i = 0; i < length; i++)
        fprintf(stderr, "%02x", bytes[i]);
    fprintf(stderr, "\n");
}

static void print_feed(const char *what, const char *name)
{
    fprintf(stderr, "stream_caller: feed %lu: %s%s (memory lent %s)\n", place, what, name, ways[way]);
    for (int i = 0; i < LENT; i++)
        if (parts[i].before != NULL)
            print_bytes("before the feed", names[i], parts[i].before, parts[i].length);
    fprintf(stderr, "  expected answer: %lu\n", (unsigned long)expected);
}

static void print_again(void)
{
    fprintf(stderr, "  again: tests/outside/run --seed %llu --feed %lu\n", seed, place);
}

static void stopped(int number)
{
    print_feed(number == SIGSEGV || number == SIGBUS ? "memory was touched that was not lent" : "the program was stopped", "");
    print_again();
    _Exit(1);
}

/* What fills the byte at a place beforehand, another one for each way and feed. */
static uint8_t filling(size_t at)
{
    return (uint8_t)(0xa5 + 0x3b * (unsigned)way + 7 * (unsigned)at + place);
}

/* Memory for one part. An empty one is NULL between known bytes, and a pointer otherwise. Between known bytes a part starts at any address
 * that is right for its elements. */
static struct lent lend(int part)
{
    size_t size = parts[part].size, length = parts[part].length;
    struct lent lent = {NULL, NULL, 0};
    if (way == BEFORE_UNTOUCHABLE || way == AFTER_UNTOUCHABLE) {
        lent.start = rooms[part] + (way == BEFORE_UNTOUCHABLE ? room_length - length : 0);
    } else {
        size_t before = way == EXACT_BLOCK ? 0 : AROUND + place % 16 / size * size;
        lent.block_length = length + (way == EXACT_BLOCK ? 0 : 2 * AROUND);
        lent.block = malloc(lent.block_length);
        require(lent.block != NULL || lent.block_length == 0, "out of memory");
        lent.start = way == BETWEEN_KNOWN_BYTES && length == 0 ? NULL : lent.block + before;
        for (size_t i = 0; i < lent.block_length; i++)
            lent.block[i] = filling(i);
    }
    for (size_t i = 0; i < length; i++)
        lent.start[i] = parts[part].before != NULL ? parts[part].before[i] : filling(i);
    return lent;
}

/* Whether the bytes around the memory that was lent are as they were. */
static int around_unchanged(const struct lent *lent, size_t length)
{
    if (way != BETWEEN_KNOWN_BYTES)
        return 1;
    for (size_t i = 0; i < lent->block_length; i++) {
        int inside = lent->start != NULL && lent->block + i >= lent->start && lent->block + i < lent->start + length;
        if (!inside && lent->block[i] != filling(i))
            return 0;
    }
    return 1;
}

static void run_feed(void)
{
    struct lent lent[LENT];
    for (int i = 0; i < LENT; i++)
        lent[i] = lend(i);
    uint32_t answer = tirmuzzle_stream_feed((void *)lent[COLLECTED].start, (void *)lent[CLOSED].start, lent[BUFFER].start,
                                            parts[BUFFER].length, lent[PIECE].start, parts[PIECE].length, (void *)lent[USED].start,
                                            (void *)lent[LENGTH].start);
    const char *wrong = NULL, *name = "answer";
    for (int i = 0; i < LENT; i++) {
        int changed_around = !around_unchanged(&lent[i], parts[i].length);
        if (changed_around || (parts[i].length > 0 && memcmp(lent[i].start, parts[i].after, parts[i].length) != 0)) {
            wrong = changed_around ? "bytes were changed around " : "another ";
            name = names[i];
        }
    }
    if (wrong == NULL && answer != expected)
        wrong = "another ";
    if (wrong != NULL) {
        print_feed(wrong, name);
        fprintf(stderr, "  found answer: %lu\n", (unsigned long)answer);
        for (int i = BUFFER; i < LENT; i++) {
            print_bytes("that must be", names[i], parts[i].after, parts[i].length);
            print_bytes("found", names[i], lent[i].start, parts[i].length);
        }
        print_again();
        exit(1);
    }
    if (VALGRIND_COUNT_ERRORS > 0) {
        print_feed("what valgrind says above", "");
        print_again();
        exit(1);
    }
    for (int i = 0; i < LENT; i++)
        free(lent[i].block);
}

/* Reads the feed that starts here, and answers where the next one does. */
static const uint8_t *read_feed(const uint8_t *at)
{
    expected = (uint32_t)little(at, 4);
    size_t piece = (size_t)little(at + 4, 4), buffer = (size_t)little(at + 8, 4);
    for (int i = 0; i < 2; i++) {
        words[i] = little(at + 12 + 8 * i, 8);
        halves[i] = (uint32_t)little(at + 28 + 4 * i, 4);
        words[2 + i] = little(at + 36 + 8 * i, 8);
    }
    at += HEAD;
    parts[PIECE] = (struct part){1, piece, at, at};
    parts[BUFFER] = (struct part){1, buffer, at + piece, at + piece + buffer};
    parts[COLLECTED] = (struct part){8, 8, (void *)&words[0], (void *)&words[1]};
    parts[CLOSED] = (struct part){4, 4, (void *)&halves[0], (void *)&halves[1]};
    parts[USED] = (struct part){8, 8, NULL, (void *)&words[2]};
    parts[LENGTH] = (struct part){8, 8, NULL, (void *)&words[3]};
    return at + piece + 2 * buffer;
}

static uint8_t *read_file(const char *name, size_t *length)
{
    FILE *file = fopen(name, "rb");
    require(file != NULL && fseek(file, 0, SEEK_END) == 0, "the file of feeds cannot be opened");
    *length = (size_t)ftell(file);
    uint8_t *content = malloc(*length);
    require(content != NULL && fseek(file, 0, SEEK_SET) == 0, "out of memory");
    require(fread(content, 1, *length, file) == *length, "the file of feeds cannot be read");
    fclose(file);
    return content;
}

/* Room for every part that is at most this long. */
static void make_rooms(size_t longest)
{
    room_length = (longest / UNTOUCHABLE + 1) * UNTOUCHABLE;
    for (int i = 0; i < LENT; i++) {
        uint8_t *start = mmap(NULL, room_length + 2 * UNTOUCHABLE, PROT_NONE, MAP_PRIVATE | MAP_ANONYMOUS, -1, 0);
        require(start != MAP_FAILED, "out of memory");
        rooms[i] = start + UNTOUCHABLE;
        require(mprotect(rooms[i], room_length, PROT_READ | PROT_WRITE) == 0, "out of memory");
    }
}

int main(int count, char **given)
{
    require(count == 2 || (count == 4 && strcmp(given[2], "--case") == 0), "usage: stream_caller FILE [--case N]");
    size_t length;
    uint8_t *content = read_file(given[1], &length);
    require(length >= FILE_HEAD && memcmp(content, "TIRMUZZF", 8) == 0, "this is no file of feeds");
    seed = little(content + 8, 8);
    unsigned long feeds = (unsigned long)little(content + 16, 4);
    unsigned long only = count == 4 ? strtoul(given[3], NULL, 10) : feeds;
    require(count == 2 || only < feeds, "there is no such feed");
    make_rooms(length); /* no part is longer than the file */
    signal(SIGSEGV, stopped);
    signal(SIGBUS, stopped);
    signal(SIGILL, stopped);
    signal(SIGFPE, stopped);
    const uint8_t *at = content + FILE_HEAD;
    for (place = 0; place < feeds; place++) {
        at = read_feed(at);
        for (way = 0; way < WAYS && (only == feeds || only == place); way++)
            run_feed();
    }
    require(at == content + length, "bytes stand after the last feed");
    printf("%lu feeds, each with memory lent in %d ways, seed %llu\n", only == feeds ? feeds : 1, WAYS, seed);
    free(content);
    return 0;
}
