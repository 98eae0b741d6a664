/* Calls the library from C on every case of a file that tests/outside/cases.py made, and compares the number, each byte of the
 * outputs and of the ledger, and that the inputs are as they were. A report that was written is also read back and written again, and
 * a ledger that was submitted to is added up and, where the report counts, submitted to again.
 *
 *     caller FILE [--case N]
 *
 * Each case runs once for each way of lending memory: inside a larger block with known bytes around it, in a heap block of the
 * exact size, and with memory that may not be touched right after it or right before it. Under valgrind, what valgrind finds is a
 * failure of the case at work. The first failure ends the program. */
#define _DEFAULT_SOURCE
#include "tirmuzzle.h"

#include <signal.h>
#include <stddef.h>
#include <stdio.h>
#include <stdlib.h>
#include <string.h>
#include <sys/mman.h>
#include <valgrind/valgrind.h>

/* The buffers of a case: five inputs, the ledger that a report is submitted to, the output, and the number that a call answers beside
 * its own. */
enum { INPUTS = 5, LEDGER = INPUTS, OUTPUT, BESIDE, BUFFERS };
enum { NUMBERS = 7, HEAD = 8 + 8 * NUMBERS, BUFFER_HEAD = 12, AROUND = 64, UNTOUCHABLE = 65536 };

/* The calls in the order of cases.py. */
enum { DIGEST, TAG, VERIFY, EXTRACT, EXPAND, FINGERPRINT, KEYS, CHECK, READ, SITE, WRITE, SUBMIT, TOTAL, CALLS };
static const char *const names[CALLS] = {
    "digest",       "tag",         "verify",      "extract",      "expand",        "report_fingerprint", "report_keys",
    "report_check", "report_read", "report_site", "report_write", "ledger_submit", "ledger_total",
};

/* How memory is lent. */
enum { BETWEEN_KNOWN_BYTES, EXACT_BLOCK, BEFORE_UNTOUCHABLE, AFTER_UNTOUCHABLE, WAYS };
static const char *const ways[WAYS] = {
    "between known bytes", "in a block of its size", "before untouchable memory", "after untouchable memory",
};

/* A buffer as the file describes it: the bytes of an element, or 0 where the call has no such buffer, how many elements there are,
 * and the bytes that the file gives: of an input and of a ledger all, of an output those that the call must write. Before the call an
 * input holds the same, a ledger other bytes, and an output nothing that the file gives. */
struct buffer {
    size_t size, count, given_length;
    const uint8_t *given, *before;
};

struct test_case {
    unsigned long place; /* in the file, counted from 0 */
    uint32_t call, answer;
    uint64_t numbers[NUMBERS];
    struct buffer buffers[BUFFERS];
};

struct lent {
    uint8_t *block, *start;
    size_t block_length, length;
};

static unsigned long long seed;
static struct test_case now; /* the case at work, for a report when the program is stopped */
static int way;
static uint8_t *rooms[BUFFERS]; /* for each buffer room with untouchable memory on both sides */
static size_t room_length;

static void require(int holds, const char *what)
{
    if (!holds) {
        fprintf(stderr, "caller: %s\n", what);
        exit(2);
    }
}

/* A record has the layout that the header promises. */
static void check_layout(void)
{
    require(sizeof(struct tirmuzzle_record) == 48, "a record does not have 48 bytes");
    require(offsetof(struct tirmuzzle_record, fingerprint) == 0, "a fingerprint does not stand first in its record");
    require(offsetof(struct tirmuzzle_record, live_bytes) == 32, "live bytes do not stand at place 32 of their record");
    require(offsetof(struct tirmuzzle_record, in_use) == 40, "in_use does not stand at place 40 of its record");
}

static uint64_t little(const uint8_t *bytes, int count)
{
    uint64_t number = 0;
    while (count-- > 0)
        number = number << 8 | bytes[count];
    return number;
}

static void print_bytes(const char *what, const uint8_t *bytes, size_t length)
{
    fprintf(stderr, "  %s, %lu bytes: ", what, (unsigned long)length);
    for (size_t i = 0; i < length; i++)
        fprintf(stderr, "%02x", bytes[i]);
    fprintf(stderr, "\n");
}

static void print_case(const char *what)
{
    fprintf(stderr, "caller: case %lu, %s: %s (memory lent %s)\n", now.place, names[now.call], what, ways[way]);
    fprintf(stderr, "  numbers in the order of the parameters, then zeros:");
    for (int i = 0; i < NUMBERS; i++)
        fprintf(stderr, " %llu", (unsigned long long)now.numbers[i]);
    fprintf(stderr, "\n");
    for (int i = 0; i < INPUTS && now.buffers[i].size > 0; i++)
        print_bytes("input", now.buffers[i].given, now.buffers[i].given_length);
    if (now.buffers[LEDGER].size > 0)
        print_bytes("ledger before the call", now.buffers[LEDGER].before, now.buffers[LEDGER].given_length);
    fprintf(stderr, "  output of %lu places\n  expected answer: %lu\n", (unsigned long)now.buffers[OUTPUT].count,
            (unsigned long)now.answer);
}

static void print_again(void)
{
    fprintf(stderr, "  again: tests/outside/run --seed %llu --case %lu\n", seed, now.place);
}

/* The kit's emulator hands a signal's handler a stack that is not aligned as calls want it. */
#ifdef __x86_64__
__attribute__((force_align_arg_pointer))
#endif
static void stopped(int number)
{
    print_case(number == SIGSEGV || number == SIGBUS ? "memory was touched that was not lent" : "the program was stopped");
    print_again();
    _Exit(1);
}

/* What fills the byte at a place beforehand, another one for each way and case. */
static uint8_t filling(size_t at)
{
    return (uint8_t)(0xa5 + 0x3b * (unsigned)way + 7 * (unsigned)at + now.place);
}

/* Memory for one buffer. An empty one is NULL between known bytes, and a pointer otherwise. Between known bytes a buffer starts at
 * any address that is right for its elements. */
static struct lent lend(int buffer)
{
    size_t size = now.buffers[buffer].size, length = size * now.buffers[buffer].count;
    struct lent lent = {NULL, NULL, 0, length};
    if (size == 0)
        return lent;
    if (way == BEFORE_UNTOUCHABLE || way == AFTER_UNTOUCHABLE) {
        lent.start = rooms[buffer] + (way == BEFORE_UNTOUCHABLE ? room_length - length : 0);
        return lent;
    }
    size_t alignment = size < sizeof(uint64_t) ? size : sizeof(uint64_t);
    size_t before = way == EXACT_BLOCK ? 0 : AROUND + now.place % 16 / alignment * alignment;
    lent.block_length = length + (way == EXACT_BLOCK ? 0 : 2 * AROUND);
    lent.block = malloc(lent.block_length);
    require(lent.block != NULL, "out of memory");
    lent.start = way == BETWEEN_KNOWN_BYTES && length == 0 ? NULL : lent.block + before;
    for (size_t i = 0; i < lent.block_length; i++)
        lent.block[i] = filling(i);
    return lent;
}

/* Whether the bytes around the memory that was lent are as they were. */
static int around_unchanged(const struct lent *lent)
{
    if (way != BETWEEN_KNOWN_BYTES)
        return 1;
    for (size_t i = 0; i < lent->block_length; i++) {
        int inside = lent->start != NULL && lent->block + i >= lent->start && lent->block + i < lent->start + lent->length;
        if (!inside && lent->block[i] != filling(i))
            return 0;
    }
    return 1;
}

static uint32_t make_call(const struct lent *lent)
{
    const void *a = lent[0].start, *b = lent[1].start, *c = lent[2].start, *d = lent[3].start, *e = lent[4].start;
    void *ledger = lent[LEDGER].start, *out = lent[OUTPUT].start, *beside = lent[BESIDE].start;
    size_t a_count = now.buffers[0].count, b_count = now.buffers[1].count, c_count = now.buffers[2].count;
    size_t d_count = now.buffers[3].count, e_count = now.buffers[4].count;
    size_t ledger_count = now.buffers[LEDGER].count, out_count = now.buffers[OUTPUT].count;
    const uint64_t *n = now.numbers;
    uint32_t hash = (uint32_t)n[0];
    switch (now.call) {
    case DIGEST: return tirmuzzle_digest(hash, a, a_count, out, out_count);
    case TAG: return tirmuzzle_tag(hash, a, a_count, b, b_count, n[1], out, out_count);
    case VERIFY: return tirmuzzle_verify(hash, a, a_count, b, b_count, n[1], c, c_count);
    case EXTRACT: return tirmuzzle_extract(hash, a, a_count, b, b_count, out, out_count);
    case EXPAND: return tirmuzzle_expand(hash, a, a_count, b, b_count, out, out_count);
    case FINGERPRINT: return tirmuzzle_report_fingerprint(a, a_count, b, b_count, out, out_count);
    case KEYS: return tirmuzzle_report_keys(hash, a, a_count, (uint32_t)n[1], n[2], out, out_count);
    case CHECK: return tirmuzzle_report_check(a, a_count, b, b_count);
    case READ: return tirmuzzle_report_read(a, a_count, out, out_count);
    case SITE: return tirmuzzle_report_site(a, a_count, n[0], out, out_count);
    case WRITE:
        return tirmuzzle_report_write(hash, (uint32_t)n[1], n[2], n[3], n[4], (uint8_t)n[5], n[6], a, a_count, b, b_count, c,
                                      c_count, d, d_count, e, e_count, out, out_count, beside);
    case SUBMIT: return tirmuzzle_ledger_submit(ledger, ledger_count, a, a_count, b, b_count, c, c_count, beside);
    default: return tirmuzzle_ledger_total(a, a_count, beside);
    }
}

/* What the calls on a report answer of one: its fields, and its sites as they are handed over to be written. */
struct answered {
    uint64_t fields[TIRMUZZLE_FIELDS], live_bytes[TIRMUZZLE_MOST_SITES];
    uint32_t label_lengths[TIRMUZZLE_MOST_SITES], live_blocks[TIRMUZZLE_MOST_SITES];
    uint8_t labels[TIRMUZZLE_MOST_SITES * TIRMUZZLE_LONGEST_LABEL];
    size_t sites, labels_length;
};

/* Reads a report, and answers whether it is one. */
static int read_report(const uint8_t *report, size_t length, struct answered *answered)
{
    uint64_t site[TIRMUZZLE_SITE_NUMBERS];
    if (tirmuzzle_report_read(report, length, answered->fields, TIRMUZZLE_FIELDS) != TIRMUZZLE_DONE)
        return 0;
    answered->sites = (size_t)answered->fields[TIRMUZZLE_FIELD_SITES];
    answered->labels_length = 0;
    for (size_t i = 0; i < answered->sites; i++) {
        if (tirmuzzle_report_site(report, length, i, site, TIRMUZZLE_SITE_NUMBERS) != TIRMUZZLE_DONE)
            return 0;
        size_t label_length = (size_t)site[TIRMUZZLE_SITE_LABEL_LENGTH];
        memcpy(answered->labels + answered->labels_length, report + site[TIRMUZZLE_SITE_LABEL_START], label_length);
        answered->labels_length += label_length;
        answered->label_lengths[i] = (uint32_t)label_length;
        answered->live_bytes[i] = site[TIRMUZZLE_SITE_LIVE_BYTES];
        answered->live_blocks[i] = (uint32_t)site[TIRMUZZLE_SITE_LIVE_BLOCKS];
    }
    return 1;
}

/* Writes a report again from what was answered of it. */
static uint32_t write_again(const struct answered *answered, const uint8_t *key, size_t key_length, uint8_t *again,
                            uint64_t *length)
{
    const uint64_t *fields = answered->fields;
    return tirmuzzle_report_write(
        (uint32_t)fields[TIRMUZZLE_FIELD_HASH], (uint32_t)fields[TIRMUZZLE_FIELD_TENANT], fields[TIRMUZZLE_FIELD_MACHINE],
        fields[TIRMUZZLE_FIELD_REPORT_NUMBER], fields[TIRMUZZLE_FIELD_SEND_TIME], (uint8_t)fields[TIRMUZZLE_FIELD_ATTEMPT],
        fields[TIRMUZZLE_FIELD_MEMORY], answered->labels, answered->labels_length, answered->label_lengths, answered->sites,
        answered->live_bytes, answered->sites, answered->live_blocks, answered->sites, key, key_length, again,
        TIRMUZZLE_LARGEST_REPORT, length);
}

/* Whether an input of the case is these bytes. */
static int is_input(int input, const void *bytes, size_t length)
{
    return now.buffers[input].given_length == length && memcmp(now.buffers[input].given, bytes, length) == 0;
}

/* A report that was written passes the check, reads back as what was handed over, and comes out the same when it is written again
 * from that. Answers what is wrong, or NULL. */
static const char *wrong_when_read(const uint8_t *report, size_t length)
{
    static struct answered answered;
    static uint8_t again[TIRMUZZLE_LARGEST_REPORT];
    const uint8_t *key = now.buffers[4].given;
    size_t key_length = now.buffers[4].given_length;
    uint64_t again_length;
    if (tirmuzzle_report_check(report, length, key, key_length) != TIRMUZZLE_DONE)
        return "the written report does not pass the check";
    if (!read_report(report, length, &answered))
        return "the written report cannot be read";
    if (answered.fields[TIRMUZZLE_FIELD_COUNT] != length - 4 || answered.fields[TIRMUZZLE_FIELD_VERSION] != 1 ||
        memcmp(answered.fields + TIRMUZZLE_FIELD_HASH, now.numbers, sizeof now.numbers) != 0)
        return "the written report has other fields";
    if (!is_input(0, answered.labels, answered.labels_length) ||
        !is_input(1, answered.label_lengths, answered.sites * sizeof answered.label_lengths[0]) ||
        !is_input(2, answered.live_bytes, answered.sites * sizeof answered.live_bytes[0]) ||
        !is_input(3, answered.live_blocks, answered.sites * sizeof answered.live_blocks[0]))
        return "the written report has other sites";
    if (write_again(&answered, key, key_length, again, &again_length) != TIRMUZZLE_DONE || again_length != length ||
        memcmp(again, report, length) != 0)
        return "the written report, read and written again, is another";
    return NULL;
}

/* Whether a buffer holds after the call what it must: what the file gives, and after that what filled it beforehand. */
static int as_expected(const struct buffer *buffer, const struct lent *lent)
{
    if (buffer->given_length > 0 && memcmp(lent->start, buffer->given, buffer->given_length) != 0)
        return 0;
    for (size_t i = buffer->given_length; i < lent->length; i++)
        if (lent->start[i] != filling(i))
            return 0;
    return 1;
}

/* After a submission the total of the ledger is the sum of its used records, or refused where the submission was refused for the
 * ledger; and a report that was new or seen is seen when it is submitted again, which changes nothing. Answers what is wrong, or
 * NULL. */
static const char *wrong_after_submission(uint32_t answer, const struct lent *lent)
{
    const struct tirmuzzle_record *records = (const void *)lent[LEDGER].start;
    uint32_t expected = answer == TIRMUZZLE_STATE_NOT_SOUND ? answer : TIRMUZZLE_DONE, seen;
    uint64_t sum = 0, total = ~(uint64_t)0;
    for (size_t i = 0; expected == TIRMUZZLE_DONE && i < now.buffers[LEDGER].count; i++)
        sum += records[i].in_use == 1 ? records[i].live_bytes : 0;
    if (tirmuzzle_ledger_total(records, now.buffers[LEDGER].count, &total) != expected || total != sum)
        return "another total after the submission";
    if (answer != TIRMUZZLE_DONE)
        return NULL;
    uint32_t again = make_call(lent);
    memcpy(&seen, lent[BESIDE].start, sizeof seen);
    if (again != TIRMUZZLE_DONE || seen != 1 || !as_expected(&now.buffers[LEDGER], &lent[LEDGER]))
        return "the report is not seen when it is submitted again";
    return NULL;
}

static void run_case(void)
{
    struct lent lent[BUFFERS];
    for (int i = 0; i < BUFFERS; i++) {
        lent[i] = lend(i);
        for (size_t k = 0; k < lent[i].length; k++)
            lent[i].start[k] = now.buffers[i].before != NULL ? now.buffers[i].before[k] : filling(k);
    }
    uint32_t answer = make_call(lent);
    const char *wrong = NULL;
    for (int i = 0; i < BUFFERS; i++) {
        if (!around_unchanged(&lent[i]))
            wrong = i < INPUTS ? "bytes around an input were changed" : "bytes around a ledger or an output were changed";
        if (!as_expected(&now.buffers[i], &lent[i]))
            wrong = i < INPUTS    ? "an input was changed"
                    : i == LEDGER ? "another ledger"
                    : i == OUTPUT ? "another output"
                                  : "another number beside the answer";
    }
    if (answer != now.answer)
        wrong = "another answer";
    if (wrong == NULL && now.call == WRITE && answer == TIRMUZZLE_DONE)
        wrong = wrong_when_read(lent[OUTPUT].start, now.buffers[OUTPUT].given_length);
    if (wrong == NULL && now.call == SUBMIT)
        wrong = wrong_after_submission(answer, lent);
    if (wrong != NULL) {
        print_case(wrong);
        fprintf(stderr, "  found answer: %lu\n", (unsigned long)answer);
        for (int i = LEDGER; i < BUFFERS; i++) {
            if (now.buffers[i].size == 0)
                continue;
            print_bytes(i == LEDGER ? "ledger after the call" : "of the output, what must be written", now.buffers[i].given,
                        now.buffers[i].given_length);
            print_bytes(i == LEDGER ? "found ledger" : "found output", lent[i].start, lent[i].length);
        }
        print_again();
        exit(1);
    }
    if (VALGRIND_COUNT_ERRORS > 0) {
        print_case("what valgrind says above");
        print_again();
        exit(1);
    }
    for (int i = 0; i < BUFFERS; i++)
        free(lent[i].block);
}

/* Turns the numbers that a buffer has in the file, with their lowest bytes first, to this machine's. A record has them after its
 * fingerprint. */
static void turn_numbers(uint8_t *bytes, size_t length, size_t size)
{
    for (size_t i = 0; i < length; i += size) {
        if (size == sizeof(struct tirmuzzle_record)) {
            turn_numbers(bytes + i + TIRMUZZLE_FINGERPRINT, size - TIRMUZZLE_FINGERPRINT, sizeof(uint64_t));
            continue;
        }
        uint64_t number = little(bytes + i, (int)size);
        uint32_t half = (uint32_t)number;
        memcpy(bytes + i, size == 4 ? (void *)&half : (void *)&number, size);
    }
}

/* Reads the case that starts here, and answers where the next one does. */
static uint8_t *read_case(uint8_t *at)
{
    now.call = (uint32_t)little(at, 4);
    require(now.call < CALLS, "the file has an unknown call");
    now.answer = (uint32_t)little(at + 4, 4);
    for (int i = 0; i < NUMBERS; i++)
        now.numbers[i] = little(at + 8 + 8 * i, 8);
    uint8_t *given = at + HEAD + BUFFERS * BUFFER_HEAD;
    for (int i = 0; i < BUFFERS; i++) {
        const uint8_t *head = at + HEAD + i * BUFFER_HEAD;
        struct buffer *buffer = &now.buffers[i];
        buffer->size = (size_t)little(head, 4);
        buffer->count = (size_t)little(head + 4, 4);
        size_t length = buffer->size * buffer->count, in_file = buffer->size * (size_t)little(head + 8, 4);
        size_t whole = i == LEDGER ? 2 * length : length;
        require(i <= LEDGER ? in_file == whole : in_file <= whole, "the file gives a buffer wrongly");
        if (buffer->size > 1)
            turn_numbers(given, in_file, buffer->size);
        buffer->before = i <= LEDGER ? given : NULL;
        buffer->given = i == LEDGER ? given + length : given;
        buffer->given_length = i == LEDGER ? length : in_file;
        given += in_file;
    }
    return given;
}

static uint8_t *read_file(const char *name, size_t *length)
{
    FILE *file = fopen(name, "rb");
    require(file != NULL && fseek(file, 0, SEEK_END) == 0, "the file of cases cannot be opened");
    *length = (size_t)ftell(file);
    uint8_t *content = malloc(*length);
    require(content != NULL && fseek(file, 0, SEEK_SET) == 0, "out of memory");
    require(fread(content, 1, *length, file) == *length, "the file of cases cannot be read");
    fclose(file);
    return content;
}

/* Room for every buffer that is at most this long. */
static void make_rooms(size_t longest)
{
    room_length = (longest / UNTOUCHABLE + 1) * UNTOUCHABLE;
    for (int i = 0; i < BUFFERS; i++) {
        uint8_t *start = mmap(NULL, room_length + 2 * UNTOUCHABLE, PROT_NONE, MAP_PRIVATE | MAP_ANONYMOUS, -1, 0);
        require(start != MAP_FAILED, "out of memory");
        rooms[i] = start + UNTOUCHABLE;
        require(mprotect(rooms[i], room_length, PROT_READ | PROT_WRITE) == 0, "out of memory");
    }
}

int main(int count, char **words)
{
    require(count == 2 || (count == 4 && strcmp(words[2], "--case") == 0), "usage: caller FILE [--case N]");
    check_layout();
    size_t length;
    uint8_t *content = read_file(words[1], &length);
    require(length >= 20 && memcmp(content, "TIRMUZZL", 8) == 0, "this is no file of cases");
    seed = little(content + 8, 8);
    unsigned long cases = (unsigned long)little(content + 16, 4);
    unsigned long only = count == 4 ? strtoul(words[3], NULL, 10) : cases;
    require(count == 2 || only < cases, "there is no such case");
    make_rooms(length); /* no buffer is longer than the file */
    signal(SIGSEGV, stopped);
    signal(SIGBUS, stopped);
    signal(SIGILL, stopped);
    signal(SIGFPE, stopped);
    uint8_t *at = content + 20;
    for (now.place = 0; now.place < cases; now.place++) {
        at = read_case(at);
        for (way = 0; way < WAYS && (only == cases || only == now.place); way++)
            run_case();
    }
    require(at == content + length, "bytes stand after the last case");
    printf("%lu cases, each with memory lent in %d ways, seed %llu\n", only == cases ? cases : 1, WAYS, seed);
    free(content);
    return 0;
}
