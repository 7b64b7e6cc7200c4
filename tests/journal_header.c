/*
 * Keeps include/whitherhaul_journal.h true: a journal written, read, shown and appended to, each
 * fault, refusals that change no byte, the places in a frame, and each helper, through the
 * archives. With the word `words` it prints the words of the faults, one a line. host/c-check
 * builds and runs it.
 */
#include "whitherhaul_journal.h"

#include <stdio.h>
#include <string.h>

enum {
    MEMBERS = 4,
    FRAME = WHITHERHAUL_JOURNAL_FRAME_BYTES,
    ENTRY = WHITHERHAUL_ENTRY_BYTES,
    MOST = WHITHERHAUL_MOST_JOURNAL_FRAMES
};

static int failures;

static void expect(int holds, const char *what)
{
    if (!holds) {
        printf("journal_header.c: fails: %s\n", what);
        failures++;
    }
}

/* Client 7: number 0, Fee, member 3, 4,500 cents; number 1, Refund, member 3, 500 cents. */
static const uint8_t entries[2 * ENTRY] = {
    0, 0, 0, 0, 0, 0, 0, 7, 0, 0, 0, 0, 0, 0, 0, 0,
    1, 0, 0, 0, 0, 0, 0, 3, 0, 0, 0, 0, 0, 0, 17, 148,
    0, 0, 0, 0, 0, 0, 0, 7, 0, 0, 0, 0, 0, 0, 0, 1,
    2, 0, 0, 0, 0, 0, 0, 3, 0, 0, 0, 0, 0, 0, 1, 244};

/* Their journal, said byte for byte: outcome 1 and 4,500, outcome 2 and 4,000. */
static const uint8_t journal[2 * FRAME] = {
    0, 0, 0, 46, 1, 0, 0, 0, 1, 0, 0, 0, 0, 0, 0, 0, 7, 0, 0, 0, 0, 0, 0, 0, 0,
    1, 0, 0, 0, 0, 0, 0, 3, 0, 0, 0, 0, 0, 0, 17, 148, 1, 0, 0, 0, 0, 0, 0, 17, 148,
    0, 0, 0, 46, 1, 0, 0, 0, 2, 0, 0, 0, 0, 0, 0, 0, 7, 0, 0, 0, 0, 0, 0, 0, 1,
    2, 0, 0, 0, 0, 0, 0, 3, 0, 0, 0, 0, 0, 0, 1, 244, 2, 0, 0, 0, 0, 0, 0, 15, 160};

/* Memory that is lent, longer than any call here writes, and what a call answered. */
struct lent {
    uint8_t area[MOST * FRAME + 1];
    uint8_t totals[WHITHERHAUL_TOTALS_BYTES(MEMBERS) + 1];
    struct whitherhaul_read_back back;
    uint64_t bytes;
};

static struct lent lent;

/* All memory 0xA5, and numbers that a call has to write over. */
static void fresh(void)
{
    memset(&lent, 0xA5, sizeof lent);
}

/* Whether so many bytes are as they were before the call. */
static int untouched(const uint8_t *bytes, size_t length)
{
    size_t at;
    for (at = 0; at < length; at++)
        if (bytes[at] != 0xA5)
            return 0;
    return 1;
}

/* Whether the area behind so many bytes is as it was, and if so asked all totals. */
static int left(size_t written, int totals)
{
    return untouched(lent.area + written, sizeof lent.area - written) &&
           (!totals || untouched(lent.totals, sizeof lent.totals));
}

static uint8_t write_run(uint32_t members, const uint8_t *run, size_t run_length, size_t room)
{
    fresh();
    return whitherhaul_journal_write(members, run, run_length, lent.area, room, &lent.bytes);
}

static uint8_t read_file(uint32_t members, const uint8_t *file, size_t length, size_t room,
                         size_t totals)
{
    fresh();
    return whitherhaul_journal_read(members, file, length, lent.area, room, lent.totals, totals,
                                    &lent.back);
}

/* Whether what reading answered is this. */
static int back(uint64_t count, uint64_t offset, uint64_t fault)
{
    return lent.back.entries == count && lent.back.offset == offset && lent.back.fault == fault;
}

static void writing(void)
{
    expect(write_run(MEMBERS, entries, sizeof entries, sizeof lent.area) == WHITHERHAUL_DONE,
           "writing");
    expect(lent.bytes == sizeof journal && left(sizeof journal, 1), "100 bytes and no more");
    expect(memcmp(lent.area, journal, sizeof journal) == 0, "the journal byte for byte");
    expect(write_run(MEMBERS, entries, 0, 0) == WHITHERHAUL_DONE && lent.bytes == 0, "no entries");
}

static void refused_write(uint32_t members, const uint8_t *run, size_t run_length, size_t room,
                          uint8_t due, const char *what)
{
    expect(write_run(members, run, run_length, room) == due, what);
    expect(lent.bytes == 0 && left(0, 1), "a refused writing leaves all");
}

static void refused_writings(void)
{
    static uint8_t many[(MOST + 1) * ENTRY];
    uint8_t wrong[ENTRY];
    size_t at;
    memcpy(wrong, entries, ENTRY);
    wrong[16] = 4;
    for (at = 0; at < sizeof many; at += ENTRY)
        memcpy(many + at, entries, ENTRY);
    refused_write(0, entries, ENTRY, FRAME, WHITHERHAUL_REFUSED_SIZES, "M of 0");
    refused_write(4097, wrong, ENTRY, FRAME, WHITHERHAUL_REFUSED_SIZES, "M of 4,097 before 2");
    refused_write(MEMBERS, wrong, ENTRY, 0, WHITHERHAUL_REFUSED_MALFORMED, "operation 4 before 9");
    refused_write(MEMBERS, entries, ENTRY + 1, FRAME, WHITHERHAUL_REFUSED_MALFORMED, "33 bytes");
    refused_write(MEMBERS, many, sizeof many, 0, WHITHERHAUL_REFUSED_ROOM, "4,097 before 9");
    refused_write(MEMBERS, entries, ENTRY, FRAME - 1, WHITHERHAUL_REFUSED_MESSAGES, "a byte short");
    expect(write_run(MEMBERS, many, sizeof many - ENTRY, MOST * FRAME) == WHITHERHAUL_DONE &&
               lent.bytes == MOST * FRAME && left(MOST * FRAME, 1),
           "4,096 entries in just their room");
}

static void reading(void)
{
    const size_t run = WHITHERHAUL_TOTALS_BYTES(MEMBERS);
    uint32_t member;
    uint64_t cents = 77;
    expect(read_file(MEMBERS, journal, sizeof journal, sizeof entries, run) == WHITHERHAUL_DONE,
           "reading");
    expect(back(2, 0, 0) && left(sizeof entries, 0), "two entries, and the area behind them left");
    expect(memcmp(lent.area, entries, sizeof entries) == 0, "the entries byte for byte");
    for (member = 0; member < MEMBERS; member++)
        expect(whitherhaul_u64_at(lent.totals + 8 * member) == (member == 3 ? 4000 : 0), "a total");
    expect(untouched(lent.totals + run, 1), "the byte behind the totals");
    expect(whitherhaul_journal_takings(MEMBERS, lent.totals, run, &cents) == WHITHERHAUL_DONE &&
               cents == 4000,
           "the takings");
    expect(whitherhaul_journal_takings(MEMBERS, lent.totals, run + 1, &cents) ==
                   WHITHERHAUL_REFUSED_SIZES &&
               cents == 0,
           "takings of a run of another length");
    expect(read_file(MEMBERS, journal, 0, 0, run) == WHITHERHAUL_DONE && back(0, 0, 0),
           "an empty file");
}

static void refused_readings(void)
{
    const size_t run = WHITHERHAUL_TOTALS_BYTES(MEMBERS);
    static const uint32_t outside[3] = {0, 4097, UINT32_MAX};
    size_t at;
    for (at = 0; at < 3; at++) {
        expect(read_file(outside[at], journal, 99, 0, run) == WHITHERHAUL_REFUSED_SIZES,
               "another M");
        expect(back(0, 0, 0) && left(0, 1), "1 leaves all");
    }
    expect(read_file(MEMBERS, journal, 99, 0, run - 1) == WHITHERHAUL_REFUSED_SIZES,
           "totals too short");
    expect(back(0, 0, 0) && left(0, 1), "1 leaves all");
    expect(read_file(MEMBERS, journal, 99, 0, run + 1) == WHITHERHAUL_REFUSED_SIZES,
           "totals too long");
    expect(back(0, 0, 0) && left(0, 1), "1 leaves all");
    expect(read_file(MEMBERS, journal, sizeof journal, sizeof entries - 1, run) ==
               WHITHERHAUL_REFUSED_MESSAGES,
           "an area a byte short");
    expect(back(0, 0, 0) && left(0, 1), "9 leaves all");
}

/* The second frame with another byte at this place of it: refused there, for this. */
static void faulty(size_t place, uint64_t fault, const char *what)
{
    uint8_t file[sizeof journal];
    memcpy(file, journal, sizeof file);
    file[FRAME + place] ^= 0x80;
    expect(read_file(MEMBERS, file, sizeof file, 0, WHITHERHAUL_TOTALS_BYTES(MEMBERS)) ==
               WHITHERHAUL_REFUSED_JOURNAL,
           what);
    expect(back(0, FRAME, fault) && left(0, 1), what);
}

static void faults(void)
{
    static uint8_t long_file[(MOST + 1) * FRAME];
    static uint8_t asks[MOST * ENTRY];
    const size_t run = WHITHERHAUL_TOTALS_BYTES(MEMBERS);
    size_t at;
    uint64_t bytes;
    faulty(WHITHERHAUL_JOURNAL_LENGTH_AT, WHITHERHAUL_FAULT_LENGTH, "a length");
    faulty(WHITHERHAUL_JOURNAL_VERSION_AT, WHITHERHAUL_FAULT_VERSION, "a version");
    faulty(WHITHERHAUL_JOURNAL_OP_AT, WHITHERHAUL_FAULT_OP, "an op number");
    faulty(WHITHERHAUL_JOURNAL_ENTRY_AT + 16, WHITHERHAUL_FAULT_ENTRY, "an operation");
    faulty(WHITHERHAUL_JOURNAL_OUTCOME_AT, WHITHERHAUL_FAULT_OUTCOME, "an outcome");
    faulty(WHITHERHAUL_JOURNAL_TOTAL_AT, WHITHERHAUL_FAULT_TOTAL, "a total");
    expect(read_file(MEMBERS, journal, 99, 0, run) == WHITHERHAUL_REFUSED_JOURNAL &&
               back(0, FRAME, WHITHERHAUL_FAULT_CUT_SHORT) && left(0, 1),
           "a file cut short");
    for (at = 0; at < sizeof asks; at++)
        asks[at] = at % ENTRY == 16 ? WHITHERHAUL_ASK : 0;
    expect(whitherhaul_journal_write(1, asks, sizeof asks, long_file, sizeof long_file, &bytes) ==
               WHITHERHAUL_DONE,
           "4,096 Asks");
    expect(read_file(MEMBERS, long_file, MOST * FRAME, MOST * ENTRY, run) == WHITHERHAUL_DONE &&
               back(MOST, 0, 0),
           "4,096 frames");
    expect(read_file(MEMBERS, long_file, MOST * FRAME + 1, 0, run) == WHITHERHAUL_REFUSED_JOURNAL &&
               back(0, MOST * FRAME, WHITHERHAUL_FAULT_PAST_LAST),
           "a byte behind them");
}

/* The second frame as it stands, with an outcome that no rule gives; frames that aren't there. */
static void shown(void)
{
    uint8_t file[sizeof journal];
    struct whitherhaul_framed f;
    static const struct whitherhaul_framed nothing = {0, 0, 0, 0, 0, 0, 0};
    memcpy(file, journal, sizeof file);
    file[FRAME + WHITHERHAUL_JOURNAL_OUTCOME_AT] = 99;
    expect(whitherhaul_journal_frame(file, sizeof file, 1, &f) == 0, "a frame of good form");
    expect(f.client == 7 && f.request == 1 && f.operation == WHITHERHAUL_REFUND && f.member == 3 &&
               f.cents == 500 && f.outcome == 99 && f.total == 4000,
           "its numbers in their order");
    expect(whitherhaul_journal_frame(file, 99, 1, &f) == WHITHERHAUL_FAULT_CUT_SHORT,
           "one cut short");
    expect(memcmp(&f, &nothing, sizeof f) == 0, "with a fault all is 0");
    expect(whitherhaul_journal_frame(file, sizeof file, UINT64_MAX, &f) ==
               WHITHERHAUL_FAULT_PAST_LAST,
           "no such frame");
}

/* A Fee of client 7 for member 3 and a PrepareOk of it, as in header.c. */
static const uint8_t request[39] = {0, 0, 0, 35, 1, 1, 0, 0, 0, 0, 0, 0, 0, 0, 7, 0, 0, 0, 0, 0,
                                    0, 0, 0, 1, 0, 0, 0, 0, 0, 0, 3, 0, 0, 0, 0, 0, 0, 17, 148};
static const uint8_t prepare_ok[16] = {0, 0, 0, 12, 1, 3, 0, 0, 0, 0, 0, 0, 0, 0, 1, 1};

static uint8_t since(const struct whitherhaul_replica *r, uint32_t op, size_t room)
{
    fresh();
    return whitherhaul_replica_journal_since(r, op, lent.area, room, &lent.bytes);
}

static void appending(void)
{
    static uint8_t block[WHITHERHAUL_REPLICA_BYTES(3, 8, MEMBERS)];
    struct whitherhaul_replica r;
    expect(whitherhaul_replica_new(&r, 3, 0, 3, 8, MEMBERS, block, sizeof block) ==
                   WHITHERHAUL_DONE &&
               whitherhaul_replica_on_message(&r, request, sizeof request) == WHITHERHAUL_DONE,
           "a replica with a charge");
    expect(since(&r, 0, 0) == WHITHERHAUL_DONE && lent.bytes == 0, "nothing is committed yet");
    expect(whitherhaul_replica_on_message(&r, prepare_ok, sizeof prepare_ok) == WHITHERHAUL_DONE,
           "the charge is committed");
    expect(since(&r, 0, sizeof lent.area) == WHITHERHAUL_DONE && lent.bytes == FRAME, "a frame");
    expect(memcmp(lent.area, journal, FRAME) == 0 && left(FRAME, 1), "the first of the journal");
    expect(since(&r, 1, 0) == WHITHERHAUL_DONE && lent.bytes == 0, "nothing since then");
    expect(since(&r, 2, FRAME) == WHITHERHAUL_REFUSED_SIZES, "an op that isn't there");
    expect(lent.bytes == 0 && left(0, 1), "1 leaves all");
    expect(since(&r, 0, FRAME - 1) == WHITHERHAUL_REFUSED_MESSAGES, "an area a byte short");
    expect(lent.bytes == 0 && left(0, 1), "9 leaves all");
}

/* Numbers that aren't the library's; host/c-check compares the words of 1 to 8 with the Rust's. */
static void words(void)
{
    uint64_t fault;
    for (fault = 9; fault <= 256; fault++)
        expect(strcmp(whitherhaul_fault_words(fault), "no fault of this library") == 0,
               "the words for any other fault");
    expect(strcmp(whitherhaul_fault_words(0), "no fault of this library") == 0, "those for 0");
}

static int print_words(void)
{
    uint64_t fault;
    for (fault = 1; fault <= WHITHERHAUL_FAULT_PAST_LAST; fault++)
        printf("%s\n", whitherhaul_fault_words(fault));
    return 0;
}

int main(int count, char **arguments)
{
    if (count == 2 && strcmp(arguments[1], "words") == 0)
        return print_words();
    writing();
    refused_writings();
    reading();
    refused_readings();
    faults();
    shown();
    appending();
    words();
    if (failures == 0)
        printf("journal_header.c: all of it holds\n");
    return failures != 0;
}
