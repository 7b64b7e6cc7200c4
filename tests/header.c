/*
 * Keeps include/whitherhaul.h true: document 01's marked examples, refusals that change no byte, a
 * recovery, the places of the state, the takings, which byte of a frame is wrong, the client's
 * calls, and each helper, through the archive. With the word `words` it prints the words of the
 * refusals, one a line. host/c-check builds and runs it.
 */
#include "whitherhaul.h"

#include <stdio.h>
#include <stdlib.h>
#include <string.h>

enum { N = 3, ROOM = 8, MEMBERS = 8, T = WHITHERHAUL_DEFAULT_TIMEOUT };

/* A replica and its block. */
struct owned {
    struct whitherhaul_replica r;
    uint8_t block[WHITHERHAUL_REPLICA_BYTES(N, ROOM, MEMBERS)];
};

static int failures;

static void expect(int holds, const char *what)
{
    if (!holds) {
        printf("header.c: fails: %s\n", what);
        failures++;
    }
}

static uint8_t create(struct owned *o, uint32_t n, uint32_t id, uint32_t timeout)
{
    return whitherhaul_replica_new(&o->r, n, id, timeout, ROOM, MEMBERS, o->block, sizeof o->block);
}

static uint8_t recover(struct owned *o, uint32_t n, uint32_t id, uint32_t timeout)
{
    return whitherhaul_replica_recover(&o->r, n, id, timeout, ROOM, MEMBERS, 4, 9, o->block,
                                       sizeof o->block);
}

/* A replica in a block that was all 0xA5. Without one nothing else can be tried. */
static void fresh(struct owned *o, uint32_t id)
{
    memset(o, 0xA5, sizeof *o);
    if (create(o, N, id, T) != WHITHERHAUL_DONE) {
        expect(0, "creation");
        exit(1);
    }
}

static void clear_answers(struct owned *o)
{
    o->r.counts.messages = o->r.counts.replies = o->r.offset = 0;
}

/* Numbers that a call has to write over. */
static void spoil_answers(struct owned *o)
{
    o->r.counts.messages = o->r.counts.replies = o->r.offset = 77;
}

/* What stands there, to be compared after a refused call: counts and, but for 2, offset are 0. */
static void keep(struct owned *before, const struct owned *o)
{
    memcpy(before, o, sizeof *o);
    clear_answers(before);
}

static int same(const struct owned *before, const struct owned *o)
{
    return memcmp(before, o, sizeof *o) == 0;
}

/* The runs of a replica as arguments of the calls, said apart from the helpers' own list. */
#define RUN(run) (run).bytes, (run).length
#define LENT(r)                                                                              \
    RUN((r)->log), RUN((r)->results), RUN((r)->totals), RUN((r)->acks), RUN((r)->stored),    \
        RUN((r)->table)
#define RUNS(r) RUN((r)->state), LENT(r)

static uint8_t bare_create(struct owned *o, uint32_t n, uint32_t id, uint32_t timeout)
{
    return whitherhaul_create(n, id, timeout, ROOM, MEMBERS, RUNS(&o->r));
}

static uint8_t bare_recover(struct owned *o, uint32_t n, uint32_t id, uint32_t timeout)
{
    return whitherhaul_recover(n, id, timeout, ROOM, MEMBERS, 4, 9, RUNS(&o->r), RUN(o->r.out),
                               &o->r.counts);
}

static uint8_t message(struct owned *o, const uint8_t *frame, size_t length)
{
    return whitherhaul_replica_on_message(&o->r, frame, length);
}

/* Two Commits of a fresh primary. */
static const uint8_t first_tick[30] = {0, 0, 0, 11, 1, 4, 1, 0, 0, 0, 0, 0, 0, 0, 0,
                                       0, 0, 0, 11, 1, 4, 2, 0, 0, 0, 0, 0, 0, 0, 0};

/* Client 7, number 0, Fee, member 3, 4,500 cents. */
static const uint8_t request[39] = {0, 0, 0, 35, 1, 1, 0, 0, 0, 0, 0, 0, 0, 0, 7, 0, 0, 0, 0, 0,
                                    0, 0, 0, 1, 0, 0, 0, 0, 0, 0, 3, 0, 0, 0, 0, 0, 0, 17, 148};

/* PrepareOk of view 0, op 1, from replica 1. */
static const uint8_t prepare_ok[16] = {0, 0, 0, 12, 1, 3, 0, 0, 0, 0, 0, 0, 0, 0, 1, 1};

/* The reply to it. */
static const uint8_t reply[36] = {0, 0, 0, 32, 1, 12, 0, 0, 0, 0, 0, 0, 0, 0, 0, 0, 0, 0,
                                  7, 0, 0, 0,  0, 0,  0, 0, 0, 1, 0, 0, 0, 0, 0, 0, 17, 148};

/* A fresh replica, and its first tick with an area a byte short and one just long enough. */
static void first_ticks(void)
{
    static struct owned o, before;
    fresh(&o, 0);
    expect(whitherhaul_replica_status(&o.r) == WHITHERHAUL_NORMAL, "a fresh replica is Normal");
    expect(whitherhaul_replica_view(&o.r) == 0, "in view 0");
    expect(o.r.log.bytes[0] == 0xA5, "creation leaves the log");
    expect(whitherhaul_replica_total(&o.r, 0) == 0, "and zeroes the totals");
    expect(o.r.counts.messages == 0 && o.r.counts.replies == 0, "it sent nothing");

    o.r.out.length = 29;
    spoil_answers(&o);
    keep(&before, &o);
    expect(whitherhaul_replica_on_idle(&o.r) == WHITHERHAUL_REFUSED_MESSAGES,
           "an area one byte short");
    expect(same(&before, &o), "a refused tick changes nothing");
    o.r.out.length = 30;
    expect(whitherhaul_replica_on_idle(&o.r) == WHITHERHAUL_DONE, "the first tick");
    expect(o.r.counts.messages == 30 && o.r.counts.replies == 0, "its counts");
    expect(memcmp(o.r.out.bytes, first_tick, 30) == 0, "its bytes");
    expect(o.r.out.bytes[30] == 0xA5, "and the byte past them");
}

/* A Request, its reply, and the same Request again. */
static void marked_examples(void)
{
    static struct owned o, before;
    fresh(&o, 0);
    expect(message(&o, request, sizeof request) == WHITHERHAUL_DONE, "a Request");
    expect(o.r.counts.messages == 102, "gives two Prepares");
    expect(whitherhaul_replica_op_number(&o.r) == 1, "op number 1");
    expect(whitherhaul_replica_commit_number(&o.r) == 0, "commit number 0");

    o.r.reps.length = 35;
    keep(&before, &o);
    expect(message(&o, prepare_ok, sizeof prepare_ok) == WHITHERHAUL_REFUSED_REPLIES,
           "an area for replies one byte short");
    expect(same(&before, &o), "a refused PrepareOk changes nothing");
    o.r.reps.length = 36;
    expect(message(&o, prepare_ok, sizeof prepare_ok) == WHITHERHAUL_DONE, "a PrepareOk");
    expect(o.r.counts.messages == 0 && o.r.counts.replies == 36, "gives a reply");
    expect(memcmp(o.r.reps.bytes, reply, 36) == 0, "the reply's bytes");
    expect(whitherhaul_replica_commit_number(&o.r) == 1, "commit number 1");
    expect(whitherhaul_replica_total(&o.r, 3) == 4500, "the total of member 3");

    memset(o.r.reps.bytes, 0, o.r.reps.length);
    expect(message(&o, request, sizeof request) == WHITHERHAUL_DONE, "the same Request again");
    expect(o.r.counts.replies == 36 && memcmp(o.r.reps.bytes, reply, 36) == 0,
           "gives that reply again");
}

static void refusals(void)
{
    static struct owned o, before;
    uint8_t frame[16];
    fresh(&o, 0);
    spoil_answers(&o);
    keep(&before, &o);
    expect(message(&o, request, 0) == WHITHERHAUL_REFUSED_MALFORMED, "an empty frame");
    memcpy(frame, prepare_ok, sizeof frame);
    frame[15] = 3;
    expect(message(&o, frame, sizeof frame) == WHITHERHAUL_REFUSED_REPLICA, "sender 3 with n=3");
    frame[15] = 1;
    frame[14] = ROOM + 1;
    expect(message(&o, frame, sizeof frame) == WHITHERHAUL_REFUSED_ROOM, "an op number above L");
    expect(same(&before, &o), "refused messages change nothing");
    o.r.state.bytes[WHITHERHAUL_STATE_STATUS_AT] = 4;
    expect(whitherhaul_replica_on_idle(&o.r) == WHITHERHAUL_REFUSED_SIZES,
           "a byte of the state without meaning");
}

/* A call answers a frame by this number, with this offset, and changes nothing where it refuses. */
static void expect_offset(struct owned *o, const uint8_t *frame, size_t length, uint8_t number,
                          uint64_t offset, const char *what)
{
    static struct owned before;
    uint64_t given = 77;
    keep(&before, o);
    spoil_answers(o);
    expect(message(o, frame, length) == number, what);
    expect(o->r.offset == offset, what);
    o->r.offset = 0;
    expect(number == WHITHERHAUL_DONE || same(&before, o), what);
    if (number == WHITHERHAUL_DONE)
        return;
    expect(whitherhaul_on_message(RUN(o->r.state), frame, length, LENT(&o->r), RUN(o->r.out),
                                  RUN(o->r.reps), &o->r.counts, &given) == number,
           what);
    expect(given == offset, what);
}

/* The request with another byte at a place. */
static void expect_byte(struct owned *o, size_t place, uint8_t byte, uint64_t offset,
                        const char *what)
{
    uint8_t frame[sizeof request];
    memcpy(frame, request, sizeof frame);
    frame[place] = byte;
    expect_offset(o, frame, sizeof frame, WHITHERHAUL_REFUSED_MALFORMED, offset, what);
}

/* Frames with a wrong byte, which is named. */
static void wrong_bytes(void)
{
    static struct owned o;
    uint8_t longer[sizeof request + 1] = {0};
    size_t length;
    fresh(&o, 0);
    expect_byte(&o, 3, 32, 3, "a length that no kind has");
    expect_byte(&o, 4, 2, 4, "version 2");
    expect_byte(&o, 5, 3, 5, "a kind of another length");
    expect_byte(&o, 5, 12, 5, "no kind of a replica");
    expect_byte(&o, 23, 4, 23, "an operation that isn't there");
    expect_byte(&o, 25, 1, 25, "a byte that has to be zero");
    expect_byte(&o, 36, 16, 36, "cents past 1,000,000");
    expect_byte(&o, 0, 1, 3, "a length that goes wrong at its last byte");
    for (length = 0; length < sizeof request; length++)
        expect_offset(&o, request, length, WHITHERHAUL_REFUSED_MALFORMED, length, "a cut frame");
    memcpy(longer, request, sizeof request);
    expect_offset(&o, longer, sizeof longer, WHITHERHAUL_REFUSED_MALFORMED, sizeof request,
                  "a byte behind the frame");
    longer[4] = 2;
    expect_offset(&o, longer, 5, WHITHERHAUL_REFUSED_MALFORMED, 4, "a wrong byte of a cut frame");
}

/* Every other answer has offset 0. */
static void no_offsets(void)
{
    static struct owned o;
    uint8_t frame[sizeof request];
    fresh(&o, 0);
    memcpy(frame, request, sizeof frame);
    frame[WHITHERHAUL_FRAME_ADDRESSEE_AT] = 1;
    expect_offset(&o, frame, sizeof frame, WHITHERHAUL_REFUSED_REPLICA, 0, "for another replica");
    o.r.out.length = 0;
    expect_offset(&o, request, sizeof request, WHITHERHAUL_REFUSED_MESSAGES, 0, "no area");
    o.r.log.length--;
    expect_offset(&o, request, 5, WHITHERHAUL_REFUSED_SIZES, 0, "1 goes before 2");
    fresh(&o, 0);
    expect_offset(&o, request, sizeof request, WHITHERHAUL_DONE, 0, "a Request");
    spoil_answers(&o);
    expect(whitherhaul_replica_on_idle(&o.r) == WHITHERHAUL_DONE, "a tick");
    expect(o.r.offset == 0, "has no offset");
}

/* Each run a byte short. */
static void short_runs(void)
{
    static struct owned o, before;
    struct whitherhaul_run *runs[] = {&o.r.state, &o.r.log,    &o.r.results, &o.r.totals,
                                      &o.r.acks,  &o.r.stored, &o.r.table};
    size_t i;
    fresh(&o, 0);
    for (i = 0; i < sizeof runs / sizeof runs[0]; i++) {
        runs[i]->length--;
        keep(&before, &o);
        expect(bare_create(&o, N, 0, T) == WHITHERHAUL_REFUSED_SIZES, "creation, a run too short");
        expect(bare_recover(&o, N, 0, T) == WHITHERHAUL_REFUSED_SIZES, "recovery, a run too short");
        expect(message(&o, request, sizeof request) == WHITHERHAUL_REFUSED_SIZES,
               "a message, a run too short");
        expect(whitherhaul_replica_on_idle(&o.r) == WHITHERHAUL_REFUSED_SIZES,
               "a tick, a run too short");
        expect(same(&before, &o), "nothing changes where a run is too short");
        runs[i]->length++;
    }
    expect(whitherhaul_replica_on_idle(&o.r) == WHITHERHAUL_DONE, "all runs as long as they are");
}

/* Refused creations, by the calls and by the helpers: nothing changes, but counts of a recovery. */
static void refused_creations(struct owned *o, uint32_t n, uint32_t id, uint32_t timeout)
{
    static struct owned before;
    spoil_answers(o);
    memcpy(&before, o, sizeof before);
    expect(create(o, n, id, timeout) == WHITHERHAUL_REFUSED_SIZES, "new, outside the sizes");
    expect(recover(o, n, id, timeout) == WHITHERHAUL_REFUSED_SIZES, "recover, outside the sizes");
    expect(bare_create(o, n, id, timeout) == WHITHERHAUL_REFUSED_SIZES, "a creation outside them");
    expect(same(&before, o), "a refused creation changes nothing");
    before.r.counts.messages = before.r.counts.replies = 0;
    expect(bare_recover(o, n, id, timeout) == WHITHERHAUL_REFUSED_SIZES, "a recovery outside them");
    expect(same(&before, o), "a refused recovery changes nothing but the counts");
}

/* Numbers outside the sizes; the low bytes alone of the wide ones would be inside. */
static void outside_numbers(void)
{
    static const uint32_t outside[][3] = {
        {2, 0, 3},          {8, 0, 3},     {N, N, 3},          {N, 0, 0},      {256 + N, 0, 3},
        {65536 + N, 0, 3},  {N, 256, 3},   {UINT32_MAX, 0, 3}, {N, 65536, 3},  {N, UINT32_MAX, 3},
        {N, 0, 65536},      {N, 0, 65539}, {N, 0, UINT32_MAX}, {259, 256, 65539}};
    static struct owned o;
    struct whitherhaul_client c, before;
    size_t i;
    fresh(&o, 0);
    memset(o.block, 0x5A, sizeof o.block);
    for (i = 0; i < sizeof outside / sizeof outside[0]; i++)
        refused_creations(&o, outside[i][0], outside[i][1], outside[i][2]);
    expect(create(&o, N, 0, WHITHERHAUL_MOST_TIMEOUT) == WHITHERHAUL_DONE, "the greatest T");
    expect(whitherhaul_u32_at(o.r.state.bytes + WHITHERHAUL_STATE_SETUP_AT) == 0x0300FFFF,
           "stands in the state");

    memset(&c, 0x5A, sizeof c);
    memcpy(&before, &c, sizeof c);
    expect(whitherhaul_client_new(&c, 256 + N, 7) == WHITHERHAUL_REFUSED_SIZES,
           "a client of 259 replicas");
    expect(whitherhaul_client_new(&c, 8, 7) == WHITHERHAUL_REFUSED_SIZES, "a client of 8 replicas");
    expect(memcmp(&c, &before, sizeof c) == 0, "a refused client stays as it was");
}

/* Lengths of blocks, worked out by hand from the lengths of the runs. */
static void block_lengths(void)
{
    static const uint32_t outside[][3] = {
        {2, 8, 8},          {8, 8, 8},          {0, 8, 8},    {259, 8, 8},
        {UINT32_MAX, 8, 8}, {3, 0, 8},          {3, 4097, 8}, {3, 0x08000001, 8},
        {3, 65544, 8},      {3, UINT32_MAX, 8}, {3, 8, 0},    {3, 8, 4097},
        {3, 8, 0x20000001}, {3, 8, UINT32_MAX}, {UINT32_MAX, UINT32_MAX, UINT32_MAX}};
    size_t i;
    expect(whitherhaul_replica_bytes(3, 8, 8) == 2656, "a block for n=3, L=8, M=8");
    expect(whitherhaul_replica_bytes(3, 1, 1) == 493, "a block for the least numbers");
    expect(whitherhaul_replica_bytes(7, 4096, 4096) == 2625780, "a block for the greatest numbers");
    expect(whitherhaul_replica_bytes(5, 2, 9) == WHITHERHAUL_REPLICA_BYTES(5, 2, 9), "the macro");
    for (i = 0; i < sizeof outside / sizeof outside[0]; i++)
        expect(whitherhaul_replica_bytes(outside[i][0], outside[i][1], outside[i][2]) == 0,
               "no block outside the sizes");
}

/* Blocks a byte short, and one just long enough, at an odd and at an even address. */
static void blocks(void)
{
    enum { BYTES = WHITHERHAUL_REPLICA_BYTES(N, ROOM, MEMBERS) };
    static uint8_t memory[BYTES + 3], before[sizeof memory];
    struct whitherhaul_replica r, kept;
    size_t at;
    for (at = 1; at <= 2; at++) {
        memset(memory, 0xA5, sizeof memory);
        memcpy(before, memory, sizeof memory);
        memset(&r, 0x5A, sizeof r);
        memcpy(&kept, &r, sizeof r);
        expect(whitherhaul_replica_new(&r, N, 0, T, ROOM, MEMBERS, memory + at, BYTES - 1) ==
                   WHITHERHAUL_REFUSED_SIZES,
               "a block one byte short");
        expect(whitherhaul_replica_recover(&r, N, 0, T, ROOM, MEMBERS, 4, 9, memory + at,
                                           BYTES - 1) == WHITHERHAUL_REFUSED_SIZES,
               "for a recovery too");
        expect(memcmp(memory, before, sizeof memory) == 0, "no byte of the block is changed");
        expect(memcmp(&r, &kept, sizeof r) == 0, "nor of the replica");
        expect(whitherhaul_replica_new(&r, N, 0, T, ROOM, MEMBERS, memory + at, BYTES) ==
                   WHITHERHAUL_DONE,
               "a block just long enough");
        expect(r.n == N && r.id == 0 && r.timeout == T && r.room == ROOM && r.members == MEMBERS,
               "the numbers of the setup");
        expect(r.state.bytes == memory + at, "the block's first byte is used");
        expect(r.reps.bytes + r.reps.length == memory + at + BYTES, "and its last");
        expect(whitherhaul_replica_on_idle(&r) == WHITHERHAUL_DONE, "a tick in it");
        expect(memory[at - 1] == 0xA5 && memory[at + BYTES] == 0xA5, "no byte around the block");
    }
}

/* The longest that a call can send fills the areas to the last byte. */
static void longest(void)
{
    static struct owned o;
    uint8_t frame[39], i;
    fresh(&o, 0);
    memcpy(frame, request, sizeof frame);
    for (i = 0; i < ROOM; i++) {
        frame[22] = i;
        expect(message(&o, frame, sizeof frame) == WHITHERHAUL_DONE, "a Request of many");
    }
    expect(whitherhaul_replica_on_idle(&o.r) == WHITHERHAUL_DONE, "a tick of L Prepares");
    expect(o.r.counts.messages == o.r.out.length, "fills the area for messages");
    memcpy(frame, prepare_ok, sizeof prepare_ok);
    frame[14] = ROOM;
    expect(message(&o, frame, sizeof prepare_ok) == WHITHERHAUL_DONE, "a PrepareOk for L entries");
    expect(o.r.counts.replies == o.r.reps.length, "fills the area for replies");
    expect(whitherhaul_replica_op_number(&o.r) == ROOM, "op number L");
    expect(whitherhaul_replica_commit_number(&o.r) == ROOM, "commit number L");
}

static void recovery(void)
{
    static struct owned o, before;
    static const uint8_t asked[20] = {0, 0, 0, 16, 1, 10, 0, 1, 0, 0, 0, 0, 0, 0, 0, 9, 0, 0, 0, 4};
    fresh(&o, 1);
    o.r.counts.replies = 77;
    o.r.out.length = 39;
    keep(&before, &o);
    expect(bare_recover(&o, N, 1, T) == WHITHERHAUL_REFUSED_MESSAGES, "Recovery frames don't fit");
    expect(same(&before, &o), "a recovery without room changes nothing");
    o.r.out.length = 40;
    expect(bare_recover(&o, N, 1, T) == WHITHERHAUL_DONE, "a recovery with just the room");

    memset(&o, 0xA5, sizeof o);
    expect(recover(&o, N, 1, T) == WHITHERHAUL_DONE, "a recovery");
    expect(o.r.counts.messages == 40 && o.r.counts.replies == 0, "its counts");
    expect(memcmp(o.r.out.bytes, asked, 20) == 0 && whitherhaul_addressee(o.r.out.bytes + 20) == 2,
           "its Recovery frames");
    expect(whitherhaul_replica_status(&o.r) == WHITHERHAUL_RECOVERING, "it is Recovering");
    expect(whitherhaul_replica_view(&o.r) == 4, "in the view that was kept");
    expect(whitherhaul_u64_at(o.r.state.bytes + WHITHERHAUL_STATE_NONCE_AT) == 9, "with its nonce");
    expect(whitherhaul_replica_is_primary(&o.r) == 1, "replica 1 leads view 4");
}

/* Where the parts of the state stand, each seen to change. */
static void layout(void)
{
    static struct owned o;
    static const uint8_t start[12] = {0, 0, 0, 8, 1, 7, 0, 0, 0, 0, 1, 2};
    static const uint8_t commit[15] = {0, 0, 0, 11, 1, 4, 0, 0, 0, 0, 2, 0, 0, 0, 0};
    static const uint8_t report[24] = {0, 0, 0, 20, 1, 8, 0, 0, 0, 0, 3, 2,
                                       0, 0, 0, 0,  0, 0, 0, 0, 0, 0, 0, 0};
    uint8_t *state;
    fresh(&o, 0);
    state = o.r.state.bytes;
    expect(whitherhaul_u32_at(state + WHITHERHAUL_STATE_SETUP_AT) == 0x03000003, "n, id, T");
    expect(whitherhaul_u32_at(state + WHITHERHAUL_STATE_SETUP_AT + 4) == ROOM, "L");
    expect(whitherhaul_u32_at(state + WHITHERHAUL_STATE_SETUP_AT + 8) == MEMBERS, "M");
    expect(state[WHITHERHAUL_STATE_CLOCK_AT] == 1, "a fresh replica has heard");
    expect(whitherhaul_replica_is_primary(&o.r) == 1, "replica 0 leads view 0");
    expect(message(&o, start, sizeof start) == WHITHERHAUL_DONE, "a StartViewChange from 2");
    expect(whitherhaul_replica_status(&o.r) == WHITHERHAUL_VIEW_CHANGE, "a view change");
    expect(whitherhaul_replica_is_primary(&o.r) == 0, "replica 0 doesn't lead view 1");
    expect(state[WHITHERHAUL_STATE_STARTS_AT] == 4, "who asked for it");
    expect(state[WHITHERHAUL_STATE_SENT_AT] == 1, "a DoViewChange was sent");
    expect(message(&o, commit, sizeof commit) == WHITHERHAUL_DONE, "a Commit of view 2");
    expect(state[WHITHERHAUL_STATE_CATCHING_UP_AT] == 1, "it catches up");
    expect(whitherhaul_replica_view(&o.r) == 2, "with view 2");
    expect(whitherhaul_u32_at(state + WHITHERHAUL_STATE_NORMAL_VIEW_AT) == 0, "from view 0");
    expect(message(&o, report, sizeof report) == WHITHERHAUL_DONE, "a DoViewChange from 2");
    expect(state[WHITHERHAUL_STATE_REPORTS_AT + 2 * 14] == 1, "its report is there");
    expect(whitherhaul_replica_is_primary(&o.r) == 1, "replica 0 leads view 3");
}

/* An entry of client 7 is asked for and committed as this op. */
static void commit_entry(struct owned *o, uint8_t op, uint8_t operation, uint8_t member,
                         uint8_t cents)
{
    uint8_t frame[sizeof request], acknowledged[sizeof prepare_ok];
    memcpy(frame, request, sizeof frame);
    frame[22] = op;
    frame[23] = operation;
    frame[30] = member;
    frame[37] = 0;
    frame[38] = cents;
    memcpy(acknowledged, prepare_ok, sizeof acknowledged);
    acknowledged[14] = op;
    expect(message(o, frame, sizeof frame) == WHITHERHAUL_DONE, "a Request of a day");
    expect(message(o, acknowledged, sizeof acknowledged) == WHITHERHAUL_DONE, "its PrepareOk");
    expect(whitherhaul_replica_commit_number(&o->r) == op, "it is committed");
}

/* The call and the helper answer so, and only look. */
static void expect_takings(struct owned *o, uint8_t number, uint64_t cents, const char *what)
{
    static struct owned before;
    uint64_t called = 77, helped = 77;
    memcpy(&before, o, sizeof before);
    expect(whitherhaul_takings(RUN(o->r.state), &called) == number && called == cents, what);
    expect(whitherhaul_replica_takings(&o->r, &helped) == number && helped == cents, what);
    expect(same(&before, o), what);
}

/* The same, and all totals added up give it too. */
static void expect_added(struct owned *o, uint64_t cents, const char *what)
{
    uint64_t added = 0;
    uint32_t member;
    for (member = 0; member < MEMBERS; member++)
        added += whitherhaul_replica_total(&o->r, member);
    expect(added == cents, what);
    expect(whitherhaul_u64_at(o->r.state.bytes + WHITHERHAUL_STATE_TAKINGS_AT) == cents, what);
    expect_takings(o, WHITHERHAUL_DONE, cents, what);
}

/* Fees and refunds that take effect change the takings, and nothing else does. */
static void takings(void)
{
    static struct owned o;
    memset(&o, 0xA5, sizeof o);
    expect(recover(&o, N, 1, T) == WHITHERHAUL_DONE, "a recovery");
    expect_added(&o, 0, "no takings in a recovery");
    fresh(&o, 0);
    expect_added(&o, 0, "no takings of a fresh replica");
    commit_entry(&o, 1, WHITHERHAUL_FEE, 3, 200);
    expect_added(&o, 200, "takings after a fee");
    commit_entry(&o, 2, WHITHERHAUL_FEE, MEMBERS - 1, 100);
    expect_added(&o, 300, "takings after a fee of another member");
    commit_entry(&o, 3, WHITHERHAUL_REFUND, 3, 150);
    expect_added(&o, 150, "takings after a refund");
    commit_entry(&o, 4, WHITHERHAUL_REFUND, 3, 51);
    expect_added(&o, 150, "takings after a refund past the total");
    commit_entry(&o, 5, WHITHERHAUL_FEE, MEMBERS, 1);
    expect_added(&o, 150, "takings after a fee of no member");
    commit_entry(&o, 6, WHITHERHAUL_ASK, 3, 0);
    expect_added(&o, 150, "takings after an Ask");
}

/* A replica that no call made so: it keeps this sum. */
static void keeps_takings(struct owned *o, uint64_t cents)
{
    size_t place;
    fresh(o, 0);
    for (place = 8; place > 0; place--, cents >>= 8)
        o->r.state.bytes[WHITHERHAUL_STATE_TAKINGS_AT + place - 1] = (uint8_t)cents;
}

/* Sums that no call refuses, and where they are cut. */
static void cut_takings(void)
{
    static const uint64_t most = 4096000000000;
    static struct owned o;
    keeps_takings(&o, most - 50);
    commit_entry(&o, 1, WHITHERHAUL_FEE, 0, 100);
    expect_takings(&o, WHITHERHAUL_DONE, most, "a sum that would pass the most");
    commit_entry(&o, 2, WHITHERHAUL_FEE, 0, 1);
    expect_takings(&o, WHITHERHAUL_DONE, most, "a sum at the most");
    commit_entry(&o, 3, WHITHERHAUL_REFUND, 0, 1);
    expect_takings(&o, WHITHERHAUL_DONE, most - 1, "a sum below it again");
    keeps_takings(&o, 50);
    memset(o.r.totals.bytes + 6, 1, 2);
    commit_entry(&o, 1, WHITHERHAUL_REFUND, 0, 100);
    expect_takings(&o, WHITHERHAUL_DONE, 0, "a sum that would fall below 0");
}

/* Sums that every call refuses, and states of another length. */
static void refused_takings(void)
{
    static const uint64_t past[] = {4096000000001, UINT64_MAX};
    static struct owned o, before;
    size_t i;
    for (i = 0; i < sizeof past / sizeof past[0]; i++) {
        keeps_takings(&o, past[i]);
        expect_takings(&o, WHITHERHAUL_REFUSED_SIZES, 0, "takings past the most");
        spoil_answers(&o);
        keep(&before, &o);
        expect(message(&o, request, 0) == WHITHERHAUL_REFUSED_SIZES, "a message with them");
        expect(same(&before, &o), "changes nothing");
        expect(whitherhaul_replica_on_idle(&o.r) == WHITHERHAUL_REFUSED_SIZES, "a tick with them");
        expect(same(&before, &o), "changes nothing either");
    }
    fresh(&o, 0);
    o.r.state.length++;
    expect_takings(&o, WHITHERHAUL_REFUSED_SIZES, 0, "takings of a state a byte too long");
    o.r.state.length -= 2;
    expect_takings(&o, WHITHERHAUL_REFUSED_SIZES, 0, "takings of a state a byte too short");
}

/* Numbers of all their bytes, and totals at the ends of their run. */
static void readers(void)
{
    static struct owned o;
    static const uint8_t high[8] = {0xFE, 0xDC, 0xBA, 0x98, 0x87, 0x65, 0x43, 0x21};
    fresh(&o, 0);
    expect(whitherhaul_u32_at(high) == 0xFEDCBA98, "a number of 4 bytes");
    expect(whitherhaul_u64_at(high) == 0xFEDCBA9887654321, "a number of 8 bytes");
    memcpy(o.r.totals.bytes + 8 * (MEMBERS - 1), high, sizeof high);
    memcpy(o.r.acks.bytes, high, sizeof high);
    expect(whitherhaul_replica_total(&o.r, MEMBERS - 1) == 0xFEDCBA9887654321, "the last total");
    expect(whitherhaul_replica_total(&o.r, MEMBERS - 2) == 0, "the total before it");
    expect(whitherhaul_replica_total(&o.r, MEMBERS) == 0, "no total of member M");
    expect(whitherhaul_replica_total(&o.r, UINT32_MAX) == 0, "nor of the last number");
}

/* The next frame of these bytes has this length (0: there is none), and so much is left then. */
static void expect_frame(const uint8_t *bytes, size_t left, size_t expected, const char *what)
{
    const uint8_t *frames = bytes;
    size_t rest = left, length = 77;
    const uint8_t *frame = whitherhaul_next_frame(&frames, &rest, &length);
    expect(frame == (expected == 0 ? NULL : bytes), what);
    expect(length == expected && frames == bytes + expected && rest == left - expected, what);
}

static void frames(void)
{
    static const uint32_t long_ones[] = {5, 0x7FFFFFFF, 0xFFFFFFFB, 0xFFFFFFFC, 0xFFFFFFFF};
    uint8_t bytes[8] = {0};
    size_t i;
    expect_frame(first_tick, 30, 15, "the first of two frames");
    expect_frame(first_tick + 15, 15, 15, "the last frame");
    expect_frame(first_tick + 15, 16, 15, "a frame with a byte behind it");
    for (i = 0; i < 15; i++)
        expect_frame(first_tick, i, 0, "a frame that is cut");
    expect_frame(bytes, 8, 4, "a frame of no bytes");
    for (i = 0; i < sizeof long_ones / sizeof long_ones[0]; i++) {
        bytes[0] = (uint8_t)(long_ones[i] >> 24);
        bytes[1] = (uint8_t)(long_ones[i] >> 16);
        bytes[2] = (uint8_t)(long_ones[i] >> 8);
        bytes[3] = (uint8_t)long_ones[i];
        expect_frame(bytes, 8, 0, "a length past the bytes");
        expect_frame(bytes, 4, 0, "a length and no bytes");
    }
    expect(whitherhaul_addressee(first_tick) == 1, "the first frame is for replica 1");
    expect(whitherhaul_addressee(first_tick + 15) == 2, "the second for replica 2");
}

/* Numbers that aren't the library's; host/c-check compares the words of 1 to 13 with the Rust's. */
static void words(void)
{
    unsigned number;
    expect(strcmp(whitherhaul_words(WHITHERHAUL_DONE), "done") == 0, "the word for 0");
    for (number = 14; number <= UINT8_MAX; number++)
        expect(strcmp(whitherhaul_words((uint8_t)number), "no number of this library") == 0,
               "the words for any other number");
}

/* A client with id 7. */
static void new_client(struct whitherhaul_client *c)
{
    memset(c, 0x5A, sizeof *c);
    expect(whitherhaul_client_new(c, N, 7) == WHITHERHAUL_DONE, "a client");
    expect(c->requested.number == 0 && c->requested.written == 0 && c->idled.written == 0,
           "a new client has nothing to send");
    expect(c->offset == 0, "nor was it given a frame");
}

/* 4,500 cents are charged to member 3. */
static void charge(struct whitherhaul_client *c)
{
    expect(whitherhaul_client_on_request(c, WHITHERHAUL_FEE, 3, 4500) == WHITHERHAUL_DONE, "a fee");
}

static void client_requests(void)
{
    struct whitherhaul_client c;
    size_t i;
    new_client(&c);
    c.idled.written = c.offset = 5;
    expect(whitherhaul_client_on_idle(&c) == WHITHERHAUL_DONE && c.idled.written == 0,
           "a client that waits for nothing");
    expect(c.offset == 0, "its idle call has no offset");
    charge(&c);
    expect(c.requested.number == 0 && c.requested.written == 39, "its number and length");
    expect(memcmp(c.area, request, 39) == 0 && c.area[39] == 0x5A, "its bytes");
    expect(whitherhaul_client_on_idle(&c) == WHITHERHAUL_DONE && c.idled.written == 117,
           "the request again, to every replica");
    for (i = 0; i < N; i++)
        expect(whitherhaul_addressee(c.area + 39 * i) == i, "one for each");
    expect(whitherhaul_client_on_request(&c, WHITHERHAUL_ASK, 3, 0) == WHITHERHAUL_DONE, "an Ask");
    expect(c.requested.number == 1 && c.requested.written == 39, "a second request, number 1");

    expect(whitherhaul_client_new(&c, WHITHERHAUL_MOST_REPLICAS, 7) == WHITHERHAUL_DONE,
           "a client of 7 replicas");
    expect(whitherhaul_client_on_request(&c, WHITHERHAUL_ASK, 3, 0) == WHITHERHAUL_DONE &&
               whitherhaul_client_on_idle(&c) == WHITHERHAUL_DONE,
           "an Ask, and it again");
    expect(c.idled.written == sizeof c.area, "fills the area");
}

static void client_refusals(void)
{
    struct whitherhaul_client c, before;
    new_client(&c);
    c.requested.number = c.requested.written = c.offset = 5;
    memcpy(&before, &c, sizeof c);
    before.requested.number = before.requested.written = before.offset = 0;
    expect(whitherhaul_client_on_request(&c, WHITHERHAUL_FEE, 3, 0) ==
               WHITHERHAUL_REFUSED_MALFORMED,
           "a fee of nothing");
    expect(whitherhaul_client_request(c.record, sizeof c.record, WHITHERHAUL_FEE, 3, 4500, c.area,
                                      38, &c.requested) == WHITHERHAUL_REFUSED_MESSAGES,
           "a request's area one byte short");
    expect(memcmp(&c, &before, sizeof c) == 0, "a refused request changes nothing");
    memset(c.record + WHITHERHAUL_CLIENT_NEXT_AT, 0xFF, 8);
    c.requested.number = c.requested.written = 5;
    expect(whitherhaul_client_on_request(&c, WHITHERHAUL_ASK, 3, 0) == WHITHERHAUL_REFUSED_NUMBERS,
           "no number is left");
    expect(c.requested.number == 0 && c.requested.written == 0, "its answers are 0");
    c.idled.written = 5;
    expect(whitherhaul_client_idle(c.record, sizeof c.record - 1, c.area, sizeof c.area,
                                   &c.idled) == WHITHERHAUL_REFUSED_SIZES,
           "a record of another length");
    expect(c.idled.written == 0, "writes nothing");
}

/* The calls for a Reply, which the helper for a Reply's frame is written over. */
static void client_replies(void)
{
    static const struct whitherhaul_said nothing;
    struct whitherhaul_client c;
    struct whitherhaul_said said = {5, 5, 5, 5, 5};
    struct whitherhaul_replied heard = {5};
    uint64_t offset = 77;
    new_client(&c);
    charge(&c);
    expect(whitherhaul_read_reply(reply, sizeof reply, &said, &offset) == WHITHERHAUL_DONE &&
               offset == 0,
           "a Reply");
    expect(said.view == 0 && said.client == 7 && said.request == 0 &&
               said.outcome == WHITHERHAUL_OUTCOME_FEE && said.total == 4500,
           "what it says");
    expect(whitherhaul_read_reply(request, sizeof request, &said, &offset) ==
               WHITHERHAUL_REFUSED_MALFORMED,
           "a Request is no Reply");
    expect(memcmp(&said, &nothing, sizeof said) == 0, "and says nothing");
    expect(offset == 3, "its length is no Reply's");
    expect(whitherhaul_client_reply(c.record, sizeof c.record, 1, 4, &heard) == WHITHERHAUL_DONE &&
               heard.done == 0,
           "another number");
    expect(whitherhaul_u32_at(c.record + WHITHERHAUL_CLIENT_VIEW_AT) == 4, "the view is followed");
    expect(whitherhaul_client_reply(c.record, sizeof c.record, 0, 2, &heard) == WHITHERHAUL_DONE &&
               heard.done == 1,
           "the pending number");
    expect(c.record[WHITHERHAUL_CLIENT_PENDING_AT] == 0, "nothing waits");
}

/* A Reply of this view, for this client and request, is taken so: whether it answers. */
static void expect_reply(struct whitherhaul_client *c, uint8_t view, uint8_t client, uint8_t number,
                         int answers, const char *what)
{
    uint8_t frame[sizeof reply];
    struct whitherhaul_said said;
    int done = 5;
    c->offset = 77;
    memcpy(frame, reply, sizeof frame);
    frame[10] = view;
    frame[18] = client;
    frame[26] = number;
    expect(whitherhaul_client_on_reply_frame(c, frame, sizeof frame, &said, &done) ==
               WHITHERHAUL_DONE,
           what);
    expect(done == answers && said.view == view && said.client == client &&
               said.request == number && said.outcome == WHITHERHAUL_OUTCOME_FEE &&
               said.total == 4500,
           what);
    expect(c->offset == 0, what);
}

static void reply_frames(void)
{
    struct whitherhaul_client c, before;
    new_client(&c);
    charge(&c);
    memcpy(&before, &c, sizeof c);
    expect_reply(&c, 5, 8, 0, 0, "another desk's Reply with the number that waits");
    expect(memcmp(&c, &before, sizeof c) == 0, "leaves the client as it was");
    expect_reply(&c, 4, 7, 1, 0, "an own Reply with another number");
    expect(c.record[WHITHERHAUL_CLIENT_PENDING_AT] == 1, "the request still waits");
    expect(whitherhaul_u32_at(c.record + WHITHERHAUL_CLIENT_VIEW_AT) == 4, "its view is followed");
    expect_reply(&c, 2, 7, 0, 1, "the Reply that is waited for");
    expect(c.record[WHITHERHAUL_CLIENT_PENDING_AT] == 0, "nothing waits then");
    expect_reply(&c, 2, 7, 0, 0, "the same Reply again");
}

/* Frames that are refused leave the client as it was; a record without meaning is judged first. */
static void refused_reply(struct whitherhaul_client *c, const uint8_t *frame, size_t length,
                          uint8_t number, uint64_t offset, const char *what)
{
    static const struct whitherhaul_said nothing;
    struct whitherhaul_client before;
    struct whitherhaul_said said = {5, 5, 5, 5, 5};
    int done = 5;
    memcpy(&before, c, sizeof before);
    before.offset = offset;
    c->offset = 77;
    expect(whitherhaul_client_on_reply_frame(c, frame, length, &said, &done) == number, what);
    expect(done == 0 && memcmp(&said, &nothing, sizeof said) == 0, what);
    expect(memcmp(c, &before, sizeof before) == 0, what);
}

static void refused_replies(void)
{
    static const struct {
        size_t place;
        uint8_t byte;
    } wrong[] = {{3, 33}, {4, 0}, {5, 11}, {6, 1}, {27, 0}, {27, 7}};
    struct whitherhaul_client c;
    uint8_t frame[sizeof reply + 1] = {0};
    size_t i;
    new_client(&c);
    charge(&c);
    refused_reply(&c, request, sizeof request, WHITHERHAUL_REFUSED_MALFORMED, 3, "no Reply");
    for (i = 0; i < sizeof reply; i++)
        refused_reply(&c, reply, i, WHITHERHAUL_REFUSED_MALFORMED, i, "a cut Reply");
    for (i = 0; i < sizeof wrong / sizeof wrong[0]; i++) {
        memcpy(frame, reply, sizeof reply);
        frame[wrong[i].place] = wrong[i].byte;
        refused_reply(&c, frame, sizeof reply, WHITHERHAUL_REFUSED_MALFORMED, wrong[i].place,
                      "a Reply with a wrong byte");
    }
    memcpy(frame, reply, sizeof reply);
    refused_reply(&c, frame, sizeof frame, WHITHERHAUL_REFUSED_MALFORMED, sizeof reply,
                  "a byte behind a Reply");
    c.record[WHITHERHAUL_CLIENT_PENDING_AT] = 2;
    refused_reply(&c, reply, sizeof reply, WHITHERHAUL_REFUSED_SIZES, 0,
                  "a record without meaning");
    refused_reply(&c, request, sizeof request, WHITHERHAUL_REFUSED_SIZES, 0, "1 goes before 2");
}

static int print_words(void)
{
    uint8_t number;
    for (number = 1; number <= WHITHERHAUL_REFUSED_ROW; number++)
        printf("%s\n", whitherhaul_words(number));
    return 0;
}

int main(int count, char **arguments)
{
    if (count == 2 && strcmp(arguments[1], "words") == 0)
        return print_words();
    first_ticks();
    marked_examples();
    refusals();
    wrong_bytes();
    no_offsets();
    short_runs();
    outside_numbers();
    block_lengths();
    blocks();
    longest();
    recovery();
    layout();
    takings();
    cut_takings();
    refused_takings();
    readers();
    frames();
    words();
    client_requests();
    client_refusals();
    client_replies();
    reply_frames();
    refused_replies();
    if (failures == 0)
        printf("header.c: all of it holds\n");
    return failures != 0;
}
