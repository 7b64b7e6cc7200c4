/*
 * Whitherhaul: a replicated ledger of club fees (Viewstamped Replication), for owners in C.
 *
 * Three to seven replicas agree on each charge, and a charge that is sent again isn't taken again.
 * The library does no input or output, keeps no clock and starts no thread: the owner hands a
 * replica the frames that arrive, tells it when time has passed, and delivers what it sends; a
 * client (a desk that charges fees) likewise.
 *
 * The ten calls of the library take every piece of memory as a pointer and a length. Behind them
 * stand helpers that keep the memory of a replica or a client together; most owners use only these:
 *
 * Example (example.c):
 * #include "whitherhaul.h"
 *
 * #include <stdio.h>
 * #include <string.h>
 *
 * enum { N = 3, ROOM = 8, MEMBERS = 8, DESK = 7, MEMBER = 3 };
 *
 * static uint8_t memory[N][WHITHERHAUL_REPLICA_BYTES(N, ROOM, MEMBERS)];
 * static struct whitherhaul_replica replicas[N];
 * static struct whitherhaul_client desk;
 *
 * static uint8_t network[1024];
 * static size_t posted, left; // bytes that were ever posted, and those that aren't delivered yet
 *
 * // Frames that don't fit are lost. That does no harm: what isn't answered is sent again on idle.
 * static void post(const uint8_t *frames, uint64_t length)
 * {
 *     if (length > sizeof network - posted)
 *         return;
 *     memcpy(network + posted, frames, (size_t)length);
 *     posted += (size_t)length;
 *     left += (size_t)length;
 * }
 *
 * // Whether a reply of the replica's last call answers the request of the desk.
 * static int answered(const struct whitherhaul_replica *r, struct whitherhaul_said *said)
 * {
 *     const uint8_t *frame, *replies = r->reps.bytes;
 *     size_t length, rest = (size_t)r->counts.replies;
 *     int done = 0;
 *     while (!done && (frame = whitherhaul_next_frame(&replies, &rest, &length)) != NULL)
 *         whitherhaul_client_on_reply_frame(&desk, frame, length, said, &done);
 *     return done;
 * }
 *
 * static int start(void)
 * {
 *     uint32_t id;
 *     for (id = 0; id < N; id++)
 *         if (whitherhaul_replica_new(&replicas[id], N, id, WHITHERHAUL_DEFAULT_TIMEOUT, ROOM,
 *                                     MEMBERS, memory[id], sizeof memory[id]) != WHITHERHAUL_DONE)
 *             return 0;
 *     return whitherhaul_client_new(&desk, N, DESK) == WHITHERHAUL_DONE;
 * }
 *
 * // A line for the developers: why a frame was refused, and at which byte, counted from 0.
 * static void log_refusal(uint8_t number, const struct whitherhaul_replica *r, size_t length)
 * {
 *     fprintf(stderr, "replica %u refused: %s", (unsigned)r->id, whitherhaul_words(number));
 *     if (number == WHITHERHAUL_REFUSED_MALFORMED)
 *         fprintf(stderr, " (byte %u of %u)", (unsigned)r->offset, (unsigned)length);
 *     fprintf(stderr, "\n");
 * }
 *
 * int main(void)
 * {
 *     const uint8_t *frame, *next = network;
 *     struct whitherhaul_said said;
 *     uint64_t takings;
 *     size_t length;
 *     if (!start() ||
 *         whitherhaul_client_on_request(&desk, WHITHERHAUL_FEE, MEMBER, 4500) != WHITHERHAUL_DONE)
 *         return 1;
 *     post(desk.area, desk.requested.written);
 *     while ((frame = whitherhaul_next_frame(&next, &left, &length)) != NULL) {
 *         struct whitherhaul_replica *r = &replicas[whitherhaul_addressee(frame)];
 *         uint8_t number = whitherhaul_replica_on_message(r, frame, length);
 *         if (number != WHITHERHAUL_DONE)
 *             log_refusal(number, r, length);
 *         // Who wants to recover after a crash keeps whitherhaul_replica_view(r) before this.
 *         post(r->out.bytes, r->counts.messages);
 *         if (answered(r, &said)) {
 *             if (whitherhaul_replica_takings(r, &takings) != WHITHERHAUL_DONE)
 *                 return 1;
 *             printf("total of member %d: %u.%02u, takings %u.%02u\n", MEMBER,
 *                    (unsigned)(said.total / 100), (unsigned)(said.total % 100),
 *                    (unsigned)(takings / 100), (unsigned)(takings % 100));
 *             return 0;
 *         }
 *     }
 *     return 1;
 * }
 * End of the example.
 *
 * From the repository's root: cc example.c -I include target/staticlib/native/libwhitherhaul.a
 * It prints: total of member 3: 45.00, takings 45.00
 *
 * Every call returns document 01's number: 0 where it is done, else a refusal
 * (WHITHERHAUL_REFUSED_..). What it answers besides goes to one struct of numbers, or to a number,
 * to which an argument behind the runs points; a creation has none. A refused call leaves every
 * byte of the lent runs as it was and writes zeros there. The two calls that read a frame say last
 * where in it refusal 2 is (`offset`, below). No call keeps a pointer, allocates memory, blocks or
 * ends the program, whatever the bytes: what a caller owes is only that each pointer points to as
 * many bytes as the length behind it says, that no two of a call's runs, answers and offset share a
 * byte, and that every pointer is valid also for a length of 0 (never NULL).
 *
 * `offset`, with 2, counts a frame's bytes from 0: the first byte at which no well-formed frame
 * begins with the bytes up to and including it, whatever follows. Where there is none the frame is
 * cut short, and the offset is the length that was handed over. With every other answer it is 0. So
 * the number says whether there is one: 2 with offset 0 is possible, an empty frame.
 *
 * A run is a pointer, then its length. Runs marked const are only read. The runs of a replica are
 * its owner's memory: he hands the same ones to each call and doesn't change them between calls.
 * Their lengths follow from n (replicas), L (room of the log) and M (members); any other length is
 * refusal 1.
 *
 * `out` takes messages to replicas, `reps` replies to clients: frames straight one after another
 * from byte 0; bytes past the counts stay as they were. A frame begins with its length (4 bytes, of
 * what follows), version 1, kind, and the replica that it is for (WHITHERHAUL_FRAME_..). All
 * numbers in frames and runs are big-endian.
 *
 * Two calls may run at once where they share no run. Link
 * target/staticlib/native/libwhitherhaul.a; it needs the C library for memmove and memset only.
 */
#ifndef WHITHERHAUL_H
#define WHITHERHAUL_H

#include <stddef.h>
#include <stdint.h>

#ifdef __cplusplus
extern "C" {
#endif

/* Numbers that a call returns. */
#define WHITHERHAUL_DONE 0                  /* done, which includes messages that are ignored */
/*
 * 1: setup outside the sizes, a state number out of range or a byte without meaning, a run of
 * another length.
 */
#define WHITHERHAUL_REFUSED_SIZES 1
/*
 * 2: frame malformed, with an offset; client, journal, table: operation or cents outside the entry
 * rules.
 */
#define WHITHERHAUL_REFUSED_MALFORMED 2
/* 3: addressee isn't this replica, or sender not below n. */
#define WHITHERHAUL_REFUSED_REPLICA 3
/* 4: an op number above L, or an append at L entries; journal: more than 4,096 entries. */
#define WHITHERHAUL_REFUSED_ROOM 4
/* 5: a commit number past the carried log, or a commit past the own log. */
#define WHITHERHAUL_REFUSED_COMMIT 5
/* 6: a client's request numbers wouldn't strictly rise along the log. */
#define WHITHERHAUL_REFUSED_RISING 6
/* 7: committed entries would be shortened or altered. */
#define WHITHERHAUL_REFUSED_COMMITTED 7
/* 8: a tick would move past view 4,294,967,295. */
#define WHITHERHAUL_REFUSED_LAST_VIEW 8
/* 9: the messages don't fit `out`, or what else a call writes its area. */
#define WHITHERHAUL_REFUSED_MESSAGES 9
/* 10: the replies don't fit `reps`. */
#define WHITHERHAUL_REFUSED_REPLIES 10
/* 11: client: the next request number is 2^64-1. */
#define WHITHERHAUL_REFUSED_NUMBERS 11
/* 12: a frame of a journal is bad (whitherhaul_journal.h). */
#define WHITHERHAUL_REFUSED_JOURNAL 12
/* 13: a row of a table is bad (whitherhaul_csv.h). */
#define WHITHERHAUL_REFUSED_ROW 13

/*
 * Sizes: n is 3 to 7, an id 0 to n-1, T (timeout, in ticks) 1 to 65,535, L and M 1 to 4,096. A
 * creation refuses any other number by 1.
 */
#define WHITHERHAUL_LEAST_REPLICAS 3
#define WHITHERHAUL_MOST_REPLICAS 7
#define WHITHERHAUL_MOST_TIMEOUT 65535
#define WHITHERHAUL_MOST_ROOM 4096
#define WHITHERHAUL_MOST_MEMBERS 4096
#define WHITHERHAUL_DEFAULT_TIMEOUT 3

/* Lengths of the lent runs. */
#define WHITHERHAUL_STATE_BYTES 154
/* An entry, as on the wire: client 8, request 8, operation 1, zeros 3, member 4, cents 8. */
#define WHITHERHAUL_ENTRY_BYTES 32
/* Entries. */
#define WHITHERHAUL_LOG_BYTES(L) (32 * (size_t)(L))
/* Of each applied entry: outcome 1, total 8. */
#define WHITHERHAUL_RESULTS_BYTES(L) (9 * (size_t)(L))
/* A total of 8 bytes a member. */
#define WHITHERHAUL_TOTALS_BYTES(M) (8 * (size_t)(M))
/* A set of replicas for each op number. */
#define WHITHERHAUL_ACKS_BYTES(L) ((size_t)(L))
/* Logs of DoViewChanges or recovery responses. */
#define WHITHERHAUL_STORED_BYTES(L, n) (32 * (size_t)(L) * (size_t)(n))
/* Rows: client 8, request 8, mark 1, total 8. */
#define WHITHERHAUL_TABLE_BYTES(L) (25 * (size_t)(L))
/* A client's record. */
#define WHITHERHAUL_CLIENT_BYTES 54

/*
 * The longest that messages and replies of one call can be: no call is refused by 9 or 10 with
 * areas of these lengths. The longest messages are those of the primary's tick, a Commit and up to
 * L Prepares to each other replica.
 */
#define WHITHERHAUL_OUT_BYTES(L, n) (((size_t)(n) - 1) * (15 + 51 * (size_t)(L)))
#define WHITHERHAUL_REPS_BYTES(L) (36 * (size_t)(L))
/* A Request; a client's idle call writes n of them. */
#define WHITHERHAUL_REQUEST_BYTES 39
/* A Reply. */
#define WHITHERHAUL_REPLY_BYTES 36

/* Places in a frame. */
#define WHITHERHAUL_FRAME_LENGTH_AT 0       /* 4 bytes: length of what follows */
#define WHITHERHAUL_FRAME_VERSION_AT 4      /* 1 */
#define WHITHERHAUL_FRAME_KIND_AT 5         /* 1 to 12 */
#define WHITHERHAUL_FRAME_ADDRESSEE_AT 6    /* the replica that it is for; 0 in a Reply */

/* Places in the state run. */
#define WHITHERHAUL_STATE_SETUP_AT 0        /* n 1, id 1, T 2, L 4, M 4 */
#define WHITHERHAUL_STATE_STATUS_AT 12      /* 1: WHITHERHAUL_NORMAL .. */
#define WHITHERHAUL_STATE_VIEW_AT 13        /* 4: an owner keeps it where a crash doesn't reach it,
                                               before it delivers what a call sent */
#define WHITHERHAUL_STATE_NORMAL_VIEW_AT 17 /* 4: the last view in which the status was Normal */
#define WHITHERHAUL_STATE_CATCHING_UP_AT 21 /* 1: 0 or 1 */
#define WHITHERHAUL_STATE_OP_AT 22          /* 4: how many entries the log has */
#define WHITHERHAUL_STATE_COMMIT_AT 26      /* 4: how many of them are committed */
#define WHITHERHAUL_STATE_CLOCK_AT 30       /* heard 1 (0 or 1), waiting 4, stable 2, attempts 1 */
#define WHITHERHAUL_STATE_STARTS_AT 38      /* 1: which others sent StartViewChange for this view,
                                               a bit a replica; bits from n on are 0 */
#define WHITHERHAUL_STATE_SENT_AT 39        /* 1: whether DoViewChange was sent, 0 or 1 */
#define WHITHERHAUL_STATE_NONCE_AT 40       /* 8 */
#define WHITHERHAUL_STATE_REPORTS_AT 48     /* 7 times: there 1, with a log 1, view 4, op 4, commit
                                               4; all zero where none is there, and from n on */
#define WHITHERHAUL_STATE_TAKINGS_AT 146    /* 8: all totals added up, at most 4,096,000,000,000 */

#define WHITHERHAUL_NORMAL 0
#define WHITHERHAUL_STATE_TRANSFER 1
#define WHITHERHAUL_VIEW_CHANGE 2
#define WHITHERHAUL_RECOVERING 3

/* Places in a client's record. */
#define WHITHERHAUL_CLIENT_N_AT 0           /* 1 */
#define WHITHERHAUL_CLIENT_ID_AT 1          /* 8 */
#define WHITHERHAUL_CLIENT_VIEW_AT 9        /* 4: the latest view it heard of; view mod n leads */
#define WHITHERHAUL_CLIENT_NEXT_AT 13       /* 8: the next request number */
#define WHITHERHAUL_CLIENT_PENDING_AT 21    /* 1: 0, or 1 and the entry that waits (32) */

/* Operations of a request: Fee and Refund carry 1 to 1,000,000 cents, Ask 0. */
#define WHITHERHAUL_FEE 1
#define WHITHERHAUL_REFUND 2
#define WHITHERHAUL_ASK 3

/* Outcomes of a reply. */
#define WHITHERHAUL_OUTCOME_FEE 1           /* added */
#define WHITHERHAUL_OUTCOME_REFUND 2        /* subtracted */
#define WHITHERHAUL_OUTCOME_ASK 3           /* told */
#define WHITHERHAUL_OUTCOME_NO_MEMBER 4     /* member not below M; total 0 */
#define WHITHERHAUL_OUTCOME_PAST_LIMIT 5    /* the total would pass 1,000,000,000 */
#define WHITHERHAUL_OUTCOME_PAST_TOTAL 6    /* the refund exceeds the total */

/* Bytes of `out` and of `reps` that a replica's call gave to send. */
struct whitherhaul_counts {
    uint64_t messages;
    uint64_t replies;
};

/* What a client's request answers: its number, and how many bytes of the area are its frame. */
struct whitherhaul_requested {
    uint64_t number;
    uint64_t written;
};

/* Whether a reply answers the request that waits, 1 or 0. */
struct whitherhaul_replied {
    uint64_t done;
};

/* How many bytes of the area are frames of the request that waits. */
struct whitherhaul_idled {
    uint64_t written;
};

/* What a Reply says. */
struct whitherhaul_said {
    uint64_t view;
    uint64_t client;
    uint64_t request;
    uint64_t outcome;                       /* WHITHERHAUL_OUTCOME_FEE .. */
    uint64_t total;
};

/*
 * A replica for the first time: Normal, in view 0, with an empty log. Totals, acks and table are
 * zeroed, the state is written; log, results and stored stay as they were. 0 or 1.
 */
uint8_t whitherhaul_create(uint32_t n, uint32_t id, uint32_t timeout, uint32_t room, uint32_t members,
                           uint8_t *state, size_t state_length,
                           const uint8_t *log, size_t log_length,
                           const uint8_t *results, size_t results_length,
                           uint8_t *totals, size_t totals_length,
                           uint8_t *acks, size_t acks_length,
                           const uint8_t *stored, size_t stored_length,
                           uint8_t *table, size_t table_length);

/*
 * A replica that lost its memory in a crash: Recovering, in the view that its owner kept, with a
 * nonce that it never used before. It asks all others by Recovery frames, 20 (n-1) bytes of `out`;
 * there are no replies. 0, 1 or 9.
 */
uint8_t whitherhaul_recover(uint32_t n, uint32_t id, uint32_t timeout, uint32_t room, uint32_t members,
                            uint32_t view, uint64_t nonce,
                            uint8_t *state, size_t state_length,
                            const uint8_t *log, size_t log_length,
                            const uint8_t *results, size_t results_length,
                            uint8_t *totals, size_t totals_length,
                            uint8_t *acks, size_t acks_length,
                            const uint8_t *stored, size_t stored_length,
                            uint8_t *table, size_t table_length,
                            uint8_t *out, size_t out_length,
                            struct whitherhaul_counts *counts);

/*
 * A frame has arrived, with its 4-byte length. 0 to 10; with 2 *offset is the frame's first wrong
 * byte, or its length where only bytes are missing, else 0.
 */
uint8_t whitherhaul_on_message(uint8_t *state, size_t state_length,
                               const uint8_t *frame, size_t frame_length,
                               uint8_t *log, size_t log_length,
                               uint8_t *results, size_t results_length,
                               uint8_t *totals, size_t totals_length,
                               uint8_t *acks, size_t acks_length,
                               uint8_t *stored, size_t stored_length,
                               uint8_t *table, size_t table_length,
                               uint8_t *out, size_t out_length,
                               uint8_t *reps, size_t reps_length,
                               struct whitherhaul_counts *counts, uint64_t *offset);

/*
 * Time has passed: a tick, to be called at a regular interval. Answers as whitherhaul_on_message,
 * but there is no frame, and so no 2 and no offset.
 */
uint8_t whitherhaul_on_idle(uint8_t *state, size_t state_length,
                            uint8_t *log, size_t log_length,
                            uint8_t *results, size_t results_length,
                            uint8_t *totals, size_t totals_length,
                            uint8_t *acks, size_t acks_length,
                            uint8_t *stored, size_t stored_length,
                            uint8_t *table, size_t table_length,
                            uint8_t *out, size_t out_length,
                            uint8_t *reps, size_t reps_length,
                            struct whitherhaul_counts *counts);

/*
 * The takings, all members' totals added up, in cents, in any status. The sum is kept in the state,
 * so that this takes the same time for any M; after every call it is what the addition gives. Only
 * the state is looked at, and nothing is changed. 0, or 1 and no cents.
 */
uint8_t whitherhaul_takings(const uint8_t *state, size_t state_length, uint64_t *cents);

/* A new client of n replicas. Its id must be its own for ever. 0 or 1. */
uint8_t whitherhaul_client_create(uint32_t n, uint64_t id, uint8_t *record, size_t record_length);

/*
 * A request, in place of one that waits: its frame (39 bytes) is for the primary. Member is any
 * number. 0, 1, 2, 9 or 11.
 */
uint8_t whitherhaul_client_request(uint8_t *record, size_t record_length,
                                   uint8_t operation, uint32_t member, uint64_t cents,
                                   uint8_t *area, size_t area_length,
                                   struct whitherhaul_requested *answers);

/*
 * A reply came for this request number, of this view. The record follows the view also where it
 * isn't awaited. It asks for no client id: the caller sees that the reply is for this client. 0 or
 * 1.
 */
uint8_t whitherhaul_client_reply(uint8_t *record, size_t record_length, uint64_t number, uint32_t view,
                                 struct whitherhaul_replied *answers);

/*
 * No reply came for a while: the request that waits, for every replica (39 n bytes); none where
 * nothing waits. 0, 1 or 9.
 */
uint8_t whitherhaul_client_idle(const uint8_t *record, size_t record_length,
                                uint8_t *area, size_t area_length, struct whitherhaul_idled *answers);

/*
 * A Reply, read. 0, or 2 where the bytes are no well-formed one; then *offset is the first wrong
 * byte, or the length where only bytes are missing, else 0.
 */
uint8_t whitherhaul_read_reply(const uint8_t *frame, size_t frame_length,
                               struct whitherhaul_said *answers, uint64_t *offset);

/*
 * Helpers, written over the calls above; the calls are proved, these are tested. They answer by the
 * same numbers. A refused one leaves every byte as it was, but for counts and answers, which are
 * then 0, and the offset, which is that of the call; a refused creation leaves these too.
 */

/* What a number says, in plain words; never NULL. */
static inline const char *whitherhaul_words(uint8_t number)
{
    switch (number) {
    case WHITHERHAUL_DONE:
        return "done";
    case WHITHERHAUL_REFUSED_SIZES:
        return "setup or state outside the sizes, or a lent run of another length";
    case WHITHERHAUL_REFUSED_MALFORMED:
        return "malformed frame, or operation or cents outside the entry rules";
    case WHITHERHAUL_REFUSED_REPLICA:
        return "for another replica, or from one that isn't there";
    case WHITHERHAUL_REFUSED_ROOM:
        return "past the room of the log, or of a journal";
    case WHITHERHAUL_REFUSED_COMMIT:
        return "a commit number past the log";
    case WHITHERHAUL_REFUSED_RISING:
        return "request numbers of a client that don't rise along the log";
    case WHITHERHAUL_REFUSED_COMMITTED:
        return "committed entries would be shortened or altered";
    case WHITHERHAUL_REFUSED_LAST_VIEW:
        return "past the last view, 4294967295";
    case WHITHERHAUL_REFUSED_MESSAGES:
        return "the messages, or the bytes of a journal or a table, don't fit their area";
    case WHITHERHAUL_REFUSED_REPLIES:
        return "the replies don't fit their area";
    case WHITHERHAUL_REFUSED_NUMBERS:
        return "the next request number is 2^64-1";
    case WHITHERHAUL_REFUSED_JOURNAL:
        return "bad journal frame";
    case WHITHERHAUL_REFUSED_ROW:
        return "bad row";
    default:
        return "no number of this library";
    }
}

/* The big-endian number of 4 bytes. */
static inline uint32_t whitherhaul_u32_at(const uint8_t *bytes)
{
    return (uint32_t)bytes[0] << 24 | (uint32_t)bytes[1] << 16 | (uint32_t)bytes[2] << 8 | bytes[3];
}

/* The big-endian number of 8 bytes. */
static inline uint64_t whitherhaul_u64_at(const uint8_t *bytes)
{
    return (uint64_t)whitherhaul_u32_at(bytes) << 32 | whitherhaul_u32_at(bytes + 4);
}

/*
 * The next frame of a run of frames, and its length with the 4 bytes in front; `frames` and `left`
 * move behind it. NULL, length 0 and nothing moved where the rest is no whole frame, as at the end.
 */
static inline const uint8_t *whitherhaul_next_frame(const uint8_t **frames, size_t *left,
                                                    size_t *length)
{
    const uint8_t *frame = *frames;
    *length = 0;
    if (*left < 4 || whitherhaul_u32_at(frame) > *left - 4)
        return NULL;
    *length = 4 + (size_t)whitherhaul_u32_at(frame);
    *frames += *length;
    *left -= *length;
    return frame;
}

/*
 * The replica that a frame is for. Every frame that a call wrote has this byte; of bytes from
 * elsewhere the caller sees first that there are 7. In a Reply it means nothing.
 */
static inline uint8_t whitherhaul_addressee(const uint8_t *frame)
{
    return frame[WHITHERHAUL_FRAME_ADDRESSEE_AT];
}

/* Bytes of a block. */
struct whitherhaul_run {
    uint8_t *bytes;
    size_t length;
};

/*
 * A replica: its setup, and where in its block the runs and the two areas stand. What the last call
 * sent is counts.messages bytes of `out` and counts.replies bytes of `reps`, until the next call.
 * Where that call refused a frame by 2, `offset` is its first wrong byte; after any other it is 0.
 */
struct whitherhaul_replica {
    uint32_t n;
    uint32_t id;
    uint32_t timeout;
    uint32_t room;
    uint32_t members;
    struct whitherhaul_run state;
    struct whitherhaul_run log;
    struct whitherhaul_run results;
    struct whitherhaul_run totals;
    struct whitherhaul_run acks;
    struct whitherhaul_run stored;
    struct whitherhaul_run table;
    struct whitherhaul_run out;
    struct whitherhaul_run reps;
    struct whitherhaul_counts counts;
    uint64_t offset;
};

/* A run as two arguments, and in the calls' order those that follow the state of a replica. */
#define WHITHERHAUL_RUN(run) (run).bytes, (run).length
#define WHITHERHAUL_RUNS(r)                                                                     \
    WHITHERHAUL_RUN((r)->log), WHITHERHAUL_RUN((r)->results), WHITHERHAUL_RUN((r)->totals),     \
        WHITHERHAUL_RUN((r)->acks), WHITHERHAUL_RUN((r)->stored), WHITHERHAUL_RUN((r)->table)

/* How long a replica's block is, for numbers inside the sizes: for blocks in static memory. */
#define WHITHERHAUL_REPLICA_BYTES(n, L, M)                                                      \
    (WHITHERHAUL_STATE_BYTES + WHITHERHAUL_LOG_BYTES(L) + WHITHERHAUL_RESULTS_BYTES(L) +        \
     WHITHERHAUL_TOTALS_BYTES(M) + WHITHERHAUL_ACKS_BYTES(L) + WHITHERHAUL_STORED_BYTES(L, n) + \
     WHITHERHAUL_TABLE_BYTES(L) + WHITHERHAUL_OUT_BYTES(L, n) + WHITHERHAUL_REPS_BYTES(L))

/* How long a replica's block is, runs and both areas at their longest; 0 outside the sizes. */
static inline size_t whitherhaul_replica_bytes(uint32_t n, uint32_t room, uint32_t members)
{
    if (n < WHITHERHAUL_LEAST_REPLICAS || n > WHITHERHAUL_MOST_REPLICAS)
        return 0;
    if (room < 1 || room > WHITHERHAUL_MOST_ROOM)
        return 0;
    if (members < 1 || members > WHITHERHAUL_MOST_MEMBERS)
        return 0;
    return WHITHERHAUL_REPLICA_BYTES(n, room, members);
}

/* So many bytes of the rest of a block, which then begins behind them. */
static inline struct whitherhaul_run whitherhaul_take(uint8_t **rest, size_t length)
{
    struct whitherhaul_run run;
    run.bytes = *rest;
    run.length = length;
    *rest += length;
    return run;
}

/* The runs and areas of a replica in a block that is long enough; no byte of it is touched. */
static inline struct whitherhaul_replica whitherhaul_lay_out(uint32_t n, uint32_t id,
                                                             uint32_t timeout, uint32_t room,
                                                             uint32_t members, void *memory)
{
    struct whitherhaul_replica r;
    uint8_t *rest = (uint8_t *)memory;
    r.n = n;
    r.id = id;
    r.timeout = timeout;
    r.room = room;
    r.members = members;
    r.state = whitherhaul_take(&rest, WHITHERHAUL_STATE_BYTES);
    r.log = whitherhaul_take(&rest, WHITHERHAUL_LOG_BYTES(room));
    r.results = whitherhaul_take(&rest, WHITHERHAUL_RESULTS_BYTES(room));
    r.totals = whitherhaul_take(&rest, WHITHERHAUL_TOTALS_BYTES(members));
    r.acks = whitherhaul_take(&rest, WHITHERHAUL_ACKS_BYTES(room));
    r.stored = whitherhaul_take(&rest, WHITHERHAUL_STORED_BYTES(room, n));
    r.table = whitherhaul_take(&rest, WHITHERHAUL_TABLE_BYTES(room));
    r.out = whitherhaul_take(&rest, WHITHERHAUL_OUT_BYTES(room, n));
    r.reps = whitherhaul_take(&rest, WHITHERHAUL_REPS_BYTES(room));
    r.counts.messages = 0;
    r.counts.replies = 0;
    r.offset = 0;
    return r;
}

/*
 * A replica for the first time, in a block that the owner lends as long as he uses it, at any
 * address; bytes past whitherhaul_replica_bytes stay as they were. 0, or 1 also where the block is
 * too short.
 */
static inline uint8_t whitherhaul_replica_new(struct whitherhaul_replica *r, uint32_t n,
                                              uint32_t id, uint32_t timeout, uint32_t room,
                                              uint32_t members, void *memory, size_t length)
{
    size_t bytes = whitherhaul_replica_bytes(n, room, members);
    struct whitherhaul_replica made;
    uint8_t number;
    if (bytes == 0 || length < bytes)
        return WHITHERHAUL_REFUSED_SIZES;
    made = whitherhaul_lay_out(n, id, timeout, room, members, memory);
    number = whitherhaul_create(n, id, timeout, room, members, WHITHERHAUL_RUN(made.state),
                                WHITHERHAUL_RUNS(&made));
    if (number == WHITHERHAUL_DONE)
        *r = made;
    return number;
}

/*
 * A replica that lost its memory in a crash, with the view that its owner kept and a nonce that it
 * never used before. Its Recovery frames stand in `out`. 0 or 1, as whitherhaul_replica_new.
 */
static inline uint8_t whitherhaul_replica_recover(struct whitherhaul_replica *r, uint32_t n,
                                                  uint32_t id, uint32_t timeout, uint32_t room,
                                                  uint32_t members, uint32_t view, uint64_t nonce,
                                                  void *memory, size_t length)
{
    size_t bytes = whitherhaul_replica_bytes(n, room, members);
    struct whitherhaul_replica made;
    uint8_t number;
    if (bytes == 0 || length < bytes)
        return WHITHERHAUL_REFUSED_SIZES;
    made = whitherhaul_lay_out(n, id, timeout, room, members, memory);
    number = whitherhaul_recover(n, id, timeout, room, members, view, nonce,
                                 WHITHERHAUL_RUN(made.state), WHITHERHAUL_RUNS(&made),
                                 WHITHERHAUL_RUN(made.out), &made.counts);
    if (number == WHITHERHAUL_DONE)
        *r = made;
    return number;
}

/*
 * A frame has arrived, with its 4-byte length; it mustn't stand in this replica's own block. 0 to
 * 8: the areas are long enough for any call. With 2 r->offset says which byte is wrong.
 */
static inline uint8_t whitherhaul_replica_on_message(struct whitherhaul_replica *r,
                                                     const uint8_t *frame, size_t length)
{
    return whitherhaul_on_message(WHITHERHAUL_RUN(r->state), frame, length, WHITHERHAUL_RUNS(r),
                                  WHITHERHAUL_RUN(r->out), WHITHERHAUL_RUN(r->reps), &r->counts,
                                  &r->offset);
}

/* Time has passed: a tick, to be called at a regular interval. 0 to 8, without an offset. */
static inline uint8_t whitherhaul_replica_on_idle(struct whitherhaul_replica *r)
{
    r->offset = 0;
    return whitherhaul_on_idle(WHITHERHAUL_RUN(r->state), WHITHERHAUL_RUNS(r),
                               WHITHERHAUL_RUN(r->out), WHITHERHAUL_RUN(r->reps), &r->counts);
}

/* What a replica is doing: WHITHERHAUL_NORMAL .. */
static inline uint8_t whitherhaul_replica_status(const struct whitherhaul_replica *r)
{
    return r->state.bytes[WHITHERHAUL_STATE_STATUS_AT];
}

/* The view: an owner keeps it out of a crash's reach before it delivers what a call sent. */
static inline uint32_t whitherhaul_replica_view(const struct whitherhaul_replica *r)
{
    return whitherhaul_u32_at(r->state.bytes + WHITHERHAUL_STATE_VIEW_AT);
}

/* How many entries the log has. */
static inline uint32_t whitherhaul_replica_op_number(const struct whitherhaul_replica *r)
{
    return whitherhaul_u32_at(r->state.bytes + WHITHERHAUL_STATE_OP_AT);
}

/* How many of them are committed, and so applied to the totals. */
static inline uint32_t whitherhaul_replica_commit_number(const struct whitherhaul_replica *r)
{
    return whitherhaul_u32_at(r->state.bytes + WHITHERHAUL_STATE_COMMIT_AT);
}

/* Whether it leads its view, 1 or 0, in any status. */
static inline int whitherhaul_replica_is_primary(const struct whitherhaul_replica *r)
{
    return whitherhaul_replica_view(r) % r->n == r->id;
}

/* A member's total, in cents; 0 where the member isn't below M. */
static inline uint64_t whitherhaul_replica_total(const struct whitherhaul_replica *r,
                                                 uint32_t member)
{
    return member < r->members ? whitherhaul_u64_at(r->totals.bytes + 8 * (size_t)member) : 0;
}

/* The takings, in cents. 0, or 1 and no cents; what the last call sent and its offset stay. */
static inline uint8_t whitherhaul_replica_takings(const struct whitherhaul_replica *r,
                                                  uint64_t *cents)
{
    return whitherhaul_takings(WHITHERHAUL_RUN(r->state), cents);
}

/*
 * A client: its record, which is all that an owner keeps of it, and an area for n Requests. The
 * area holds what the last on_request (requested.written bytes) or on_idle (idled.written) gave.
 * Where the last call refused a Reply by 2, `offset` is its first wrong byte; else it is 0, as with
 * the 2 of on_request, which has no frame.
 */
struct whitherhaul_client {
    uint8_t record[WHITHERHAUL_CLIENT_BYTES];
    uint8_t area[WHITHERHAUL_MOST_REPLICAS * WHITHERHAUL_REQUEST_BYTES];
    struct whitherhaul_requested requested;
    struct whitherhaul_idled idled;
    uint64_t offset;
};

/* A new client of n replicas. Its id must be its own for ever. 0, or 1 and *c as it was. */
static inline uint8_t whitherhaul_client_new(struct whitherhaul_client *c, uint32_t n, uint64_t id)
{
    uint8_t number = whitherhaul_client_create(n, id, c->record, sizeof c->record);
    if (number == WHITHERHAUL_DONE) {
        c->requested.number = 0;
        c->requested.written = 0;
        c->idled.written = 0;
        c->offset = 0;
    }
    return number;
}

/* A request, in place of one that waits: its number, and its frame in the area. 0, 1, 2 or 11. */
static inline uint8_t whitherhaul_client_on_request(struct whitherhaul_client *c, uint8_t operation,
                                                    uint32_t member, uint64_t cents)
{
    c->offset = 0;
    return whitherhaul_client_request(c->record, sizeof c->record, operation, member, cents,
                                      c->area, sizeof c->area, &c->requested);
}

/* No reply came for a while: the request that waits, for every replica, in the area. 0 or 1. */
static inline uint8_t whitherhaul_client_on_idle(struct whitherhaul_client *c)
{
    c->offset = 0;
    return whitherhaul_client_idle(c->record, sizeof c->record, c->area, sizeof c->area, &c->idled);
}

/*
 * A Reply has arrived: what it says, and whether it answers the request that waits (1 or 0). One
 * for another client leaves the record as it was: its number and view are none of this client's,
 * and whitherhaul_client_reply, which sees no client id, would take a charge for answered that
 * isn't. 0, 1, or 2 where the bytes are no well-formed Reply, and c->offset says which is wrong;
 * where refused, all it says is 0.
 */
static inline uint8_t whitherhaul_client_on_reply_frame(struct whitherhaul_client *c,
                                                        const uint8_t *frame, size_t length,
                                                        struct whitherhaul_said *said, int *done)
{
    static const struct whitherhaul_said nothing = {0, 0, 0, 0, 0};
    struct whitherhaul_replied replied;
    struct whitherhaul_idled idled;
    /* Refusal 1 goes before 2. A call that lends no area changes nothing, and judges the record. */
    uint8_t number = whitherhaul_client_idle(c->record, sizeof c->record, c->area, 0, &idled);
    *said = nothing;
    *done = 0;
    c->offset = 0;
    if (number == WHITHERHAUL_REFUSED_SIZES)
        return number;
    number = whitherhaul_read_reply(frame, length, said, &c->offset);
    if (number != WHITHERHAUL_DONE ||
        said->client != whitherhaul_u64_at(c->record + WHITHERHAUL_CLIENT_ID_AT))
        return number;
    number = whitherhaul_client_reply(c->record, sizeof c->record, said->request,
                                      (uint32_t)said->view, &replied);
    *done = replied.done == 1;
    return number;
}

#ifdef __cplusplus
}
#endif

#endif
