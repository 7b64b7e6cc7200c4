/*
 * Whitherhaul: the journal of a ledger, for owners and treasurers in C.
 *
 * A journal is the applied entries on disk, a frame of 50 bytes for each: its length (4 bytes,
 * always 46), version 1 (1), the op number (4), the entry (32), outcome (1) and total (8). Op
 * numbers run 1, 2, 3 to at most 4,096. Outcome and total are what the fee rules give, from totals
 * of 0. So a file can be judged for a given number of members M, and it is refused at its first bad
 * frame. An empty file is good.
 *
 * The library opens no file: a journal is bytes. An owner appends what a replica committed after
 * each call (whitherhaul_replica_journal_since). Whoever reads a journal needs no replica:
 *
 * Example (example.c):
 * #include "whitherhaul_journal.h"
 *
 * #include <stdio.h>
 *
 * enum { MEMBERS = 8 };
 *
 * // Client 7: Fee of 45.00 and Refund of 5.00 for member 3.
 * static const uint8_t entries[2 * WHITHERHAUL_ENTRY_BYTES] = {
 *     0, 0, 0, 0, 0, 0, 0, 7, 0, 0, 0, 0, 0, 0, 0, 0, // client, request
 *     1, 0, 0, 0, 0, 0, 0, 3, 0, 0, 0, 0, 0, 0, 17, 148, // operation, member, cents
 *     0, 0, 0, 0, 0, 0, 0, 7, 0, 0, 0, 0, 0, 0, 0, 1,
 *     2, 0, 0, 0, 0, 0, 0, 3, 0, 0, 0, 0, 0, 0, 1, 244};
 *
 * // What a treasurer hears of a journal.
 * static void check(const uint8_t *file, size_t length)
 * {
 *     static uint8_t area[WHITHERHAUL_MOST_JOURNAL_FRAMES * WHITHERHAUL_ENTRY_BYTES];
 *     uint8_t totals[WHITHERHAUL_TOTALS_BYTES(MEMBERS)];
 *     struct whitherhaul_read_back back;
 *     uint64_t cents;
 *     uint8_t number = whitherhaul_journal_read(MEMBERS, file, length, area, sizeof area, totals,
 *                                               sizeof totals, &back);
 *     if (number == WHITHERHAUL_REFUSED_JOURNAL) {
 *         printf("%s at byte %u: %s\n", whitherhaul_words(number), (unsigned)back.offset,
 *                whitherhaul_fault_words(back.fault));
 *     } else if (number == WHITHERHAUL_DONE) {
 *         whitherhaul_journal_takings(MEMBERS, totals, sizeof totals, &cents);
 *         printf("%u entries, takings %u.%02u\n", (unsigned)back.entries, (unsigned)(cents / 100),
 *                (unsigned)(cents % 100));
 *     }
 * }
 *
 * int main(void)
 * {
 *     uint8_t file[2 * WHITHERHAUL_JOURNAL_FRAME_BYTES];
 *     uint64_t bytes;
 *     if (whitherhaul_journal_write(MEMBERS, entries, sizeof entries, file, sizeof file, &bytes) !=
 *         WHITHERHAUL_DONE)
 *         return 1;
 *     check(file, (size_t)bytes);
 *     file[99]++;
 *     check(file, (size_t)bytes);
 *     return 0;
 * }
 * End of the example.
 *
 * From the repository's root: cc example.c -I include target/staticlib/native/libwhitherhaul_journal.a
 * It prints: 2 entries, takings 40.00
 * It prints: bad journal frame at byte 50: the total isn't what the fee rules give
 *
 * Each call but whitherhaul_journal_frame returns a number as those of whitherhaul.h do: 0 where it
 * is done, else a refusal. What it answers besides goes to where the last argument points, and is 0
 * with a refusal, but for offset and fault with 12. A refused call leaves every byte of the lent
 * runs as it was; a done one leaves the bytes of an area behind those that it says it wrote. What a
 * caller owes is the same as there: pointers and lengths that are true, and no two places of a call
 * that share a byte.
 *
 * No call keeps memory for all totals: writing and reading have those of 64 members on the stack.
 * Two calls may run at once where they share no run that one of them writes. Link
 * target/staticlib/native/libwhitherhaul_journal.a, which needs the C library for memcpy and memset
 * only; of whitherhaul.h only the numbers and the words are used, but for the last helper here.
 */
#ifndef WHITHERHAUL_JOURNAL_H
#define WHITHERHAUL_JOURNAL_H

#include "whitherhaul.h"

#ifdef __cplusplus
extern "C" {
#endif

/* A frame of a journal. */
#define WHITHERHAUL_JOURNAL_FRAME_BYTES 50
/* How many a journal can have. */
#define WHITHERHAUL_MOST_JOURNAL_FRAMES 4096

/* Places in a frame. */
#define WHITHERHAUL_JOURNAL_LENGTH_AT 0     /* 4 bytes: 46 */
#define WHITHERHAUL_JOURNAL_VERSION_AT 4    /* 1 */
#define WHITHERHAUL_JOURNAL_OP_AT 5         /* 4 */
#define WHITHERHAUL_JOURNAL_ENTRY_AT 9      /* 32 */
#define WHITHERHAUL_JOURNAL_OUTCOME_AT 41   /* 1: WHITHERHAUL_OUTCOME_FEE .. */
#define WHITHERHAUL_JOURNAL_TOTAL_AT 42     /* 8 */

/*
 * What is wrong with a bad frame. Where several things are, the one with the lowest number is
 * named, but for the last, which goes before all others.
 */
#define WHITHERHAUL_FAULT_CUT_SHORT 1       /* fewer than 50 bytes are left */
#define WHITHERHAUL_FAULT_LENGTH 2          /* not 46 */
#define WHITHERHAUL_FAULT_VERSION 3         /* not 1 */
#define WHITHERHAUL_FAULT_OP 4              /* not 1 in the first frame, 2 in the second .. */
#define WHITHERHAUL_FAULT_ENTRY 5           /* operation, zero bytes or cents outside the rules */
#define WHITHERHAUL_FAULT_OUTCOME 6         /* not what the fee rules give */
#define WHITHERHAUL_FAULT_TOTAL 7           /* not what the fee rules give */
#define WHITHERHAUL_FAULT_PAST_LAST 8       /* it stands behind 4,096 frames */

/* What reading answers. */
struct whitherhaul_read_back {
    uint64_t entries;                       /* how many there are */
    uint64_t offset;                        /* with 12: where the first bad frame begins, else 0 */
    uint64_t fault;                         /* with 12: WHITHERHAUL_FAULT_CUT_SHORT .., else 0 */
};

/* A frame as it stands. */
struct whitherhaul_framed {
    uint64_t client;
    uint64_t request;
    uint64_t operation;                     /* WHITHERHAUL_FEE .. */
    uint64_t member;
    uint64_t cents;
    uint64_t outcome;                       /* any byte: no fee rule was asked */
    uint64_t total;
};

/*
 * The journal of a run of entries, for M members; outcomes and totals are worked out. *bytes is how
 * many stand in the area: 50 an entry. 0, 1 where M isn't 1 to 4,096, 2 where an entry is outside
 * its rules or the run's length no multiple of 32, 4 past 4,096 entries, 9.
 */
uint8_t whitherhaul_journal_write(uint32_t members, const uint8_t *run, size_t run_length,
                                  uint8_t *area, size_t area_length, uint64_t *bytes);

/*
 * The frames of ops from + 1 to `to`, out of a replica's log and results as they stand there: what
 * an owner who has the frames up to `from` appends to them. `to` is the commit number, or less.
 * *bytes is how many stand in the area. 0, 1 where `from` is above `to`, `to` above 4,096 or a run
 * has fewer ops, 9.
 */
uint8_t whitherhaul_journal_append(uint32_t from, uint32_t to,
                                   const uint8_t *log, size_t log_length,
                                   const uint8_t *results, size_t results_length,
                                   uint8_t *area, size_t area_length, uint64_t *bytes);

/*
 * A file, for M members: its entries into the area, 32 bytes each, and the members' totals after
 * them, WHITHERHAUL_TOTALS_BYTES(M). 0, 1 where M isn't 1 to 4,096 or the run of totals has another
 * length, 12 where a frame is bad, 9. The whole file is judged before 9.
 */
uint8_t whitherhaul_journal_read(uint32_t members, const uint8_t *file, size_t file_length,
                                 uint8_t *area, size_t area_length,
                                 uint8_t *totals, size_t totals_length,
                                 struct whitherhaul_read_back *answers);

/*
 * Frame number i + 1 of a file as it stands, whatever the fee rules say of it. Returns what is
 * wrong with its form, WHITHERHAUL_FAULT_CUT_SHORT to _ENTRY or _PAST_LAST, or 0; the answers are
 * all 0 where something is.
 */
uint8_t whitherhaul_journal_frame(const uint8_t *file, size_t file_length, uint64_t i,
                                  struct whitherhaul_framed *answers);

/*
 * The takings, all totals of a run added up, in cents. 0, or 1 where M isn't 1 to 4,096, the run
 * has another length, or a total is above 1,000,000,000.
 */
uint8_t whitherhaul_journal_takings(uint32_t members, const uint8_t *totals, size_t totals_length,
                                    uint64_t *cents);

/* Helpers; the calls above are proved, these are tested. */

/* What a fault says, in plain words; never NULL. */
static inline const char *whitherhaul_fault_words(uint64_t fault)
{
    switch (fault) {
    case WHITHERHAUL_FAULT_CUT_SHORT:
        return "the file ends inside it";
    case WHITHERHAUL_FAULT_LENGTH:
        return "its length isn't 46";
    case WHITHERHAUL_FAULT_VERSION:
        return "its version isn't 1";
    case WHITHERHAUL_FAULT_OP:
        return "its op number isn't the next one";
    case WHITHERHAUL_FAULT_ENTRY:
        return "its entry is outside the entry rules";
    case WHITHERHAUL_FAULT_OUTCOME:
        return "the outcome isn't what the fee rules give";
    case WHITHERHAUL_FAULT_TOTAL:
        return "the total isn't what the fee rules give";
    case WHITHERHAUL_FAULT_PAST_LAST:
        return "it is past the last op number, 4096";
    default:
        return "no fault of this library";
    }
}

/*
 * The frames of the entries behind op number `op` that a replica has committed, into an area that
 * mustn't stand in its block. 0, 1 where `op` is above the commit number, 9.
 */
static inline uint8_t whitherhaul_replica_journal_since(const struct whitherhaul_replica *r,
                                                        uint32_t op, uint8_t *area, size_t length,
                                                        uint64_t *bytes)
{
    return whitherhaul_journal_append(op, whitherhaul_replica_commit_number(r),
                                      WHITHERHAUL_RUN(r->log), WHITHERHAUL_RUN(r->results), area,
                                      length, bytes);
}

#ifdef __cplusplus
}
#endif

#endif
