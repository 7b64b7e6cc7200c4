/*
 * Whitherhaul: entries for a treasurer's spreadsheet and back, for owners in C.
 *
 * A table is CSV by RFC 4180. Its rows end by CRLF. The first is the header
 * op,client,request,kind,member,cents; then comes one for each entry, op running 1, 2, 3, numbers
 * in decimal without leading zeros, the kind fee, refund or ask. What is exported has no quotes. In
 * what is imported each field may be quoted, and the last CRLF may be missing; every other
 * difference from the table of some entries is a bad row. There may be any number of rows.
 *
 * The library opens no file: a table is bytes. A row that was imported can be sent as a Request
 * (whitherhaul_entry_request); client and number are those of the row, so that a row that is sent
 * again isn't taken again.
 *
 * Example (example.c):
 * #include "whitherhaul_csv.h"
 *
 * #include <stdio.h>
 *
 * enum { ENTRIES = 2 };
 *
 * // Client 7: Fee of 45.00 and Refund of 5.00 for member 3.
 * static const uint8_t entries[ENTRIES * WHITHERHAUL_ENTRY_BYTES] = {
 *     0, 0, 0, 0, 0, 0, 0, 7, 0, 0, 0, 0, 0, 0, 0, 0, // client, request
 *     1, 0, 0, 0, 0, 0, 0, 3, 0, 0, 0, 0, 0, 0, 17, 148, // operation, member, cents
 *     0, 0, 0, 0, 0, 0, 0, 7, 0, 0, 0, 0, 0, 0, 0, 1,
 *     2, 0, 0, 0, 0, 0, 0, 3, 0, 0, 0, 0, 0, 0, 1, 244};
 *
 * // What a treasurer hears of a table.
 * static void check(const uint8_t *file, size_t length)
 * {
 *     uint8_t area[ENTRIES * WHITHERHAUL_ENTRY_BYTES], request[WHITHERHAUL_REQUEST_BYTES];
 *     struct whitherhaul_imported in;
 *     uint8_t number = whitherhaul_csv_import(file, length, area, sizeof area, &in);
 *     if (number == WHITHERHAUL_REFUSED_ROW) {
 *         printf("%s %u: %s (byte %u): %s\n", whitherhaul_words(number), (unsigned)in.row,
 *                whitherhaul_column_name(in.column), (unsigned)in.offset,
 *                whitherhaul_field_fault_words(in.fault));
 *     } else if (number == WHITHERHAUL_DONE) {
 *         whitherhaul_entry_request(area, 0, request); // the first row, for replica 0
 *         printf("%u rows\n", (unsigned)in.entries);
 *     }
 * }
 *
 * int main(void)
 * {
 *     uint8_t table[WHITHERHAUL_CSV_BYTES(ENTRIES)];
 *     uint64_t bytes;
 *     if (whitherhaul_csv_export(entries, sizeof entries, table, sizeof table, &bytes) !=
 *         WHITHERHAUL_DONE)
 *         return 1;
 *     check(table, (size_t)bytes);
 *     table[39] = '?';
 *     check(table, (size_t)bytes);
 *     return 0;
 * }
 * End of the example.
 *
 * From the repository's root: cc example.c -I include target/staticlib/native/libwhitherhaul_csv.a
 * It prints: 2 rows
 * It prints: bad row 2: client (byte 39): it isn't what belongs there
 *
 * Each call returns a number as those of whitherhaul.h do: 0 where it is done, else a refusal. What
 * it answers besides goes to where the last argument points, and is 0 with a refusal, but for what
 * 13 carries. A refused call leaves every byte of the area as it was; a done one leaves those
 * behind what it says it wrote. What a caller owes is the same as there: pointers and lengths that
 * are true, and no two places of a call that share a byte.
 *
 * Two calls may run at once where they share no run that one of them writes. Link
 * target/staticlib/native/libwhitherhaul_csv.a, which needs no more of the C library than memcpy,
 * memmove and memset; of whitherhaul.h only the numbers and the words are used.
 */
#ifndef WHITHERHAUL_CSV_H
#define WHITHERHAUL_CSV_H

#include "whitherhaul.h"

#ifdef __cplusplus
extern "C" {
#endif

/* The header, with its CRLF. */
#define WHITHERHAUL_CSV_HEADER_BYTES 37
/* The most that a row takes, and the least, without its CRLF. */
#define WHITHERHAUL_CSV_LONGEST_ROW 90
#define WHITHERHAUL_CSV_SHORTEST_ROW 13
/*
 * An area in which the table of so many entries always fits. With this much for each row none is
 * measured before it is written.
 */
#define WHITHERHAUL_CSV_BYTES(entries) (WHITHERHAUL_CSV_HEADER_BYTES + 113 * (size_t)(entries))
/* One in which the entries of a file with so many bytes always fit. */
#define WHITHERHAUL_CSV_ENTRIES_BYTES(length) \
    (WHITHERHAUL_ENTRY_BYTES * ((size_t)(length) / WHITHERHAUL_CSV_SHORTEST_ROW))

/* The fields of a row. */
#define WHITHERHAUL_COLUMN_OP 1             /* the number of the row less 1 */
#define WHITHERHAUL_COLUMN_CLIENT 2         /* 0 to 18,446,744,073,709,551,615 */
#define WHITHERHAUL_COLUMN_REQUEST 3        /* 0 to 18,446,744,073,709,551,615 */
#define WHITHERHAUL_COLUMN_KIND 4           /* fee, refund or ask */
#define WHITHERHAUL_COLUMN_MEMBER 5         /* 0 to 4,294,967,295 */
#define WHITHERHAUL_COLUMN_CENTS 6          /* 1 to 1,000,000, for an ask 0 */

/*
 * What is wrong with the first bad field of a bad row. Where several things are, the one with the
 * lowest number is named.
 *
 * 1: there is no closing quote, or behind it, or behind a field without quotes, stands something
 * else than a comma, CRLF or the file's end; also a quoted field that holds a comma, CR, LF or a
 * quote written twice, which no field of this table does.
 */
#define WHITHERHAUL_FIELD_FORM 1
/* 2: it isn't what would be exported there. */
#define WHITHERHAUL_FIELD_VALUE 2
/* 3: the row ends behind it, before its sixth field. */
#define WHITHERHAUL_FIELD_ROW_ENDS 3
/* 4: it is the sixth, and a comma stands behind it. */
#define WHITHERHAUL_FIELD_ROW_GOES_ON 4

/* What an import answers. */
struct whitherhaul_imported {
    uint64_t entries;                       /* how many there are */
    uint64_t row;                           /* with 13: the first bad row, the header being 1; else
                                               this and all below it are 0 */
    uint64_t column;                        /* its first bad field: WHITHERHAUL_COLUMN_OP .. */
    uint64_t fault;                         /* WHITHERHAUL_FIELD_FORM .. */
    uint64_t offset;                        /* where in the file that field begins */
};

/*
 * The table of a run of entries, with no quotes and every CRLF. *bytes is how many stand in the
 * area. 0, 2 where an entry is outside its rules or the run's length no multiple of 32, 9.
 */
uint8_t whitherhaul_csv_export(const uint8_t *run, size_t run_length,
                               uint8_t *area, size_t area_length, uint64_t *bytes);

/*
 * A table's entries into the area, 32 bytes each. 0, 13 where a row is bad, 9. The whole file is
 * judged before 9.
 */
uint8_t whitherhaul_csv_import(const uint8_t *file, size_t file_length,
                               uint8_t *area, size_t area_length,
                               struct whitherhaul_imported *answers);

/* Helpers; the calls above are proved, these are tested. */

/* The header's word for a field; never NULL. */
static inline const char *whitherhaul_column_name(uint64_t column)
{
    switch (column) {
    case WHITHERHAUL_COLUMN_OP:
        return "op";
    case WHITHERHAUL_COLUMN_CLIENT:
        return "client";
    case WHITHERHAUL_COLUMN_REQUEST:
        return "request";
    case WHITHERHAUL_COLUMN_KIND:
        return "kind";
    case WHITHERHAUL_COLUMN_MEMBER:
        return "member";
    case WHITHERHAUL_COLUMN_CENTS:
        return "cents";
    default:
        return "no field of a row";
    }
}

/* What is wrong with a field, in plain words; never NULL. */
static inline const char *whitherhaul_field_fault_words(uint64_t fault)
{
    switch (fault) {
    case WHITHERHAUL_FIELD_FORM:
        return "a quote, comma or line end stands where none belongs, or its closing quote is missing";
    case WHITHERHAUL_FIELD_VALUE:
        return "it isn't what belongs there";
    case WHITHERHAUL_FIELD_ROW_ENDS:
        return "the row ends behind it";
    case WHITHERHAUL_FIELD_ROW_GOES_ON:
        return "the row goes on behind it";
    default:
        return "no fault of a field";
    }
}

/*
 * The Request that carries an entry of 32 bytes to replica `to`, into WHITHERHAUL_REQUEST_BYTES
 * that share none with it.
 */
static inline void whitherhaul_entry_request(const uint8_t *entry, uint8_t to, uint8_t *frame)
{
    static const uint8_t front[6] = {0, 0, 0, 35, 1, 1};
    size_t at;
    for (at = 0; at < sizeof front; at++)
        frame[at] = front[at];
    frame[WHITHERHAUL_FRAME_ADDRESSEE_AT] = to;
    for (at = 0; at < WHITHERHAUL_ENTRY_BYTES; at++)
        frame[WHITHERHAUL_FRAME_ADDRESSEE_AT + 1 + at] = entry[at];
}

#ifdef __cplusplus
}
#endif

#endif
