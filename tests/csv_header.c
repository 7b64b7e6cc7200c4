/*
 * Keeps include/whitherhaul_csv.h true: a table exported and imported, plain and quoted, each field
 * and each fault, refusals that change no byte, the lengths, and each helper, through the archive.
 * With the word `words` it prints the words of the faults, one a line. host/c-check builds and runs
 * it.
 */
#include "whitherhaul_csv.h"

#include <stdio.h>
#include <string.h>

enum {
    ENTRY = WHITHERHAUL_ENTRY_BYTES,
    HEADER = WHITHERHAUL_CSV_HEADER_BYTES,
    MANY = 4097
};

static int failures;

static void expect(int holds, const char *what)
{
    if (!holds) {
        printf("csv_header.c: fails: %s\n", what);
        failures++;
    }
}

/* Client 7: number 0, Fee, member 3, 4,500 cents; number 1, Ask, member 10. */
static const uint8_t entries[2 * ENTRY] = {
    0, 0, 0, 0, 0, 0, 0, 7, 0, 0, 0, 0, 0, 0, 0, 0,
    1, 0, 0, 0, 0, 0, 0, 3, 0, 0, 0, 0, 0, 0, 17, 148,
    0, 0, 0, 0, 0, 0, 0, 7, 0, 0, 0, 0, 0, 0, 0, 1,
    3, 0, 0, 0, 0, 0, 0, 10, 0, 0, 0, 0, 0, 0, 0, 0};

static const char header[] = "op,client,request,kind,member,cents\r\n";

/* Their table. */
static const char table[] = "op,client,request,kind,member,cents\r\n"
                            "1,7,0,fee,3,4500\r\n"
                            "2,7,1,ask,10,0\r\n";

/* The same in quotes, some of them, without the last CRLF. */
static const char quoted[] = "\"op\",\"client\",\"request\",\"kind\",\"member\",\"cents\"\r\n"
                             "\"1\",7,\"0\",fee,\"3\",4500\r\n"
                             "2,\"7\",1,\"ask\",10,\"0\"";

/* Memory that is lent, longer than any call here writes, and what a call answered. */
struct lent {
    uint8_t area[WHITHERHAUL_CSV_BYTES(MANY) + 1];
    struct whitherhaul_imported in;
    uint64_t bytes;
};

static struct lent lent;

/* All memory 0xA5, and numbers that a call has to write over. */
static void fresh(void)
{
    memset(&lent, 0xA5, sizeof lent);
}

/* Whether the area behind so many bytes is as it was before the call. */
static int left(size_t written)
{
    size_t at;
    for (at = written; at < sizeof lent.area; at++)
        if (lent.area[at] != 0xA5)
            return 0;
    return 1;
}

static uint8_t export_run(const uint8_t *run, size_t run_length, size_t room)
{
    fresh();
    return whitherhaul_csv_export(run, run_length, lent.area, room, &lent.bytes);
}

static uint8_t import_file(const void *file, size_t length, size_t room)
{
    fresh();
    return whitherhaul_csv_import((const uint8_t *)file, length, lent.area, room, &lent.in);
}

/* Whether what an import answered is this. */
static int answered(uint64_t count, uint64_t row, uint64_t column, uint64_t fault, uint64_t offset)
{
    return lent.in.entries == count && lent.in.row == row && lent.in.column == column &&
           lent.in.fault == fault && lent.in.offset == offset;
}

static void exporting(void)
{
    const size_t length = sizeof table - 1;
    expect(export_run(entries, sizeof entries, length) == WHITHERHAUL_DONE, "an export");
    expect(lent.bytes == length && left(length), "in just its room");
    expect(memcmp(lent.area, table, length) == 0, "the table byte for byte");
    expect(export_run(entries, 0, HEADER) == WHITHERHAUL_DONE && lent.bytes == HEADER &&
               left(HEADER) && memcmp(lent.area, header, HEADER) == 0,
           "no entries: the header");
}

static void refused_export(const uint8_t *run, size_t run_length, size_t room, uint8_t due,
                           const char *what)
{
    expect(export_run(run, run_length, room) == due, what);
    expect(lent.bytes == 0 && left(0), "a refused export leaves all");
}

static void refused_exports(void)
{
    uint8_t wrong[2 * ENTRY];
    memcpy(wrong, entries, sizeof wrong);
    wrong[ENTRY + 31] = 1;
    refused_export(wrong, sizeof wrong, 0, WHITHERHAUL_REFUSED_MALFORMED, "an Ask of a cent");
    refused_export(entries, ENTRY + 1, 0, WHITHERHAUL_REFUSED_MALFORMED, "33 bytes");
    refused_export(entries, sizeof entries, sizeof table - 2, WHITHERHAUL_REFUSED_MESSAGES,
                   "a byte short");
    refused_export(entries, 0, HEADER - 1, WHITHERHAUL_REFUSED_MESSAGES, "no room for the header");
}

/* A good file, whose entries are those above. */
static void imported(const char *file, size_t length, const char *what)
{
    expect(import_file(file, length, sizeof entries) == WHITHERHAUL_DONE, what);
    expect(answered(2, 0, 0, 0, 0) && left(sizeof entries), what);
    expect(memcmp(lent.area, entries, sizeof entries) == 0, what);
    expect(import_file(file, length, sizeof entries - 1) == WHITHERHAUL_REFUSED_MESSAGES, what);
    expect(answered(0, 0, 0, 0, 0) && left(0), "9 leaves all");
}

static void importing(void)
{
    imported(table, sizeof table - 1, "an import");
    imported(table, sizeof table - 3, "one without its last CRLF");
    imported(quoted, sizeof quoted - 1, "one with quotes");
    expect(import_file(header, HEADER, 0) == WHITHERHAUL_DONE && answered(0, 0, 0, 0, 0),
           "a header alone");
    expect(import_file(header, HEADER - 2, 0) == WHITHERHAUL_DONE && answered(0, 0, 0, 0, 0),
           "a header without its CRLF");
}

/* A bad file, whatever the room: its row, field, fault and place. */
static void bad(const char *file, uint64_t row, uint64_t column, uint64_t fault, uint64_t offset)
{
    static const size_t rooms[3] = {0, ENTRY, sizeof lent.area - 1};
    size_t at;
    for (at = 0; at < 3; at++) {
        expect(import_file(file, strlen(file), rooms[at]) == WHITHERHAUL_REFUSED_ROW, file);
        expect(answered(0, row, column, fault, offset) && left(0), file);
    }
}

/* The table with another byte at this place: the field that begins at `offset` says nothing. */
static void spoilt(size_t place, uint64_t row, uint64_t column, uint64_t offset)
{
    char file[sizeof table];
    memcpy(file, table, sizeof file);
    file[place] = '?';
    bad(file, row, column, WHITHERHAUL_FIELD_VALUE, offset);
}

static void bad_fields(void)
{
    spoilt(0, 1, WHITHERHAUL_COLUMN_OP, 0);
    spoilt(34, 1, WHITHERHAUL_COLUMN_CENTS, 30);
    spoilt(37, 2, WHITHERHAUL_COLUMN_OP, 37);
    spoilt(39, 2, WHITHERHAUL_COLUMN_CLIENT, 39);
    spoilt(41, 2, WHITHERHAUL_COLUMN_REQUEST, 41);
    spoilt(44, 2, WHITHERHAUL_COLUMN_KIND, 43);
    spoilt(47, 2, WHITHERHAUL_COLUMN_MEMBER, 47);
    spoilt(52, 2, WHITHERHAUL_COLUMN_CENTS, 49);
    spoilt(55, 3, WHITHERHAUL_COLUMN_OP, 55);
}

static void faults(void)
{
    bad("", 1, WHITHERHAUL_COLUMN_OP, WHITHERHAUL_FIELD_VALUE, 0);
    bad("op,client", 1, WHITHERHAUL_COLUMN_CLIENT, WHITHERHAUL_FIELD_ROW_ENDS, 3);
    bad("op,\"client", 1, WHITHERHAUL_COLUMN_CLIENT, WHITHERHAUL_FIELD_FORM, 3);
    bad("op,client,request,kind,member,cents,", 1, WHITHERHAUL_COLUMN_CENTS,
        WHITHERHAUL_FIELD_ROW_GOES_ON, 30);
    bad("op,client,request,kind,member,cents\n", 1, WHITHERHAUL_COLUMN_CENTS,
        WHITHERHAUL_FIELD_FORM, 30);
    bad("op,client,request,kind,member,cents\r\n\r\n", 2, WHITHERHAUL_COLUMN_OP,
        WHITHERHAUL_FIELD_VALUE, HEADER);
    bad("op,client,request,kind,member,cents\r\n1,\"7\"7,0,fee,3,1", 2, WHITHERHAUL_COLUMN_CLIENT,
        WHITHERHAUL_FIELD_FORM, 39);
    bad("op,client,request,kind,member,cents\r\n1,7,0,fee,\"3,4\",1", 2,
        WHITHERHAUL_COLUMN_MEMBER, WHITHERHAUL_FIELD_FORM, 47);
    bad("op,client,request,kind,member,cents\r\n1,18446744073709551616,0,fee,3,1", 2,
        WHITHERHAUL_COLUMN_CLIENT, WHITHERHAUL_FIELD_VALUE, 39);
}

/* More entries than a journal has, both ways, each with the longest row that there is. */
static void lengths(void)
{
    static uint8_t run[MANY * ENTRY], file[WHITHERHAUL_CSV_BYTES(MANY)];
    static const char row[] = "18446744073709551615,18446744073709551615,refund,4294967295,1000000";
    size_t at, bytes;
    for (at = 0; at < sizeof run; at += ENTRY) {
        memset(run + at, 0xFF, 24);
        memcpy(run + at + 16, "\2\0\0\0", 4);
        memcpy(run + at + 24, "\0\0\0\0\0\17\102\100", 8);
    }
    expect(export_run(run, sizeof run, sizeof file) == WHITHERHAUL_DONE, "4,097 entries");
    bytes = (size_t)lent.bytes;
    expect(left(bytes) && memcmp(lent.area + bytes - sizeof row - 1, row, sizeof row - 1) == 0,
           "the last row");
    expect(WHITHERHAUL_CSV_LONGEST_ROW == 20 + 1 + sizeof row - 1 + 2, "the longest row");
    memcpy(file, lent.area, bytes);
    expect(import_file(file, bytes, sizeof run) == WHITHERHAUL_DONE &&
               answered(MANY, 0, 0, 0, 0) && left(sizeof run) &&
               memcmp(lent.area, run, sizeof run) == 0,
           "4,097 rows");
}

/* The shortest rows, in an area of the length that the header gives. */
static void shortest(void)
{
    static const char file[] = "op,client,request,kind,member,cents\r\n"
                               "1,0,0,ask,0,0\r\n2,0,0,ask,0,0\r\n3,0,0,ask,0,0";
    const size_t room = WHITHERHAUL_CSV_ENTRIES_BYTES(sizeof file - 1);
    expect(import_file(file, sizeof file - 1, room) == WHITHERHAUL_DONE &&
               answered(3, 0, 0, 0, 0) && left(3 * ENTRY),
           "three of the shortest rows");
    expect(strlen("1,0,0,ask,0,0") == WHITHERHAUL_CSV_SHORTEST_ROW, "the shortest row");
}

/* The Request of an entry, byte for byte; it is that of header.c. */
static void requests(void)
{
    static const uint8_t due[WHITHERHAUL_REQUEST_BYTES] = {
        0, 0, 0, 35, 1, 1, 2, 0, 0, 0, 0, 0, 0, 0, 7, 0, 0, 0, 0, 0,
        0, 0, 0, 1, 0, 0, 0, 0, 0, 0, 3, 0, 0, 0, 0, 0, 0, 17, 148};
    uint8_t frame[WHITHERHAUL_REQUEST_BYTES + 1];
    memset(frame, 0xA5, sizeof frame);
    whitherhaul_entry_request(entries, 2, frame);
    expect(memcmp(frame, due, sizeof due) == 0, "a Request for replica 2");
    expect(frame[WHITHERHAUL_REQUEST_BYTES] == 0xA5, "the byte behind it");
}

/* The columns' names are the header's; host/c-check compares the faults' words with the Rust's. */
static void words(void)
{
    char named[sizeof header] = "";
    uint64_t number;
    for (number = 1; number <= WHITHERHAUL_COLUMN_CENTS; number++) {
        strcat(named, whitherhaul_column_name(number));
        strcat(named, number < WHITHERHAUL_COLUMN_CENTS ? "," : "\r\n");
    }
    expect(strcmp(named, header) == 0, "the names of the columns");
    for (number = 0; number <= 256; number++) {
        if (number == 0 || number > WHITHERHAUL_COLUMN_CENTS)
            expect(strcmp(whitherhaul_column_name(number), "no field of a row") == 0,
                   "the name of any other column");
        if (number == 0 || number > WHITHERHAUL_FIELD_ROW_GOES_ON)
            expect(strcmp(whitherhaul_field_fault_words(number), "no fault of a field") == 0,
                   "the words for any other fault");
    }
}

static int print_words(void)
{
    uint64_t fault;
    for (fault = 1; fault <= WHITHERHAUL_FIELD_ROW_GOES_ON; fault++)
        printf("%s\n", whitherhaul_field_fault_words(fault));
    return 0;
}

int main(int count, char **arguments)
{
    if (count == 2 && strcmp(arguments[1], "words") == 0)
        return print_words();
    exporting();
    refused_exports();
    importing();
    bad_fields();
    faults();
    lengths();
    shortest();
    requests();
    words();
    if (failures == 0)
        printf("csv_header.c: all of it holds\n");
    return failures != 0;
}
