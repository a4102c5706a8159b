/*
 * Checks a file without line ends and one with CR LF behind every record, asks
 * where a limit runs out, alters one amount, takes one entry out and mends what
 * it has spoilt in each, makes a table of a client's list and a list of the
 * table, and prints what the library answers.
 *
 *     cc -Iinclude host/c/example.c target/staticlib/libach_c.a -o example
 *     ./example samples/whole.ach samples/whole-lined.ach
 */
#include "ach.h"

#include <inttypes.h>
#include <stdio.h>
#include <stdlib.h>
#include <string.h>

/* Enough for both ways, and one byte more, so that a longer file is noticed. */
static uint8_t file[ACH_LONGEST_LINED + 1];

/* The rows of the file. */
static uint64_t rows[ACH_MOST_ROOM];

static void print_refusal(const char *what, uint64_t answer)
{
    printf("%s: refused, number %u, record %" PRIu64 ", field %u\n", what,
           ACH_NUMBER(answer), ACH_RECORD(answer), ACH_FIELD(answer));
}

/* Of the rows by code, those with entries. */
static void print_codes(const uint64_t *by_code)
{
    static const unsigned codes[] = {22, 23, 24, 27, 28, 29,
                                     32, 33, 34, 37, 38, 39};
    for (size_t row = 0; row < sizeof codes / sizeof codes[0]; row++)
        if (by_code[2 * row] != 0)
            printf("  code %u: %" PRIu64 " entries, %" PRIu64 " cents\n",
                   codes[row], by_code[2 * row], by_code[2 * row + 1]);
}

static void print_check(uint64_t way, size_t n)
{
    uint64_t held[ACH_ACCEPTANCE_LENGTH];
    uint64_t answer = ach_check(way, file, n, held, rows, ACH_MOST_ROOM);
    if (answer != 0) {
        print_refusal("check", answer);
        return;
    }
    printf("check: %" PRIu64 " batches, %" PRIu64 " entries, %" PRIu64
           " addenda, debit %" PRIu64 ", credit %" PRIu64 " cents\n",
           held[ACH_BATCHES], held[ACH_ENTRIES], held[ACH_ADDENDA],
           held[ACH_DEBIT], held[ACH_CREDIT]);
    print_codes(held + ACH_BY_CODE);
}

/* Of the rows of a file that was checked, two numbers for each batch. */
static void print_limit(size_t batches, uint64_t limit)
{
    uint64_t found[ACH_ANSWER_LENGTH];
    if (ach_runs_out(rows, 2 * batches, limit, found) == 0)
        printf("runs out: never, %" PRIu64 " cents for %" PRIu64 " batches\n",
               limit, found[ACH_ROWS_UP_TO]);
    else
        printf("runs out: %" PRIu64 " cents with batch %" PRIu64
               ", record %" PRIu64 ", %" PRIu64 " cents so far\n", limit,
               found[ACH_ROWS_UP_TO], found[ACH_ROW_RECORD],
               found[ACH_ROW_CREDIT]);
}

static void print_alteration(uint64_t way, size_t n, uint64_t entry,
                             uint64_t amount)
{
    int64_t difference;
    uint64_t answer = ach_alter(way, file, n, rows, ACH_MOST_ROOM, entry,
                                amount, &difference);
    if (answer != 0) {
        print_refusal("alter", answer);
        return;
    }
    printf("alter: entry %" PRIu64 " has %" PRIu64 " cents now, %+" PRId64
           "\n", entry, amount, difference);
}

/* The number of bytes that the file has afterwards. */
static size_t print_taking_out(uint64_t way, size_t n, const uint64_t *entries,
                               size_t count)
{
    uint64_t length;
    uint64_t answer = ach_take_out(way, file, n, entries, count, rows,
                                   ACH_MOST_ROOM, &length);
    if (answer != 0) {
        print_refusal("take out", answer);
        return n;
    }
    printf("take out: %" PRIu64 " bytes of %zu are left\n", length, n);
    return length;
}

static void print_addendum(uint64_t way, size_t n, uint64_t entry)
{
    uint64_t start, length;
    uint64_t answer = ach_addendum(way, file, n, entry, &start, &length);
    if (answer != 0) {
        print_refusal("addendum", answer);
        return;
    }
    printf("addendum: %.*s\n", (int)length, (const char *)file + start);
}

/* What is read and written again is the file it was; the result's length. */
static void print_round_trip(uint64_t way, size_t n)
{
    static uint8_t table[ACH_LONGEST_LINED], again[ACH_LONGEST_LINED];
    uint64_t table_length, length;
    uint64_t answer =
        ach_read(way, file, n, table, sizeof table, &table_length);
    if (answer == 0)
        answer = ach_write(way, table, table_length, again, sizeof again,
                           &length);
    if (answer != 0) {
        print_refusal("round trip", answer);
        return;
    }
    printf("round trip: a table of %" PRIu64 " bytes, %s\n", table_length,
           length == n && memcmp(file, again, n) == 0 ? "the same file"
                                                      : "another file");
}

/* The mended file takes the place of the file; the number of its bytes. */
static size_t print_mending(uint64_t way, size_t n)
{
    static uint8_t mended[ACH_LONGEST_LINED], changes[ACH_LONGEST_CHANGES];
    uint64_t length, changes_length;
    uint64_t answer = ach_mend(way, file, n, mended, sizeof mended, &length,
                               changes, sizeof changes, &changes_length);
    if (answer != 0) {
        print_refusal("mend", answer);
        return n;
    }
    printf("mend: %" PRIu64 " bytes for %zu, changes %.*s\n", length, n,
           (int)changes_length, (const char *)changes);
    memcpy(file, mended, length);
    return length;
}

/* The batch control is record 4 of the ten, and the file control record 5. */
static void print_mendings(uint64_t way, size_t n)
{
    size_t record = n / 10;
    /* The entry hash of the batch. */
    memset(file + 3 * record + 10, '0', 10);
    print_check(way, n);
    n = print_mending(way, n - 2 * record);
    print_check(way, n);
    print_mending(way, n);
    /* A filler that is none may be anything, and is not mended. */
    file[9 * record] = ' ';
    print_mending(way, n);
}

/* What is asked of both files. */
static void print_all(uint64_t way, size_t n)
{
    static const uint64_t second[] = {2, 2}, both[] = {2, 1};

    print_check(way, n);
    print_limit(1, 12549);
    print_limit(1, 12550);
    print_alteration(way, n, 1, 200000);
    print_limit(1, 12550);
    /* Rows that are not the file's are refused; the check gives them again. */
    rows[1]++;
    print_alteration(way, n, 1, 200000);
    print_check(way, n);
    print_alteration(way, n, 1, 0);
    print_alteration(way, n, 3, 100);
    print_addendum(way, n, 2);
    print_round_trip(way, n);
    if (n > 0)
        print_check(way, n - 1);
    print_taking_out(way, n, both, 2);
    n = print_taking_out(way, n, second, 2);
    print_limit(1, 200000);
    print_check(way, n);
    print_mendings(way, n);
}

/*
 * A list of one line becomes a table, and the table a list. What stands for the
 * number of entries in the batch's row does not matter.
 */
static void print_list(const char *list)
{
    static const uint8_t filerow[ACH_FILEROW_LENGTH + 1] =
        " 322070381 1234567892611130930A"
        "HARBOR COMMUNITY BANK  LANTERN GOODS CO               ";
    static const uint8_t batchrow[ACH_BATCHROW_LENGTH + 1] =
        "220LANTERN GOODS CO                    1123456789PPDPAYROLL   NOV 13"
        "261116322070380000001......";
    uint8_t table[1000], lines[1000];
    uint64_t table_length, length;
    uint64_t answer =
        ach_import(filerow, ACH_FILEROW_LENGTH, batchrow, ACH_BATCHROW_LENGTH,
                   (const uint8_t *)list, strlen(list), table, sizeof table,
                   &table_length);
    if (answer != 0) {
        print_refusal("import", answer);
        return;
    }
    printf("import: a table of %" PRIu64 " bytes\n", table_length);
    answer = ach_export(table, table_length, lines, sizeof lines, &length);
    if (answer != 0) {
        print_refusal("export", answer);
        return;
    }
    /* One line, and CR LF behind it. */
    printf("export: %.*s\n", (int)length - 2, (const char *)lines);
}

/* The number of bytes that were read into `file`. */
static size_t load(const char *name)
{
    FILE *stream = fopen(name, "rb");
    size_t n = stream == NULL ? 0 : fread(file, 1, sizeof file, stream);
    if (stream == NULL || ferror(stream)) {
        perror(name);
        exit(2);
    }
    fclose(stream);
    return n;
}

int main(int count, char **arguments)
{
    if (count != 3) {
        fprintf(stderr, "usage: example FILE LINED-FILE\n");
        return 2;
    }
    printf("without line ends\n");
    print_all(ACH_PLAIN, load(arguments[1]));

    size_t n = load(arguments[2]);
    printf("with line ends\n");
    print_all(ACH_LINED, n);
    if (n > 95) {
        file[94] = ' ';
        print_check(ACH_LINED, n);
    }

    printf("a list\n");
    print_list("22,322070381,4410-22871,0100.00,E-1001,\"MARLOWE, ADA\"");
    print_list("22,322070381,4410-22871,100,E-1001,\"MARLOWE, ADA\"");
    /* A zero-dollar remittance has an addendum, and a list has none. */
    print_list("24,322070381,4410-22871,0.00,E-1001,\"MARLOWE, ADA\"");
    return 0;
}
