/*
 * Qalarimo ACH: payment files of PPD and CCD entries.
 * Link with libach_c.a; it needs nothing but memcpy and memset.
 *
 * A file is records of 94 columns, in one of two ways: back to back, without
 * line ends, or with CR LF behind every record, fillers and the last record
 * included. A pay table holds the same payments without what follows from them
 * (counts, hashes, totals, fillers): a section each for the file's header, the
 * batches, the entries and the addenda, each after its count of six digits. A
 * table holds no line ends; it is the same for both ways of its file. A client's
 * list holds payments as comma lines; it becomes a table by ach_import, and
 * ach_export makes a list of a table's entries. The rows of a file tell how its
 * credits grow from batch to batch; ach_check gives them along with acceptance,
 * and ach_runs_out asks them where a limit is passed. A file that is refused for
 * its controls or fillers alone is put right by ach_mend.
 *
 * Any bytes of any length may be lent, and every function does its own
 * checking. No function keeps anything between calls or allocates memory, so
 * that calls on different memory may run at the same time. ach_take_out needs
 * 140,000 bytes of stack, every other function 8,000.
 */
#ifndef ACH_H
#define ACH_H

#include <stddef.h>
#include <stdint.h>

#ifdef __cplusplus
extern "C" {
#endif

/*
 * The way of a file, the first parameter of every function that takes or makes
 * one. The caller tells it, and nothing guesses it. 0 is the first way; every
 * other number is the second. Columns, fields and record numbers are the same in
 * both.
 */
#define ACH_PLAIN 0 /* records of 94 bytes, back to back */
#define ACH_LINED 1 /* records of 96 bytes, the last two CR LF */

/* The length of the longest file, a million records, in each way. */
#define ACH_LONGEST_PLAIN 94000000
#define ACH_LONGEST_LINED 96000000

/*
 * Every function but ach_runs_out, which refuses nothing, answers 0 if it
 * grants. If it refuses, it answers
 *
 *     number + 256 * field + 65536 * record
 *
 * where number says why, and record and field, counted from 1, say where; they
 * are 0 where there is no place to name. For a line of a list (29, 30 and 32)
 * the line's number, from 1 too, stands for the record. A refusal leaves every
 * byte and every number that was lent as it was. What is lent to one call must
 * not overlap.
 */
#define ACH_NUMBER(answer) ((unsigned)((answer) & 0xFF))
#define ACH_FIELD(answer)  ((unsigned)((answer) >> 8 & 0xFF))
#define ACH_RECORD(answer) ((uint64_t)((answer) >> 16))

/*
 * The numbers of refusals:
 *
 *   1 length of the file             14 amount does not suit the code
 *   2 data end where a record is due 15 code not allowed under the class
 *   3 record type not allowed here   16 trace number
 *   4 record behind the filled block 17 batch number does not rise
 *   5 fixed text, or a filler        18 count
 *   6 not digits                     19 entry hash
 *   7 character not allowed          20 sum above 999,999,999,999 cents
 *   8 all blank                      21 total
 *   9 blank before other characters  22 control differs from batch header
 *  10 no such day or time            23 room for the result too short
 *  11 value not known                24 table of the wrong shape
 *  12 check digit                    25 no such entry
 *  13 bank begins with 4 to 9        26 record not followed by CR LF
 *
 *  27 no entry would be left
 *  28 zero-dollar remittance in a PPD batch (field 2) or without an addendum
 *     (field 10)
 *  29 line of a list is not six fields in the grammar of RFC 4180
 *  30 amount of a line not in its form, or over 9,999,999,999 cents
 *  32 another field of a line too long for its columns
 *  34 what is lent with an alteration does not begin with the file's rows
 *
 * The first refusal in the file is given: by record, then by field, then by
 * number. 1 is a length of 0, no multiple of the record's 94 or 96 bytes, or
 * over a million records; so is the lack of the last CR LF. 26 is given in the
 * second way alone, with field 0: after all fields of its record, and before
 * everything of the next one. The record that 4 names is not looked at. 23 is
 * given last, for bytes as for rows. 27 is given by ach_take_out alone, 34 by
 * ach_alter alone, 29, 30 and 32 by ach_import alone; ach_mend gives 4 for other
 * records than the rest do.
 *
 * The known codes of entries are
 *
 *                            checking          savings
 *                            credit   debit    credit   debit
 *   payment                  22       27       32       37
 *   prenote                  23       28       33       38
 *   zero-dollar remittance   24       29       34       39
 *
 * A payment has 1 to 9,999,999,999 cents, the others have 0 (else 14). What is
 * sent for its remittance text alone stands in a CCD batch and has an addendum
 * (else 28).
 */

/* Where the numbers of an acceptance stand. */
#define ACH_BATCHES  0
#define ACH_ENTRIES  1
#define ACH_ADDENDA  2
#define ACH_DEBIT    3 /* in cents */
#define ACH_CREDIT   4 /* in cents */
#define ACH_BY_CODE  5 /* 24 numbers: how many entries and how many cents, for
                          the codes 22, 23, 24, 27, 28, 29, 32, 33, 34, 37, 38,
                          39 in turn */
#define ACH_ACCEPTANCE_LENGTH 29

/*
 * The rows of a file: two numbers for each batch, one behind the other.
 *
 *   the record number of the batch's control
 *   the credits so far, in cents: of all entries up to the end of the batch
 *
 * The `room` for rows counts numbers, of which each row takes two. A batch has
 * at least three records, so that n / 141 numbers are always enough room for the
 * rows of a file of n bytes, and ACH_MOST_ROOM for those of any file. Where rows
 * are lent, the pointer may be null if room is 0.
 */
#define ACH_MOST_ROOM 666664

/*
 * Checks the file of n bytes at `file`. Stops at the first fault. Granted, it
 * fills `acceptance`, the file's rows stand in front of the `room` numbers at
 * `rows`, and the numbers behind them stay. A file that is accepted but has more
 * rows than there is room for is refused (23), after all its own refusals;
 * `acceptance` is then left alone as well.
 *
 * `file` may be null if n is 0, which is refused (1). Otherwise it points to n
 * bytes, and `acceptance` to ACH_ACCEPTANCE_LENGTH numbers outside of them.
 */
uint64_t ach_check(uint64_t way, const uint8_t *file, size_t n,
                   uint64_t acceptance[ACH_ACCEPTANCE_LENGTH], uint64_t *rows,
                   size_t room);

/*
 * Reads the pay table of an accepted file into the `room` bytes at `table`.
 * Granted, the table stands in front, `length` is how many bytes it has, and
 * the bytes behind it stay. The table has 109 + 95 * batches + 93 * entries +
 * 80 * addenda bytes in both ways, always fewer than the file; less room is
 * refused (23), after the file's refusals. `table` may be null if room is 0.
 */
uint64_t ach_read(uint64_t way, const uint8_t *file, size_t n, uint8_t *table,
                  size_t room, uint64_t *length);

/*
 * Writes the file of a pay table, in the way asked for, into the `room` bytes
 * at `file`. A table of the wrong shape is refused (24), then come the refusals
 * of the file that would be formed, with its records and fields, then 23.
 * Granted, the file stands in front, `length` is how many bytes it has, and the
 * bytes behind it stay. Line ends count as bytes: 2 * n + 816 are always enough
 * room in the first way and 2 * n + 838 in the second, and so is the length of
 * the longest file. `file` may be null if room is 0.
 */
uint64_t ach_write(uint64_t way, const uint8_t *table, size_t n, uint8_t *file,
                   size_t room, uint64_t *length);

/*
 * Puts a new amount, in cents, into entry number `entry` (from 1 through the
 * file) of an accepted file, with the totals of its side in the batch's and
 * the file's control; no other byte changes. `difference` is the new amount
 * less the old. The `room` numbers at `rows` have to begin with the rows of the
 * file as it is lent; granted, they begin with those of the file after it. What
 * stands behind is neither read nor written.
 *
 * Refused: the file's own; 34 if the file's rows do not stand in front, also
 * where there is no room for them; 25 no such entry; 14 an amount that the code
 * does not carry (at the entry's record; a prenote and a remittance carry 0
 * alone); 20 a total that would pass 999,999,999,999 cents (at the batch's
 * control, then at the file's).
 */
uint64_t ach_alter(uint64_t way, uint8_t *file, size_t n, uint64_t *rows,
                   size_t room, uint64_t entry, uint64_t amount,
                   int64_t *difference);

/*
 * Takes entries out of an accepted file: the `count` numbers at `entries` say
 * which, counted from 1 through the file as it is lent, in any order and with
 * repeats counting once. Their addenda go with them, and so does a batch that is
 * left empty; the records close up, and every control and the fillers are
 * corrected. What is left is the file that ach_write makes of the pay table
 * without those rows: traces, batch numbers and all else stay as they were.
 *
 * Granted, the file stands in front of the n bytes, `length` is how many bytes
 * it has, and the bytes behind it are blanks (0x20), in the second way too. Its
 * rows stand in front of the `room` numbers at `rows`, whatever those held, and
 * the numbers behind them stay. No entries at all are granted and change nothing
 * of the file.
 *
 * Refused: the file's own, 25 if any of the numbers is no entry's, 27 if no
 * entry would be left, 23 if there is no room for the rows of the batches that
 * are left. The numbers at `entries` are only read; they may be null if count
 * is 0.
 *
 * It keeps a bit for each entry that a file can have on the stack.
 */
uint64_t ach_take_out(uint64_t way, uint8_t *file, size_t n,
                      const uint64_t *entries, size_t count, uint64_t *rows,
                      size_t room, uint64_t *length);

/*
 * The longest list of changes that ach_mend makes: of a million records, all of
 * them batches of one entry, with nothing right in any control.
 */
#define ACH_LONGEST_CHANGES 91999904

/*
 * Mends a file that is wrong in nothing but its controls and fillers: puts it,
 * with what the other records call for in their place, into the `room` bytes at
 * `mended`, and a list of what was changed into the `changes_room` bytes at
 * `changes`. The n bytes at `file` are only read.
 *
 * Replaced are fields 2 to 11 of each batch control, from the nearest batch
 * header before it and the records between (with no header before it, it
 * stays); fields 2 to 8 of the file control, which is the first record of type 9
 * right behind one of type 8, be it a filler; and the fillers, which is all that
 * stands behind that record. No other record is changed, and no line end but
 * those of the fillers, which are written afresh.
 *
 * Refused: 1 for the length of the file; what the mended file is refused for,
 * with its records and fields; 4 for the first record behind the file control
 * that was not 94 nines, also inside its block; 23 if either room is too short.
 * A file that is accepted is granted and stays as it is.
 *
 * Granted, the mended file stands in front of its room and the list in front of
 * its own, `length` and `changes_length` are how many bytes they have, and the
 * bytes behind them stay. The list has three sections, each after the number of
 * its rows in seven digits:
 *
 *   a row for each field of a batch control that differs, in the order of the
 *   file: record number (7 digits), field (2 digits), old text and new text,
 *   each as long as the field;
 *   such rows for the file control;
 *   a row if the number of fillers differs: the old number and the new one, a
 *   digit each, with '+' for more than nine old ones.
 *
 * No change is 21 zeros. A filler that had but a wrong line end is written
 * afresh and gives no row. n bytes, rounded up to whole blocks of 940 bytes in
 * the first way or 960 in the second, are always enough room for the mended
 * file, and n + 78 for the list. A pointer may be null if its length is 0.
 */
uint64_t ach_mend(uint64_t way, const uint8_t *file, size_t n, uint8_t *mended,
                  size_t room, uint64_t *length, uint8_t *changes,
                  size_t changes_room, uint64_t *changes_length);

/* Where the numbers of ach_runs_out's answer stand. */
#define ACH_ROWS_UP_TO    0 /* how many rows come up to the one found and with
                               it, or all of them */
#define ACH_ROW_RECORD    1 /* its record number; 0 if no row is found */
#define ACH_ROW_CREDIT    2 /* its credits so far; 0 if no row is found */
#define ACH_ANSWER_LENGTH 3

/*
 * Finds the first of the rows in the n numbers at `rows` whose credits so far
 * are more than `limit`, in cents. Answers 1 if there is one and 0 if there is
 * none, and fills `answer` either way. Of a file's own rows, and no more than
 * those, it is the first batch at whose end the credits exceed the limit.
 *
 * Any numbers may be lent, n of them, and not n rows: a lone number at the end
 * is no row. Nothing is refused. `rows` may be null if n is 0.
 */
uint64_t ach_runs_out(const uint64_t *rows, size_t n, uint64_t limit,
                      uint64_t answer[ACH_ANSWER_LENGTH]);

/*
 * Tells where the addendum of an entry stands: `length` (80) bytes from
 * `start` on in the file, counted from 0 and with the line ends of its way, or
 * 0 and 0 where the entry has none. Refused: the file's own, then 25.
 */
uint64_t ach_addendum(uint64_t way, const uint8_t *file, size_t n,
                      uint64_t entry, uint64_t *start, uint64_t *length);

/* The lengths of the two rows that a list is imported with. */
#define ACH_FILEROW_LENGTH  85 /* columns 4-34 and 41-94 of record 1 */
#define ACH_BATCHROW_LENGTH 95 /* columns 2-75 and 80-94 of record 5, and the
                                  number of entries in six digits */

/*
 * Makes the pay table of a client's list, the n bytes at `lines`, in the `room`
 * bytes at `table`. The list is comma lines in the grammar of RFC 4180, without
 * a header line: bytes 0x20 to 0x7E, in quotes also CR and LF, a quote inside
 * quotes doubled, CR LF between lines. CR LF at the very end starts no line, and
 * no bytes are no lines. A line has six fields:
 *
 *   1 code (2 columns)        4 amount: one or more digits, a point, two digits
 *   2 routing number (9)      5 identification (15)
 *   3 account (17)            6 name (22)
 *
 * The table has the row at `filerow`, the row at `batchrow` with its last six
 * bytes replaced by the number of lines, and an entry for each line: the fields
 * filled with blanks on the right (the amount as ten digits of cents), blank
 * discretionary data, no addendum, and traces from 1 on with the batch's bank.
 *
 * The first faulty line is refused: 29 with field 0, then field by field 30 for
 * field 4 and 32 for the others; lengths count after the quotes are taken off,
 * and nothing is trimmed. Then comes 24, for a row of the wrong length or more
 * than 999,999 lines, then the refusals of the file that would be formed, where
 * line k is record k + 2, and last 23. A zero-dollar remittance, which has an
 * addendum, cannot be imported (28).
 *
 * Granted, the table stands in front, `length` is how many bytes it has, and the
 * bytes behind it stay. It has 204 + 93 * lines bytes; a line that is granted has
 * at least 22 bytes, and CR LF before the next one, so that 204 + (n + 2) / 24 *
 * 93 bytes are always enough room. A pointer may be null if its length is 0.
 */
uint64_t ach_import(const uint8_t *filerow, size_t filerow_length,
                    const uint8_t *batchrow, size_t batchrow_length,
                    const uint8_t *lines, size_t n, uint8_t *table, size_t room,
                    uint64_t *length);

/*
 * Puts the entries of a pay table, of all its batches in order, as comma lines
 * into the `room` bytes at `lines`: each of the six fields in quotes, without the
 * blanks behind it, a quote in it doubled, the amount with no more zeros in front
 * than one before the point; CR LF ends each line, the last one too. Addenda,
 * discretionary data, traces and batches are left out. Refused: what ach_write
 * refuses the table for, then 23.
 *
 * Granted, the lines stand in front, `length` is how many bytes they have, and
 * the bytes behind them stay. A line has at most 132 bytes (every byte of
 * identification and name a quote), so that n / 93 * 132 bytes are always enough
 * room. Imported again, where that is granted, the lines give the six fields of
 * every entry back. A pointer may be null if its length is 0.
 */
uint64_t ach_export(const uint8_t *table, size_t n, uint8_t *lines, size_t room,
                    uint64_t *length);

#ifdef __cplusplus
}
#endif

#endif
