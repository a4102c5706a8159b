//! The C boundary as it is, for the safe functions of this crate and for tests of the boundary.
//!
//! Every function but `ach_runs_out` answers 0 if it grants, else number + 256 * field + 65536 *
//! record. A refusal leaves all lent memory untouched. The way of the file is 0 for records back to back; any other
//! number means CR LF behind every record. A list and a table have no way. Where a line of a list
//! is refused (29, 30, 32), its number stands for the record. Rows are two numbers for each batch:
//! the record number of its control, and the credits so far.
//!
//! # Safety
//! A pointer is to as many bytes or numbers as the length behind it says, or to as many numbers as
//! the function writes; a null pointer will do for none. What is lent to one call is apart.

extern "C" {
    /// Checks the `n` bytes at `file`. Granted, it fills 29 numbers: batches, entries, addenda,
    /// debit and credit cents, then count and cents for each of the twelve codes; and the file's rows
    /// go to the front of the `room` numbers at `rows`.
    pub fn ach_check(
        way: u64,
        file: *const u8,
        n: usize,
        acceptance: *mut u64,
        rows: *mut u64,
        room: usize,
    ) -> u64;

    /// Writes the pay table of a file to `table`, and its length to `length`.
    pub fn ach_read(
        way: u64,
        file: *const u8,
        n: usize,
        table: *mut u8,
        room: usize,
        length: *mut u64,
    ) -> u64;

    /// Writes the file of a pay table to `file`, and its length to `length`.
    pub fn ach_write(
        way: u64,
        table: *const u8,
        n: usize,
        file: *mut u8,
        room: usize,
        length: *mut u64,
    ) -> u64;

    /// Gives an entry a new amount; the new less the old goes to `difference`. The `room` numbers at
    /// `rows` have to begin with the file's rows, and are brought along.
    pub fn ach_alter(
        way: u64,
        file: *mut u8,
        n: usize,
        rows: *mut u64,
        room: usize,
        entry: u64,
        amount: u64,
        difference: *mut i64,
    ) -> u64;

    /// Tells where the text of an entry's addendum starts in the file, counted in the bytes of its
    /// way, and its length.
    pub fn ach_addendum(
        way: u64,
        file: *const u8,
        n: usize,
        entry: u64,
        start: *mut u64,
        length: *mut u64,
    ) -> u64;

    /// Takes the `count` entries out whose numbers stand at `entries`; the new length goes to
    /// `length`, and the bytes of the file from there on become blanks. The rows of what is left go
    /// to the front of the `room` numbers at `rows`.
    pub fn ach_take_out(
        way: u64,
        file: *mut u8,
        n: usize,
        entries: *const u64,
        count: usize,
        rows: *mut u64,
        room: usize,
        length: *mut u64,
    ) -> u64;

    /// Writes the file with its controls and fillers as the other records call for to `mended`, and
    /// the list of what was changed to `changes`; their lengths go to `length` and
    /// `changes_length`.
    pub fn ach_mend(
        way: u64,
        file: *const u8,
        n: usize,
        mended: *mut u8,
        room: usize,
        length: *mut u64,
        changes: *mut u8,
        changes_room: usize,
        changes_length: *mut u64,
    ) -> u64;

    /// Whether a row in the `n` numbers at `rows` is over the limit, 1 or 0. The three numbers at
    /// `answer` are how many rows come up to the first one and with it, or all of them; its record
    /// number; and its credits.
    pub fn ach_runs_out(rows: *const u64, n: usize, limit: u64, answer: *mut u64) -> u64;

    /// Writes the pay table of a client's list to `table`, and its length to `length`.
    pub fn ach_import(
        filerow: *const u8,
        filerow_length: usize,
        batchrow: *const u8,
        batchrow_length: usize,
        lines: *const u8,
        n: usize,
        table: *mut u8,
        room: usize,
        length: *mut u64,
    ) -> u64;

    /// Writes the entries of a pay table as lines to `lines`, and their length to `length`.
    pub fn ach_export(
        table: *const u8,
        n: usize,
        lines: *mut u8,
        room: usize,
        length: *mut u64,
    ) -> u64;
}
