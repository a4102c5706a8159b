//! How long a pay table and its rows are.

/// How many bytes the file row has: columns 4-34 and 41-94 of record 1.
pub const FILE_ROW: usize = 85;

/// How many bytes the batch row has: columns 2-75 and 80-94 of record 5, then the batch's number
/// of entries in six digits, which an import fills in.
pub const BATCH_ROW: usize = 95;

/// How many bytes an entry's row has: columns 2-94 of record 6.
pub(crate) const ENTRY_ROW: usize = 93;

/// A pay table's four counts and its header row.
pub(crate) const EMPTY_TABLE: usize = 4 * 6 + FILE_ROW;

/// No pay table of right shape is longer: 999,999 rows, in each of three sections, and the header.
pub const LONGEST_TABLE: usize = EMPTY_TABLE + (BATCH_ROW + ENTRY_ROW + 80) * 999_999;
