//! A record as so many columns, and how many records make a block and a file.

pub const RECORD_LENGTH: usize = 94;
pub type Record = [u8; RECORD_LENGTH];

pub const FILLER: Record = [b'9'; RECORD_LENGTH];
pub const RECORDS_IN_BLOCK: usize = 10;
pub const MOST_RECORDS: usize = 1_000_000;
