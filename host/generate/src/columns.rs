//! Where the fields stand, for those who damage them.

use std::ops::Range;

/// How many columns a record has; without line ends, so many bytes as well.
pub const RECORD: usize = 94;

/// The last column of every field, by record type; each field begins where the one before ends.
const LAST_COLUMNS: [(u8, &[usize]); 6] = [
    (b'1', &[1, 3, 13, 23, 29, 33, 34, 37, 39, 40, 63, 86, 94]),
    (b'5', &[1, 4, 20, 40, 50, 53, 63, 69, 75, 78, 79, 87, 94]),
    (b'6', &[1, 3, 11, 12, 29, 39, 54, 76, 78, 79, 94]),
    (b'7', &[1, 3, 83, 87, 94]),
    (b'8', &[1, 4, 10, 20, 32, 44, 54, 73, 79, 87, 94]),
    (b'9', &[1, 7, 13, 21, 31, 43, 55, 94]),
];

fn last_columns(record_type: u8) -> &'static [usize] {
    LAST_COLUMNS.iter().find(|(known, _)| *known == record_type).map_or(&[], |(_, columns)| columns)
}

/// How many fields a record of this type has; 0 for a type that is none.
pub fn field_count(record_type: u8) -> u8 {
    last_columns(record_type).len() as u8
}

/// The offsets, in a record of this type, of the bytes of a field, which is counted from 1.
pub fn field_range(record_type: u8, field: u8) -> Range<usize> {
    let columns = last_columns(record_type);
    let index = usize::from(field) - 1;
    let start = if index == 0 { 0 } else { columns[index - 1] };
    start..columns[index]
}

/// The offsets, in the whole file, of the bytes of a record, which is counted from 1.
pub fn record_range(record: usize) -> Range<usize> {
    (record - 1) * RECORD..record * RECORD
}

/// The offsets, in the whole file, of the bytes of a field of a record.
pub fn place(file: &[u8], record: usize, field: u8) -> Range<usize> {
    let start = record_range(record).start;
    let within = field_range(file[start], field);
    start + within.start..start + within.end
}

/// The number that the bytes of a field spell, if they are digits.
pub(crate) fn number(bytes: &[u8]) -> Option<u64> {
    let digits = bytes.iter().all(u8::is_ascii_digit);
    let text = std::str::from_utf8(bytes).ok()?;
    digits.then(|| text.parse().ok()).flatten()
}
