//! Copies of a file with one thing changed, be it allowed or not.

use crate::columns::{place, record_range};

/// A copy with one field replaced. Record and field count from 1; the text fills the field.
pub fn with_field(file: &[u8], record: usize, field: u8, text: impl AsRef<[u8]>) -> Vec<u8> {
    let mut changed = file.to_vec();
    changed[place(file, record, field)].copy_from_slice(text.as_ref());
    changed
}

/// A copy with one column of a record replaced, both counted from 1.
pub fn with_column(file: &[u8], record: usize, column: usize, byte: u8) -> Vec<u8> {
    let mut changed = file.to_vec();
    changed[record_range(record).start + column - 1] = byte;
    changed
}

pub fn without_record(file: &[u8], record: usize) -> Vec<u8> {
    let mut changed = file.to_vec();
    changed.drain(record_range(record));
    changed
}

pub fn with_record_doubled(file: &[u8], record: usize) -> Vec<u8> {
    let copy = file[record_range(record)].to_vec();
    with_record_inserted(file, record, &copy)
}

/// A copy with a record put in before the given one.
pub fn with_record_inserted(file: &[u8], before: usize, record: &[u8]) -> Vec<u8> {
    let start = record_range(before).start;
    let mut changed = file.to_vec();
    changed.splice(start..start, record.iter().copied());
    changed
}

pub fn with_records_swapped(file: &[u8], one: usize, other: usize) -> Vec<u8> {
    let mut changed = file.to_vec();
    changed[record_range(one)].copy_from_slice(&file[record_range(other)]);
    changed[record_range(other)].copy_from_slice(&file[record_range(one)]);
    changed
}

/// A copy in which the entry in this record has another trace, and its addendum repeats it.
pub fn with_trace(file: &[u8], record: usize, trace: u32) -> Vec<u8> {
    let digits = format!("{trace:07}");
    let bank = &file[place(file, record, 11)][..8];
    let changed = with_field(file, record, 11, [bank, digits.as_bytes()].concat());
    match file.get(record_range(record + 1)) {
        Some([b'7', ..]) => with_field(&changed, record + 1, 5, digits),
        _ => changed,
    }
}
