//! Files with CR LF behind every record, and damage to their line ends.

use crate::columns::RECORD;
use crate::random::Random;
use std::ops::Range;

/// A record with its line end.
pub const LINED_RECORD: usize = RECORD + 2;

pub const LINE_END: &[u8; 2] = b"\r\n";

/// What may stand in the place of a line end and is none, in its length.
pub const WRONG_ENDS: [&[u8; 2]; 14] = [
    b"\n\r", b"\r\r", b"\n\n", b"\r ", b" \n", b"  ", b"99", b"\r\x0B", b"\x0C\n", b"\0\0",
    b"\r\0", b"\0\n", b"\x8D\n", b"\r\x8A",
];

/// What may stand there and moves all that comes behind: too little or too much.
pub const SHIFTED_ENDS: [&[u8]; 8] =
    [b"", b"\r", b"\n", b"\r\r\n", b"\r\n\n", b"\r\n\r\n", b" \r\n", b"\r\n "];

/// The same records with CR LF behind each; what is no whole record stays at the end as it is.
pub fn lined(file: &[u8]) -> Vec<u8> {
    let records = file.chunks_exact(RECORD);
    let rest = records.remainder();
    let mut with_ends = Vec::with_capacity(file.len() / RECORD * LINED_RECORD + rest.len());
    for record in records {
        with_ends.extend_from_slice(record);
        with_ends.extend_from_slice(LINE_END);
    }
    with_ends.extend_from_slice(rest);
    with_ends
}

/// The offsets, in a file with line ends, of the end of a record, which is counted from 1.
pub fn end_range(record: usize) -> Range<usize> {
    record * LINED_RECORD - LINE_END.len()..record * LINED_RECORD
}

/// A copy of a file with line ends in which that of one record is replaced.
pub fn with_end(file: &[u8], record: usize, end: &[u8]) -> Vec<u8> {
    let mut changed = file.to_vec();
    changed.splice(end_range(record), end.iter().copied());
    changed
}

/// Does one random thing to the line ends of a file that has them.
pub fn random_end_damage(random: &mut Random, file: &[u8]) -> Vec<u8> {
    let records = file.len() / LINED_RECORD;
    if records == 0 {
        return file.to_vec();
    }
    let record = 1 + random.below(records);
    match random.below(4) {
        0 => with_end(file, record, SHIFTED_ENDS[random.below(SHIFTED_ENDS.len())]),
        1 => {
            let mut changed = file.to_vec();
            changed[end_range(record).start + random.below(2)] = random.byte();
            changed
        }
        _ => with_end(file, record, *random.pick(&WRONG_ENDS)),
    }
}
