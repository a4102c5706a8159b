//! The two ways of a file, as the boundary and the two sides spell them.

use generate::lines::{lined, LINED_RECORD};
use generate::RECORD;
use independent::Way;

/// Some numbers that stand for the second way at the boundary, as all but 0 do.
pub const SECOND: [u64; 8] = [1, 2, 94, 256, 1 << 16, 1 << 32, 1 << 63, u64::MAX];

/// The number of a way at the boundary; those of the second way take turns.
pub fn number(way: Way, turn: u64) -> u64 {
    match way {
        Way::Plain => 0,
        Way::Lined => SECOND[(turn % SECOND.len() as u64) as usize],
    }
}

pub fn of_library(way: Way) -> ach::Way {
    match way {
        Way::Plain => ach::Way::Plain,
        Way::Lined => ach::Way::Lined,
    }
}

/// A file without line ends, brought into the way.
pub fn in_way(way: Way, file: &[u8]) -> Vec<u8> {
    match way {
        Way::Plain => file.to_vec(),
        Way::Lined => lined(file),
    }
}

/// Where a byte of a record stands when line ends are put in before it.
pub fn moved(start: u64) -> u64 {
    let (old, new) = (RECORD as u64, LINED_RECORD as u64);
    start / old * new + start % old
}
