//! What several tests need: refusals as three numbers, files, and the questions that rows go with.
#![allow(dead_code)]

use generate::lines::lined;
use generate::{sample, Batch, Entry, Plan};
use independent::{check, rows_of, Refusal, Way};
use std::fmt::Debug;

/// The number of a refusal, its record and its field.
pub type Parts = (u8, u64, u8);

pub fn parts(refusal: Refusal) -> Parts {
    (refusal.number, refusal.record, refusal.field)
}

#[track_caller]
pub fn refused<T: Debug>(answer: Result<T, Refusal>) -> Parts {
    parts(answer.expect_err("a refusal is due"))
}

/// What the check says of a file without line ends.
pub fn verdict(file: &[u8]) -> Result<(), Parts> {
    check(Way::Plain, file).map(|_| ()).map_err(parts)
}

/// A file without line ends, in the way asked for.
pub fn in_way(way: Way, file: &[u8]) -> Vec<u8> {
    match way {
        Way::Plain => file.to_vec(),
        Way::Lined => lined(file),
    }
}

/// Batches of so many entries, traces from 1, every third entry with an addendum.
pub fn with_batches(counts: &[u32]) -> Plan {
    let mut plan = sample();
    let [first, with_addendum] = [0, 1].map(|index| plan.batches[0].entries[index].clone());
    let model = plan.batches.remove(0);
    for (count, number) in counts.iter().zip(1..) {
        let entries = (1..=*count).map(|trace| {
            let model = if trace % 3 == 0 { &with_addendum } else { &first };
            Entry { trace, amount: u64::from(1_000 * number + trace), ..model.clone() }
        });
        plan.batches.push(Batch { number, entries: entries.collect(), ..model.clone() });
    }
    plan
}

/// What lent bytes hold where nothing was put.
pub const BEFORE: u8 = 0xA5;

/// Fills a room of this size: either the result and nothing behind it is put there, or nothing at
/// all.
#[track_caller]
pub fn check_room(
    room: usize,
    expected: &[u8],
    fill: impl FnOnce(&mut [u8]) -> Result<usize, Refusal>,
) {
    let mut lent = vec![BEFORE; room];
    let answer = fill(&mut lent);
    let written = if room < expected.len() {
        assert_eq!(refused(answer), (23, 0, 0));
        0
    } else {
        assert_eq!(answer, Ok(expected.len()));
        expected.len()
    };
    assert_eq!(lent[..written], expected[..written]);
    assert!(lent[written..].iter().all(|&byte| byte == BEFORE));
}

/// Puts the question with the file's own rows: what becomes of them has to be the rows of what
/// becomes of the file.
#[track_caller]
pub fn alter(way: Way, file: &mut [u8], entry: u64, amount: u64) -> Result<i64, Refusal> {
    let mut rows = rows_of(way, file).unwrap_or_default();
    let altered = independent::alter(way, file, &mut rows, entry, amount);
    assert_eq!(rows_of(way, file).unwrap_or_default(), rows);
    altered
}

/// As for `alter`; behind the rows of what is left, the lent ones stay.
#[track_caller]
pub fn take_out(way: Way, file: &mut [u8], entries: &[u64]) -> Result<usize, Refusal> {
    let own = rows_of(way, file).unwrap_or_default();
    let mut rows = own.clone();
    let taken = independent::take_out(way, file, entries, &mut rows);
    let rest = rows_of(way, &file[..taken.unwrap_or(file.len())]).unwrap_or_default();
    assert_eq!(rows, [&rest, &own[rest.len()..]].concat());
    taken
}
