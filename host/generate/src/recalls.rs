//! Lists of entries to be taken out of a file: such that are granted, and such that are not.

use crate::plan::Plan;
use crate::random::Random;

/// Numbers that no entry of a file has, whatever the file.
pub const NO_ENTRIES: [u64; 8] =
    [0, 1_000_000, u32::MAX as u64, 1 << 32, 1 << 32 | 1, i64::MAX as u64, 1 << 63, u64::MAX];

/// A random list for the file of a plan: mostly one that leaves an entry, in any order and with
/// repeats; also none, all of the entries, and numbers that are no entry's.
pub fn random_recall(random: &mut Random, plan: &Plan) -> Vec<u64> {
    let entries = plan.entry_count() as u64;
    let mut list = match random.below(10) {
        0 => Vec::new(),
        1 => vec![random.between(1, entries)],
        2 => (1..=entries).collect(),
        3 => (1..=entries).filter(|_| !random.one_in(4)).collect(),
        4 => all_but_one(random, entries),
        5 | 6 => whole_batches(random, plan),
        _ => (1..=entries).filter(|_| random.one_in(3)).collect(),
    };
    if random.one_in(3) {
        with_repeats(random, &mut list);
    }
    if random.one_in(2) {
        shuffle(random, &mut list);
    }
    if random.one_in(8) {
        let bad = if random.one_in(2) { entries + 1 } else { *random.pick(&NO_ENTRIES) };
        list.insert(random.below(list.len() + 1), bad);
    }
    list
}

fn all_but_one(random: &mut Random, entries: u64) -> Vec<u64> {
    let kept = random.between(1, entries);
    (1..=entries).filter(|entry| *entry != kept).collect()
}

/// The entries of some batches, and sometimes all but one of another.
fn whole_batches(random: &mut Random, plan: &Plan) -> Vec<u64> {
    let mut list = Vec::new();
    let mut before = 0;
    for batch in &plan.batches {
        let last = before + batch.entries.len() as u64;
        match random.below(4) {
            0 | 1 => list.extend(before + 1..=last),
            2 => list.extend(before + 2..=last),
            _ => (),
        }
        before = last;
    }
    list
}

/// Numbers of the list once more, behind it: a few, or so many that there are more of them than the
/// file has records or even bytes.
fn with_repeats(random: &mut Random, list: &mut Vec<u64>) {
    let times = match random.below(40) {
        0 => 5_000,
        1..=4 => 200,
        _ => 1 + random.below(4),
    };
    for _ in 0..times.min(times * list.len()) {
        list.push(*random.pick(list));
    }
}

fn shuffle(random: &mut Random, list: &mut [u64]) {
    for last in (1..list.len()).rev() {
        list.swap(last, random.below(last + 1));
    }
}
