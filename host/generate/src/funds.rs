//! Lists of rows, two numbers each: such that are no file's, and limits to be asked of them.

use crate::random::Random;

/// Numbers at which arithmetic or a comparison could go wrong.
const EDGES: [u64; 8] =
    [0, 1, 999_999_999_999, u32::MAX as u64, 1 << 32, i64::MAX as u64, 1 << 63, u64::MAX];

/// Lists that are not this one, which is not empty, nor begin with it: a number off, too short by a
/// number or more, rows moved, and such with numbers behind what is wrong.
pub fn other_lists(rows: &[u64]) -> Vec<Vec<u64>> {
    let mut others: Vec<Vec<u64>> = (0..rows.len())
        .flat_map(|place| {
            let number = rows[place];
            let wrong = [number.wrapping_add(1), number.wrapping_sub(1), !number, number ^ 1 << 32];
            wrong.map(|wrong| with_number(rows, place, wrong))
        })
        .collect();
    let last = rows.len() - 1;
    others.extend([vec![], rows[..1].to_vec(), rows[..last].to_vec(), rows[..last - 1].to_vec()]);
    others.push(rows[1..].to_vec());
    others.push([&[0], rows].concat());
    others.push([&[0, 0], rows].concat());
    others.push([&rows[..last], &[u64::MAX; 3]].concat());
    others.push(rows.chunks(2).flat_map(|row| [row[1], row[0]]).collect());
    others.push(rows.chunks(2).rev().flatten().copied().collect());
    others.retain(|other| !other.starts_with(rows));
    others
}

fn with_number(rows: &[u64], place: usize, number: u64) -> Vec<u64> {
    let mut changed = rows.to_vec();
    changed[place] = number;
    changed
}

/// A list that need not be any file's: credits that rise, fall or repeat, numbers of any size, and
/// in half of the cases a lone number at the end.
pub fn random_rows(random: &mut Random) -> Vec<u64> {
    let length = if random.one_in(50) { random.below(2_000) } else { random.below(24) };
    let step = *random.pick(&[1, 2, 1_000, 1 << 40]);
    let rises = random.one_in(2);
    let mut credits = 0_u64;
    (0..length)
        .map(|_| match random.below(12) {
            0 => *random.pick(&EDGES),
            1 => random.draw(),
            _ if rises => {
                credits = credits.saturating_add(random.below(step + 1) as u64);
                credits
            }
            _ => random.below(4 * step) as u64,
        })
        .collect()
}

/// Limits that any list could be asked about: edges, and those around each of its numbers.
pub fn limits(rows: &[u64]) -> Vec<u64> {
    let around = |number: &u64| [number.saturating_sub(1), *number, number.saturating_add(1)];
    EDGES.into_iter().chain(rows.iter().flat_map(around)).collect()
}
