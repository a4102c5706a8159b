//! Where the money runs out: the same answers for any rows and any limit, and for a file's own rows
//! the answer from summing every entry, also behind alterations and recalls.

use crate::guard::{Guarded, PATTERN};
use crate::rows::Rows;
use crate::run::Run;
use crate::tally::{Outcome, Tally};
use crate::ways;
use ach::boundary::ach_runs_out;
use generate::funds::{limits, random_rows};
use generate::recalls::random_recall;
use generate::{big_file, is_credit, near_limit, plan, sample, Batch, BigFile, Plan, Random};
use independent::{RunsOut, Way};

const DEFAULT_CASES: u64 = 1_000_000;

pub fn compare(run: &Run, tally: &mut Tally) {
    let cases = run.cases.unwrap_or(DEFAULT_CASES);
    let mut random = Random::new(run.seed);
    few_rows(tally);
    every_length(tally);
    for code in [22, 27] {
        for batches in [1, 2, 3, 50] {
            of_plan(tally, &near_limit(code, 999_999_999_999, batches));
        }
    }
    of_plan(tally, &sample());
    most_batches(tally);
    while tally.cases() < cases {
        any_rows(tally, &mut random);
        let plan = any_plan(&mut random);
        of_plan(tally, &plan);
        in_use(tally, &mut random, plan);
    }
}

/// An answer as the boundary spells it.
pub fn spelled(answer: RunsOut) -> (u64, [u64; 3]) {
    let (record, credits) = answer.found.unwrap_or_default();
    (u64::from(answer.found.is_some()), [answer.rows as u64, record, credits])
}

/// Puts a question to both sides; the rows are only read, and nothing but the answer is written.
fn ask(tally: &mut Tally, about: &str, numbers: &[u64], limit: u64) -> (u64, [u64; 3]) {
    let mut rows = Rows::new(numbers);
    let mut answer = Guarded::new(&[PATTERN; 3], PATTERN);
    // SAFETY: the pointers are to as many numbers as the call is told, and to three, apart.
    let over = unsafe { ach_runs_out(rows.pointer(), numbers.len(), limit, answer.pointer()) };
    let given = answer.content().try_into().expect("three numbers were lent");
    let (expected_over, expected) = spelled(independent::runs_out(numbers, limit));
    let about = format!("{about}, {} numbers, limit {limit}", numbers.len());
    let untouched = Rows::new(numbers);
    let expected = Outcome::new(expected_over, expected, &[]).with_rows(&untouched);
    let input: Vec<u8> = numbers.iter().flat_map(|number| number.to_le_bytes()).collect();
    tally.compare(&about, &input, Outcome::new(over, given, &[]).with_rows(&rows), expected);
    tally.holds("only the answer is written to", &input, answer.is_whole());
    tally.holds("the first row over the limit", &input, first_over_limit(numbers, limit));
    (over, given)
}

/// Of any rows the library finds the first over the limit: it is over it, and none before it is; or
/// none is at all.
pub fn first_over_limit(numbers: &[u64], limit: u64) -> bool {
    let answer = ach::runs_out(numbers, limit);
    let rows: Vec<&[u64]> = numbers.chunks_exact(2).collect();
    let Some(up_to) = usize::try_from(answer.rows).ok().and_then(|count| rows.get(..count)) else {
        return false;
    };
    let within = |row: &&[u64]| row[1] <= limit;
    match (answer.found, up_to.split_last()) {
        (None, _) => up_to.len() == rows.len() && rows.iter().all(within),
        (Some(row), Some((last, before))) => {
            [row.record, row.credits] == **last && !within(last) && before.iter().all(within)
        }
        (Some(_), None) => false,
    }
}

/// No numbers, one, two and three, each of them at an edge, and each limit there.
fn few_rows(tally: &mut Tally) {
    const EDGES: [u64; 6] = [0, 1, 2, 1 << 63, u64::MAX - 1, u64::MAX];
    for limit in EDGES {
        ask(tally, "no row", &[], limit);
        for one in EDGES {
            ask(tally, "a lone number", &[one], limit);
            for other in EDGES {
                ask(tally, "a row", &[one, other], limit);
                for third in EDGES {
                    ask(tally, "a row and a lone number", &[one, other, third], limit);
                    ask(tally, "two rows", &[7, one, other, third], limit);
                }
            }
        }
    }
}

/// Rows that rise by one, as many as there are numbers, with the limit at each.
fn every_length(tally: &mut Tally) {
    let numbers: Vec<u64> = (0..64).collect();
    for length in 0..numbers.len() {
        for limit in 0..=64 {
            ask(tally, "a list cut", &numbers[..length], limit);
        }
    }
}

fn any_rows(tally: &mut Tally, random: &mut Random) {
    let numbers = random_rows(random);
    for _ in 0..4 {
        let limit = *random.pick(&limits(&numbers));
        ask(tally, "any rows", &numbers, limit);
    }
    let limit = random.draw();
    ask(tally, "any rows", &numbers, limit);
}

fn any_plan(random: &mut Random) -> Plan {
    let (most_batches, most_entries) = if random.one_in(20) { (60, 4) } else { (6, 3) };
    plan(random, most_batches, most_entries)
}

/// The rows that the check gives for a plan's file, in both ways, and the question at each of them.
fn of_plan(tally: &mut Tally, plan: &Plan) {
    for way in Way::BOTH {
        let file = ways::in_way(way, &plan.file());
        let rows = ach::rows_of(ways::of_library(way), &file);
        tally.holds("the rows of the plan", &file, rows == Ok(plan.rows()));
    }
    let (file, rows) = (plan.file(), plan.rows());
    for limit in limits(&rows) {
        as_summed(tally, plan, &file, &rows, limit);
    }
}

/// The answer is the first batch at whose end the credits of all entries up to there exceed the limit.
fn as_summed(tally: &mut Tally, plan: &Plan, file: &[u8], rows: &[u64], limit: u64) {
    let (over, [count, ..]) = ask(tally, "a file's rows", rows, limit);
    let mut credits = 0;
    let exceeds = |batch: &Batch| {
        let of_credits = batch.entries.iter().filter(|entry| is_credit(entry.code));
        credits += of_credits.map(|entry| entry.amount).sum::<u64>();
        credits > limit
    };
    let due = match plan.batches.iter().position(exceeds) {
        Some(before) => (1, before as u64 + 1),
        None => (0, plan.batches.len() as u64),
    };
    tally.holds("the answer from summing every entry", file, (over, count) == due);
}

/// Rows that are carried along: a few alterations, then a recall, and the question of what they have
/// become.
fn in_use(tally: &mut Tally, random: &mut Random, mut plan: Plan) {
    let way = *random.pick(&Way::BOTH);
    let (mut file, of_library) = (ways::in_way(way, &plan.file()), ways::of_library(way));
    let Ok(mut rows) = ach::rows_of(of_library, &file) else {
        return tally.holds("a plan's file is in order", &file, false);
    };
    for _ in 0..random.below(5) {
        let entry = random.between(1, plan.entry_count() as u64);
        let amount = random.between(0, 500_000);
        if ach::alter(of_library, &mut file, &mut rows, entry, amount).is_ok() {
            let mut entries = plan.batches.iter_mut().flat_map(|batch| &mut batch.entries);
            entries.nth(entry as usize - 1).expect("it was altered").amount = amount;
        }
        tally.holds("the rows behind an alteration", &file, rows == plan.rows());
    }
    let list = random_recall(random, &plan);
    if ach::take_out(of_library, &mut file, &list, &mut rows).is_ok() {
        plan = plan.without(&list);
        rows.truncate(2 * plan.batches.len());
    }
    tally.holds("the rows behind a recall", &file, rows == plan.rows());
    let limit = *random.pick(&limits(&rows));
    as_summed(tally, &plan, &file, &rows, limit);
}

/// A million records in batches of one entry: their rows, with the limit near the front, in the
/// middle, at the end and beyond.
fn most_batches(tally: &mut Tally) {
    let shape = BigFile { records: 1_000_000, entries_in_batch: 1, addendum_every: 0 };
    let file = big_file(&shape);
    let rows = independent::rows_of(Way::Plain, &file).unwrap_or_default();
    let given = ach::rows_of(ach::Way::Plain, &file);
    tally.holds("the rows of most batches", b"", given.as_ref() == Ok(&rows));
    for place in [1, 3, rows.len() / 4 * 2 + 1, rows.len() - 3, rows.len() - 1] {
        for limit in [rows[place].saturating_sub(1), rows[place]] {
            ask(tally, "most batches", &rows, limit);
        }
    }
}
